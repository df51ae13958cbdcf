#!/usr/bin/env python3
"""Megabytes a second for reading a script alone, beside Python's json on the same file.

The script has inserts and an empty order, so the program reads it, takes it apart and runs nothing. The time of a tiny
script is taken off. Build the program first (README.md); its path may be given as the one argument.
"""
import json
import os
import random
import subprocess
import sys
import tempfile
import time

HERE = os.path.dirname(os.path.abspath(__file__))
PROGRAM = os.path.join(HERE, "..", "crates", "jobs", "out", "jobs")
BYTES = 16_000_000
ROUNDS = 5


def document(number, chance):
    """A document of the kinds of values that a script can have."""
    return {
        "_id": number,
        "at": {"$date": 1_700_000_000_000 + number},
        "bytes": {"$bytes": "%032x" % chance.getrandbits(128)},
        "list": [chance.randrange(1000) for _ in range(8)],
        "name": "document %d" % number,
        "nested": {"flag": bool(number % 2), "none": None, "wide": 5_000_000_000 + number},
    }


def script(size):
    """A script of about so many bytes."""
    chance = random.Random(1)
    jobs, length, number = [], 0, 0
    while length < size:
        docs = [document(number + k, chance) for k in range(100)]
        number += 100
        jobs.append({"docs": docs, "job": "insert", "ns": "app.c"})
        length += len(json.dumps(jobs[-1], separators=(",", ":"))) + 1
    return json.dumps({"jobs": jobs[:-1], "order": []}, separators=(",", ":"))


def best(call):
    """The shortest of some rounds, in seconds."""
    times = []
    for _ in range(ROUNDS):
        begin = time.perf_counter()
        call()
        times.append(time.perf_counter() - begin)
    return min(times)


def run(program, path):
    with open(path, "rb") as source:
        done = subprocess.run([program, "run"], stdin=source, stdout=subprocess.DEVNULL)
    if done.returncode != 0:
        sys.exit("the program ended with status %d" % done.returncode)


def load(path):
    with open(path, "rb") as source:
        json.loads(source.read())


def main():
    program = sys.argv[1] if len(sys.argv) > 1 else PROGRAM
    with tempfile.TemporaryDirectory() as folder:
        large, tiny = os.path.join(folder, "large.json"), os.path.join(folder, "tiny.json")
        with open(large, "w") as out:
            out.write(script(BYTES))
        with open(tiny, "w") as out:
            out.write('{"jobs":[],"order":[]}')
        size = os.path.getsize(large) / 1e6
        rest = best(lambda: run(program, tiny))
        ours = best(lambda: run(program, large)) - rest
        theirs = best(lambda: load(large))
    print("script             %8.1f MB" % size)
    print("jobs, reading      %8.1f MB/s" % (size / ours))
    print("python json        %8.1f MB/s" % (size / theirs))


if __name__ == "__main__":
    main()
