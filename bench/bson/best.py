#!/usr/bin/env python3
"""best.py WORD..: runs the command six times, and prints of each line `NAME NUMBER MB/s` the best of the last five runs."""
import subprocess
import sys

RUNS = 5


def speeds(words):
    """The number of each name."""
    done = subprocess.run(words, capture_output=True, text=True)
    if done.returncode != 0:
        sys.exit("%s ended with status %d\n%s" % (words[0], done.returncode, done.stderr))
    lines = [line.split() for line in done.stdout.splitlines()]
    return {line[0]: int(line[1]) for line in lines}


def main():
    words = sys.argv[1:]
    best = dict.fromkeys(speeds(words), 0)
    for _ in range(RUNS):
        for name, speed in speeds(words).items():
            best[name] = max(best[name], speed)
    for name, speed in best.items():
        print("%s %d MB/s" % (name, speed))


main()
