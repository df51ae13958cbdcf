#!/usr/bin/env python3
"""Runs the built program at each limit of a script and one past it, and prints status, first line, time and memory.

A status other than the expected one ends it. The last line is the longest run that a script can ask for: as many turns as an
order may have, each of which sends a getMore. Build the program first (README.md); its path may be given as the one argument.
"""
import json
import os
import subprocess
import sys
import tempfile
import time

HERE = os.path.dirname(os.path.abspath(__file__))
PROGRAM = os.path.join(HERE, "..", "crates", "jobs", "out", "jobs")
BYTES = 16_777_216
JOBS = 65_536
MANY = 1_048_576
OPEN = 127
INSERT = '{"docs":[{"x":1}],"job":"insert","ns":"app.c"}'
FOLLOW = '{"calls":%d,"job":"follow","on":"app.c"}'


def script(jobs, order="", fates=None):
    more = "" if fates is None else ',"fates":[%s]' % fates
    return '{"jobs":[%s],"order":[%s]%s}' % (jobs, order, more)


def many(text, count):
    return ",".join([text] * count)


def padded(size):
    text = script("")
    return text + " " * (size - len(text))


def nested(levels):
    """Six brackets are open around the innermost array."""
    return script('{"docs":[{"a":%s}],"job":"insert","ns":"app.c"}' % ("[" * (levels - 5) + "]" * (levels - 5)))


def refused_with(labels):
    return script(INSERT, "0", '{"kind":"refuse","labels":[%s]}' % many('""', labels))


CASES = [
    ("script bytes", BYTES, padded, 7, "script too long"),
    ("jobs", JOBS, lambda n: script(many(INSERT, n)), 3, "bad script: top"),
    ("entries of order", MANY, lambda n: script(INSERT, many("0", n)), 3, "bad script: top"),
    ("calls", MANY, lambda n: script(FOLLOW % n, "0,0"), 3, "bad script: job 0"),
    ("fates", MANY, lambda n: script(INSERT, "0", many("{}", n)), 3, "bad script: top"),
    ("labels of a fate", MANY, refused_with, 3, "bad script: fate 0"),
    ("open brackets", OPEN, nested, 3, "bad script: not json"),
]


def run(program, text):
    """The status, the first line, the seconds, and the memory in MB."""
    with tempfile.TemporaryFile() as source, tempfile.TemporaryFile() as sink:
        source.write(text.encode())
        source.seek(0)
        begin = time.perf_counter()
        child = subprocess.Popen([program, "run"], stdin=source, stdout=sink)
        _, status, usage = os.wait4(child.pid, 0)
        seconds = time.perf_counter() - begin
        sink.seek(0)
        first = sink.readline().decode().rstrip("\n")
    return os.waitstatus_to_exitcode(status), first, seconds, usage.ru_maxrss / 1024


def show(name, count, result, status, line=None):
    print("%-18s %11d  status %d  %-28s %8.2f s %8.0f MB" % (name, count, result[0], result[1][:28], result[2], result[3]))
    if result[0] != status or (line is not None and result[1] != line):
        sys.exit("expected status %d%s" % (status, "" if line is None else " and " + json.dumps(line)))


def main():
    program = sys.argv[1] if len(sys.argv) > 1 else PROGRAM
    for name, limit, text, status, line in CASES:
        show(name, limit, run(program, text(limit)), 0)
        show(name, limit + 1, run(program, text(limit + 1)), status, line)
    show("getMores", MANY - 2, run(program, script(FOLLOW % (MANY - 1), many("0", MANY))), 0)


main()
