#!/usr/bin/env python3
"""Times Python's bson with its C extension on a file of documents, one behind another, and prints MB a second.

Each document is decoded, or encoded, by itself, and let go before the next. The collector of cycles is off: no document
has one. A first round is not timed.
"""
import gc
import sys
import time

import bson


def documents(data):
    """The bytes of each document."""
    parts, at = [], 0
    while at < len(data):
        length = int.from_bytes(data[at : at + 4], "little")
        parts.append(data[at : at + length])
        at += length
    return parts


def report(name, one, items, size, rounds):
    for item in items:
        one(item)
    start = time.perf_counter()
    for _ in range(rounds):
        for item in items:
            one(item)
    print("%s %.0f MB/s" % (name, size * rounds / (time.perf_counter() - start) / 1e6))


def main():
    if not bson.has_c():
        sys.exit("no C extension")
    with open(sys.argv[1], "rb") as file:
        data = file.read()
    rounds = int(sys.argv[2])
    gc.disable()
    parts = documents(data)
    report("decode", bson.decode, parts, len(data), rounds)
    trees = [bson.decode(part) for part in parts]
    report("encode", bson.encode, trees, len(data), rounds)


main()
