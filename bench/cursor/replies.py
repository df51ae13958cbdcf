#!/usr/bin/env python3
"""replies.py FOLDER: writes of each kind the reply to a getMore with a batch of 10 MB, NAME.reply, and the documents of the batch
one behind another, NAME.bson.

small has documents of two fields, middle ones of a few hundred bytes, and large ones of 100 kB. The files are the same in each run.
"""
import os
import random
import struct
import sys

BYTES = 10_000_000


def int32(number):
    return struct.pack("<i", number)


def framed(body):
    return int32(len(body) + 5) + body + b"\0"


def element(kind, name, data):
    return bytes([kind]) + name.encode() + b"\0" + data


def text(source, length):
    letters = "".join(source.choice("abcdefghijklmnopqrstuvwxyz ") for _ in range(length)).encode()
    return int32(len(letters) + 1) + letters + b"\0"


def small(source, number):
    return framed(element(16, "_id", int32(number)) + element(16, "n", int32(source.randint(0, 1000))))


def middle(source, number):
    body = element(16, "_id", int32(number)) + element(8, "flag", bytes([number % 2]))
    for k in range(8):
        body += element(2, "name%d" % k, text(source, 24))
    return framed(body)


def large(source, number):
    return framed(element(16, "_id", int32(number)) + element(5, "data", int32(100_000) + b"\0" + source.randbytes(100_000)))


def write(folder, name, make):
    source = random.Random(1)
    documents, length = [], 0
    while length < BYTES:
        documents.append(make(source, len(documents)))
        length += len(documents[-1]) + len(str(len(documents))) + 2
    items = b"".join(element(3, str(k), it) for k, it in enumerate(documents))
    cursor = element(18, "id", struct.pack("<q", 1)) + element(2, "ns", int32(6) + b"app.c\0") + element(4, "nextBatch", framed(items))
    reply = framed(element(1, "ok", struct.pack("<d", 1.0)) + element(3, "cursor", framed(cursor)))
    with open(os.path.join(folder, name + ".reply"), "wb") as out:
        out.write(reply)
    with open(os.path.join(folder, name + ".bson"), "wb") as out:
        out.write(b"".join(documents))


def main():
    folder = sys.argv[1]
    os.makedirs(folder, exist_ok=True)
    for name, make in [("small", small), ("middle", middle), ("large", large)]:
        write(folder, name, make)


main()
