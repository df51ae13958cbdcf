#!/usr/bin/env python3
"""peer.py WORD BYTES ROUNDS: times Python's bson with its C extension on the chunks of a file of so many bytes, and prints MB of
the file a second.

encode encodes the documents of its chunks, each by itself; decode decodes the replies to its find, which hold as many chunks as 16 MB
have room for. What was made is let go before the next. The collector of cycles is off. A first round is not timed.
"""
import gc
import sys
import time

import bson

CHUNK = 261_120
BATCH = 16_777_216


def chunks(size):
    """The documents of the chunks."""
    data = bytes([7]) * size
    parts = [data[at : at + CHUNK] for at in range(0, size, CHUNK)]
    return [{"_id": bson.ObjectId(), "files_id": 7, "n": n, "data": part} for n, part in enumerate(parts)]


def reply(name, documents):
    cursor = {name: documents, "id": bson.Int64(1), "ns": "db.fs.chunks"}
    return bson.encode({"cursor": cursor, "ok": 1})


def replies(documents):
    """The batches of the find, the last one with what is left."""
    made, batch, length = [], [], 0
    for document in documents:
        more = len(bson.encode(document))
        if batch and length + more > BATCH:
            made.append(reply("nextBatch" if made else "firstBatch", batch))
            batch, length = [], 0
        batch.append(document)
        length += more
    if batch:
        made.append(reply("nextBatch" if made else "firstBatch", batch))
    return made


def report(name, one, items, size, rounds):
    for item in items:
        one(item)
    start = time.perf_counter()
    for _ in range(rounds):
        for item in items:
            one(item)
    print("%s %.0f MB/s" % (name, size * rounds / (time.perf_counter() - start) / 1e6))


def main():
    if not bson.has_c():
        sys.exit("no C extension")
    word, size, rounds = sys.argv[1], int(sys.argv[2]), int(sys.argv[3])
    documents = chunks(size)
    gc.disable()
    if word == "encode":
        report("encode", bson.encode, documents, size, rounds)
    else:
        report("decode", bson.decode, replies(documents), size, rounds)


main()
