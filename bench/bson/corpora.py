#!/usr/bin/env python3
"""Writes the documents that the BSON layer is timed on, one behind another, to files of a folder.

flat.bson has many small flat documents, nested.bson documents of 81 levels, tweets.bson documents with the names, depth and
texts of a message service, small.bson documents of two fields, doubles.bson arrays of doubles, names.bson names of 24 to 60
bytes, words.bson texts of which few letters are ASCII, blobs.bson chunks of 255 KiB, and depthN.bson documents of N levels,
all with about the same number of bytes a level and in all.

go-flat.bson, go-deep.bson and go-full.bson have the shapes that the MongoDB specification for driver performance describes, and
the Go driver's benchmarks measure: common kinds side by side, a tree of documents, and each kind but three old ones, which
Python reads as others (undefined, references to documents, symbols). Names and values are made here.

The files are the same in each run.
"""
import os
import random
import string
import struct
import sys
from collections import namedtuple

LETTERS = "abcdefghij klmnopqrst uvwxyzé"
ALPHANUMERIC = string.ascii_letters + string.digits

# A value of a kind that Python has no type for: the kind, and the bytes.
Value = namedtuple("Value", "kind data")


def int32(number):
    return struct.pack("<i", number)


def measured_text(it):
    text = it.encode()
    return int32(len(text) + 1) + text + b"\0"


def value(it):
    """The kind and the bytes of a value."""
    if isinstance(it, Value):
        return it
    if isinstance(it, bool):
        return 8, bytes([it])
    if isinstance(it, int):
        return (16, int32(it)) if -(2**31) <= it < 2**31 else (18, struct.pack("<q", it))
    if isinstance(it, float):
        return 1, struct.pack("<d", it)
    if isinstance(it, str):
        return 2, measured_text(it)
    if isinstance(it, bytes):
        return 5, int32(len(it)) + b"\0" + it
    if it is None:
        return 10, b""
    if isinstance(it, list):
        return 4, document({str(i): x for i, x in enumerate(it)})
    return 3, document(it)


def document(fields):
    body = b""
    for name, it in fields.items():
        kind, data = value(it)
        body += bytes([kind]) + name.encode() + b"\0" + data
    return int32(len(body) + 5) + body + b"\0"


def word(source):
    return "".join(source.choice(LETTERS) for _ in range(source.randint(3, 24)))


def flat(source):
    for i in range(40000):
        yield {
            "_id": i,
            "name": word(source),
            "count": source.randint(0, 10**12),
            "flag": i % 2 == 0,
            "none": None,
            "city": word(source),
            "tags": [word(source), i, 3],
        }


def text(source, words):
    return " ".join(word(source) for _ in range(words))


def account(source):
    return {
        "id": source.randint(0, 2**40),
        "id_str": str(source.randint(0, 2**40)),
        "name": word(source),
        "screen_name": word(source),
        "location": word(source),
        "description": text(source, 6),
        "protected": False,
        "followers_count": source.randint(0, 10**5),
        "friends_count": source.randint(0, 10**4),
        "created_at": "Wed Aug 27 13:08:45 +0000 2008",
        "utc_offset": None,
        "verified": source.random() < 0.1,
        "profile_background_color": "C0DEED",
        "profile_image_url": "http://example.org/images/%d.png" % source.randint(0, 10**6),
        "profile_use_background_image": True,
    }


def tweets(source):
    for i in range(3000):
        yield {
            "_id": i,
            "created_at": "Wed Aug 27 13:08:45 +0000 2008",
            "id": source.randint(0, 2**50),
            "text": text(source, 8),
            "source": "web",
            "truncated": False,
            "in_reply_to_status_id": None,
            "in_reply_to_screen_name": None,
            "user": account(source),
            "geo": None,
            "retweet_count": source.randint(0, 1000),
            "entities": {
                "hashtags": [{"text": word(source), "indices": [k, k + 9]} for k in range(source.randint(0, 3))],
                "urls": [],
                "user_mentions": [{"screen_name": word(source), "id": k, "indices": [k, k + 5]} for k in range(2)],
            },
            "favorited": False,
        }


def small(source):
    for i in range(150000):
        yield {"_id": i, "n": source.randint(0, 10**12)}


def doubles(source):
    for i in range(2000):
        yield {"_id": i, "values": [source.uniform(-1, 1) for _ in range(200)]}


def names(source):
    for i in range(10000):
        yield {"%s.%d" % (text(source, 4)[:58].ljust(24, "x"), k): k for k in range(8)}


def words(source):
    letters = "абвгдежзийклмнопрстуфхцчшщъыьэюя "
    for i in range(10000):
        yield {"_id": i, "text": "".join(source.choice(letters) for _ in range(200))}


def nested(source, documents, levels):
    for i in range(documents):
        it = {"leaf": word(source), "n": i}
        for level in range(levels):
            it = {"k%d" % level: it, "x": level, "s": "abc"}
        yield it


def blobs(source):
    for i in range(60):
        yield {"_id": i, "files_id": 7, "n": i, "data": source.randbytes(261120)}


def key(source):
    return "".join(source.choice(ALPHANUMERIC) for _ in range(8))


def object_id(source):
    return Value(7, source.randbytes(12))


def date_time(source):
    return Value(9, struct.pack("<q", source.randint(0, 2 * 10**12)))


def regex(source):
    return Value(11, b"^" + key(source).encode() + b".*$\0" + source.choice((b"", b"i", b"im")) + b"\0")


def code(source):
    return Value(13, measured_text("function() { return '%s'; }" % key(source)))


def scoped(source):
    body = measured_text("function() { return %s; }" % key(source)) + document({key(source): source.randint(0, 10**6)})
    return Value(15, int32(len(body) + 4) + body)


def timestamp(source):
    return Value(17, struct.pack("<II", source.randint(1, 99), source.randint(10**9, 2 * 10**9)))


# At most 19 digits, times 10^-2 up to 10^2.
def decimal128(source):
    return Value(19, struct.pack("<QQ", source.randint(0, 10**18), (6176 + source.randint(-2, 2)) << 49))


COMMON = (
    lambda source: "".join(source.choice(ALPHANUMERIC) for _ in range(source.randint(8, 80))),
    lambda source: source.randint(-(2**31), 2**31 - 1),
    lambda source: source.randint(2**32, 2**62),
    lambda source: source.uniform(-(10**6), 10**6),
    lambda source: source.random() < 0.5,
    lambda source: None,
)

FULL = COMMON + (
    object_id,
    date_time,
    regex,
    timestamp,
    decimal128,
    code,
    lambda source: source.randbytes(source.randint(8, 64)),
    lambda source: [source.randint(0, 10**6) for _ in range(4)],
    lambda source: {key(source): key(source), key(source): source.randint(0, 10**6)},
    lambda source: Value(255, b""),
    lambda source: Value(127, b""),
)


def in_turn(source, kinds, count):
    """Fields of these kinds in turn, behind an id."""
    return {"_id": object_id(source), **{key(source): kinds[i % len(kinds)](source) for i in range(count)}}


def go_flat(source):
    for _ in range(1000):
        yield in_turn(source, COMMON, 144)


def tree(source, levels):
    if levels == 0:
        return key(source)
    return {"left": tree(source, levels - 1), "right": tree(source, levels - 1)}


def go_deep(source):
    for _ in range(3000):
        yield tree(source, 6)


# Code with scopes stands last: libbson's bson_validate looks at nothing behind the first of them.
def go_full(source):
    for _ in range(1000):
        yield {**in_turn(source, FULL, 136), **{key(source): scoped(source) for _ in range(8)}}


def write(name, documents):
    with open(os.path.join(sys.argv[1], name), "wb") as file:
        for it in documents:
            file.write(document(it))


if __name__ == "__main__":
    os.makedirs(sys.argv[1], exist_ok=True)
    shared = random.Random(7)
    write("flat.bson", flat(shared))
    write("nested.bson", nested(shared, 2000, 80))
    write("blobs.bson", blobs(shared))
    for name, corpus in (("tweets", tweets), ("small", small), ("doubles", doubles), ("names", names), ("words", words)):
        write(name + ".bson", corpus(random.Random(len(name))))
    for name, corpus in (("go-flat", go_flat), ("go-deep", go_deep), ("go-full", go_full)):
        write(name + ".bson", corpus(random.Random(name)))
    for depth in (6, 12, 25, 50, 100):
        write("depth%d.bson" % depth, nested(random.Random(depth), 160000 // depth, depth - 1))
