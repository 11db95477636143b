#!/usr/bin/env python3
"""Writes a feed of N groups of ROWS inserted rows each, one if not given, to standard output.

usage: bench/feed/make_feed.py N [ROWS] > FEED
       bench/feed/make_feed.py --stream S STREAMS N [ROWS] > FEED
       bench/feed/make_feed.py --repeats INTERVALS REPEATS > FEED

Each group is one VStreamResponse: BEGIN, FIELD (first group alone), ROW with all the group's rows,
GTID, COMMIT, with the position U:1-k after group k. The rows are numbered from 1; with --stream every
STREAMS-th number is the feed's, from S + 1 on, so that the feeds of streams 0, 1, .. share no key. With --repeats the feed is hostile instead: one
position of so many intervals, U:1:3:5.., and behind it so many repeats of its first number.
"""
import sys

U = b"3e11fa47-71ca-11e1-9e33-c80aa9429562"


def varint(number):
    out = bytearray()
    while number > 127:
        out.append(number & 127 | 128)
        number >>= 7
    out.append(number)
    return bytes(out)


def scalar(number, value):
    return varint(number * 8) + varint(value)


def text(number, value):
    return varint(number * 8 + 2) + varint(len(value)) + value


def event(kind, *parts):
    return text(1, scalar(1, kind) + b"".join(parts))


def row(*columns):
    return text(1, b"".join(varint(2 * len(c)) for c in columns)) + text(2, b"".join(columns))


def group(k, rows, first=1, by=1):
    field = b""
    if k == 1:
        columns = text(1, b"id") + scalar(2, 265), text(1, b"v") + scalar(2, 6165)
        field = event(13, text(6, text(1, b"t") + b"".join(text(2, c) for c in columns)))
    numbers = range(first + (k - 1) * rows * by, first + k * rows * by, by)
    changes = b"".join(text(2, text(2, row(b"%d" % n, b"value of row %d" % n))) for n in numbers)
    position = b"MySQL56/" + U + (b":1" if k == 1 else b":1-%d" % k)
    events = event(2) + field + event(12, text(5, text(1, b"t") + changes)) + event(1, text(3, position)) + event(3)
    return varint(len(events)) + events


def position(text_of_set):
    return event(1, text(3, b"MySQL56/" + U + text_of_set))


def repeats(intervals, count):
    first = position(b"".join(b":%d" % (2 * i + 1) for i in range(intervals)))
    again = position(b":1")
    yield varint(len(first)) + first
    for _ in range(count):
        yield varint(len(again)) + again


def main():
    if sys.argv[1] == "--repeats":
        for message in repeats(int(sys.argv[2]), int(sys.argv[3])):
            sys.stdout.buffer.write(message)
        return
    first, by, words = 1, 1, sys.argv[1:]
    if words[0] == "--stream":
        first, by, words = int(words[1]) + 1, int(words[2]), words[3:]
    rows = int(words[1]) if len(words) > 1 else 1
    for k in range(1, int(words[0]) + 1):
        sys.stdout.buffer.write(group(k, rows, first, by))


if __name__ == "__main__":
    if not sys.argv[1:] or sys.argv[1] == "--help":
        sys.exit(__doc__)
    main()
