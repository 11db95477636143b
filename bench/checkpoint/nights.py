#!/usr/bin/env python3
"""Measures nights: a feed grows, and `vrepl compact` puts one group with its rows in the place of all that it has.

usage: bench/checkpoint/nights.py PROGRAM [NIGHTS [MEGABYTES [NIGHTLY]]]       30 nights, 200 and 1 if not given

The feed has so many megabytes of rows of 500 bytes, a thousand a group, and each night one more of changes, four a group: most are
updates, and as many rows come as go. A night is `compact`, into the feed's own file. Beside it stands `run` over the feed that it reads,
into a file of the same folder. Each line is of one night: the feed's bytes before and behind its compaction, and the processor time and
the peak memory of both; the last line is the least and the most of all nights, and the mean. It ends where a compacted feed has more than the bytes of
its rows and 65,536; where in a night that has a line `run` over it prints other rows than over the feed before; and where the last one's
rows aren't those of all that was ever recorded.
"""
import filecmp
import os
import random
import subprocess
import sys
import tempfile

sys.dont_write_bytecode = True
HERE = os.path.dirname(os.path.abspath(__file__))
sys.path[:0] = [HERE, os.path.join(HERE, "../../record")]
import measure as measuring  # noqa: E402
from recorder.wire import FIELDS, GTID, ROWS, EventType, change_bytes, columns_bytes, event_bytes, message_bytes, row_bytes, text_bytes  # noqa: E402

WORKFLOW = """{"keyspace": "k", "tables": [{"name": "t", "columns": [["id", "INT64"], ["v", "VARBINARY"]], "key": ["id"]}],
 "streams": [{"shard": "-", "filter": {"rules": [{"match": "t", "filter": ""}]}}]}"""
SHOWN = 10
"""Each night of this number, and the first, has a line."""
SIZE, A_GROUP, CHANGED = 500, 1000, 4
BOUND = 65_536
"""So many bytes a compacted feed may have beside its rows."""


class Source:
    """The rows of a table, and the groups that change them."""

    def __init__(self):
        self.random, self.group, self.rows, self.first = random.Random(30), 0, {}, 0
        self.size = 0
        """The bytes of the changes that would insert its rows."""

    def row(self, key):
        return row_bytes((b"%d" % key, self.rows[key]))

    def change_of(self, before, after):
        for sign, row in ((-1, before), (1, after)):
            self.size += sign * len(change_bytes(None, row)) if row else 0
        return change_bytes(before, after)

    def change(self):
        """One row's change: of ten one comes, one goes, and the others are updated."""
        key, way = self.first + self.random.randrange(len(self.rows)), self.random.randrange(10)
        before = None
        if way == 0:
            key = self.first + len(self.rows)
        elif way == 1:
            key, self.first = self.first, self.first + 1
        if way:
            before = self.row(key)
        if way == 1:
            del self.rows[key]
            return self.change_of(before, None)
        self.rows[key] = self.random.randbytes(SIZE)
        return self.change_of(before, self.row(key))

    def message(self, changes, *fields):
        self.group += 1
        position = f"MySQL56/3e11fa47-71ca-11e1-9e33-c80aa9429562:1-{self.group}"
        rows = event_bytes(EventType.ROW, 0, ROWS, text_bytes(1, "t"), *changes)
        return message_bytes(event_bytes(EventType.BEGIN, 0), *fields, rows, event_bytes(EventType.GTID, 0, GTID, position.encode()), event_bytes(EventType.COMMIT, 0))

    def first_rows(self, size):
        """The messages of so many bytes of rows."""
        field = [event_bytes(EventType.FIELD, 0, FIELDS, columns_bytes("t", [("id", 265), ("v", 10262)]))]
        while len(self.rows) * SIZE < size:
            keys = range(len(self.rows), len(self.rows) + A_GROUP)
            self.rows |= {key: self.random.randbytes(SIZE) for key in keys}
            yield self.message([self.change_of(None, self.row(key)) for key in keys], *field)
            field = []

    def night(self, size):
        there = 0
        while there < size:
            message = self.message([self.change() for _ in range(CHANGED)])
            there += len(message)
            yield message


def main():
    program, *given = sys.argv[1:]
    nights, megabytes, nightly = (int(word) for word in (*given, *("30", "200", "1")[len(given):]))
    with tempfile.TemporaryDirectory(prefix="vrepl-nights-") as folder:
        measure(program, nights, megabytes * 10**6, nightly * 10**6, lambda name: os.path.join(folder, name))


def timed(words, out):
    """Seconds of the processor, and the peak memory in bytes. They are taken by a process of its own: a peak is never below the memory
    of the process that began the other one, and this one has the rows."""
    child = subprocess.run([sys.executable, measuring.__file__, "--timed", out, *words], stdin=subprocess.DEVNULL, stdout=subprocess.PIPE, check=True)
    seconds, memory = child.stdout.split()
    return float(seconds), int(memory)


def append(data, *names):
    data = b"".join(data)
    for name in names:
        with open(name, "ab") as file:
            file.write(data)


def measure(program, nights, size, nightly, path):
    workflow, feed, whole, ran, ran_whole = map(path, ("workflow", "feed", "whole", "ran", "ran_whole"))
    with open(workflow, "w", encoding="utf-8") as file:
        file.write(WORKFLOW)
    source, seen = Source(), []
    append(source.first_rows(size), feed, whole)
    print("| Night | The feed's bytes | Compacted | `compact` | `run` over the feed | Peak memory of `compact` / `run` |")
    print("|---|---|---|---|---|---|", flush=True)
    for night in range(1, nights + 1):
        append(source.night(nightly), feed, whole)
        before = os.path.getsize(feed)
        run = timed([program, "run", workflow, feed], ran)
        compacted = timed([program, "compact", "--save-to", feed, workflow, feed], os.devnull)
        seen.append((before, os.path.getsize(feed), compacted, run))
        if seen[-1][1] > source.size + BOUND:
            sys.exit(f"the compacted feed has {seen[-1][1]} bytes, and its rows {source.size}")
        if night == 1 or night % SHOWN == 0:
            check(program, workflow, feed, ran, path)
            line(f"{night}", [seen[-1]])
    line("all", seen)
    timed([program, "run", workflow, whole], ran_whole)
    check(program, workflow, feed, ran_whole, path)


def line(night, seen):
    def spread(values, form):
        least, most = form(min(values)), form(max(values))
        return least if least == most else f"{least} to {most}"

    def mean(values):
        return f", on average {sum(values) / len(values):.2f}" if len(values) > 1 else ""

    sizes = [spread([one[at] for one in seen], lambda it: f"{it:,}") for at in (0, 1)]
    used = [[one[at] for one in seen] for at in (2, 3)]
    times = [spread([seconds for seconds, _ in of], lambda it: f"{it:.2f}") + " s" + mean([seconds for seconds, _ in of]) for of in used]
    peaks = " / ".join(f"{max(memory for _, memory in of) / 1e6:.0f}" for of in used)
    print("| " + " | ".join([night, *sizes, *times, f"{peaks} MB"]) + " |", flush=True)


def check(program, workflow, feed, wanted, path):
    """Ends where `run` over the feed doesn't print the rows that a file has."""
    timed([program, "run", workflow, feed], path("dump"))
    if not filecmp.cmp(path("dump"), wanted, shallow=False) or os.path.getsize(wanted) < SIZE:
        sys.exit("the rows differ")


if __name__ == "__main__":
    if not sys.argv[1:] or sys.argv[1] == "--help":
        sys.exit(__doc__)
    main()
