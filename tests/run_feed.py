#!/usr/bin/env python3
"""Makes feeds of texts as `show` prints them, of feeds that are made at random, and holds them to these.

usage: tests/run_feed.py PROGRAM [--seconds N] [--seed N]
       tests/run_feed.py PROGRAM --seed N --case N

Of each case: `show` of what `feed` makes of what `show` prints of a feed prints the same, without a workflow, and under the
feed's own where no table of it has another number of columns; under the workflow it is the model's feed of the groups, and
`run` of it prints the same rows. A text of which some bytes are changed is refused 133 with the line and the byte that the
plain model in tests/model names, and nothing is printed; or it is made a feed of, and `show` prints the changed text. The
last line is 'N passed, M failed'.
"""
import argparse
import os
import random
import subprocess
import sys
import tempfile
import time

from model import Refused
from model.feed import Feed
from model.feed_text import Text
from model.random_case import Case
from model.workflow import Workflow

SECONDS, LONGEST = 20, 60


class Feeding(Case):
    """A workflow and a feed for each of its streams."""

    def __init__(self, r):
        self.r = r
        self.faulty = r.random() < 0.1
        self.said = self.workflow()
        try:
            self.read = Workflow(self.said)
        except Refused:
            self.read = None
        shards = self.read.shards if self.read else [b"-80"]
        self.uuids = [[r.choice(["3e11fa47-71ca-11e1-9e33-c80aa94295%02x" % n for n in range(8)]).encode()] for _ in shards]
        self.feeds = [self.feed(s, shard) for s, shard in enumerate(shards)]


class Place:
    """A folder in which the program runs."""

    def __init__(self, program, folder):
        self.program, self.folder = program, folder

    def put(self, name, data):
        with open(os.path.join(self.folder, name), "wb") as file:
            file.write(data)

    def run(self, *words, given=b""):
        ran = subprocess.run([self.program, *words], input=given, capture_output=True, cwd=self.folder, timeout=LONGEST)
        return ran.returncode, ran.stdout, ran.stderr


class Fault(Exception):
    pass


def same(what, said, wanted):
    if said != wanted:
        raise Fault(f"{what}\n  answers {said!r}\n  wanted  {wanted!r}")


def whose(keyspace, shard):
    return [f"--keyspace={keyspace.decode()}"] * bool(keyspace) + [f"--shard={shard.decode()}"] * bool(shard)


def wanted_of(text, widths):
    fault = Text(text, widths).fault
    return (1, b"", b"refused 133 line %d column %d\n" % fault) if fault else (0, None, b"")


def fed(place, what, text, widths, words, source):
    """Makes a feed of a text, or is refused as the model says; answers the feed, if there is one."""
    status, feed, error = place.run("feed", *words, given=text)
    wanted = wanted_of(text, widths)
    same(what, (status, None if status == 0 else feed, error), wanted)
    if status:
        return None
    place.put("made", feed)
    same(f"show of {what}", place.run("show", *whose(*source), "made"), (0, text, b""))
    return feed


def changed(r, text):
    """A text with some bytes changed, taken away or put in, or lines moved."""
    data = bytearray(text)
    for _ in range(r.choice([1, 1, 2])):
        at = r.randrange(len(data) + 1)
        kind = r.randrange(5)
        if kind == 0 and data:
            data[at % len(data)] = r.choice([*b"xN\t\n +-0129afgA:,", r.randrange(256)])
        elif kind == 1 and data:
            del data[at % len(data)]
        elif kind == 2:
            data[at:at] = r.choice([b"\n", b"\t", b"N", b"x", b"0", b" ", b"\tN", b"\tx00", b"\xff"])
        elif kind == 3:
            lines = bytes(data).split(b"\n")
            i, j = r.randrange(len(lines)), r.randrange(len(lines))
            lines[i], lines[j] = lines[j], lines[i]
            data = bytearray(b"\n".join(lines))
        else:
            lines = bytes(data).split(b"\n")
            del lines[r.randrange(len(lines))]
            data = bytearray(b"\n".join(lines))
    return bytes(data)


def judge(place, case, r):
    """Looks at one case, and answers what it was."""
    s = r.randrange(len(case.feeds))
    source = (case.keyspace, case.read.shards[s]) if case.read else (b"", b"-80")
    place.put("workflow", case.said)
    place.put("feed", case.feeds[s])
    status, text, _ = place.run("show", *whose(*source), "feed")
    if status:
        return "a feed that is refused"
    if not any(name.count(b"\t") or name.count(b"\n") for _, changes in Feed(case.feeds[s], *source).groups for name, *_ in changes):
        same("the model's text", wanted_of(text, None)[0], 0)
    fed(place, "without a workflow", text, None, [], (b"", b""))
    for _ in range(3):
        fed(place, "a changed text", changed(r, text), None, [], (b"", b""))
    if not case.read:
        return "a workflow that is refused"
    widths = {it.name: len(it.columns) for it in case.read.tables}
    words = [f"--stream={s}"] * (s > 0 or r.random() < 0.2) + ["workflow"]
    same("no such stream", place.run("feed", "--stream=63", "workflow", given=text), (1, b"", b"refused 115\n"))
    feed = fed(place, "under the workflow", text, widths, words, source)
    fed(place, "a changed text under the workflow", changed(r, text), widths, words, source)
    if feed is None:
        return "rows of another width"
    names = [f"feed{n}" for n in range(len(case.feeds))]
    for name, data in zip(names, case.feeds):
        place.put(name, data)
    wanted = place.run("run", "--alone", "workflow", *names)
    names[s] = "made"
    place.put("made", feed)
    if wanted[0] == 0:
        same("run", place.run("run", "--alone", "workflow", *names), wanted)
    return "fed"


def one(program, seed, number):
    r = random.Random(f"{seed}/{number}")
    case = Feeding(r)
    with tempfile.TemporaryDirectory(prefix="vrepl-feed-", dir="/dev/shm" if os.path.isdir("/dev/shm") else None) as folder:
        return judge(Place(program, folder), case, r)


def main():
    words = argparse.ArgumentParser()
    words.add_argument("program")
    words.add_argument("--seconds", type=float, default=SECONDS)
    words.add_argument("--seed", type=int, default=None)
    words.add_argument("--case", type=int)
    said = words.parse_args()
    program = os.path.abspath(said.program)
    seed = random.randrange(2**32) if said.seed is None else said.seed
    counts, faults, number, end = {}, 0, 0, time.monotonic() + said.seconds
    numbers = [said.case] if said.case is not None else iter(int, 1)
    for _ in numbers:
        number = said.case if said.case is not None else number + 1
        try:
            kind = one(program, seed, number)
            counts[kind] = counts.get(kind, 0) + 1
        except Fault as fault:
            faults += 1
            print(f"FAILED: --seed {seed} --case {number}: {fault}")
        if time.monotonic() > end or faults >= 5:
            break
    print(f"seed {seed}: {number} cases:", ", ".join(f"{many} {kind}" for kind, many in sorted(counts.items())))
    print(f"{int(not faults)} passed, {faults} failed")
    return 1 if faults else 0


if __name__ == "__main__":
    sys.exit(main())
