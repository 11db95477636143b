#!/usr/bin/env python3
"""Compacts feeds that are made at random, and compares what comes of them with what came of the whole ones.

usage: tests/run_compact.py PROGRAM [--seconds N] [--seed N]
       tests/run_compact.py PROGRAM --seed N --case N

Of each case: `vrepl compact` prints what the plain model in tests/model prints, or is refused as that is. What it prints
has the old groups from the base on, numbered on (`show`), and the same rows at the end (`run`). Checkpoints of boards that
stand at the base or behind it resume over it and go on to the same checkpoint (`follow`), those before it are refused 118.
Scripts from such a checkpoint on get the same replies over both feeds, but for the groups' numbers. Under a workflow with
other filters, and under one without the last table, the new feed has the same rows; a checkpoint of the latter gets the
table over the new feed as over the old one. Compacted once more at the same place it is byte for byte the same, and further
on as the whole feed there. Where bytes behind the cut are broken in both feeds they are refused alike, but for the groups'
numbers, or say the same. With --save-to the same bytes stand in the file, which may be the feed's. A feed of which some
bytes are broken is refused as `show` refuses it, and no file is left. Where a growth of memory is refused, or that one and
all later ones, the same comes, or `refused 72` and nothing else. The last line is 'N passed, M failed'.
"""
import argparse
import json
import os
import random
import re
import shlex
import subprocess
import sys
import tempfile
import time

import preloaded
from model import Refused, checkpoint
from model.board import Board
from model.compact import Cut, compact
from model.feed import Feed, print_position
from model.random_case import Case
from model.workflow import Workflow

SECONDS, LONGEST = 20, 60

ROOM = tempfile.TemporaryDirectory(prefix="vrepl-compact-")


class Compacting(Case):
    """A workflow and a feed for each of its streams."""

    def __init__(self, r):
        self.r = r
        self.faulty = r.random() < 0.1
        self.said = self.workflow()
        try:
            self.read = Workflow(self.said)
        except Refused:
            self.read = None
        shards = self.read.shards if self.read else [b"-80"]
        self.uuids = [[r.choice(["3e11fa47-71ca-11e1-9e33-c80aa94295%02x" % n for n in range(8)]).encode()] for _ in shards]
        self.feeds = [self.feed(s, shard) for s, shard in enumerate(shards)]


class Place:
    """A folder in which the program runs."""

    def __init__(self, program, folder):
        self.program, self.folder = program, folder

    def put(self, name, data):
        with open(os.path.join(self.folder, name), "wb") as file:
            file.write(data)

    def get(self, name):
        try:
            with open(os.path.join(self.folder, name), "rb") as file:
                return file.read()
        except FileNotFoundError:
            return None

    def run(self, *words, given=None, **variables):
        how = {"input": given} if given is not None else {"stdin": subprocess.DEVNULL}
        ran = subprocess.run([self.program, *words], capture_output=True, cwd=self.folder, timeout=LONGEST, env=os.environ | variables, **how)
        return ran.returncode, ran.stdout, ran.stderr


class Fault(Exception):
    pass


def same(what, said, wanted):
    if said != wanted:
        raise Fault(f"{what}\n  answers {said!r}\n  wanted  {wanted!r}")


def wanted_of(*given, **how):
    try:
        new, line = compact(*given, **how)
        return (0, new, b""), line
    except Refused as refused:
        return (1, b"", refused.line), None


def boards(case, feeds, r):
    """Boards of the model in each of which every stream stands somewhere, where its groups are sound."""
    for _ in range(3):
        board = Board(case.read, feeds)
        for s, it in enumerate(board.streams):
            it.read = it.applied = r.randrange(len(feeds[s].groups) + 1)
            it.marks = ["done"] * r.randrange(len(it.marks) + 1)
            it.marks += ["waits"] * (len(case.read.tables) - len(it.marks))
        try:
            checkpoint.save(board)
        except Refused:
            continue
        yield board


def judge(place, case, r):
    """Looks at one case, and answers what it was."""
    place.put("workflow", case.said)
    names = [f"feed{s}" for s in range(len(case.feeds))]
    for name, data in zip(names, case.feeds):
        place.put(name, data)
    s = r.randrange(len(names)) if r.random() < 0.97 else len(names)
    words, how = ["compact"] + [f"--stream={s}"] * (s > 0 or r.random() < 0.2), {"s": s}
    data = case.feeds[min(s, len(names) - 1)]
    try:
        feeds = [Feed(it, case.read.keyspace, shard, case.read.columns) for it, shard in zip(case.feeds, case.read.shards)]
    except (Refused, AttributeError):
        feeds = None
    if r.random() < 0.3:
        how["drop_unknown"] = True
        words.append("--drop-unknown")
    if feeds and s < len(names) and feeds[s].groups and r.random() < 0.6:
        text = print_position(r.choice(feeds[s].groups)[0]) if r.random() < 0.95 else r.choice([b"", b"x", names[0].encode() + b":1", case.uuids[s][0] + b":1-99"])
        how["at"] = text
        words.append("--at=" + text.decode())
    there = list(boards(case, feeds, r)) if feeds else []
    if there and r.random() < 0.3:
        said = checkpoint.save(there[0]) if r.random() < 0.95 else b"VREPLCP2\x01"
        place.put("named", said)
        how["checkpoints"] = [said]
        words.append("--checkpoint=named")
    wanted, line = wanted_of(False, case.said, data, **how)
    name = f"feed{min(s, len(names) - 1)}"
    said = place.run(*words, "workflow", name)
    same(shlex.join([*words, "workflow", name]), said, wanted)
    place.put("hexadecimal", data.hex().encode())
    same("in hexadecimal text", place.run(*words, "--hex", "workflow", "hexadecimal"), wanted)
    into = r.choice(["new", name])
    same("into a file", place.run(*words, f"--save-to={into}", "workflow", name), (0, line, b"") if line else wanted)
    same("the file", place.get(into), wanted[1] if line else data if into == name else None)
    place.put(name, data)
    growths(place, r, [*words, "workflow", name], wanted)
    if not line:
        return "refused " + wanted[2].split()[1].decode()
    if not feeds:
        return "compacted beside a feed that is refused"
    place.put("old", data)
    place.put(name, wanted[1])
    compare(place, case, names, s, feeds, how, there, r)
    return "compacted"


def growths(place, r, words, wanted):
    """Refuses some of the growths of a call, each alone or with all later ones."""
    library = {"LD_PRELOAD": preloaded.library(ROOM.name, "refuse_growth")}
    same("beside a library", place.run(*words, **library, GROWTHS="growths"), wanted)
    for k in r.sample(range(1, int(place.get("growths")) + 1), min(3, int(place.get("growths")))):
        k = f"{k}{r.choice(['', '+'])}"
        said = place.run(*words, **library, REFUSE_GROWTH=k)
        if said != (1, b"", b"refused 72\n"):
            same(f"where growth {k} is refused", said, wanted)


def compare(place, case, names, s, feeds, how, there, r):
    """Compares the new feed, which stands in the place of the old one, with that."""
    name, old = names[s], [*names]
    old[s] = "old"
    new = place.get(name)
    whole = Feed(new, case.read.keyspace, case.read.shards[s], case.read.columns)
    fewer = len(feeds[s].groups) - len(whole.groups)
    same("positions", [it[0] for it in whole.groups], [it[0] for it in feeds[s].groups[fewer:]])
    same("changes behind the base", [it[1] for it in whole.groups[1:]], [it[1] for it in feeds[s].groups[fewer + 1 :]])
    runs_alike("run", place, names, old, fewer)
    without = {key: it for key, it in how.items() if key != "checkpoints"}
    same("compacted again", wanted_of(False, case.said, new, **without | {"at": print_position(whole.groups[0][0])})[0][1], new)
    same("and by the program", place.run("compact", f"--stream={s}", "--drop-unknown", "--at=" + print_position(whole.groups[0][0]).decode(), "workflow", name), (0, new, b""))
    for words in ([], ["--at=" + print_position(whole.groups[-1][0]).decode()]):
        words = ["compact", f"--stream={s}", "--drop-unknown", *words, "workflow"]
        same("further on", place.run(*words, name)[:2], place.run(*words, "old")[:2])
    for board in there:
        place.put("checkpoint", checkpoint.save(board))
        words = ["follow", "--alone", "--checkpoint=checkpoint"]
        before, _, fault = place.run(*words, "--save-to=one", "workflow", *old)
        after = place.run(*words, "--save-to=other", "workflow", *names)
        if 0 < board.streams[s].applied <= fewer:
            if b"refused 118" not in after[2] and before == 0:
                raise Fault(f"a checkpoint before the base: {after}")
        elif before == 0:
            same("follow", after, (0, b"", b""))
            same("its checkpoint", place.get("other"), place.get("one"))
        if board.streams[s].applied > fewer and before == 0:
            scripts(place, case, case.again(board), names, old, s, fewer, r)
    damaged(place, case, names, old, s, feeds[s], fewer, r)
    others(place, case, names, old)


def runs_alike(what, place, names, old, fewer):
    """Runs both feeds. A refused group is of this stream, and numbered on then, or of another one."""
    said, wanted = place.run("run", "--alone", "workflow", *names), place.run("run", "--alone", "workflow", *old)
    lowered = re.sub(rb"(?<= group )\d+", lambda it: b"%d" % (int(it[0]) - fewer), wanted[2])
    same(what, said, (*wanted[:2], lowered) if said[2] == lowered else wanted)


def damaged(place, case, names, old, s, feed, fewer, r):
    """Breaks the same bytes of both feeds, behind the cut."""
    whole, new = place.get("old"), place.get(names[s])
    rest = Cut(whole, feed, fewer + 1).rest
    if not rest:
        return
    broken = bytearray(rest)
    for _ in range(r.choice([1, 1, 2])):
        case.break_once(broken)
    place.put("old", whole[: len(whole) - len(rest)] + broken)
    place.put(names[s], new[: len(new) - len(rest)] + broken)
    runs_alike("broken behind the cut", place, names, old, fewer)
    place.put("old", whole)
    place.put(names[s], new)


def lowered_reply(line, fewer):
    """A reply of the stream, with its groups numbered behind so many fewer."""
    return re.sub(rb"\b(read|repeat|applied|snapshot|restarted|expected|groups?) (\d+)", lambda it: it[1] + b" %d" % (int(it[2]) - fewer), line)


def scripts(place, case, board, names, old, s, fewer, r):
    """Takes the same steps at random over both feeds, from a checkpoint on."""
    steps = []
    for _ in range(r.choice([3, 8, 20])):
        words = case.likely_step(board) if r.random() < 0.8 else case.any_step(board)
        if words[0] == "dump" or words[1] == s and words[0] in ("offer", "open") and words[2] <= fewer:
            continue
        board.reply(tuple(words))
        steps.append(words)
    steps += [["state", it] for it in range(len(names))]
    later = [[*it[:2], it[2] - fewer] if it[1] == s and it[0] in ("offer", "open") else it for it in steps]

    def replies(names, steps):
        script = "".join(" ".join(map(str, it)) + "\n" for it in [*steps, ["dump"]]).encode()
        status, said, fault = place.run("resume", "--checkpoint=checkpoint", "workflow", *names, given=script)
        return (status, fault), said.split(b"\n")

    (before, wanted), (after, said) = replies(old, steps), replies(names, later)
    if before != (0, b""):
        return
    wanted[: len(steps)] = [lowered_reply(line, fewer) if it[1] == s else line for it, line in zip(steps, wanted)]
    same("a script", (after, said), (before, wanted))


def others(place, case, names, old):
    """The feed under workflows with other filters and fewer tables, and a table more for a target."""
    try:
        said = json.loads(case.said)
        open_to_all = said | {"streams": [it | {"filter": {"rules": [{"match": "/.*", "filter": ""}]}} for it in said["streams"]]}
        narrow = open_to_all | {"tables": said["tables"][:-1]}
    except (ValueError, KeyError, TypeError):
        return
    for what, other in ("another filter", open_to_all), ("a table less", narrow):
        place.put("another", json.dumps(other).encode())
        wanted = place.run("run", "--alone", "another", *old)
        if wanted[0] == 0:
            same(f"run under {what}", place.run("run", "--alone", "another", *names), wanted)
    if place.run("follow", "--alone", "--save-to=narrow", "another", *old)[0]:
        return
    place.put("another", json.dumps(open_to_all).encode())
    words = ["follow", "--alone", "--checkpoint=narrow"]
    if place.run(*words, "--save-to=one", "another", *old)[0] == 0:
        same("a table more", place.run(*words, "--save-to=other", "another", *names), (0, b"", b""))
        same("its checkpoint", place.get("other"), place.get("one"))


def broken(place, case, r):
    """A feed of which some bytes are broken is refused as `check` refuses it, or compacted as the model does it."""
    data = bytearray(r.choice(case.feeds))
    for _ in range(r.choice([1, 1, 2])):
        case.break_once(data)
    data = bytes(data)
    s = r.randrange(len(case.feeds))
    place.put("workflow", case.said)
    place.put("broken", data)
    wanted, line = wanted_of(False, case.said, data, s=s)
    same("broken", place.run("compact", f"--stream={s}", "workflow", "broken"), wanted)
    same("broken, into a file", place.run("compact", f"--stream={s}", "--save-to=new", "workflow", "broken"), (0, line, b"") if line else wanted)
    same("its file", place.get("new"), wanted[1] if line else None)


def one(program, seed, number):
    r = random.Random(f"{seed}/{number}")
    case = Compacting(r)
    with tempfile.TemporaryDirectory(prefix="vrepl-compact-", dir="/dev/shm" if os.path.isdir("/dev/shm") else None) as folder:
        kind = judge(Place(program, folder), case, r)
    with tempfile.TemporaryDirectory(prefix="vrepl-compact-", dir="/dev/shm" if os.path.isdir("/dev/shm") else None) as folder:
        broken(Place(program, folder), case, r)
    return kind


def main():
    words = argparse.ArgumentParser()
    words.add_argument("program")
    words.add_argument("--seconds", type=float, default=SECONDS)
    words.add_argument("--seed", type=int, default=None)
    words.add_argument("--case", type=int)
    said = words.parse_args()
    program = os.path.abspath(said.program)
    seed = random.randrange(2**32) if said.seed is None else said.seed
    counts, faults, number, end = {}, 0, 0, time.monotonic() + said.seconds
    numbers = [said.case] if said.case is not None else iter(int, 1)
    for _ in numbers:
        number = said.case if said.case is not None else number + 1
        try:
            kind = one(program, seed, number)
            counts[kind] = counts.get(kind, 0) + 1
        except Fault as fault:
            faults += 1
            print(f"FAILED: --seed {seed} --case {number}: {fault}")
        if time.monotonic() > end or faults >= 5:
            break
    print(f"seed {seed}: {number} cases:", ", ".join(f"{many} {kind}" for kind, many in sorted(counts.items())))
    print(f"{int(not faults)} passed, {faults} failed")
    return 1 if faults else 0


if __name__ == "__main__":
    sys.exit(main())
