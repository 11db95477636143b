#!/usr/bin/env python3
"""Runs `vrepl follow` over feeds that grow, and looks at the files that it leaves.

usage: tests/run_follow.py PROGRAM [--keeping]

A checkpoint that was moved on has to be, byte for byte, the one that is made from nothing over the same feeds: wherever
it stood, one stream after another or in threads, in any portions. Its board's dump is the one that `run` prints. A file is
replaced as a whole or not at all: after a refusal, where it can't be written, where its size is limited, where a call of
the system fails and where the program is killed it is what it was before, or the whole new checkpoint; of two calls at a
time, the one held before each call of the system (tests/hold_calls.c), neither undoes the other. Feeds that are compacted to their ends night
after night, one of them killed before each call of the system, give the rows of all that was ever recorded. `--save-to` never takes
the place of an input, a device, a pipe or a folder, and follows no link but that of its own name. By a clock that goes on
each time it is read (tests/step_clock.c) it is known what a run tells of its way, into files and on terminals of two
widths (tests/terminal.py). With --keeping what concerns files alone is tried; root tries that once more as another user. The last line is 'N passed, M failed': one a check.
"""
import os
import random
import re
import resource
import shutil
import signal
import stat
import subprocess
import sys
import tempfile
import time
from itertools import dropwhile

import preloaded
import terminal
from model import checkpoint, making, program
from model.board import Board

SECONDS = 120
OLD = b"what stood there before"
ENDS = [["--rows=1"], ["--rows=2", "--ahead=1", "--chunks=1"], ["--ahead=3", "--chunks=2"], ["--rows=1000000"]]


class Room:
    """A folder with the files of a run, and the program that runs there."""

    def __init__(self, built, place):
        self.built, self.place = os.path.abspath(built), place

    def path(self, name):
        return os.path.join(self.place, name)

    def put(self, **files):
        for name, data in files.items():
            with open(self.path(name), "wb") as file:
                file.write(data)

    def get(self, name):
        with open(self.path(name), "rb") as file:
            return file.read()

    def run(self, *words, stdin=b"", **how):
        how = {"stdout": subprocess.PIPE, "stderr": subprocess.PIPE, "timeout": SECONDS, "cwd": self.place} | how
        ran = subprocess.run([self.built, *words], input=stdin, **how)
        return ran.returncode, ran.stdout, ran.stderr

    def follow(self, *words, **how):
        return self.run("follow", "--save-to", "kept", *words, "workflow", "lower", "upper", **how)

    def left_beside(self):
        return sorted(it for it in os.listdir(self.place) if it.startswith(("kept", ".kept")))


def groups_of(r, first, count):
    """Changes of rows of one stream: new rows, rows changed, removed and moved to another key."""
    there, said = {}, []
    for _ in range(count):
        changes = []
        for _ in range(r.randrange(1, 4)):
            key = first + r.randrange(12)
            before, after = there.get(key), (key, b"%x" % r.randrange(1 << 40))
            if before and r.random() < 0.3:
                after = None if r.random() < 0.5 else (first + 12 + r.randrange(12), before[1])
            if after and after[0] != key and after[0] in there:
                after = (key, after[1])
            there.pop(key, None)
            if after:
                there[after[0]] = after
            changes.append((before, after))
        said.append(changes)
    return said


def two_feeds(r, count):
    lower, upper = groups_of(r, 100, count), groups_of(r, 200, count)
    return lambda n: {"lower": making.feed(lower[:n]), "upper": making.feed(upper[:n], making.V)}


def script(r, steps, groups):
    """Steps of both streams, in any order; those that can't be taken are refused."""
    said = []
    for _ in range(steps):
        s = r.randrange(2)
        words = ["offer %d %d", "offer %d %d", "advance %d", "advance %d", "open %d %d", "copy %d %d", "close %d", "restart %d"]
        word = r.choice(words)
        said.append(word % ((s, r.randrange(1, groups + 1)) if word.count("%d") == 2 else s))
    return "\n".join(said).encode() + b"\n"


# ---- the checkpoint


def from_nothing(room, r):
    feeds = two_feeds(r, 12)
    room.put(workflow=making.workflow("-80", "80-"), **feeds(12))
    ran = room.run("run", "workflow", "lower", "upper")
    yield "a dump is that of run", room.follow("--dump") == ran and ran[0] == 0
    wanted = room.get("kept")
    yield "nothing is printed", room.follow() == (0, b"", b"") and room.get("kept") == wanted
    yield "nothing is left beside it", room.left_beside() == ["kept"]
    shown = room.run("resume", "--checkpoint=kept", "workflow", "lower", "upper", stdin=b"dump\n")
    yield "it is resumed to that dump", shown == ran
    alike = [room.follow(*how, *alone) == (0, b"", b"") and room.get("kept") == wanted for how in ENDS for alone in ([], ["--alone"])]
    yield f"{len(alike)} courses leave the same bytes", all(alike)
    room.put(**{name: data.hex().encode() for name, data in feeds(12).items()})
    yield "feeds as hexadecimal text", room.follow("--hex") == (0, b"", b"") and room.get("kept") == wanted


def from_anywhere(room, r, rounds=40):
    alike = 0
    for _ in range(rounds):
        feeds = two_feeds(r, 8)
        seen = r.randrange(9)
        room.put(workflow=making.workflow("-80", "80-"), **feeds(8))
        assert room.follow()[0] == 0
        wanted = room.get("kept")
        room.put(**feeds(seen))
        saved = room.run("save", "workflow", "lower", "upper", stdin=script(r, r.randrange(60), max(seen, 1)))
        assert saved[0] == 0, saved
        room.put(kept=saved[1], **feeds(8))
        words = ["--checkpoint=kept", *r.choice(ENDS), *r.choice([[], ["--alone"]])]
        alike += room.follow(*words) == (0, b"", b"") and room.get("kept") == wanted
    yield f"{rounds} checkpoints of grown feeds are moved on to the same bytes", alike == rounds


def again_and_again(room, r):
    feeds = two_feeds(r, 10)
    room.put(workflow=making.workflow("-80", "80-"), **feeds(0))
    nights = [room.follow() == (0, b"", b"")]
    for n in range(1, 11):
        room.put(**feeds(n))
        nights.append(room.follow("--checkpoint=kept") == (0, b"", b""))
    moved = room.get("kept")
    yield "ten nights, one group more in each", all(nights)
    yield "leave what one night leaves", room.follow() == (0, b"", b"") and room.get("kept") == moved


# ---- nights: each stream's feed is compacted to its end, and then is what the target is


def compacting(s, name, *words):
    return ["compact", f"--stream={s}", f"--save-to={name}", *words, "workflow", name]


def grow(room, before, after):
    """Appends what is new to the streams' feeds, and to those that stay whole."""
    for name, data in after.items():
        for it in (name, f"whole_{name}"):
            with open(room.path(it), "ab") as file:
                file.write(data[len(before[name]) :])


def is_as_whole(room):
    """The feeds of both streams give the rows that those give which stayed whole, and are each what that one is compacted to."""
    said, wanted = (room.run("run", "workflow", *names) for names in (("lower", "upper"), ("whole_lower", "whole_upper")))
    each = [room.run("compact", f"--stream={s}", "workflow", f"whole_{name}") == (0, room.get(name), b"") for s, name in enumerate(("lower", "upper"))]
    return said == wanted and wanted[0] == 0 and all(each)


def nights(room, r):
    feeds, lower, upper = two_feeds(r, 40), compacting(0, "lower"), compacting(1, "upper")
    room.put(workflow=making.workflow("-80", "80-"), lower=b"", upper=b"", whole_lower=b"", whole_upper=b"")
    alike, sizes = 0, []
    for first in (0, 10, 20):
        grow(room, feeds(first), feeds(first + 10))
        alike += all(room.run(*it)[::2] == (0, b"") for it in (lower, upper)) and is_as_whole(room)
        sizes += [len(room.get(name)) for name in ("lower", "upper")]
    yield "three nights of two streams, each feed compacted for itself, leave the rows of all that was recorded", alike == 3
    yield "in no more bytes than 24 rows have", max(sizes) < 24 * 40
    yield "and nothing beside the feeds", not [it for it in os.listdir(room.place) if it.startswith(".")]
    grow(room, feeds(30), feeds(40))
    rows, before, count, right = room.run("run", "workflow", "whole_lower", "whole_upper"), b"", 0, 0
    for name, words in (("lower", lower), ("upper", upper)):
        before = room.get(name)
        calls = calls_of(room, *words)
        compacted = room.get(name)
        for call in range(1, calls + 1):
            room.put(**{name: before})
            held_before(room, call, words, lambda ran: ran.kill())
            right += room.get(name) in (before, compacted) and room.run("run", "workflow", "lower", "upper") == rows
        room.put(**{name: compacted})
        count += calls
    yield f"a night killed before each of {count} calls of the system leaves the old feeds or the new ones, with the same rows", right == count
    room.put(upper=before[:-1])
    yield "a feed that a killed recording left amid a message is refused, and stays", room.run(*upper)[:2] == (1, b"") and room.get("upper") == before[:-1]
    room.put(upper=before)
    yield "and the next night does what is left", all(room.run(*it)[0] == 0 for it in (lower, upper)) and is_as_whole(room)


def nights_with_a_checkpoint(room, r):
    """Checkpoints of others go on, where they are named."""
    feeds, done, alike = two_feeds(r, 30), (0, b"", b""), 0
    whole = ["follow", "--save-to=wanted", "workflow", "whole_lower", "whole_upper"]
    room.put(workflow=making.workflow("-80", "80-"), lower=b"", upper=b"", whole_lower=b"", whole_upper=b"")
    assert room.follow() == done
    for first in (0, 10, 20):
        room.put(old=room.get("kept"))
        grow(room, feeds(first), feeds(first + 10))
        moved = room.follow("--checkpoint=kept") == room.run(*whole) == done and room.get("kept") == room.get("wanted")
        alike += moved and all(room.run(*compacting(s, name, "--checkpoint=kept"))[0] == 0 for s, name in enumerate(("lower", "upper"))) and is_as_whole(room)
    yield "three nights of follow and compact leave the checkpoint of all that was recorded", alike == 3
    before = room.run("follow", "--checkpoint=old", "--save-to=old", "workflow", "lower", "upper")
    yield "one that wasn't named is refused", before == (1, b"", b"refused 118 stream 0\n")
    room.put(lower=feeds(30)["lower"], upper=feeds(30)["upper"])
    named = [room.run(*compacting(s, name, "--checkpoint=kept", "--checkpoint=old"))[0] for s, name in enumerate(("lower", "upper"))]
    moved = [room.run("follow", f"--checkpoint={it}", f"--save-to={it}", "workflow", "lower", "upper") for it in ("kept", "old")]
    yield "two that are named go on, each from where it stands", named == [0, 0] and moved == [done, done] and room.get("kept") == room.get("old") == room.get("wanted")


def nights_with_a_move(room, r):
    """A row that left one stream for the other: a checkpoint goes there in steps, whose order it may be in the way of."""
    first = {"lower": [making.added((1, b"a"))], "upper": [making.added((9, b"k"))]}
    then = {"lower": [making.added((9, b"l"))], "upper": [[((9, b"k"), None)]]}
    uuids, names = {"lower": making.U, "upper": making.V}, ["workflow", "lower", "upper"]
    room.put(workflow=making.workflow("-80", "80-"), **{name: making.feed(groups, uuids[name]) for name, groups in first.items()})
    assert room.follow() == (0, b"", b"") and all(room.run(*compacting(s, name))[0] == 0 for s, name in enumerate(("lower", "upper")))
    for name, groups in then.items():
        room.put(**{name: room.get(name) + making.feed(first[name] + groups, uuids[name])[len(making.feed(first[name], uuids[name])) :]})
    clash = room.follow("--checkpoint=kept", "--alone")
    yield "a row that moved between the streams may be in the way of follow", clash[0] == 1 and clash[2].startswith(b"refused 71 ")
    assert all(room.run(*compacting(s, name))[0] == 0 for s, name in enumerate(("lower", "upper")))
    wanted = b"table t\n" + b"".join(b"x%b\tx%b\n" % (key.hex().encode(), value.hex().encode()) for key, value in ((b"1", b"a"), (b"9", b"l")))
    yield "and isn't in that of the night", all(room.run("run", *how, *names) == (0, wanted, b"") for how in ([], ["--alone"]))


def only_some(room, r, rounds=20):
    """Streams that are named one after another, in any order, from anywhere."""
    feeds = two_feeds(r, 12)
    room.put(workflow=making.workflow("-80", "80-"), **feeds(12))
    assert room.follow()[0] == 0
    wanted, done = room.get("kept"), (0, b"", b"")
    yield "one stream, and then the other", room.follow("--only=0") == done and room.follow("--checkpoint=kept", "--only=1") == done and room.get("kept") == wanted
    yield "both by name", room.follow("--only=1,0,1") == done and room.get("kept") == wanted
    assert room.follow("--only=0") == done
    alone = room.get("kept")
    begun = room.run("step", "workflow", "lower", "upper", stdin=b"state 1\n")
    yield "the other stream is at its beginning", room.run("resume", "--checkpoint=kept", "workflow", "lower", "upper", stdin=b"state 1\n") == begun
    room.put(upper=b"")
    yield "and needs no feed", room.follow("--only=0") == done and room.get("kept") == alone
    alike = 0
    for _ in range(rounds):
        room.put(**feeds(r.randrange(13)))
        saved = room.run("save", "workflow", "lower", "upper", stdin=script(r, r.randrange(60), 12))
        room.put(kept=saved[1], **feeds(12))
        turns = r.sample("01", 2)
        for s in turns:
            told = room.run("resume", "--checkpoint=kept", "workflow", "lower", "upper", stdin=b"state %d\n" % (1 - int(s)))
            assert room.follow("--checkpoint=kept", f"--only={s}", *r.choice(ENDS)) == done
            alike += told == room.run("resume", "--checkpoint=kept", "workflow", "lower", "upper", stdin=b"state %d\n" % (1 - int(s)))
        alike += room.get("kept") == wanted
    yield f"{rounds} checkpoints moved on a stream at a time, the other as it stood", alike == 3 * rounds


def up_to_positions(room, r, rounds=20):
    """Feeds that end at positions leave what feeds leave that were cut there, and go on from there."""
    feeds, done, three = two_feeds(r, 12), (0, b"", b""), ("workflow", "lower", "upper")
    room.put(workflow=making.workflow("-80", "80-"), **feeds(12))
    assert room.follow() == done
    ended, alike, moved = room.get("kept"), 0, 0
    for _ in range(rounds):
        one, other = r.randrange(13), r.randrange(13)
        room.put(lower=feeds(one)["lower"], upper=feeds(other)["upper"])
        assert room.follow() == done
        wanted, dump = room.get("kept"), room.run("run", *three)
        room.put(**feeds(12))
        counts = ((0, making.U, one), (1, making.V, other))
        until = [f"--until={s}={uuid.decode()}:1-{n}" if n else f"--until={s}=" for s, uuid, n in counts]
        how = [*r.choice(ENDS), *r.choice([[], ["--alone"]])]
        alike += room.follow(*until, *how) == done and room.get("kept") == wanted and room.run("run", *until, *how, *three) == dump
        moved += room.follow("--checkpoint=kept", *r.choice([[], until[1:] * (other == 12)])) == done and room.get("kept") == ended
    yield f"{rounds} pairs of positions leave what feeds leave that end there", alike == rounds
    yield "and what they leave goes on to the feeds' ends", moved == rounds
    until = f"--until=0={making.U.decode()}:1-3"
    yield "a checkpoint that stands further on is refused", room.follow("--checkpoint=kept", until) == (1, b"", b"refused 118 stream 0\n") and room.get("kept") == ended
    room.put(**feeds(2))
    yield "and so is a feed that doesn't reach its position", room.follow(until) == (1, b"", b"refused 128 stream 0\n") and room.get("kept") == ended


# ---- refusals


def refused(room, r):
    feeds = two_feeds(r, 6)
    flow = making.workflow("-80", "80-")
    room.put(workflow=flow, kept=OLD, **feeds(6))
    saved = room.run("save", "workflow", "lower", "upper", stdin=b"offer 0 1\nadvance 0\nopen 0 1\ncopy 0 1\n")[1]
    other = two_feeds(r, 6)(6)["lower"]
    bad = {
        "a workflow that is none": dict(workflow=b"{"),
        "a feed that is cut": dict(lower=feeds(6)["lower"][:-1]),
        "a row without its key": dict(lower=making.feed([[(None, (1, b"a"))]]).replace(b"\x02\x02\x02", b"\x02\x01\x02", 1)),
        "a checkpoint that is none": dict(checkpoint=saved[:-1]),
        "a checkpoint of another feed": dict(checkpoint=saved, lower=other),
        "a checkpoint of a longer feed": dict(checkpoint=saved, lower=b""),
    }
    for title, files in bad.items():
        room.put(**{"workflow": flow, "checkpoint": saved} | feeds(6) | files)
        wanted = room.run("resume", "--checkpoint=checkpoint", "workflow", "lower", "upper")
        if wanted[0] == 0:
            wanted = room.run("run", "workflow", "lower", "upper")
        said = room.follow("--checkpoint=checkpoint", "--dump")
        yield f"{title} is refused as elsewhere", said == wanted and said[0] == 1 and said[1] == b""
        yield f"{title} costs no file", room.left_beside() == ["kept"] and room.get("kept") == OLD
    one_row = [making.added((100, b"x"))]
    room.put(workflow=flow, lower=making.feed(one_row), upper=making.feed(one_row, making.V))
    said = room.run("follow", "--alone", "--save-to", "kept", "workflow", "lower", "upper")
    wanted = room.run("run", "--alone", "workflow", "lower", "upper")
    yield "a row in the way is refused as by run", said == wanted and said[2].startswith(b"refused 71 ")
    yield "and costs no file", room.left_beside() == ["kept"] and room.get("kept") == OLD
    said = room.follow("--checkpoint=missing")
    yield "a checkpoint that isn't there", said == (1, b"", b"refused 131 file missing\n")
    room.put(**feeds(6))
    said = room.run("follow", "--save-to", "no/such/folder", "workflow", "lower", "upper")
    yield "a folder that isn't there", said == (1, b"", b"refused 132 file no/such/folder\n")


# ---- files


def limited(size):
    def limit():
        signal.signal(signal.SIGXFSZ, signal.SIG_IGN)
        resource.setrlimit(resource.RLIMIT_FSIZE, (size, size))

    return limit


def cut_short(room, r):
    feeds = two_feeds(r, 20)
    room.put(workflow=making.workflow("-80", "80-"), kept=OLD, **feeds(20))
    assert room.run("follow", "--save-to", "whole", "workflow", "lower", "upper")[0] == 0
    whole = room.get("whole")
    sizes = sorted({0, 1, len(whole) - 1, *r.sample(range(len(whole)), 20)})
    kept = [room.follow(preexec_fn=limited(it)) == (1, b"", b"refused 132 file kept\n") and room.left_beside() == ["kept"] and room.get("kept") == OLD for it in sizes]
    yield f"{len(sizes)} limits of a file's size cost no file", all(kept)
    yield "and a limit that suffices is none", room.follow(preexec_fn=limited(len(whole))) == (0, b"", b"") and room.get("kept") == whole
    with open("/dev/full", "wb") as full:
        said = room.follow("--dump", stdout=full)
    yield "a dump that can't be written", said[0] == 1 and said[2] == b"refused 132 file -\n" and room.get("kept") == whole


def killed(room, r, rounds=60):
    feeds = two_feeds(r, 400)
    room.put(workflow=making.workflow("-80", "80-"), **feeds(400))
    assert room.run("follow", "--save-to", "whole", "workflow", "lower", "upper")[0] == 0
    whole, ends = room.get("whole"), {"before": 0, "after": 0, "else": 0}
    for _ in range(rounds):
        room.put(kept=OLD)
        ran = subprocess.Popen([room.built, "follow", "--save-to", "kept", "workflow", "lower", "upper"], cwd=room.place)
        try:
            ran.wait(r.random() * 0.03)
        except subprocess.TimeoutExpired:
            ran.kill()
            ran.wait()
        ends[{OLD: "before", whole: "after"}.get(room.get("kept"), "else")] += 1
    yield f"killed {rounds} times: {ends['before']} old files, {ends['after']} new ones", ends["else"] == 0
    left = {it: room.get(it) for it in room.left_beside() if it != "kept"}
    yield "what killed runs left beside it is passed over", room.follow() == (0, b"", b"") and room.get("kept") == whole
    yield "and stays as it is", left == {it: room.get(it) for it in room.left_beside() if it != "kept"}


# ---- what --save-to names

NO_FILE = b"error: the file of --save-to is there and no regular file\n"
WORKFLOW = b"error: the file of --save-to is the workflow's\n"
FEED = b"error: the file of --save-to is a feed's\n"
STREAM = b"error: the file of --save-to is a standard stream's\n"


def keeping_calls(room, r):
    """A room with what `follow`, `save` and `join` read, and these as (words, standard input) without their --save-to."""
    feeds = two_feeds(r, 6)
    room.put(workflow=making.workflow("-80", "80-"), **feeds(6))
    steps = b"offer 0 1\nadvance 0\nopen 0 1\ncopy 0 1000\n"
    saved = room.run("save", "workflow", "lower", "upper", stdin=steps)[1]
    room.put(one=saved, other=saved)
    return {
        "follow": (["follow", "workflow", "lower", "upper"], b""),
        "save": (["save", "workflow", "lower", "upper"], steps),
        "join": (["join", "workflow", "one", "other", "lower", "upper"], b""),
    }


def state_of(place):
    """All names of a folder with what they are."""
    found = {}
    for name in sorted(os.listdir(place)):
        path = os.path.join(place, name)
        told = os.lstat(path)
        of_file = stat.S_ISREG(told.st_mode)
        found[name] = (told.st_ino, told.st_mode, open(path, "rb").read() if of_file else os.readlink(path) if stat.S_ISLNK(told.st_mode) else None)
    return found


def misnamed(room, r):
    calls = keeping_calls(room, r)
    os.mkdir(room.path("folder"))
    os.mkfifo(room.path("pipe"))
    os.link(room.path("lower"), room.path("hard"))
    for link, to in (("soft", "upper"), ("flow", "workflow"), ("nowhere", "no/such/file"), ("null", "/dev/null"), ("loop", "loop")):
        os.symlink(to, room.path(link))
    wanted = {
        "workflow": WORKFLOW, "flow": WORKFLOW, "lower": FEED, "./upper": FEED, "hard": FEED, "soft": FEED,
        "folder": NO_FILE, "pipe": NO_FILE, "nowhere": NO_FILE, "null": NO_FILE, "/dev/null": NO_FILE, "/dev/full": NO_FILE,
    }  # fmt: skip
    before = state_of(room.place)
    for command, (words, stdin) in calls.items():
        told = {name: room.run(*words, f"--save-to={name}", stdin=stdin) for name in wanted}
        yield f"{command} takes the place of no input, device, pipe or folder", all(told[it] == (2, b"", line) for it, line in wanted.items())
        yield f"{command} through a link to itself", room.run(*words, "--save-to=loop", stdin=stdin) == (1, b"", b"refused 132 file loop\n")
    yield "and leaves all as it was", state_of(room.place) == before
    with open(room.path("lower"), "rb") as script:
        said = subprocess.run([room.built, "save", "--save-to=lower", "workflow", "upper"], stdin=script, cwd=room.place, capture_output=True)
    yield "nor of the script's file", (said.returncode, said.stderr) == (2, STREAM)
    with open(room.path("dump"), "wb") as dump:
        said = room.run(*calls["follow"][0], "--dump", "--save-to=dump", stdout=dump)
    yield "nor of the dump's", said[0] == 2 and said[2] == STREAM
    yield "and nothing was written", state_of(room.place) == before | {"dump": state_of(room.place)["dump"]} and room.get("dump") == b""


def kept_by_each(room, r):
    """`save` and `join` keep a file as `follow` does."""
    for command, (words, stdin) in keeping_calls(room, r).items():
        wanted = room.run(*words, stdin=stdin) if command != "follow" else None
        done = room.run(*words, "--save-to=kept", stdin=stdin)
        wanted = wanted[1] if wanted else room.get("kept")
        yield f"{command} makes the file", done == (0, b"", b"") and room.get("kept") == wanted
        room.put(kept=OLD)
        done = room.run(*words, "--save-to=kept", stdin=stdin)
        yield f"{command} replaces it", done == (0, b"", b"") and room.get("kept") == wanted and room.left_beside() == ["kept"]
        room.put(kept=OLD, bad=b"{")
        refused = room.run(*[{"workflow": "bad"}.get(it, it) for it in words], "--save-to=kept", stdin=stdin)
        yield f"{command}, refused, leaves it", refused == (1, b"", b"refused 51\n") and room.get("kept") == OLD
    joined = room.run("join", "--save-to=one", "workflow", "one", "other", "lower", "upper")
    yield "a join may take the place of one of its own", joined == (0, b"", b"") and room.get("one") == wanted


def linked(room, r):
    """A link is followed to its file, which is replaced in its own folder."""
    words = keeping_calls(room, r)["follow"][0]
    os.mkdir(room.path("folder"))
    room.put(**{"folder/file": OLD})
    os.symlink("folder/file", room.path("kept"))
    done = room.run(*words, "--save-to=kept")
    yield "a link stays a link", done == (0, b"", b"") and os.readlink(room.path("kept")) == "folder/file"
    yield "and its file is replaced in its folder", room.get("folder/file") != OLD and os.listdir(room.path("folder")) == ["file"]
    new = room.get("folder/file")
    os.chmod(room.path("folder"), 0o755)
    room.put(**{"kept.part": OLD})
    done = room.run(*words, "--save-to=kept")
    yield "a file of a name beside it is nobody's", done == (0, b"", b"") and room.get("kept.part") == OLD and room.get("kept") == new


def rights(room, r):
    words = keeping_calls(room, r)["follow"][0]
    for mode in (0o600, 0o640, 0o444, 0o664):
        room.put(kept=OLD)
        os.chmod(room.path("kept"), mode)
        done = room.run(*words, "--save-to=kept")
        yield f"mode {mode:o} stays", done == (0, b"", b"") and stat.S_IMODE(os.stat(room.path("kept")).st_mode) == mode
        os.remove(room.path("kept"))
    for mask in (0o022, 0o077, 0o002):
        done = room.run(*words, "--save-to=kept", preexec_fn=lambda: os.umask(mask))
        yield f"a new file under {mask:o}", done == (0, b"", b"") and stat.S_IMODE(os.stat(room.path("kept")).st_mode) == 0o666 & ~mask
        os.remove(room.path("kept"))
    if os.geteuid() == 0:
        room.put(kept=OLD)
        os.chown(room.path("kept"), 65534, 65534)
        done = room.run(*words, "--save-to=kept")
        told = os.stat(room.path("kept"))
        yield "owner and group stay, where the caller may give them", done == (0, b"", b"") and (told.st_uid, told.st_gid) == (65534, 65534)
    else:
        os.mkdir(room.path("locked"))
        os.chmod(room.path("locked"), 0o555)
        said = room.run(*words, "--save-to=locked/kept")
        yield "a folder without the right to write", said == (1, b"", b"refused 132 file locked/kept\n")


def own_names(room, r):
    """Names beside the file that would be this process's own are taken: a link to another file, and a file."""
    words = keeping_calls(room, r)["follow"][0]

    def take_names():
        os.symlink("victim", f".kept.{os.getpid()}-0.new")
        with open(f".kept.{os.getpid()}-1.new", "wb") as file:
            file.write(OLD)

    for there in ({}, {"kept": OLD}):
        room.put(victim=OLD, **there)
        done = room.run(*words, "--save-to=kept", preexec_fn=take_names)
        taken = [it for it in room.left_beside() if it != "kept"]
        yield "names that are taken are passed over", done == (0, b"", b"") and len(taken) == 2 and room.get("kept") != OLD
        yield "no link is followed to another file", room.get("victim") == OLD and all(room.get(it) == OLD for it in taken)
        for it in [*taken, "kept"]:
            os.remove(room.path(it))
    long = "k" * 255
    done = room.run(*words, f"--save-to={long}")
    yield "a name as long as the system lets it be", done == (0, b"", b"") and os.path.getsize(room.path(long)) > 0


# ---- two calls, and calls of the system that fail


def preloading(room, **told):
    return {**os.environ, "LD_PRELOAD": preloaded.library(room.place, "hold_calls"), **told}


def calls_of(room, *words):
    """How many calls of the system concern the files of a run."""
    ran = room.run(*words, env=preloading(room, COUNT_CALLS=room.path("calls")))
    assert ran[0] == 0, ran
    return int(room.get("calls"))


def held_before(room, call, words, then):
    """Runs the program, held before that call of the system, while something else is done; answers how it ended, and that."""
    ran = subprocess.Popen([room.built, *words], cwd=room.place, stdout=subprocess.PIPE, stderr=subprocess.PIPE, env=preloading(room, HOLD_CALL=str(call)))
    os.waitid(os.P_PID, ran.pid, os.WSTOPPED | os.WEXITED | os.WNOWAIT)
    between = then(ran)
    if ran.poll() is None:
        ran.send_signal(signal.SIGCONT)
    out, err = ran.communicate(timeout=SECONDS)
    return (ran.returncode, out, err), between


def two_calls(room, r):
    """One call is held before each of its calls of the system, and another one, over longer feeds, is made meanwhile."""
    feeds = two_feeds(r, 8)
    room.put(workflow=making.workflow("-80", "80-"), **feeds(8))
    room.put(**{f"short_{name}": data for name, data in feeds(4).items()})
    short = ["follow", "--alone", "--save-to=kept", "workflow", "short_lower", "short_upper"]
    whole = ["follow", "--alone", "--save-to=kept", "workflow", "lower", "upper"]
    changed, done = (1, b"", b"refused 129 file kept\n"), (0, b"", b"")
    # (a checkpoint that is read behind the other call is that of a feed which the shorter one only begins)
    longer = (1, b"", b"refused 118 stream 0\n")
    for title, old, extra in (("a new file", None, []), ("a file", OLD, []), ("a checkpoint", "checkpoint", ["--checkpoint=kept"])):
        if os.path.exists(room.path("kept")):
            os.remove(room.path("kept"))
        assert room.run(*whole) == done
        of_whole = room.get("kept")
        os.remove(room.path("kept"))
        assert room.run(*short) == done
        of_short = room.get("kept")

        def reset():
            if old is None:
                if os.path.exists(room.path("kept")):
                    os.remove(room.path("kept"))
            else:
                room.put(kept=of_short if old == "checkpoint" else old)

        reset()
        count, right, ends = calls_of(room, *short, *extra), 0, []
        for call in range(1, count + 1):
            reset()
            ended, other = held_before(room, call, [*short, *extra], lambda _: room.run(*whole, *extra))
            now = room.get("kept")
            if other == done:
                # the held call began behind the other one, was found out, or had ended its work before
                right += now == of_whole or (call == 1 and not extra and now == of_short and ended == done)
                ends.append(ended)
            else:
                right += other == changed and now == of_short and ended == done
            right -= room.left_beside() != ["kept"]
        # (without a checkpoint the first call is held before it looks at the file; from there on it is found out until it is done)
        began = longer if extra else done
        found_out = list(dropwhile(lambda it: it == began, ends))
        behind = list(dropwhile(lambda it: it == changed, found_out))
        in_turn = changed in found_out and all(it == done for it in behind)
        yield f"{title}: held before each of {count} calls of the system, neither undoes the other", right == count and in_turn


def failing_calls(room, r):
    """Each call of the system that concerns files fails in its turn."""
    words = keeping_calls(room, r)["follow"][0] + ["--save-to=kept"]
    assert room.run(*words) == (0, b"", b"")
    new = room.get("kept")
    for old in (None, OLD):

        def reset():
            for it in room.left_beside():
                os.remove(room.path(it))
            if old:
                room.put(kept=old)

        reset()
        count, right = calls_of(room, *words), 0
        for call in range(1, count + 1):
            for error in (5, 28):
                reset()
                ran = room.run(*words, env=preloading(room, FAIL_CALL=str(call), FAIL_WITH=str(error)))
                beside = room.left_beside()
                now = room.get("kept") if "kept" in beside else None
                whole = now in (old, new) and (ran[0] != 0 or now == new)
                told = ran in ((0, b"", b""), (1, b"", b"refused 132 file kept\n"), (1, b"", b"refused 129 file kept\n")) or (ran[0] == 1 and ran[2].startswith(b"refused 131 file "))
                # a name that can't be taken away stays
                clean = [it for it in beside if it != "kept"] == [] or (ran[0] == 0 and old is None)
                right += whole and told and clean
        yield f"each of {count} calls of the system fails: the file is old or whole, and nothing beside it", right == 2 * count


def killed_at_each(room, r):
    words = keeping_calls(room, r)["follow"][0] + ["--save-to=kept"]
    assert room.run(*words) == (0, b"", b"")
    new, count, right = room.get("kept"), calls_of(room, *words), 0
    for call in range(1, count + 1):
        room.put(kept=OLD)
        held_before(room, call, words, lambda ran: ran.kill())
        right += room.get("kept") in (OLD, new)
    yield f"killed before each of {count} calls of the system: the old file or the new one", right == count
    yield "and the next call is not in their way", room.run(*words) == (0, b"", b"") and room.get("kept") == new


# ---- progress

GROUPS = 4000
LINE = r"\d+ %, \d+ of {of} groups, \d+ groups a second, \d+:\d\d gone(, \d+:\d\d to come)?"
ERASED = "\r\x1b[K"


def with_steps(room, milliseconds, **more):
    """The environment of a program whose clock goes on by so much each time it is read."""
    return {**os.environ, "LD_PRELOAD": preloaded.library(room.place, "step_clock"), "STEP_CLOCK": str(milliseconds), "TERM": "xterm", **more}


def clock(milliseconds):
    seconds = milliseconds // 1000
    return f"{seconds // 60}:{seconds % 60:02}" if seconds < 3600 else f"{seconds // 3600}:{seconds // 60 % 60:02}:{seconds % 60:02}"


def lines_of_steps(step, streams, of, pause):
    """What is told of so many groups that are read one after another, where each reading of the clock is a step behind the
    one before: one was read before the streams are told of, one for each of these, and one for each group."""
    said, told = [], 0
    for done in range(1, of + 1):
        gone, run = step * (streams + done), step * done
        if gone // pause > told:
            told = gone // pause
            line = f"{100 * done // of} %, {done} of {of} groups, {1000 * done // run} groups a second, {clock(gone)} gone"
            said.append(f"{line}, {clock(run * (of - done) // done)} to come")
    return said


def last_line(room, dump):
    """What `follow` tells at last, by what `status` says of its checkpoint."""
    places = re.findall(rb" at (\S+)$", room.run("status", "kept")[1], re.MULTILINE)
    rows = len(re.findall(rb"^x", dump, re.MULTILINE))
    return b"followed 2 streams: %d groups, %d rows, at %s, at %s\n" % (2 * GROUPS, rows, *places[:2])


def progress(room, r):
    feeds = two_feeds(r, GROUPS)
    room.put(workflow=making.workflow("-80", "80-"), **feeds(GROUPS))
    names = ["workflow", "lower", "upper"]
    wanted = room.run("run", *names)
    assert wanted[0] == 0 and room.follow() == (0, b"", b"")
    kept, last, stepped = room.get("kept"), last_line(room, wanted[1]), with_steps(room, 100)
    lines = "".join(f"{it}\n" for it in lines_of_steps(100, 2, 2 * GROUPS, 60000)).encode()
    assert lines.count(b"\n") == 13
    each = re.compile(f"({LINE.format(of=2 * GROUPS)}\n)*".encode())
    follow = ["follow", "--save-to=kept"]
    yield "without the word nothing is told into a file", room.run("run", *names, env=stepped) == wanted and room.run(*follow, *names, env=stepped) == (0, b"", b"")
    yield "with --quiet neither", room.run("run", "--progress", "--quiet", *names, env=stepped) == wanted
    yield "a run tells each minute, one stream after another", room.run("run", "--alone", "--progress", *names, env=stepped) == (0, wanted[1], lines)
    said = room.run("run", "--progress", *names, env=stepped)
    yield "and in threads", said[:2] == wanted[:2] and each.fullmatch(said[2]) and said[2].count(b"\n") in (12, 13)
    room.put(kept=OLD)
    yield "follow tells the same, and where it stands", room.run(*follow, "--alone", "--progress", *names, env=stepped) == (0, b"", lines + last) and room.get("kept") == kept
    said = room.run(*follow, "--progress", "--dump", *names, env=stepped)
    yield "and in threads", said[:2] == wanted[:2] and said[2].endswith(last) and each.fullmatch(said[2].removesuffix(last)) and room.get("kept") == kept
    of_one = "".join(f"{it}\n" for it in lines_of_steps(100, 1, GROUPS, 60000)).encode()
    said = room.run(*follow, "--only=1", "--progress", *names, env=stepped)
    yield "of one stream alone", said[:2] == (0, b"") and said[2].startswith(of_one + b"followed 2 streams: 4000 groups, ") and said[2].count(b"\n") == of_one.count(b"\n") + 1
    room.put(**feeds(GROUPS - 1000))
    assert room.follow() == (0, b"", b"")
    room.put(**feeds(GROUPS))
    of_rest = "".join(f"{it}\n" for it in lines_of_steps(100, 2, 2000, 60000)).encode()
    said = room.run(*follow, "--checkpoint=kept", "--alone", "--progress", *names, env=stepped)
    yield "of what a checkpoint has no groups are told", said == (0, b"", of_rest + last) and room.get("kept") == kept
    room.put(upper=making.UPPER[:-1])
    said, without = (room.run("run", "--alone", *how, *names, env=stepped) for how in (["--progress"], []))
    yield "a refusal is the same", said == without and said[0] == 1
    room.put(**(feeds(GROUPS) | {"lower": feeds(GROUPS)["upper"]}))
    said, without = (room.run("run", "--alone", *how, *names, env=stepped) for how in (["--progress"], []))
    yield "also one of a stream on its way", said[:2] == without[:2] == (1, b"") and said[2].endswith(without[2]) and each.fullmatch(said[2].removesuffix(without[2]))


FRAME = re.compile("\r\x1b\\[\\?7l(.*?)\x1b\\[K\x1b\\[\\?7h")


def looks(width, lines):
    """Whether lines that are drawn one over the other never take more than one line, and leave nothing once they are taken away."""
    screen = terminal.Screen(width)
    alone = [screen.write(f"\r\x1b[?7l{it}\x1b[K\x1b[?7h").lines == [it[: width - 1]] for it in lines]
    return all(alone) and screen.write(ERASED).lines == [""]


def on_a_terminal(room, r):
    """Both widths: a line that fits, and one that doesn't."""
    room.put(workflow=making.workflow("-80", "80-"), **two_feeds(r, GROUPS)(GROUPS))
    names, stepped = ["workflow", "lower", "upper"], with_steps(room, 100)
    wanted = room.run("run", *names)
    assert room.follow() == (0, b"", b"")
    kept, last, of_all = room.get("kept"), last_line(room, wanted[1]).decode(), lines_of_steps(100, 2, 2 * GROUPS, 250)

    def run(width, *words, env=stepped, **how):
        status, said, shown = terminal.run([room.built, *words, *names], width, cwd=room.place, env=env, **how)
        return status, said, shown.replace("\r\n", "\n")

    for width in (100, 40):
        for words, out, behind in ((["run"], wanted[1], ""), (["run", "--alone"], wanted[1], ""), (["follow", "--save-to=kept"], b"", last)):
            room.put(kept=OLD)
            status, said, shown = run(width, *words)
            lines = FRAME.findall(shown)
            whole = "".join(f"\r\x1b[?7l{it}\x1b[K\x1b[?7h" for it in lines) + ERASED + behind
            each = all(re.fullmatch(LINE.format(of=2 * GROUPS), it) for it in lines)
            yield f"{' '.join(words)} draws a line anew, {width} wide", (status, said, shown) == (0, out, whole) and each and len(lines) > 3000
            yield "and takes no other line", looks(width, lines)
            yield "as it is known where streams run one after another", "--alone" not in words or lines == of_all
    yield "and the checkpoint is the same", room.get("kept") == kept
    status, _, shown = run(80, "run", streams=("stdout", "stderr"))
    yield "the rows stand alone behind it", status == 0 and shown.endswith(ERASED + wanted[1].decode()) and FRAME.sub("", shown) == ERASED + wanted[1].decode()
    yield "with --quiet nothing is drawn", run(80, "run", "--quiet") == (0, wanted[1], "")
    yield "on a dumb one neither", run(80, "run", env={**stepped, "TERM": "dumb"}) == (0, wanted[1], "")
    yield "nor on one of no name", run(80, "run", env={name: it for name, it in stepped.items() if name != "TERM"}) == (0, wanted[1], "")
    minutes = "".join(f"{it}\n" for it in lines_of_steps(100, 2, 2 * GROUPS, 60000))
    yield "there --progress is as into a file", run(80, "run", "--alone", "--progress", env={**stepped, "TERM": "dumb"}) == (0, wanted[1], minutes)
    room.put(lower=room.get("upper"))
    refused = room.run("run", "--alone", *names)
    status, said, shown = run(80, "run", "--alone")
    yield "a refusal's line stands alone behind it", (status, said) == refused[:2] and status == 1 and FRAME.sub("", shown) == ERASED + refused[2].decode()


def alone_on_a_terminal(room, r):
    """The program without words, where standard input is a terminal: it doesn't wait for a feed to be typed."""
    help_ = room.run("-h")
    said = terminal.run([room.built], 80, streams=("stdin",), cwd=room.place)
    yield "without words the short help is printed where a feed would be typed", help_[0] == 0 and said == (*help_[:2], "")
    yield "and else a feed is read", room.run(stdin=b"") == (0, b"", b"")


def of_listed_columns(room, r, rounds=10):
    """A target that keeps two columns in another order: what the plain model saves at the feeds' ends, wherever it stood."""
    workflow, alike = making.workflow("-80", "80-", match="t", text="select v, id from t"), 0
    for _ in range(rounds):
        feeds = two_feeds(r, 6)
        board = Board(*program.opened(False, workflow, feeds(6).values()))
        for s in range(2):
            board.fill(s, 1000, 100, 4)
        room.put(workflow=workflow, **feeds(r.randrange(6)))
        assert room.follow()[0] == 0
        room.put(**feeds(6))
        ran = room.follow("--checkpoint=kept", "--dump", *r.choice(ENDS))
        alike += ran == (0, board.dump(), b"") and room.get("kept") == checkpoint.save(board)
    yield f"{rounds} checkpoints of listed columns are moved on to the model's", alike == rounds


KEEPING = (misnamed, kept_by_each, linked, rights, own_names, two_calls, failing_calls, killed_at_each)
NIGHTS = (nights, nights_with_a_checkpoint, nights_with_a_move)
PARTS = (from_nothing, from_anywhere, again_and_again, only_some, up_to_positions, refused, cut_short, killed, *KEEPING, progress, on_a_terminal, alone_on_a_terminal, of_listed_columns, *NIGHTS)
NOBODY = 65534


def as_another_user(built):
    """What a file is kept as, once more by a user who may do less than root. Answers how many checks passed and failed; none
    where that user has no Python."""
    with tempfile.TemporaryDirectory(prefix="vrepl-follow-") as place:
        os.chmod(place, 0o755)
        tests = os.path.join(place, "tests")
        shutil.copytree(preloaded.TESTS, tests, ignore=shutil.ignore_patterns("cases", "__pycache__"))
        program = shutil.copy(built, place)
        folder = os.path.join(place, "temporary")
        os.mkdir(folder, 0o777)
        os.chmod(folder, 0o777)
        words = ["/usr/bin/python3", os.path.join(tests, "run_follow.py"), program, "--keeping"]
        try:
            ran = subprocess.run(words, capture_output=True, text=True, user=NOBODY, group=NOBODY, extra_groups=[], env={**os.environ, "TMPDIR": folder}, timeout=900)
        except OSError as fault:
            print(f"not run as another user: {fault}")
            return 0, 0
        counted = re.search(r"(\d+) passed, (\d+) failed$", ran.stdout.strip())
        print("as another user:", ran.stdout + ran.stderr[-2000:], sep="\n", end="")
        return (int(counted[1]), int(counted[2])) if counted else (0, 1)


def main(built, parts):
    passed = failed = 0
    r = random.Random(1)
    for part in parts:
        with tempfile.TemporaryDirectory(prefix="vrepl-follow-") as place:
            for title, holds in part(Room(built, place), r):
                passed, failed = passed + bool(holds), failed + (not holds)
                print(f"  {title}" if holds else f"FAILED {title}")
    if parts is PARTS and os.geteuid() == 0:
        passed, failed = (ours + theirs for ours, theirs in zip((passed, failed), as_another_user(built)))
    print(f"{passed} passed, {failed} failed")
    return 1 if failed else 0


if __name__ == "__main__":
    if len(sys.argv) not in (2, 3) or sys.argv[1] == "--help" or sys.argv[2:] not in ([], ["--keeping"]):
        sys.exit(__doc__)
    sys.exit(main(sys.argv[1], KEEPING if sys.argv[2:] else PARTS))
