#!/usr/bin/env python3
"""Runs the commands that read their inputs and then make something of them, and looks at what they tell of their way.

usage: tests/run_telling.py PROGRAM

By a clock that goes on each time it is read, and that makes sleeps short (tests/step_clock.c), a line comes at each look at the
work. Each of the reading is known by its time and the bytes that it says were read; of the work the percent rises, up to 100,
and its pace and what is to come are within what the time since it began allows: into files and on terminals of two widths
(tests/terminal.py). What else a command gives is what it gives without; `--quiet` and a terminal that is typed on leave it as
that. The last line is 'N passed, M failed': one a check.
"""
import os
import re
import sys
import tempfile
import threading
import time

import terminal
from model import making
from run_follow import ERASED, FRAME, OLD, Room, clock, looks, with_steps

EMPTY, GROUPS, ROWS = 6 << 20, 8_000, 100_000
STEPS = b"state 0\nstate 1\n"


def feed(first, uuid):
    """A long one: messages without an event, and groups that put a row each."""
    return bytes(EMPTY) + making.feed([making.added((first + it, b"%d" % it)) for it in range(GROUPS)], uuid)


def dump(last):
    cells = ((b"%d" % it, last if it == ROWS else b"value of row %d" % it) for it in range(1, ROWS + 1))
    return b"table t\n" + b"".join(b"x%s\tx%s\n" % tuple(it.hex().encode() for it in row) for row in cells)


# ---- what a work is counted in: many parts of a name, and how many there are if that is known; or few, of which there are these


def many(name, there=0):
    return rf"(?P<second>\d+) {name} a second", {there}


def few(*there):
    return r"(?P<done>\d+) of (?P<all>\d+) parts", set(there)


def commands(room):
    """Each command with what it does meanwhile, what that is counted in, its words, its standard input, and the files that it
    reads."""
    room.put(workflow=making.workflow("-80", "80-"), lower=feed(100, making.U), upper=feed(100 + GROUPS, making.V), one=dump(b"a"), other=dump(b"b"))
    feeds = ["workflow", "lower", "upper"]
    followed = room.run("follow", "--save-to=saved", *feeds)
    assert followed[0] == 0, followed
    # A line of the dumps is a part; a feed where it is opened, for each board and for the join; a step of the script.
    rows, steps, joined = 2 * (ROWS + 1), STEPS.count(b"\n"), 4 * 2
    return {
        "check": ("checking", many("groups"), ["check", *feeds], b"", feeds),
        "vdiff": ("comparing", many("rows", rows), ["vdiff", "workflow", "one", "other"], b"", ["workflow", "one", "other"]),
        "vdiff --json": ("comparing", many("rows", rows), ["vdiff", "--json", "workflow", "one", "other"], b"", ["workflow", "one", "other"]),
        "resume": ("resuming", few(4, 4 + steps), ["resume", "--checkpoint=saved", *feeds], STEPS, ["saved", *feeds]),
        "join": ("joining", few(joined), ["join", "workflow", "saved", "saved", *feeds[1:]], b"", ["saved", "saved", *feeds]),
        "join --save-to": ("joining", few(joined), ["join", "--save-to=kept", "workflow", "saved", "saved", *feeds[1:]], b"", ["saved", "saved", *feeds]),
        "compact": ("compacting", many("groups"), ["compact", "workflow", "lower"], b"", feeds[:2]),
        "compact --save-to": ("compacting", many("groups"), ["compact", "--save-to=kept", "workflow", "lower"], b"", feeds[:2]),
    }


def seconds(text):
    return sum(int(it) * 60**place for place, it in enumerate(reversed(text.split(":"))))


def percents(lines, name):
    """Those that lines of the work say."""
    found = (re.match(rf"{name} (\d+) %, ", it) for it in lines)
    return [int(it[1]) for it in found if it]


def are_of_the_work(lines, name, counted, before):
    """Whether these are lines of the work, which began when so many seconds were gone or later: the percent rises, up to 100,
    and the pace and what is to come can be so."""
    said, there = counted
    form = re.compile(rf"{name} (?P<percent>\d+) %, {said}, (?P<gone>[\d:]+) gone(?:, (?P<left>[\d:]+) to come)?")
    for line in lines:
        found = form.fullmatch(line)
        if not found:
            return False
        told = found.groupdict()
        percent, worked = int(told["percent"]), seconds(told["gone"]) + 1 - before
        if "all" in told:
            done, of_all = int(told["done"]), int(told["all"])
            if of_all not in there or percent != 100 * done // of_all or (told["left"] is None) != (done == 0):
                return False
        elif (int(told["second"]) + 1) * worked * 100 < percent * max(there):
            return False
        # (at the pace of so long at most)
        if percent and (told["left"] is None or seconds(told["left"]) * percent > worked * (100 - percent)):
            return False
    rising = percents(lines, name)
    return rising == sorted(rising) and all(it <= 100 for it in rising)


def are_told(lines, name, counted, size, typed, pause):
    """Whether these are lines of a reading of so many bytes, and then of the work, each at a later time; standard input, of
    which the size isn't known beforehand, is read last."""
    first = next((place for place, it in enumerate(lines) if it.startswith(f"{name} ") and "%" in it), len(lines))
    times, seen = [], 0
    for line in lines[:first]:
        found = re.search(r"(\d+) bytes, ([\d:]+) gone", line)
        of = re.match(r"reading \d+ %, (\d+) of", line)
        if not found:
            return False
        read = int(of[1] if of else found[1])
        gone = seconds(found[2]) * 1000
        if of:
            of_all = max(size, read)
            # (a time is told in whole seconds)
            late = [gone + it for it in range(0, 1000, 250)] if pause == 250 else [gone]
            told = [f"reading {100 * read // of_all} %, {read} of {of_all} bytes, {clock(it)} gone, {clock(it * (of_all - read) // read)} to come" for it in late]
        else:
            told = [f"{name} {size + typed} bytes, {clock(gone)} gone"]
        if line not in told or read < seen or not (of or read == size + typed):
            return False
        times.append(gone)
        seen = read
    firsts = [it.startswith("reading ") for it in lines[:first]]
    if firsts != sorted(firsts, reverse=True) or not are_of_the_work(lines[first:], name, counted, times[-1] // 1000 if times else 0):
        return False
    times += [seconds(re.search(r"([\d:]+) gone", it)[1]) * 1000 for it in lines[first:]]
    return times == sorted(times) and (pause == 250 or len(set(times)) == len(times))


def is_whole(lines, name):
    """Of the reading it is told, and of the work, which is seen to go on."""
    return any(it.startswith("reading ") for it in lines) and len(set(percents(lines, name))) > 1


def into_a_file(room):
    stepped = with_steps(room, 60000)
    for title, (name, counted, words, stdin, files) in commands(room).items():
        size = sum(len(room.get(it)) for it in files)
        wanted = room.run(*words, stdin=stdin)
        assert wanted[0] in (0, 3), wanted
        kept = room.get("kept") if "--save-to=kept" in words else None
        yield f"{title} tells nothing into a file without the word", room.run(*words, stdin=stdin, env=stepped) == wanted
        yield "nor with --quiet", room.run(*words, "--progress", "--quiet", stdin=stdin, env=stepped) == wanted
        if kept is not None:
            room.put(kept=OLD)
        status, out, told = room.run(*words, "--progress", stdin=stdin, env=stepped)
        lines = told.decode().splitlines()
        yield "each minute with it", told.endswith(b"\n") and is_whole(lines, name) and are_told(lines, name, counted, size, len(stdin), 60000)
        yield "and gives the same", (status, out) == wanted[:2] and (kept is None or room.get("kept") == kept)


def on_terminals(room):
    stepped = with_steps(room, 250)
    for title, (name, counted, words, stdin, files) in commands(room).items():
        size = sum(len(room.get(it)) for it in files)
        room.put(script=stdin)
        wanted = room.run(*words, stdin=stdin)

        def run(width, *more, env=stepped, **how):
            with open(room.path("script"), "rb") as script:
                return terminal.run([room.built, *words, *more], width, cwd=room.place, stdin=script, env=env, **how)

        for width in (100, 30):
            # (where other programs have the processors, the thread that draws may see too little of the work)
            for _look in range(5):
                status, out, shown = run(width)
                lines = FRAME.findall(shown)
                told = are_told(lines, name, counted, size, len(stdin), 250)
                if not told or is_whole(lines, name):
                    break
            yield f"{title} draws a line anew, {width} wide", told and is_whole(lines, name)
            yield "which is taken away before anything is printed", FRAME.sub("", shown) == ERASED and shown.endswith(ERASED) and looks(width, lines)
            yield "and gives the same", (status, out) == wanted[:2]
        yield "with --quiet nothing is drawn", run(80, "--quiet") == (*wanted[:2], "")
        yield "on a dumb one neither", run(80, env={**stepped, "TERM": "dumb"}) == (*wanted[:2], "")
        status, _, shown = run(80, streams=("stdout", "stderr"))
        printed = FRAME.sub("", shown).replace("\r\n", "\n")
        is_text = title in ("check", "vdiff", "vdiff --json", "resume")
        yield "what is printed stands behind it", status == wanted[0] and (printed == ERASED + wanted[1].decode() if is_text else printed.startswith(ERASED))


def refused(room):
    """The line of a refusal stands alone behind what was told, whatever it is of."""
    stepped = with_steps(room, 250)
    for title, (_, _, words, stdin, _) in commands(room).items():
        room.put(script=stdin, kept=OLD)
        for broken, data in ((words[-1], room.get(words[-1])[:-1] + b"\xff"), ("workflow", b"{")):
            was = room.get(broken)
            room.put(**{broken: data})
            wanted = room.run(*words, stdin=stdin)
            with open(room.path("script"), "rb") as script:
                status, out, shown = terminal.run([room.built, *words], 80, cwd=room.place, stdin=script, env=stepped)
            alone = FRAME.sub("", shown).replace("\r\n", "\n")
            told = ERASED if FRAME.search(shown) else ""
            yield f"{title} of a broken {broken} is refused as without", wanted[0] == 1 and (status, out) == wanted[:2] and alone == told + wanted[2].decode()
            room.put(**{broken: was})


def slow_inputs(room):
    """A pipe, of which the size isn't known; a file that can't be read behind one that was; a script that is typed."""
    names = commands(room)["check"][-1]
    wanted = room.run("check", *names)
    os.mkfifo(room.path("pipe"))

    def write():
        with open(room.path("pipe"), "wb") as pipe:
            for part in (room.get("upper")[:1000], room.get("upper")[1000:]):
                pipe.write(part)
                pipe.flush()
                time.sleep(0.1)

    writer = threading.Thread(target=write)
    writer.start()
    status, out, told = room.run("check", "--progress", *names[:2], "pipe", env=with_steps(room, 60000))
    writer.join()
    lines = told.decode().splitlines()
    first = [it for it in lines if it.startswith("reading")]
    yield "of a pipe it is told how much was read", first and all(re.fullmatch(r"reading \d+ bytes, [\d:]+ gone", it) for it in first)
    yield "and the report is the same, but for its name", (status, out) == (wanted[0], wanted[1].replace(b"file upper ", b"file pipe "))
    stepped = with_steps(room, 250)
    status, out, shown = terminal.run([room.built, "check", *names[:2], "missing"], 80, cwd=room.place, env=stepped)
    yield "a file that isn't there is refused behind it", (status, out) == (1, b"") and FRAME.sub("", shown).replace(ERASED, "").replace("\r\n", "\n") == "refused 131 file missing\n"
    words = ["resume", "--checkpoint=saved", *names]
    status, out, shown = terminal.run([room.built, *words], 80, streams=("stdin", "stderr"), typed=STEPS + b"\x04", cwd=room.place, env=stepped)
    yield "where the script is typed nothing is drawn", (status, out) == room.run(*words, stdin=STEPS)[:2] and "\x1b" not in shown


PARTS = (into_a_file, on_terminals, refused, slow_inputs)


def main(built):
    passed = failed = 0
    for part in PARTS:
        with tempfile.TemporaryDirectory(prefix="vrepl-telling-") as place:
            for title, holds in part(Room(built, place)):
                passed, failed = passed + bool(holds), failed + (not holds)
                print(f"  {title}" if holds else f"FAILED {title}")
    print(f"{passed} passed, {failed} failed")
    return 1 if failed else 0


if __name__ == "__main__":
    if len(sys.argv) != 2 or sys.argv[1] == "--help":
        sys.exit(__doc__)
    sys.exit(main(sys.argv[1]))
