#!/usr/bin/env python3
"""Counts what each shape of bench/shapes takes beside the goals of bench/README.md, and prints two tables.

usage: bench/goals/measure.py PROGRAM [--mb N] [--memory-mb N] [--jobs N] [--only SHAPE]..

    bench/goals/measure.py PROGRAM > /tmp/goals && scripts/figures put goals < /tmp/goals && scripts/figures put sizes < /tmp/goals

The first has a line a shape for bench/README.md, the second one for docs/OPERATE.md. Instructions are counted by `valgrind
--tool=callgrind` over feeds of N megabytes (2), memory is the kernel's peak of `run --alone` over feeds of others (10). Beside
`run --alone` stand `show` where there is one feed, `check`, `save` behind a script that offers and applies each group, the `join` of two
checkpoints of half the streams each, where a shape of one stream is dealt out to two, and `vdiff` of the dump with itself beside
`comm -3` in the C locale. What a plain hand-written engine takes stands in engine.json. A figure that misses its goal is bold, and
in the last column stands where its instructions are, crate by crate, those of a change, or what holds its memory, over the feed.
Of a shape that says how many rows it has the first two are measured, over its own feed. It takes some 15 minutes of a processor.
"""
import argparse
import concurrent.futures
import dataclasses
import json
import os
import re
import subprocess
import sys
import tempfile
from collections import Counter

sys.dont_write_bytecode = True
HERE = os.path.dirname(os.path.abspath(__file__))
sys.path.insert(0, os.path.join(HERE, "..", "shapes"))

import shapes  # noqa: E402

TIMED = os.path.join(HERE, "..", "checkpoint", "measure.py")
HEAD = "| Shape | Instructions a change | of the engine's | goal | Peak over the feed | of the engine's | goal | `show`: 0.5 | `check`: 1.5 | `save`: 1.3 | `join`: 1.5 | `vdiff`: 1.0 | Of what isn't met |"
HELD = 2, 5, 7, 8, 9, 10, 11
"""The columns that have a goal."""
SIZES = "| A feed of | Its bytes | Peak of `run --alone` | over the feed |"
RUN, MEMORY = {"wide": 0.6, "ten": 0.6, "short": 0.6}, {"ten": 0.8, "wide": 0.8, "updates": 0.8}
"""At most so much of the engine's instructions, and of its peak; 1.0 of those of the other shapes."""
OTHERS = {"show": 0.5, "check": 1.5, "save": 1.3, "join": 1.5, "vdiff": 1.0}
"""At most so much of the engine's `show`, so many times `run --alone`, and so much of `comm -3`."""
LONGER = {"tables-20": 2.5, "tables-64-wide": 2.5}
"""The shapes whose feeds are so many times as long, since reading their workflow takes more than a megabyte of changes."""
SHOWN = 3
"""How many crates, or functions that hold memory, are told of what isn't met."""


def counted(words, script="", statuses=(0,)):
    """The instructions of a command by the crate that they are in, and what it prints."""
    with tempfile.NamedTemporaryFile(dir=shapes.FOLDER) as told:
        tool = ["valgrind", "-q", "--tool=callgrind", f"--callgrind-out-file={told.name}"]
        done = subprocess.run([*tool, *words], input=script.encode(), stdout=subprocess.PIPE, env=os.environ | {"LC_ALL": "C"}, check=False)
        if done.returncode not in statuses:
            sys.exit(f"{' '.join(words[:6])} ended with status {done.returncode}")
        with open(told.name, encoding="utf-8") as file:
            return by_crate(file), done.stdout


def by_crate(lines):
    """The instructions in a file of callgrind, without those of the calls; those in libraries of C together."""
    names, counts, crate, is_call = {}, Counter(), None, False
    for line in lines:
        if named := re.match(r"(c?)fn=(\(\d+\))(?: (.*))?", line):
            if named[3]:
                names[named[2]] = named[3].partition("::")[0] if "::" in named[3] else "C"
            crate = crate if named[1] else names[named[2]]
        elif line.startswith("calls="):
            is_call = True
        elif line[0] in "0123456789+-*":
            counts[crate] += 0 if is_call else int(line.split()[-1])
            is_call = False
    return counts


def held(words):
    """By function the bytes that a command holds at its most, in blocks that it has asked for."""
    with tempfile.NamedTemporaryFile(dir=shapes.FOLDER) as told:
        tool = ["valgrind", "-q", "--tool=massif", "--depth=1", "--alloc-fn=rattle_alloc", "--alloc-fn=rattle_realloc", f"--massif-out-file={told.name}"]
        subprocess.run([*tool, *words], stdout=subprocess.DEVNULL, check=True)
        with open(told.name, encoding="utf-8") as file:
            peak = file.read().partition("heap_tree=peak")[2].partition("#-")[0]
    held = Counter()
    for size, name in re.findall(r"^ n\d+: (\d+) 0x\w+: ([\w:]+?)(?:::<.*)? \(in", peak, re.M):
        held[name] += int(size)
    return held


def peak_of(words):
    """The most memory of a command in bytes, begun by a process that has little itself."""
    said = subprocess.run([sys.executable, TIMED, "--timed", os.devnull, *words], stdin=subprocess.DEVNULL, stdout=subprocess.PIPE, check=True)
    return int(said.stdout.split()[1])


def made(shape, megabytes):
    """The workflow's file and the feeds'."""
    shapes.make(shape, megabytes)
    return shapes.paths_of(shape, megabytes)


def script_of(shape, megabytes):
    """Each stream copies its tables, which are empty; then each of its groups is offered and applied."""
    tables, groups = shape.tables - shape.unknown + shape.others, shapes.count_of(shape, megabytes) // shape.group
    steps = ([f"open {stream} 0\ncopy {stream} 1\n"] * tables + [f"offer {stream} {it}\nadvance {stream}\n" for it in range(1, groups + 1)] for stream in range(shape.streams))
    return "".join(map("".join, steps))


def joined(program, shape, megabytes, room):
    """What a join of two checkpoints of half the streams each takes, and `run --alone` over the same feeds."""
    if shape.streams == 1:
        shape = dataclasses.replace(shape, name=f"{shape.name}-halves", streams=2)
    workflow, *feeds = made(shape, megabytes)
    half, saved = shape.streams // 2, [os.path.join(room, it) for it in ("lower", "upper")]
    for path, part in zip(saved, (range(half), range(half, shape.streams))):
        of = [feed if stream in part else os.devnull for stream, feed in enumerate(feeds)]
        subprocess.run([program, "follow", "--quiet", "--only", ",".join(map(str, part)), "--save-to", path, workflow, *of], check=True)
    join = [program, "join", "--quiet", "--save-to", os.path.join(room, "both"), workflow, *saved, *feeds]
    return counted(join)[0], counted([program, "run", "--alone", workflow, *feeds])[0]


class Line:
    """A shape's cells, and what is told of those that miss their goal."""

    def __init__(self, shape):
        self.cells, self.missed = [shape.name], []

    def held_to(self, figure, goal, told):
        """A figure, which is bold and told of where it is above its goal; None where it wasn't measured."""
        is_missed = figure is not None and figure > goal
        self.cells.append("" if figure is None else f"**{figure:.2f}**" if is_missed else f"{figure:.2f}")
        if is_missed:
            self.missed.append(told())


def most(title, counts, by, form):
    return f"{title}: " + ", ".join(f"{name} {count / by:{form}}" for name, count in counts.most_common(SHOWN))


def holders(words, feeds):
    return most("memory", held(words), sum(map(os.path.getsize, feeds)), ".1f")


def lines_of(program, shape, args, engine):
    """The shape's cells of the first table, and what the second one says of it."""
    line, theirs, megabytes = Line(shape), engine.get(shape.name, {}), args.mb * LONGER.get(shape.name, 1)
    workflow, *feeds = made(shape, megabytes)
    changes = shapes.count_of(shape, megabytes) * shape.streams
    alone = [program, "run", "--alone"]
    run, dump = counted([*alone, workflow, *feeds])
    line.cells.append(f"{run.total() / changes:,.0f}")
    goal = RUN.get(shape.name, 1.0)
    line.held_to(over(run.total() / changes, theirs.get("run")), goal, lambda: most("`run`", run, changes, ",.0f"))
    line.cells.append(f"{goal}")
    large = made(shape, args.memory_mb)
    size, peak = sum(map(os.path.getsize, large[1:])), peak_of([*alone, *large])
    goal = MEMORY.get(shape.name, 1.0)
    line.cells.append(f"{peak / size:.1f}")
    line.held_to(over(peak / size, theirs.get("peak")), goal, lambda: holders([*alone, workflow, *feeds], feeds) if not shape.rows else "memory: as of `no-order`")
    line.cells.append(f"{goal}")
    if not shape.rows:
        others(line, program, shape, megabytes, theirs.get("show"), run, dump)
    return [*line.cells, *[""] * (HELD[-1] + 1 - len(line.cells)), "; ".join(line.missed)], (shape.told, size, peak)


def over(figure, theirs):
    return figure / theirs if theirs else None


def others(line, program, shape, megabytes, theirs, run, dump):
    """The cells of the other commands."""
    workflow, *feeds = made(shape, megabytes)
    changes, rows = shapes.count_of(shape, megabytes) * shape.streams, dump.count(b"\n")
    show = counted([program, "show", *feeds])[0] if shape.streams == 1 else None
    line.held_to(show and over(show.total() / changes, theirs), OTHERS["show"], lambda: most("`show`", show, changes, ",.0f"))
    with tempfile.TemporaryDirectory(dir=shapes.FOLDER) as room:
        check, _ = counted([program, "check", "--quiet", workflow, *feeds], statuses=(0, 3))
        save, _ = counted([program, "save", "--strict", "--save-to", os.path.join(room, "saved"), workflow, *feeds], script_of(shape, megabytes))
        join, run_of_join = joined(program, shape, megabytes, room)
        for name, counts, beside in (("check", check, run), ("save", save, run), ("join", join, run_of_join)):
            line.held_to(counts.total() / beside.total(), OTHERS[name], lambda name=name, counts=counts: most(f"`{name}`", counts, changes, ",.0f"))
        path = os.path.join(room, "dump")
        with open(path, "wb") as file:
            file.write(dump)
        vdiff, comm = counted([program, "vdiff", "--quiet", workflow, path, path])[0], counted(["comm", "-3", path, path])[0]
        line.held_to(vdiff.total() / comm.total(), OTHERS["vdiff"], lambda: most("`vdiff`, a row", vdiff, rows, ",.0f"))


def main():
    every = [*shapes.SHAPES, *shapes.BY_ROWS[1:]]
    parser = argparse.ArgumentParser(description=__doc__, formatter_class=argparse.RawDescriptionHelpFormatter)
    parser.add_argument("program")
    parser.add_argument("--mb", type=float, default=2, metavar="N")
    parser.add_argument("--memory-mb", type=float, default=10, metavar="N")
    parser.add_argument("--jobs", type=int, default=1, metavar="N", help="so many shapes at a time (1)")
    parser.add_argument("--only", action="append", choices=[it.name for it in every], metavar="SHAPE", help="this shape alone; may stand several times")
    args = parser.parse_args()
    program = os.path.abspath(args.program)
    with open(os.path.join(HERE, "engine.json"), encoding="utf-8") as file:
        engine = json.load(file)["shapes"]
    wanted = [it for it in every if it.name in (args.only or [it.name])]
    head(HEAD)
    with concurrent.futures.ThreadPoolExecutor(args.jobs) as pool:
        found = []
        for cells, size in pool.map(lambda it: lines_of(program, it, args, engine), wanted):
            print_line(cells)
            found.append((cells, size))
    columns = [[it for it in column if it] for column in zip(*(cells for cells, _ in found))]
    print_line(["met by", *(f"{sum('*' not in it for it in column)} of {len(column)}" if at in HELD else "" for at, column in enumerate(columns[1:], 1))])
    print()
    head(SIZES)
    for _, (told, size, peak) in found:
        print_line([told, f"{size:,}", f"{peak / 1e6:.0f} MB", f"{peak / size:.1f}"])
    ratios = [peak / size for _, (_, size, peak) in found]
    print_line(["these, the least and the most", "", "", f"{min(ratios):.1f} to {max(ratios):.1f}"])


def head(columns):
    print(f"{columns}\n|" + "---|" * (columns.count("|") - 1), flush=True)


def print_line(cells):
    print("| " + " | ".join(cells) + " |", flush=True)


if __name__ == "__main__":
    main()
