#!/usr/bin/env python3
"""Measures `vrepl run` over feeds of many shapes, of one program or before and after, and prints a table.

usage: bench/shapes/measure.py PROGRAM [PROGRAM-BEFORE] [--mb N] [--count] [--rows] [--only SHAPE]..

The shapes are those of shapes.py; their feeds have N millions of bytes in all, 10 if not given, and are kept in
/tmp/vrepl_shapes. Each line is a shape under `run --alone`, and another one under `run` where it has several streams.
Of each program stand there the least and the most of five runs in seconds, MB/s of the least, and the peak memory over
the feeds' bytes; with --count the millions of instructions that `valgrind --tool=callgrind` counts in one run, and how
many that are for each change. Where two programs are given they run in turn. The status is 1 where two dumps of a
shape differ, be it of two programs or of `run` and `run --alone`.
"""
import argparse
import hashlib
import os
import re
import subprocess
import sys
import tempfile
import time

import shapes

TURNS = 5


def made(shape, megabytes):
    """The shape's files. Another process makes them, whose memory isn't counted with that of the runs."""
    paths = shapes.paths_of(shape, megabytes)
    if not all(map(shapes.is_made, paths)):
        subprocess.run([sys.executable, shapes.__file__, shape.name, f"{megabytes:g}"], check=True)
    return paths


def timed(words, out=subprocess.DEVNULL):
    """Seconds, and the peak memory in bytes."""
    start = time.monotonic()
    child = subprocess.Popen(words, stdout=out)
    _, status, usage = os.wait4(child.pid, 0)
    seconds = time.monotonic() - start
    if status != 0:
        sys.exit(f"{' '.join(words[:6])} ended with status {os.waitstatus_to_exitcode(status)}")
    return seconds, usage.ru_maxrss * 1024


def dumped(words):
    """What a run prints: its hash, and how many rows it has."""
    digest, lines = hashlib.sha256(), 0
    with tempfile.TemporaryFile(dir=shapes.FOLDER) as out:
        timed(words, out)
        out.seek(0)
        while piece := out.read(1 << 16):
            digest.update(piece)
            lines += piece.count(b"\n")
    return digest.digest(), lines - 1


def counted(words):
    """The instructions of a run, summed over its threads, and what it prints."""
    with tempfile.NamedTemporaryFile(dir=shapes.FOLDER) as told:
        dump = dumped(["valgrind", "-q", "--tool=callgrind", "--fair-sched=yes", f"--callgrind-out-file={told.name}", *words])
        with open(told.name, encoding="utf-8") as file:
            return int(re.search(r"^totals: (\d+)", file.read(), re.M)[1]), dump


def counts_of(runs, changes):
    """For each run its cells, for all a ratio, and their dumps."""
    counts, dumps = zip(*map(counted, runs))
    return [[f"{it / 1e6:.1f}", f"{it / changes:.0f}"] for it in counts], counts, dumps


def times_of(runs, size):
    """The same by the clock. The first run of each, which gives the dump, isn't counted."""
    dumps = [dumped(words) for words in runs]
    turns = [[timed(words) for words in runs] for _ in range(TURNS)]
    # The kernel counts what this process had when it made the run's, so that no peak below that can be told.
    least_memory = timed(["true"])[1]
    cells, least = [], []
    for several in zip(*turns):
        seconds, memory = [it[0] for it in several], max(it[1] for it in several)
        least.append(min(seconds))
        times = f"{min(seconds):.3f} to {max(seconds):.3f} s, {size / min(seconds) / 1e6:.0f} MB/s"
        cells.append([times, f"{memory / size:.2f}" if memory > least_memory else "-"])
    return cells, least, dumps


def lines_of(shape, programs, args):
    """The shape's lines, and whether all its dumps are the same."""
    workflow, *feeds = made(shape, args.mb)
    size, changes = sum(map(os.path.getsize, feeds)), shapes.count_of(shape, args.mb) * shape.streams
    lines, every = [], []
    for way in [["--alone"], []] if shape.streams > 1 else [["--alone"]]:
        runs = [[it, "run", *way, workflow, *feeds] for it in programs]
        cells, figures, dumps = counts_of(runs, changes) if args.count else times_of(runs, size)
        every += dumps
        line = [shape.name, "alone" if way else "threads", f"{size:,}", f"{changes:,}", f"{dumps[-1][1]:,}", *sum(cells, [])]
        if len(programs) > 1:
            line.append(f"{figures[1] / figures[0]:.3f}")
        same = "same" if len(set(every)) == 1 else "differs"
        lines.append([*line, same if len(every) > 1 else "-"])
    return lines, len(set(every)) == 1


def read_words():
    every = shapes.SHAPES + shapes.BY_ROWS
    parser = argparse.ArgumentParser(epilog="shapes: " + "; ".join(f"{it.name}: {it.told}" for it in every))
    parser.add_argument("program", help="the program, after the change where two are given")
    parser.add_argument("before", nargs="?", help="the program before the change")
    parser.add_argument("--mb", type=float, default=10, metavar="N", help="millions of bytes of a shape's feeds (10)")
    parser.add_argument("--count", action="store_true", help="count instructions, which takes fifty times as long: --mb 3 is enough")
    parser.add_argument("--rows", action="store_true", help="keys in no order, 100,000 to 1,600,000 rows, in place of the other shapes")
    parser.add_argument("--only", action="append", choices=[it.name for it in every], metavar="SHAPE", help="this shape alone; may stand several times")
    args = parser.parse_args()
    wanted = shapes.BY_ROWS if args.rows else shapes.SHAPES
    return args, [it for it in every if it.name in args.only] if args.only else wanted


def main():
    args, wanted = read_words()
    programs = [os.path.abspath(it) for it in (args.before, args.program) if it]
    figures = ["million instructions", "a change"] if args.count else ["time", "memory over the feeds"]
    titles = [f"{when}{it}" for when in (("Before: ", "After: ") if args.before else ("",)) for it in figures]
    heads = ["Shape", "Run", "Bytes", "Changes", "Rows left", *titles, *(["After over before"] if args.before else []), "Dumps"]
    print("| " + " | ".join(it[0].upper() + it[1:] for it in heads) + " |\n|" + "---|" * len(heads), flush=True)
    is_same = True
    for shape in wanted:
        lines, agree = lines_of(shape, programs, args)
        is_same = is_same and agree
        for line in lines:
            print("| " + " | ".join(line) + " |", flush=True)
    return 0 if is_same else 1


if __name__ == "__main__":
    sys.exit(main())
