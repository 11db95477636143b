#!/usr/bin/env python3
"""Measures what the large pages that ./vrepl asks for take and give, and prints a table.

usage: bench/shapes/large_pages.py PROGRAM [--mb N] [--turns N] [--only SHAPE]..

Each shape of shapes.py is run plainly and with the GLIBC_TUNABLES that ./vrepl sets, in turn, after a first run of
each that isn't counted; a shape of several streams in threads too. Of each way stand there the least processor time of
the runs in seconds, with the kernel's, and the peak memory in millions of bytes.
"""
import argparse
import os
import re
import subprocess
import sys

import measure
import shapes

ROOT = os.path.dirname(os.path.dirname(os.path.dirname(os.path.abspath(__file__))))


def large_pages():
    """What ./vrepl sets."""
    with open(os.path.join(ROOT, "vrepl"), encoding="utf-8") as file:
        return re.search(r"GLIBC_TUNABLES-([\w.:=]+)", file.read())[1]


def ran(words, told):
    """Processor time in seconds, and the peak memory in millions of bytes."""
    child = subprocess.Popen(words, stdout=subprocess.DEVNULL, env=os.environ | told)
    _, status, usage = os.wait4(child.pid, 0)
    if status:
        sys.exit(f"{' '.join(words[:6])} ended with status {os.waitstatus_to_exitcode(status)}")
    return usage.ru_utime + usage.ru_stime, usage.ru_maxrss * 1024 / 1e6


def line_of(shape, way, words, turns):
    """A shape's line: plain, with large pages, and the one over the other."""
    ways = [{"GLIBC_TUNABLES": ""}, {"GLIBC_TUNABLES": large_pages()}]
    for told in ways:
        ran(words, told)
    runs = [[ran(words, told) for told in ways] for _ in range(turns)]
    seconds, peaks = ([min(it[at][which] for it in runs) for at in (0, 1)] for which in (0, 1))
    cells = [f"{it:.3f} s" for it in seconds] + [f"{seconds[1] / seconds[0]:.2f}"] + [f"{it:.0f} MB" for it in peaks] + [f"{peaks[1] - peaks[0]:+.0f} MB"]
    return "| " + " | ".join([shape.name, way, *cells]) + " |"


def main():
    every = shapes.SHAPES + shapes.BY_ROWS
    parser = argparse.ArgumentParser()
    parser.add_argument("program")
    parser.add_argument("--mb", type=float, default=10, metavar="N", help="millions of bytes of a shape's feeds (10)")
    parser.add_argument("--turns", type=int, default=7, metavar="N", help="how many runs of each (7)")
    parser.add_argument("--only", action="append", choices=[it.name for it in every], metavar="SHAPE", help="this shape alone; may stand several times")
    args = parser.parse_args()
    print("| Shape | Run | Processor time | with large pages | with over without | Peak | with large pages | more |\n|" + "---|" * 8, flush=True)
    for shape in [it for it in every if it.name in args.only] if args.only else shapes.SHAPES:
        workflow, *feeds = measure.made(shape, args.mb)
        for way in ["alone", "threads"] if shape.streams > 1 else ["alone"]:
            words = [os.path.abspath(args.program), "run", *(["--alone"] if way == "alone" else []), workflow, *feeds]
            print(line_of(shape, way, words, args.turns), flush=True)


if __name__ == "__main__":
    main()
