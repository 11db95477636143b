#!/usr/bin/env python3
"""Counts the instructions of writing a checkpoint and of going on from it over feeds of many shapes, and prints a table.

usage: bench/checkpoint/counted.py PROGRAM [SHAPE..]          all shapes of bench/shapes/shapes.py if none is given

A shape's feeds have a million bytes in all. Each line: the millions of instructions that `valgrind --tool=callgrind`
counts in `run --alone`, which fills the target and prints its rows, in `follow --alone`, which fills it and writes its
checkpoint, and in `resume` of that checkpoint with a script that prints where the first stream stands; and how many
times those of `run` the other two take.
"""
import os
import re
import subprocess
import sys
import tempfile

# In front of this folder, which has a measure.py of its own.
sys.path.insert(0, os.path.join(os.path.dirname(os.path.abspath(__file__)), "..", "shapes"))

import shapes
from measure import made

MEGABYTES = 1


def counted(words):
    """The millions of instructions of a run."""
    with tempfile.NamedTemporaryFile(dir=shapes.FOLDER) as told:
        tool = ["valgrind", "-q", "--tool=callgrind", f"--callgrind-out-file={told.name}"]
        subprocess.run([*tool, *words], input=b"state 0\n", stdout=subprocess.DEVNULL, check=True)
        with open(told.name, encoding="utf-8") as file:
            return int(re.search(r"^totals: (\d+)", file.read(), re.M)[1]) / 1e6


def line_of(program, shape):
    workflow, *feeds = made(shape, MEGABYTES)
    with tempfile.NamedTemporaryFile(dir=shapes.FOLDER) as saved:
        run = counted([program, "run", "--alone", workflow, *feeds])
        follow = counted([program, "follow", "--alone", "--save-to", saved.name, workflow, *feeds])
        resume = counted([program, "resume", "--checkpoint", saved.name, workflow, *feeds])
    return [shape.name, f"{run:.1f}", f"{follow:.1f}", f"{follow / run:.2f}", f"{resume:.1f}", f"{resume / run:.2f}"]


def main():
    wanted = [it for it in shapes.SHAPES if it.name in (sys.argv[2:] or [it.name])]
    print("| Shape | `run` | `follow` | times `run` | `resume` | times `run` |\n|---|---|---|---|---|---|", flush=True)
    for shape in wanted:
        print("| " + " | ".join(line_of(os.path.abspath(sys.argv[1]), shape)) + " |", flush=True)


if __name__ == "__main__":
    if not sys.argv[1:] or sys.argv[1] == "--help":
        sys.exit(__doc__)
    main()
