#!/usr/bin/env python3
"""Counts what `compact` costs beside `run` over the same feed, and prints a table.

usage: bench/checkpoint/compacted.py PROGRAM [MB]          5 MB if not given

Two feeds are the shapes `short` and `mixed` of bench/shapes/shapes.py; the third has rows of 500 bytes and a tenth of changes behind
them, as the feed of nights.py. Each is compacted to its end. Each line: the feed's bytes and the new feed's; the millions of
instructions that `valgrind --tool=callgrind` counts in `run` and in `compact`, and how many times those of `run` these are; and the
peak memory of both without it.
"""
import os
import re
import subprocess
import sys
import tempfile

sys.dont_write_bytecode = True
HERE = os.path.dirname(os.path.abspath(__file__))
sys.path[:0] = [HERE, os.path.join(HERE, "../shapes")]

import nights  # noqa: E402
import shapes  # noqa: E402

SHOWN = ["short", "mixed"]


def counted(words):
    """The millions of instructions of a run."""
    with tempfile.NamedTemporaryFile(prefix="vrepl-counted-") as told:
        tool = ["valgrind", "-q", "--tool=callgrind", f"--callgrind-out-file={told.name}"]
        subprocess.run([*tool, *words], stdout=subprocess.DEVNULL, check=True)
        with open(told.name, encoding="utf-8") as file:
            return int(re.search(r"^totals: (\d+)", file.read(), re.M)[1]) / 1e6


def shaped(name, megabytes):
    """The words of a shape's files, which another process makes."""
    shape = next(it for it in shapes.SHAPES if it.name == name)
    subprocess.run([sys.executable, shapes.__file__, name, f"{megabytes:g}"], check=True)
    return shapes.paths_of(shape, megabytes)


def of_rows(folder, megabytes):
    """The words of a workflow and a feed of rows of 500 bytes, with a tenth of changes, made by a process of its own."""
    words = [os.path.join(folder, "workflow"), os.path.join(folder, "feed")]
    child = os.fork()
    if child:
        os.waitpid(child, 0)
        return words
    with open(words[0], "w", encoding="utf-8") as file:
        file.write(nights.WORKFLOW)
    source, size = nights.Source(), int(megabytes * 10**6)
    nights.append(source.first_rows(size), words[1])
    nights.append(source.night(size // 10), words[1])
    os._exit(0)


def line_of(program, name, words, new):
    run, compact = [program, "run", "--quiet", *words], [program, "compact", "--quiet", "--save-to", new, *words]
    counts = counted(run), counted(compact)
    peaks = [nights.timed(it, os.devnull)[1] for it in (run, compact)]
    sizes = [f"{os.path.getsize(it):,}" for it in (words[1], new)]
    times = [f"{counts[0]:.1f}", f"{counts[1]:.1f}", f"{counts[1] / counts[0]:.2f}"]
    return [name, *sizes, *times, " / ".join(f"{it / 1e6:.1f}" for it in peaks) + " MB"]


def main():
    program, megabytes = os.path.abspath(sys.argv[1]), float((sys.argv[2:] or ["5"])[0])
    print("| Feed | Its bytes | Compacted | `run` | `compact` | times `run` | Peak memory of `run` / `compact` |")
    print("|---|---|---|---|---|---|---|", flush=True)
    with tempfile.TemporaryDirectory(prefix="vrepl-compacted-") as folder:
        feeds = [(name, lambda name=name: shaped(name, megabytes)) for name in SHOWN] + [("rows of 500 bytes", lambda: of_rows(folder, megabytes))]
        for name, words in feeds:
            print("| " + " | ".join(line_of(program, name, words(), os.path.join(folder, "new"))) + " |", flush=True)


if __name__ == "__main__":
    if not sys.argv[1:] or sys.argv[1] == "--help":
        sys.exit(__doc__)
    main()
