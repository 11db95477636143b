#!/usr/bin/env python3
"""Counts where the instructions of `vrepl run` go, by `valgrind --tool=callgrind`, and prints a table.

usage: bench/run/shares.py PROGRAM [MB]          5 MB if not given

The feeds are measure.py's, of 1, 2 and 4 streams, alone and in threads. Each figure is in millions of instructions,
with all that is called below, summed over the threads. Counting has no noise and needs no idle machine; under valgrind
one thread runs at a time, so what is spent on waiting isn't what it is without.
"""
import os
import re
import subprocess
import sys
import tempfile

import measure

# A row's title, and the functions whose calls it sums.
PARTS = [
    ("reading the files", ["vrepl_main::input::read_inputs"]),
    ("opening the feeds", ["source_feed::feed::Feed::open"]),
    ("preparing groups", ["source_feed::feed::Feed::prepare"]),
    ("the rows' own copies", ["apply_core::puts::Puts::of_group"]),
    ("the board's steps", [f"apply_core::board::Board::{it}" for it in ("advance_by", "offer", "copy_with_marks")] + ["apply_core::bringing::bring"]),
    ("... seeking places", ["target_tables::spots::spot_of", "target_tables::hints::spot_by"]),
    ("taking the board and putting it back", ["stream_worker::lock::Lock::take", "stream_worker::lock::Lock::put_back"]),
    ("the dump", ["vrepl_main::dump::write_rows"]),
    ("malloc and free, wherever called", ["rattle_alloc", "rattle_realloc", "rattle_dealloc"]),
]
LINE = re.compile(r"\s*([\d,]+) \([ \d.]+%\)\s+([*>])\s+(\S*?:)?(\S.*?)(?: \([\d,]+x\))?(?: \[.*)?$")


def counted(words):
    """The instructions in all, and the calls of a run: who calls, who is called, and the instructions in these calls."""
    with tempfile.TemporaryDirectory(prefix="vrepl-shares-") as room:
        told = os.path.join(room, "told")
        words = ["valgrind", "-q", "--tool=callgrind", "--fair-sched=yes", f"--callgrind-out-file={told}", *words]
        subprocess.run(words, stdout=subprocess.DEVNULL, stderr=subprocess.DEVNULL, check=True)
        words = ["callgrind_annotate", "--inclusive=yes", "--tree=calling", "--threshold=100", told]
        text = subprocess.run(words, stdout=subprocess.PIPE, text=True, check=True).stdout
    calls, caller = [], None
    for line in text.splitlines():
        found = LINE.match(line)
        if not found:
            continue
        count, kind, _, name = found.groups()
        name = re.sub(r"::<.*", "", name.lstrip("?:")).split("'")[0]
        if kind == "*":
            caller = name
        elif caller:
            calls.append((caller, name, int(count.replace(",", ""))))
    total = re.search(r"([\d,]+) \(100.0%\)\s+PROGRAM TOTALS", text)
    return int(total[1].replace(",", "")), calls


def main():
    program = os.path.abspath(sys.argv[1])
    megabytes = float(sys.argv[2]) if sys.argv[2:] else 5
    runs = [(way, streams) for way in (["--alone"], []) for streams in (1, 2, 4)]
    counts = [counted([program, "run", *way, *measure.make(streams, megabytes)]) for way, streams in runs]
    print("| Part | " + " | ".join(f"{streams} {'alone' if way else 'in threads'}" for way, streams in runs) + " |")
    print("|---|" + "---|" * len(runs))
    print("| all | " + " | ".join(f"{total / 1e6:.0f}" for total, _ in counts) + " |")
    for title, names in PARTS:
        sums = [sum(count for caller, name, count in calls if name in names and caller != name) for _, calls in counts]
        print(f"| {title} | " + " | ".join(f"{it / 1e6:.0f}" for it in sums) + " |", flush=True)


if __name__ == "__main__":
    if not sys.argv[1:] or sys.argv[1] == "--help":
        sys.exit(__doc__)
    main()
