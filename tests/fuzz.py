#!/usr/bin/env python3
"""Compares the built program with the plain model in tests/model over cases that are made at random.

usage: tests/fuzz.py PROGRAM [--seconds N] [--seed N] [--processes N]
       tests/fuzz.py PROGRAM --seed N --case N [--keep FOLDER]

A case is a command with its files: workflows of all kinds of tables, keys, vindexes and filters, feeds in any spelling,
scripts of all steps, checkpoints and dumps, of which some bytes may be broken. It passes if status, standard output and
standard error are what docs/FORMATS.md says, by the model. The seed and the number of each case that fails are printed;
with both the same case is run again, and its files stay in the folder that --keep names. The last line is
'N passed, M failed': one check for all cases, or one failure for each case that fails.
"""
import argparse
import collections
import multiprocessing
import os
import random
import shlex
import subprocess
import sys
import tempfile
import time

from model import program, random_case, refusal

SECONDS = 60
ALIKE = 20


def run(built, place, case):
    for name, data in case.files.items():
        with open(os.path.join(place, name), "wb") as file:
            file.write(data)
    ran = subprocess.run([built, *case.words], input=case.stdin, capture_output=True, cwd=place, timeout=SECONDS, close_fds=False)
    return ran.returncode, ran.stdout, program.without_place(ran.stderr)


def judge(built, place, seed, number):
    """Runs one case, and answers what it was and how the answer differs from the model's."""
    case = random_case.Case(random.Random(f"{seed}/{number}"))
    wanted = program.answers(case.words, case.files, case.stdin)
    try:
        said = run(built, place, case)
    except subprocess.TimeoutExpired:
        said = f"no end after {SECONDS} seconds"
    kind = f"{case.words[0]} {refusal.number_of(said[2])}" if isinstance(said, tuple) else case.words[0]
    is_right = said in wanted
    return kind, is_right, "" if is_right else f"{shlex.join(case.words)}\n  answers {said}\n  wanted  {wanted[:3]}"


def share(given):
    """Runs every Nth case until the time is over."""
    built, seed, first, apart, end = given
    counts, faults = collections.Counter(), []
    with tempfile.TemporaryDirectory(prefix="vrepl-fuzz-", dir="/dev/shm" if os.path.isdir("/dev/shm") else None) as place:
        number = first
        while time.monotonic() < end and len(faults) < ALIKE:
            kind, is_right, why = judge(built, place, seed, number)
            counts[kind] += 1
            faults += [] if is_right else [f"--seed {seed} --case {number}: {why}"]
            number += apart
    return counts, faults


def repeat(built, seed, number, keep):
    with tempfile.TemporaryDirectory(prefix="vrepl-fuzz-") as place:
        if keep:
            os.makedirs(keep, exist_ok=True)
        kind, is_right, why = judge(built, keep or place, seed, number)
        case = random_case.Case(random.Random(f"{seed}/{number}"))
        if keep:
            with open(os.path.join(keep, "stdin"), "wb") as file:
                file.write(case.stdin)
    print(f"{kind}: {shlex.join(case.words)}\n{why}")
    print("1 passed, 0 failed" if is_right else "0 passed, 1 failed")
    return 0 if is_right else 1


def main(given):
    built = os.path.abspath(given.program)
    seed = random.SystemRandom().randrange(10**9) if given.seed is None else given.seed
    if given.case is not None:
        return repeat(built, seed, given.case, given.keep)
    begun = time.monotonic()
    shares = [(built, seed, i, given.processes, begun + given.seconds) for i in range(given.processes)]
    with multiprocessing.Pool(given.processes) as pool:
        said = pool.map(share, shares, chunksize=1)
    counts = sum((it for it, _ in said), collections.Counter())
    faults = [why for _, found in said for why in found]
    for it in faults[:ALIKE]:
        print(f"fuzz: {it}")
    took = time.monotonic() - begun
    print("  " + ", ".join(f"{kind} {count}" for kind, count in sorted(counts.items())))
    print(f"seed {seed}: {counts.total()} cases in {took:.0f} seconds, {counts.total() / took:.0f} a second, {given.processes} processes")
    print(f"{0 if faults else 1} passed, {len(faults)} failed")
    return 1 if faults else 0


if __name__ == "__main__":
    words = argparse.ArgumentParser()
    words.add_argument("program")
    words.add_argument("--seconds", type=float, default=60)
    words.add_argument("--seed", type=int)
    words.add_argument("--processes", type=int, default=os.cpu_count())
    words.add_argument("--case", type=int)
    words.add_argument("--keep")
    sys.exit(main(words.parse_args()))
