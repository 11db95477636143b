#!/usr/bin/env python3
"""Runs the built program over the cases of tests/cases under valgrind.

usage: tests/run_valgrind.py PROGRAM [NAME..]

A case passes if it does what it wants and valgrind finds no error: no byte is read or written outside of a block, freed or
not yet written, and none is given to the system that wasn't written. It takes some minutes, as many cases at once as there
are processors (nice it). The cases whose output is closed are left out, since valgrind
opens a file in its place. Where valgrind isn't installed nothing is run. The last line is 'N passed, M failed'.
"""
import functools
import multiprocessing
import os
import shlex
import shutil
import subprocess
import sys
import tempfile

import run_cases

CHECKS = ["-q", "--error-exitcode=99", "--leak-check=no", "--exit-on-first-error=no"]


def judge(program, name):
    """Answers what is wrong with the case, or nothing."""
    case = run_cases.Case(name)
    with case.place() as place, tempfile.TemporaryDirectory(prefix="vrepl-valgrind-") as room:
        log, wrapped = os.path.join(room, "log"), os.path.join(room, "vrepl")
        with open(wrapped, "w", encoding="utf-8") as it:
            it.write(f"#!/bin/sh\nexec valgrind {shlex.join(CHECKS)} --log-file={shlex.quote(log)} {shlex.quote(program)} \"$@\"\n")
        os.chmod(wrapped, 0o755)
        try:
            found = case.faults(*case.run(wrapped, place))
        except subprocess.TimeoutExpired:
            found = [f"no end after {run_cases.SECONDS} seconds"]
        said = run_cases.read(room, "log", b"no log").decode(errors="replace")
    return "\n".join(found + [said] * bool(said))


def main(program, *chosen):
    program = os.path.abspath(program)
    if not shutil.which("valgrind"):
        print("not tried: valgrind isn't installed\n0 passed, 0 failed")
        return 0
    names = [it for it in chosen or run_cases.names() if run_cases.Case(it).output != "closed"]
    failed = 0
    with multiprocessing.Pool(int(os.environ.get("JOBS", os.cpu_count()))) as pool:
        for name, why in zip(names, pool.imap(functools.partial(judge, program), names)):
            if why:
                print(f"case {name}: {why}")
            failed += bool(why)
    print(f"{len(names) - failed} passed, {failed} failed")
    return 1 if failed else 0


if __name__ == "__main__":
    if len(sys.argv) < 2 or sys.argv[1] == "--help":
        sys.exit("usage: tests/run_valgrind.py PROGRAM [NAME..]")
    sys.exit(main(*sys.argv[1:]))
