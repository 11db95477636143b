#!/usr/bin/env python3
"""Runs the built program over the cases of tests/cases and compares what it did with what is wanted.

usage: tests/run_cases.py PROGRAM [NAME..]

A case is a folder of tests/cases with these files, each of which may be missing:

    args     the words, one a line                      missing: no words
    stdin    standard input                             missing: empty
    input    a file that is standard input in place of stdin, named from the folder that it runs in;
             or a folder, which can be opened and not read
    files/   what lies in that folder                   missing: nothing
    output   'closed', or a file such as /dev/full: where standard output goes in place of a pipe
    stdout   the wanted standard output                 missing: nothing; SUM is the sum of the program's sources
    stderr   the wanted standard error                  missing: nothing, and for status 2 any text
    status   the wanted status                          missing: 0

It runs in a copy of files/, which has a copy of the repository's examples/ too. The last line is
'N passed, M failed'.
"""
import contextlib
import os
import re
import shutil
import subprocess
import sys
import tempfile

TESTS = os.path.dirname(os.path.abspath(__file__))
CASES = os.path.join(TESTS, "cases")
EXAMPLES = os.path.join(os.path.dirname(TESTS), "examples")
SECONDS = 60
SUM = re.compile(rb"(?<=sources )[0-9a-f]{64}")


def read(folder, name, missing):
    try:
        with open(os.path.join(folder, name), "rb") as file:
            return file.read()
    except FileNotFoundError:
        return missing


class Case:
    """One case: what the program is given, and what is wanted of it."""

    def __init__(self, name):
        self.name = name
        self.folder = os.path.join(CASES, name)
        args = read(self.folder, "args", b"")
        self.words = args.removesuffix(b"\n").split(b"\n") if args else []
        self.stdin = read(self.folder, "stdin", b"")
        self.input = read(self.folder, "input", b"").decode().strip()
        self.output = read(self.folder, "output", b"").decode().strip()
        self.stdout = read(self.folder, "stdout", b"")
        self.status = int(read(self.folder, "status", b"0"))
        self.stderr = read(self.folder, "stderr", None if self.status == 2 else b"")

    @contextlib.contextmanager
    def place(self):
        """Makes the folder that the case runs in."""
        with tempfile.TemporaryDirectory(prefix="vrepl-case-") as room:
            place = os.path.join(room, "files")
            if os.path.isdir(os.path.join(self.folder, "files")):
                shutil.copytree(os.path.join(self.folder, "files"), place)
            shutil.copytree(EXAMPLES, os.path.join(place, "examples"))
            yield place

    def run(self, program, place, environment=None):
        """Answers the status, standard output and standard error of one run in a place."""
        words = [os.fsencode(program), *self.words]
        how = {"cwd": place, "env": environment, "timeout": SECONDS}
        how |= {"stdout": subprocess.PIPE, "stderr": subprocess.PIPE} | self.standard_input(place)
        if self.output == "closed":
            how |= {"stdout": None, "preexec_fn": lambda: os.close(1)}
        elif self.output:
            how["stdout"] = open(self.output, "wb", buffering=0)
        try:
            ran = subprocess.run(words, **how)
        finally:
            if "stdin" in how:
                os.close(how["stdin"])
        return ran.returncode, SUM.sub(b"SUM", ran.stdout or b""), ran.stderr

    def standard_input(self, place):
        """Answers the words of `subprocess.run` that give the program its standard input."""
        given = os.path.join(place, self.input)
        if self.input and os.path.isdir(given):
            return {"stdin": os.open(given, os.O_RDONLY)}
        return {"input": read(place, self.input, b"") if self.input else self.stdin}

    def faults(self, status, stdout, stderr):
        """Answers a line for each thing that isn't as wanted."""
        found = []
        if status != self.status:
            found.append(f"status {status}, wanted {self.status}")
        if stdout != self.stdout:
            found.append(f"standard output {stdout!r}, wanted {self.stdout!r}")
        if self.stderr is None and not stderr:
            found.append("standard error is empty")
        if self.stderr is not None and stderr != self.stderr:
            found.append(f"standard error {stderr!r}, wanted {self.stderr!r}")
        return found


def names():
    return sorted(it for it in os.listdir(CASES) if os.path.isdir(os.path.join(CASES, it)))


def main(program, *chosen):
    program = os.path.abspath(program)
    passed = failed = 0
    for name in chosen or names():
        case = Case(name)
        try:
            with case.place() as place:
                found = case.faults(*case.run(program, place))
        except subprocess.TimeoutExpired:
            found = [f"no end after {SECONDS} seconds"]
        for line in found:
            print(f"case {name}: {line}")
        passed, failed = passed + (not found), failed + bool(found)
    print(f"{passed} passed, {failed} failed")
    return 1 if failed else 0


if __name__ == "__main__":
    if len(sys.argv) < 2 or sys.argv[1] == "--help":
        sys.exit("usage: tests/run_cases.py PROGRAM [NAME..]")
    sys.exit(main(*sys.argv[1:]))
