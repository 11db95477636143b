#!/usr/bin/env python3
"""Shows that a program which keeps a borrowed slice past its buffer doesn't compile.

usage: tests/run_borrows.py [NAME..]

A case is a folder of tests/borrows with three files:

    uses           the crates that its callers name, one a line
    refused.txt    a caller with the mistake: each line at which the borrow error stands ends in a
                   comment with the error's code, as // borrow-e0597
    accepted.txt   the same caller without the mistake

In one copy of the workspace all callers with a mistake become modules of a crate of their own, over
the crates that they name. `rt check --only` there must give exactly those errors, each at its file
and line. Then the callers without the mistake take their place, and must be accepted. (`rt try`
takes them through the same type and borrow check, and proves none of the crates below anew.)
The last line is 'N passed, M failed': two checks a case.
"""
import os
import re
import shutil
import subprocess
import sys
import tempfile

TESTS = os.path.dirname(os.path.abspath(__file__))
ROOT = os.path.dirname(TESTS)
CASES = os.path.join(TESTS, "borrows")
CRATE = "borrow_callers"
SECONDS = 600
ERROR = re.compile(r"^src/(\w+)\.rt:(\d+):\d+: error\[([\w-]+)\]", re.M)
WANTED = re.compile(r"// (borrow-e\d+)$")


def text_of(*path):
    with open(os.path.join(*path), encoding="utf-8") as file:
        return file.read()


def write(path, text):
    with open(path, "w", encoding="utf-8") as file:
        file.write(text)


def copy_workspace(to):
    """Copies what a check reads: no work of earlier checks, so nothing is taken from it."""
    left_out = shutil.ignore_patterns("out", "must-fail")
    shutil.copytree(os.path.join(ROOT, "crates"), os.path.join(to, "crates"), ignore=left_out)
    for name in ("crates.txt", "HANDLES"):
        shutil.copy(os.path.join(ROOT, name), to)


def make_crate(room, names, file):
    """Writes the crate of callers, a module a case, in the place of an earlier one."""
    folder = os.path.join(room, "crates", CRATE)
    shutil.rmtree(folder, ignore_errors=True)
    os.makedirs(os.path.join(folder, "src"))
    modules = "".join(f"pub mod {name};\n" for name in names)
    test = "#[cfg(test)]\nmod tests {\n    #[test]\n    fn is_accepted() {}\n}\n"
    write(os.path.join(folder, "src", "lib.rt"), f"#![tactic(auto)]\n\n{modules}\n{test}")
    for name in names:
        write(os.path.join(folder, "src", f"{name}.rt"), text_of(CASES, name, file))
    return folder


def run(folder, *words):
    """Answers the status and all that the command said."""
    how = {"stdin": subprocess.DEVNULL, "stdout": subprocess.PIPE, "stderr": subprocess.STDOUT}
    try:
        ran = subprocess.run(words, cwd=folder, timeout=SECONDS, text=True, errors="replace", **how)
    except subprocess.TimeoutExpired:
        return None, f"no end after {SECONDS} seconds"
    return ran.returncode, ran.stdout


def wanted_of(name):
    """Answers the lines of a refused caller at which an error is wanted, with its code."""
    lines = text_of(CASES, name, "refused.txt").splitlines()
    found = [(at, WANTED.search(line)) for at, line in enumerate(lines, 1)]
    return sorted((at, code[1]) for at, code in found if code)


def refused(room, names):
    """Answers for each case why its caller with the mistake isn't refused as wanted, or nothing."""
    status, said = run(make_crate(room, names, "refused.txt"), "rt", "check", f"--only={CRATE}")
    errors = {name: [] for name in names}
    for name, line, code in ERROR.findall(said):
        errors.setdefault(name, []).append((int(line), code))
    faults = {}
    for name in names:
        wanted, given = wanted_of(name), sorted(errors.pop(name))
        if not wanted:
            faults[name] = "refused.txt names no error"
        elif given != wanted:
            faults[name] = f"errors {given}, wanted {wanted}"
    if status == 0 or any(errors.values()):
        return {name: f"status {status}: {said}" for name in names}
    return faults


def accepted(room, names):
    """Answers for each case why its caller without the mistake isn't accepted, or nothing."""
    status, said = run(make_crate(room, names, "accepted.txt"), "rt", "try", "--test")
    if status == 0:
        return {}
    blamed = {name for name, _, _ in ERROR.findall(said)}.intersection(names) or names
    return {name: f"status {status}: {said}" for name in blamed}


def main(*chosen):
    names = chosen or sorted(it for it in os.listdir(CASES) if os.path.isdir(os.path.join(CASES, it)))
    failed = 0
    with tempfile.TemporaryDirectory(prefix="vrepl-borrows-") as room:
        copy_workspace(room)
        uses = sorted({crate for name in names for crate in text_of(CASES, name, "uses").split()})
        with open(os.path.join(room, "crates.txt"), "a", encoding="utf-8") as file:
            file.write(f"\n{CRATE}: {' '.join(uses)}\n")
        for what, check in (("refused", refused), ("accepted", accepted)):
            for name, why in sorted(check(room, names).items()):
                print(f"borrow {name}: not {what} as wanted: {why}")
                failed += 1
    print(f"{2 * len(names) - failed} passed, {failed} failed")
    return 1 if failed else 0


if __name__ == "__main__":
    sys.exit(main(*sys.argv[1:]))
