#!/usr/bin/env python3
"""Runs the commands of README.md, docs/TUTORIAL.md and examples/README.md, and holds what they print to the pages.

usage: tests/run_tutorial.py PROGRAM [--write]

In the pages' indented blocks a line that begins `$ ` is a command, and what follows it up to the next one or to the
block's end is what it prints, standard error in its place among it. The commands of a page are run by bash one after
another in one folder, in which `vrepl` is the program and the rest is the checkout's; what they write stays there for
those behind them. With --write the pages get what they print. The last line is 'N passed, M failed': one a command.
"""
import os
import subprocess
import sys
import tempfile

ROOT = os.path.dirname(os.path.dirname(os.path.abspath(__file__)))
PAGES = ("README.md", "docs/TUTORIAL.md", "examples/README.md")


def blocks_of(text):
    """The page in pieces: prose and commands, a command as a pair of its text and of what stands under it."""
    pieces, is_inside = [], False
    for line in text.splitlines(True):
        if line.startswith("    $ "):
            pieces.append((line[6:], ""))
            is_inside = True
        elif is_inside and pieces[-1][0].endswith("\\\n") and not pieces[-1][1] and line.startswith("    "):
            pieces[-1] = (pieces[-1][0] + line[4:], "")
        elif is_inside and line.startswith("    "):
            pieces[-1] = (pieces[-1][0], pieces[-1][1] + line[4:])
        else:
            is_inside = False
            pieces.append(line)
    return pieces


def printed_by(command, folder):
    told = {"PATH": os.environ["PATH"], "HOME": folder, "LC_ALL": "C.UTF-8"}
    how = {"stdin": subprocess.DEVNULL, "stdout": subprocess.PIPE, "stderr": subprocess.STDOUT, "timeout": 60, "check": False}
    said = subprocess.run(["bash", "-c", command], cwd=folder, env=told, **how).stdout.decode(errors="replace")
    return said if said.endswith("\n") or not said else said + "\n"


def indented(text):
    return "".join(f"    {line}" for line in text.splitlines(True))


def tried(page, program):
    """How many commands a page has, what isn't as it says, and the page as it would be."""
    with open(os.path.join(ROOT, page), encoding="utf-8") as file:
        pieces = blocks_of(file.read())
    count, faults, text = 0, [], ""
    with tempfile.TemporaryDirectory(prefix="vrepl-tutorial-") as folder:
        os.symlink(os.path.abspath(program), os.path.join(folder, "vrepl"))
        os.symlink(os.path.join(ROOT, "examples"), os.path.join(folder, "examples"))
        for piece in pieces:
            if isinstance(piece, str):
                text += piece
                continue
            command, wanted = piece
            said = printed_by(command, folder)
            text += indented("$ " + command) + indented(said)
            count += 1
            faults += [f"{page}: {command.strip()}: it prints {said!r} and not {wanted!r}"] if said != wanted else []
    return count, faults if count else [f"{page} has no command"], text


def main(*words):
    if len(words) not in (1, 2) or words[1:] not in ((), ("--write",)):
        sys.exit(__doc__)
    passed = failed = 0
    for page in PAGES:
        count, faults, text = tried(page, words[0])
        passed, failed = passed + count, failed + len(faults)
        for it in faults:
            print(it)
        if words[1:]:
            with open(os.path.join(ROOT, page), "w", encoding="utf-8") as file:
                file.write(text)
    print(f"{passed - failed} passed, {failed} failed")
    return 1 if failed else 0


if __name__ == "__main__":
    if not sys.argv[1:] or sys.argv[1] == "--help":
        sys.exit(__doc__)
    sys.exit(main(*sys.argv[1:]))
