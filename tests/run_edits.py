#!/usr/bin/env python3
"""Shows that contracts refuse wrong bodies.

usage: tests/run_edits.py [CRATE..]
       tests/run_edits.py --whole [CRATE..]

An edit is a file tests/edits/CRATE/NAME.edit, named for the bug that it plants, in the form of a crate's must-fail/: lines
`file: `, `old: ` and `new: ` of one line each, a further pair over what the one before made. A line `at: PATH` names the
function, below the crate, whose contract has to refuse the new body, as the prover names it: a method by its type and
that one's file, wherever it stands, as `set::GtidSet::add`; one of a trait by type and trait, as `printed::GtidSetDisplay::fmt`.

Each edit has such a line, and is tried over the libraries that `rt ci` has just proved (scripts/proved.py): the function and
what it calls are proved, and not the rest of the crate, as `rt ci` does of edits in must-fail/. Edits of one crate are
tried together, but no two of one function. The function may not be proved, and for a fault in its own proof, not only
because another edited one that it calls isn't. Where `rt ci` hasn't just run, `rt check` proves what lies below first.

With --whole each edit is put into must-fail/ of a copy of the tree and tried by `rt must-fail`,
which proves the whole crate with it: for days of a release. The last line is 'N passed, M failed', one an edit.
"""
import collections
import concurrent.futures
import contextlib
import os
import pathlib
import re
import shutil
import subprocess
import sys
import tempfile
import typing

ROOT = pathlib.Path(__file__).resolve().parent.parent
EDITS = ROOT / "tests" / "edits"
PARTS = ("src", "specs", "proofs")
sys.path.insert(0, str(ROOT / "scripts"))
import proved  # noqa: E402


class Edit(typing.NamedTuple):
    crate: str
    name: str
    at: str
    pairs: list[tuple[str, str, str]]


def read(file: pathlib.Path) -> Edit:
    """Reads an edit: where it has to be refused, and its pairs, each with its file."""
    at = name = old = ""
    pairs = []
    for line in file.read_text().split("\n"):
        kind, _, value = line.partition(": ")
        if kind == "at":
            at = value.strip()
        elif kind == "file":
            name = value.strip()
        elif kind == "old":
            old = value
        elif kind == "new" or line == "new:":
            pairs.append((name, old, value))
    return Edit(file.parent.name, file.stem, at, pairs)


def edits(crates: list[str]) -> dict[str, list[Edit]]:
    """The edits of these crates, or of all."""
    found: dict[str, list[Edit]] = {}
    for file in sorted(EDITS.glob("*/*.edit")):
        if not crates or file.parent.name in crates:
            found.setdefault(file.parent.name, []).append(read(file))
    return found


def changed(room: pathlib.Path, edit: Edit) -> dict[pathlib.Path, str] | None:
    """The texts of the files that an edit changes in a copy of its crate, or None where a text that it replaces isn't there once."""
    texts: dict[pathlib.Path, str] = {}
    for name, old, new in edit.pairs:
        text = texts.setdefault(room / name, (room / name).read_text() if (room / name).is_file() else "")
        if text.count(old) != 1:
            return None
        texts[room / name] = text.replace(old, new)
    return texts


def rounds(these: list[Edit]) -> list[list[Edit]]:
    """Parts edits so that no two of one part are of one function."""
    made: list[list[Edit]] = []
    for edit in these:
        free = next((part for part in made if edit.at not in [it.at for it in part]), None)
        if free is None:
            made.append(free := [])
        free.append(edit)
    return made


def proof_at_fault(edit: Edit) -> re.Pattern[str]:
    """A line by which the proof of the function that an edit names is at fault. Of calls in a cycle it stands in a folder of the cycle's name."""
    folder, slash, name = edit.at.replace("::", "/").rpartition("/")
    in_file = rf"(\./)?proofs/{re.escape(folder + slash)}({re.escape(name)}/.*error|\+\w+/.*error: `{re.escape(name)}-)"
    return re.compile(rf"{in_file}|.*Rattle\.{edit.crate}\.proofs\.{re.escape(edit.at.replace('::', '.'))}\.")


def faults(part: list[Edit], status: int | None, said: str) -> list[str]:
    """Why edits of a part aren't refused as wanted, by what the check of the crate with all of them said."""
    crate = part[0].crate
    lines = said.split("\n")
    front = next((it for it in lines if re.search(r"\berror\[[\w-]+\]", it)), None)
    if status != 1 or front or "logic=" in said or not re.search(r"^only=\d+ proved=\d+$", said, re.M):
        return [f"{crate}/{'+'.join(it.name for it in part)}: no verdict, status {status}: {front or said[-600:]}"]
    verdicts = dict(re.findall(r"^fn (\S+): (.*)$", said, re.M))
    told = []
    for edit in part:
        verdict = verdicts.get(f"{crate}::{edit.at}", "").partition("; it calls")[0]
        own = proof_at_fault(edit)
        if verdict == "proved":
            told.append(f"{crate}/{edit.name}: NOT REFUSED: {edit.at} is proved all the same")
        elif not verdict.startswith(("not proved", "no proof")):
            told.append(f"{crate}/{edit.name}: {edit.at}: {verdict or 'the check has no such function'}")
        elif "did not prove" not in verdict and not own.match(verdict) and not any(own.match(it) for it in lines if ": error" in it):
            told.append(f"{crate}/{edit.name}: {edit.at} isn't proved, but for no fault of its own proof: {said[:600]}")
    return told


def copied(crate: str, room: pathlib.Path) -> pathlib.Path:
    for name in PARTS:
        if (ROOT / "crates" / crate / name).is_dir():
            shutil.copytree(ROOT / "crates" / crate / name, room / name)
    return room


def tried(part: list[Edit], checked: typing.Callable[[str, pathlib.Path, list[str]], tuple[int | None, str]]) -> list[str]:
    """Tries edits of one crate together, and each alone where together they tell nothing."""
    crate = part[0].crate
    with tempfile.TemporaryDirectory(prefix="vrepl-edits-") as made:
        room = copied(crate, pathlib.Path(made) / crate)
        for edit in part:
            texts = changed(room, edit)
            if texts is None:
                return [f"{crate}/{edit.name}: a text that it replaces isn't there once"]
            for file, text in texts.items():
                file.write_text(text)
        told = faults(part, *checked(crate, room, [it.at for it in part]))
    if told and len(part) > 1:
        return [line for edit in part for line in tried([edit], checked)]
    return told


def over_gate(crate: str, room: pathlib.Path, paths: list[str]) -> tuple[int | None, str]:
    """Checks functions of a crate's copy over the libraries that `rt ci` has just proved."""
    only = [word for it in paths for word in ("--only", it)]
    ran = subprocess.run([proved.kit() / "bin" / "rattle", "check", *proved.words(crate), "--jobs", "1", *only],
                         cwd=room, stdin=subprocess.DEVNULL, stdout=subprocess.PIPE, stderr=subprocess.STDOUT, text=True, errors="replace", check=False)  # fmt: skip
    return ran.returncode, ran.stdout


def workspace(to: pathlib.Path) -> None:
    """Copies the tree that `rt` works in, with what was proved there by links."""

    def link(one: str, other: str) -> None:
        try:
            os.link(one, other)
        except OSError:
            shutil.copy2(one, other)

    for crate in sorted(it.parent for it in (ROOT / "crates").glob("*/src")):
        copied(crate.name, to / "crates" / crate.name)
        for name in ("rlib", "incremental"):
            with contextlib.suppress(OSError):
                shutil.copytree(crate / "out" / name, to / "crates" / crate.name / "out" / name, copy_function=link)
    for name in ("crates.txt", "HANDLES"):
        shutil.copy(ROOT / name, to)


def over_rt(top: pathlib.Path) -> typing.Callable[[str, pathlib.Path, list[str]], tuple[int | None, str]]:
    """Gives a check by `rt check`, which proves what lies below, in a copy of the tree."""

    def checked(crate: str, room: pathlib.Path, paths: list[str]) -> tuple[int | None, str]:
        folder = top / "crates" / crate
        for name in PARTS:
            shutil.rmtree(folder / name, ignore_errors=True)
            if (room / name).is_dir():
                shutil.copytree(room / name, folder / name)
        ran = subprocess.run(["rt", "check", *(f"--only={it}" for it in paths)], cwd=folder, stdin=subprocess.DEVNULL,
                             stdout=subprocess.PIPE, stderr=subprocess.STDOUT, text=True, errors="replace", check=False)  # fmt: skip
        return ran.returncode, ran.stdout

    return checked


def whole(these: dict[str, list[Edit]]) -> int:
    """Has `rt must-fail` try each edit over the whole of its crate."""
    failed = 0
    with tempfile.TemporaryDirectory(prefix="vrepl-edits-") as made:
        workspace(pathlib.Path(made))
        for crate in these:
            shutil.copytree(EDITS / crate, pathlib.Path(made) / "crates" / crate / "must-fail")
        ran = subprocess.run(["rt", "must-fail", *these], cwd=made, stdin=subprocess.DEVNULL, stdout=subprocess.PIPE, stderr=subprocess.STDOUT, text=True, errors="replace", check=False)
        print(ran.stdout, end="")
        for crate, of_crate in these.items():
            failed += sum(not re.search(rf"must-fail {crate}/{it.name}\.edit: refused, as it must be", ran.stdout) for it in of_crate)
    print(f"{sum(map(len, these.values())) - failed} passed, {failed} failed")
    return int(failed > 0)


def lanes() -> int:
    """How many checks run side by side: as many as ./test lets the toolchain run, or one a processor."""
    given = os.environ.get("RT_JOBS", "")
    return int(given) if given.isdigit() and int(given) else len(os.sched_getaffinity(0))


def main(*given: str) -> int:
    if any(it.startswith("-") and it != "--whole" for it in given):
        print(__doc__, file=sys.stderr)
        return 2
    if not shutil.which("rt"):
        print("wrong bodies: not tried, since the toolchain isn't installed")
        print("0 passed, 0 failed")
        return 0
    these = edits([it for it in given if it != "--whole"])
    if not these:
        print(f"no edits of {' '.join(given)} in tests/edits")
        print("0 passed, 1 failed")
        return 1
    if "--whole" in given:
        return whole(these)
    parts = [part for of_crate in these.values() for part in rounds([it for it in of_crate if it.at])]
    with contextlib.ExitStack() as stack:
        checked: typing.Callable[[str, pathlib.Path, list[str]], tuple[int | None, str]] = over_gate
        many = lanes()
        try:
            proved.hold_to_sources()
            for crate in these:
                proved.words(crate)
        except proved.Unproved as why:
            print(f"{why}: `rt check` proves what lies below the crates first")
            top = pathlib.Path(stack.enter_context(tempfile.TemporaryDirectory(prefix="vrepl-edits-")))
            workspace(top)
            checked, many = over_rt(top), 1
        pool = stack.enter_context(concurrent.futures.ThreadPoolExecutor(many))
        told = [line for lines in pool.map(lambda part: tried(part, checked), parts) for line in lines]
    unnamed = [f"{it.crate}/{it.name}: no line 'at: ' names the function that has to refuse it" for of_crate in these.values() for it in of_crate if not it.at]
    for line in told + unnamed:
        print(line)
    counted = collections.Counter(it.crate for part in parts for it in part)
    print(f"{sum(counted.values()) - len(told)} passed, {len(told + unnamed)} failed")
    return int(bool(told or unnamed))


if __name__ == "__main__":
    sys.exit(main(*sys.argv[1:]))
