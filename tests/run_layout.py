#!/usr/bin/env python3
"""Holds the crates' sources to what the toolchain's gate refuses before it proves anything.

usage: tests/run_layout.py

Each crate's files are in the layout that `rt fmt` gives them, each text that an edit of must-fail/ or tests/edits
replaces stands once in its file, with the function that is to refuse it, and each folder of proofs/ is that of a function which is there. The gate says so
too, but late: of a crate only once those below it are proved, or once it is proved itself. The last line is 'N passed,
M failed': three for each crate.
"""
import concurrent.futures
import filecmp
import os
import pathlib
import re
import shutil
import subprocess
import sys
import tempfile

ROOT = pathlib.Path(__file__).resolve().parent.parent
PARTS = ("src", "specs", "proofs")
PROOFS = ("Answers.antt", "Invariants.antt", "Proof.antt")


def files_of(crate: pathlib.Path) -> list[pathlib.Path]:
    return sorted(file.relative_to(crate) for part in PARTS for file in (crate / part).rglob("*") if file.is_file())


def misplaced(crate: pathlib.Path, room: pathlib.Path) -> list[str]:
    """The files of a crate that `rt fmt` would change, or what it says where it fails; it works on a copy."""
    copy = room / "crates" / crate.name
    for part in PARTS:
        if (crate / part).is_dir():
            shutil.copytree(crate / part, copy / part)
    ran = subprocess.run(["rt", "fmt"], cwd=copy, stdin=subprocess.DEVNULL, capture_output=True, text=True, check=False)
    if ran.returncode:
        return [f"rt fmt: {line}" for line in ran.stderr.splitlines()[:3]]
    return [f"{file}: `rt fmt` lays it out otherwise" for file in files_of(crate) if not filecmp.cmp(crate / file, copy / file, shallow=False)]


def unusable(crate: pathlib.Path) -> list[str]:
    """The texts of edits that don't stand just once in their file as the edits before them leave it, and the functions that aren't there."""
    told = []
    for edit in sorted([*(crate / "must-fail").glob("*.edit"), *(ROOT / "tests" / "edits" / crate.name).glob("*.edit")]):
        name, old, texts = "", None, {}
        for line in edit.read_text().split("\n"):
            kind, _, value = line.partition(": ")
            if kind == "at":
                # (the prover names a method by the file of its type)
                *above, method = value.strip().split("::")
                file = (crate / "src" / (above or ["lib"])[0]).with_suffix(".rt")
                among = (crate / "src").rglob("*.rt") if len(above) > 1 else [file]
                if not file.is_file() or not any(re.search(rf"\bfn {re.escape(method)}\b", it.read_text()) for it in among):
                    told.append(f"{edit.parent.name}/{edit.name}: no function {value.strip()}")
            elif kind == "file":
                name = value.strip()
                texts.setdefault(name, (crate / name).read_text() if (crate / name).is_file() else "")
            elif kind == "old":
                old = value
                if texts[name].count(old) != 1:
                    told.append(f"{edit.parent.name}/{edit.name}: a text stands {texts[name].count(old)} times in {name}: {old.strip()[:60]}")
            elif kind == "new" or line == "new:":
                texts[name] = texts[name].replace(old, value, 1)
    return told


def ownerless(crate: pathlib.Path) -> list[str]:
    """The folders of proofs/ whose function isn't there: in the file that the folder names, or, of a method, in any file of the crate."""
    told = []
    for folder in sorted({file.parent for name in PROOFS for file in (crate / "proofs").rglob(name)}):
        *above, name = folder.relative_to(crate / "proofs").parts
        depth = next((it for it in range(len(above), 0, -1) if (crate / "src" / "/".join(above[:it])).with_suffix(".rt").is_file()), 0)
        if depth and depth == len(above):
            files = [(crate / "src" / "/".join(above)).with_suffix(".rt")]
        else:
            files = (crate / "src").rglob("*.rt")
        # (those of calls in a cycle stand in a folder of the cycle's name)
        begin = rf"#\[cycle\({re.escape(name[1:])}\)\]" if name.startswith("+") else rf"\bfn {re.escape(name)}\b"
        if not any(re.search(begin, file.read_text()) for file in files):
            told.append(f"{folder.relative_to(crate)}: the proof of a function that isn't there")
    return told


def main() -> int:
    if not shutil.which("rt"):
        print("not looked at, since the toolchain is not installed")
        print("0 passed, 0 failed")
        return 0
    crates = sorted(file.parent for file in (ROOT / "crates").glob("*/src"))
    told = 0
    with tempfile.TemporaryDirectory() as made, concurrent.futures.ThreadPoolExecutor(os.cpu_count()) as pool:
        room = pathlib.Path(made)
        shutil.copy(ROOT / "crates.txt", room)
        for crate, layout in zip(crates, pool.map(lambda it: misplaced(it, room), crates)):
            for faults in (layout, unusable(crate), ownerless(crate)):
                told += bool(faults)
                for fault in faults:
                    print(f"crates/{crate.name}/{fault}")
    print(f"{3 * len(crates) - told} passed, {told} failed")
    return int(told > 0)


if __name__ == "__main__":
    sys.exit(main())
