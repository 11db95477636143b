#!/usr/bin/env python3
"""What `rt ci` leaves in a checkout: the proved library of each crate, over which a further crate, or one with an edit, is checked.

usage: scripts/proved.py CRATE

Prints, each with a NUL behind it, the words by which `rattle check` and `rattle build` take the crate over the libraries
that `rt ci` has left below it. `rt` itself would prove those anew: it takes only libraries that bear the stamp of its own
`rt check` and `rt lib`. The variable PROVED has the line of scripts/sources at which `rt ci` passed, as ./test sets it. Where
it is another than that of the sources as they stand, a library isn't there, or one bears a stamp and may be older, the
status is 1 and standard error says why.
"""
import os
import pathlib
import shutil
import subprocess
import sys

ROOT = pathlib.Path(__file__).resolve().parent.parent


class Unproved(Exception):
    """Why no crate can be checked over what is there."""


def kit() -> pathlib.Path:
    """The toolchain's folder."""
    command = shutil.which("rt")
    if not command:
        raise Unproved("the toolchain's command rt isn't installed")
    return pathlib.Path(command).resolve().parent.parent


def crates() -> dict[str, list[str]]:
    """Each crate of crates.txt with what it stands on, crates of this repository and of the kit."""
    uses = {}
    for line in (ROOT / "crates.txt").read_text().splitlines():
        name, colon, used = line.partition("#")[0].partition(":")
        if colon:
            uses[name.split()[0]] = used.split()
    return uses


def below(crate: str, uses: dict[str, list[str]]) -> list[str]:
    """The crates of this repository that a crate stands on, each once."""
    found: dict[str, None] = {}
    left = [crate]
    while left:
        for name in uses[left.pop()]:
            if name in uses and name not in found:
                found[name] = None
                left.append(name)
    return list(found)


def library(crate: str) -> pathlib.Path:
    return ROOT / "crates" / crate / "out" / "rlib" / f"{crate}.rlib"


def hold_to_sources() -> None:
    """Raises Unproved where `rt ci` hasn't passed these sources in this run of ./test."""
    ran = subprocess.run([ROOT / "scripts" / "sources"], stdin=subprocess.DEVNULL, stdout=subprocess.PIPE, text=True, check=False)
    if ran.returncode or os.environ.get("PROVED") != ran.stdout.strip():
        raise Unproved("`rt ci` hasn't passed these sources just now")


def words(crate: str) -> list[str]:
    """The words of a check of the crate, from its folder, over the libraries that `rt ci` left. Raises Unproved where one lacks."""
    uses, of_kit = crates(), kit()
    under = below(crate, uses)
    for name in under:
        if not (library(name) / "format").is_file():
            raise Unproved(f"{name} has no library")
        if (library(name).parent / "stamp").exists():
            raise Unproved(f"the library of {name} is one that `rt check` or `rt lib` made, maybe of other sources")
    root = "src/main.rt" if (ROOT / "crates" / crate / "src" / "main.rt").is_file() else "src/lib.rt"
    made = ["--crate-name", crate, root]
    for name in ["std", *(it for it in uses[crate] if it not in uses)]:
        made += ["--extern", f"{name}={of_kit}/rlibs/{name}.rlib"]
    made += ["-L", f"dependency={of_kit}/rlibs"]
    for name in uses[crate]:
        if name in uses:
            made += ["--extern", f"{name}={library(name)}"]
    for name in under:
        made += ["-L", f"dependency={library(name).parent}"]
    made += ["--antt-project", f"{of_kit}/rattle/logic/antt-project.json", "--logic-built", f"{of_kit}/logic_built"]
    return [*made, "--links", f"{crate}="]


def main(*given: str) -> int:
    if len(given) != 1:
        print(__doc__, file=sys.stderr)
        return 2
    try:
        hold_to_sources()
        sys.stdout.write("".join(f"{it}\0" for it in words(given[0])))
    except Unproved as why:
        print(f"{given[0]}: {why}", file=sys.stderr)
        return 1
    return 0


if __name__ == "__main__":
    sys.exit(main(*sys.argv[1:]))
