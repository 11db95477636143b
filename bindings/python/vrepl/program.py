"""The program: runs, checks and comparisons, with JSON or bytes in and objects out."""
from __future__ import annotations

import functools
import json
import os
import re
import shutil
import subprocess
import tempfile
from collections.abc import Iterator, Mapping, Sequence
from contextlib import ExitStack, contextmanager
from dataclasses import dataclass

from .compared import Comparison, Difference, Dump, cell
from .feed import Feed
from .refused import NoProgram, Refused

_HERE = os.path.dirname(os.path.abspath(__file__))
_ROOT = os.path.join(_HERE, "..", "..", "..")
_REFUSED = re.compile(r"refused (\d+)")
_LARGE_PAGES = "glibc.malloc.hugetlb=1:glibc.malloc.top_pad=16777216"  # as ./vrepl sets it, unless the caller did

Workflow = str | os.PathLike | bytes | Mapping
"""A workflow: its file's path, its bytes, or the object that the file's JSON says."""
Given = str | os.PathLike | bytes | Feed
"""A feed or a dump: its file's path, its bytes, or a feed that was written by hand."""


class Usage(ValueError):
    """What the program can't be asked: its words on standard error."""


@functools.cache
def program() -> str:
    """The program: that of VREPL_PROGRAM, else the one beside this module, in the checkout, or of the path."""
    given = os.environ.get("VREPL_PROGRAM")
    places = [given] if given else [os.path.join(_HERE, "vrepl"), os.path.join(_ROOT, "vrepl"), shutil.which("vrepl")]
    for place in places:
        if place and os.path.isfile(place) and os.access(place, os.X_OK):
            return os.path.abspath(place)
    raise NoProgram("the program vrepl isn't there: VREPL_PROGRAM names its place")


def _asked(*words: str, given: bytes = b"") -> tuple[int, bytes]:
    ran = subprocess.run([program(), *words], input=given, capture_output=True, check=False, env={"GLIBC_TUNABLES": _LARGE_PAGES, **os.environ})
    if ran.returncode in (0, 3):
        return ran.returncode, ran.stdout
    told = ran.stderr.decode(errors="replace")
    if ran.returncode == 1:
        raise _refused(told)
    raise Usage(told)


def _refused(told: str) -> Exception:
    """What the program said of a refusal, in either form."""
    line = told.split("\n", 1)[0]
    if line.startswith("{"):
        said = json.loads(line)
        words = "".join(f" {word} {value}" for word, value in said["details"].items())
        return Refused(said["refused"], f"refused {said['refused']}{words}", said["place"] or "")
    refused = _REFUSED.match(line)
    return Refused(int(refused[1]), line) if refused else Usage(told)


def words_of(number: int) -> str:
    """What `vrepl explain` prints of a number, or nothing."""
    try:
        return _asked("explain", str(number))[1].decode()
    except Usage:
        return ""


@contextmanager
def _file_of(given: Workflow | Given) -> Iterator[str]:
    """The path of a file that has what is given."""
    if isinstance(given, (str, os.PathLike)):
        path = os.fspath(given)
        yield path if not path.startswith("-") else os.path.join(".", path)
        return
    content = json.dumps(given).encode() if isinstance(given, Mapping) else bytes(given)
    with tempfile.NamedTemporaryFile() as file:
        file.write(content)
        file.flush()
        yield file.name


def _with_files(command: str, options: Sequence[str], workflow: Workflow, *given: Given) -> tuple[int, bytes]:
    with ExitStack() as stack:
        files = [stack.enter_context(_file_of(it)) for it in (workflow, *given)]
        return _asked(command, *options, *files)


@dataclass(frozen=True)
class Checkpoint:
    """A target that `follow` moves on: the checkpoint's bytes, and the target's rows where they were asked for."""

    content: bytes
    dump: Dump | None = None

    def __bytes__(self) -> bytes:
        return self.content


@dataclass(frozen=True)
class Report:
    """What `check` says of a workflow and its feeds: docs/FORMATS.md, 'What `check` prints', has its members."""

    warned: bool
    said: dict


def run(workflow: Workflow, *feeds: Given, hex: bool = False, alone: bool = False) -> Dump:
    """The target that a workflow's streams fill, each from its feed, to the feeds' ends."""
    options = [*(["--hex"] if hex else []), *(["--alone"] if alone else [])]
    return Dump(_with_files("run", options, workflow, *feeds)[1])


def check(workflow: Workflow, *feeds: Given, hex: bool = False, strict: bool = False) -> Report:
    """What stands in a workflow and its feeds, and what of it can't be so; where it is to be strict, what may well be so is warned of too."""
    status, said = _with_files("check", ["--json", *(["--hex"] if hex else []), *(["--strict"] if strict else [])], workflow, *feeds)
    return Report(status == 3, json.loads(said))


def vdiff(workflow: Workflow, source: Given | Dump, target: Given | Dump, first: int = 10) -> Comparison:
    """Two dumps of a workflow's tables compared, with the first keys at which they differ, and the counts of each table."""
    given = [bytes(it) if isinstance(it, Dump) else it for it in (source, target)]
    said = json.loads(_with_files("vdiff", ["--json", "--first", str(first)], workflow, *given)[1])
    row = lambda cells: None if cells is None else tuple(None if it is None else cell(it) for it in cells)  # noqa: E731
    differences = [
        Difference(it["table"], tuple(bytes.fromhex(part[1:]) for part in it["key"]), row(it["source"]), row(it["target"])) for it in said["differences"]
    ]
    counts = ("processed", "matching", "mismatched", "extra_source", "extra_target")
    tables = {it["table"]: {name: it[name] for name in counts} for it in said["tables"]}
    return Comparison(*(said[name] for name in counts), differences, tables)


def follow(
    workflow: Workflow,
    *feeds: Given,
    checkpoint: Checkpoint | bytes | None = None,
    hex: bool = False,
    alone: bool = False,
    dump: bool = False,
    only: Sequence[int] | None = None,
) -> Checkpoint:
    """A target moved on to the feeds' ends, from a checkpoint or from nothing."""
    options = [word for word, is_asked in (("--hex", hex), ("--alone", alone), ("--dump", dump)) if is_asked]
    if only is not None:
        options.append("--only=" + ",".join(map(str, only)))
    with tempfile.TemporaryDirectory() as folder:
        before, behind = os.path.join(folder, "before"), os.path.join(folder, "behind")
        if checkpoint is not None:
            with open(before, "wb") as file:
                file.write(bytes(checkpoint))
            options += ["--checkpoint", before]
        _, printed = _with_files("follow", [*options, "--save-to", behind], workflow, *feeds)
        with open(behind, "rb") as file:
            return Checkpoint(file.read(), Dump(printed) if dump else None)
