"""vrepl from Python: what a VReplication target has to be, as an oracle.

Readers and judges go through the shared library (include/vrepl.h): positions, key ranges, vindexes, workflows, dumps, the
messages of feeds. Whole runs go through the program: `run`, `check`, `vdiff`, `follow`. Nothing else than the standard library
is needed. What is refused is a `Refused`, with the number of docs/FORMATS.md and its words.

Each part is read when one of its names is first asked for: `vrepl.wire` comes without the others.
"""
from __future__ import annotations

import importlib
import os
from typing import TYPE_CHECKING

if TYPE_CHECKING:
    from .compared import Comparison, Difference, Dump
    from .feed import Feed
    from .program import Checkpoint, Report, Usage, check, follow, run, vdiff
    from .readers import Change, Checked, Entry, Group, GtidSet, KeyRange, Plan, Table, Workflow
    from .readers import compare, entries, groups, messages, tiles, vindex_id, whole
    from .refused import NoLibrary, NoProgram, Refused, explain

_NAMES = {
    "compared": ["Comparison", "Difference", "Dump"],
    "feed": ["Feed"],
    "program": ["Checkpoint", "Report", "Usage", "check", "follow", "run", "vdiff"],
    "readers": [
        *("Change", "Checked", "Entry", "Group", "GtidSet", "KeyRange", "Plan", "Table", "Workflow"),
        *("compare", "entries", "groups", "messages", "tiles", "vindex_id", "whole"),
    ],
    "refused": ["NoLibrary", "NoProgram", "Refused", "explain"],
}
_PART_OF = {name: part for part, names in _NAMES.items() for name in names}

# The writers of messages stand once, in the recorder. What `pip` installs has that file as vrepl/wire.py; in a checkout the
# module finds it where it stands.
if not os.path.exists(os.path.join(__path__[0], "wire.py")):
    __path__.append(os.path.join(os.path.dirname(os.path.realpath(__file__)), "..", "..", "..", "record", "recorder"))

__all__ = sorted(_PART_OF)  # noqa: PLE0605


def __getattr__(name: str) -> object:
    if name not in _PART_OF:
        raise AttributeError(f"module {__name__!r} has no attribute {name!r}")
    found = getattr(importlib.import_module(f".{_PART_OF[name]}", __name__), name)
    globals()[name] = found
    return found


def __dir__() -> list[str]:
    return sorted({*globals(), *__all__})
