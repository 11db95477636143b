"""Positions, key ranges, vindexes, workflows, dumps and the messages of feeds, each read by the proved calls of the library."""
from __future__ import annotations

import ctypes
import json
import os
import uuid as uuids
from collections.abc import Iterable, Iterator, Mapping
from dataclasses import dataclass

from .compared import Comparison, Difference, Dump
from .feed import Feed, Row, row_message
from .library import COUNTS, Counts, address, number, numbers, rooms, text, yes
from .refused import Refused

_CUT_MESSAGE, _BAD_DUMP = 81, 121
_ABSENT = 2**64 - 1

Cells = tuple[bytes | None, ...]
"""A row that was read: the bytes of each column, None for NULL."""


class GtidSet:
    """A set of pairs of a uuid and a number: a position (docs/FORMATS.md, 'Positions').

    It is made of a position's text, kept in its printed form, and equal to another one that has the same pairs.
    """

    __slots__ = ("_text",)

    def __init__(self, position: str | bytes = ""):
        self._text = rooms("vrepl_gtid_set", *text(position))[0]

    def __contains__(self, pair: tuple[str | bytes | uuids.UUID, int]) -> bool:
        """Whether the set has a uuid, as its text, its 16 bytes or a `uuid.UUID`, and a number."""
        given, number = pair
        if isinstance(given, str):
            given = uuids.UUID(given)
        octets = given.bytes if isinstance(given, uuids.UUID) else bytes(given)
        if len(octets) != 16:
            raise ValueError("a uuid has 16 bytes")
        return 0 <= number < 2**64 and yes("vrepl_gtid_contains", *text(self._text), octets, number)

    def __le__(self, other: GtidSet) -> bool:
        """Whether each pair of the set is in the other one."""
        return yes("vrepl_gtid_is_within", *text(self._text), *text(other._text))

    def __lt__(self, other: GtidSet) -> bool:
        return self != other and self <= other

    def __or__(self, other: GtidSet) -> GtidSet:
        """The pairs of both sets."""
        made = GtidSet.__new__(GtidSet)
        made._text = rooms("vrepl_gtid_union", *text(self._text), *text(other._text))[0]
        return made

    def __eq__(self, other: object) -> bool:
        return isinstance(other, GtidSet) and self._text == other._text

    def __hash__(self) -> int:
        return hash(self._text)

    def __bool__(self) -> bool:
        """Whether the set has a pair."""
        return bool(self._text)

    def __str__(self) -> str:
        return self._text.decode()

    def __repr__(self) -> str:
        return f"GtidSet({str(self)!r})"


class KeyRange:
    """A range of keyspace ids, made of a text as `40-80`: from `start` on and before `end`, None where it is open."""

    __slots__ = ("_text", "start", "end")

    def __init__(self, text_of_range: str):
        self._text = text_of_range
        start, end = rooms("vrepl_key_range", *text(text_of_range), count=2)
        self.start: bytes = start
        self.end: bytes | None = end or None

    def __contains__(self, keyspace_id: bytes) -> bool:
        return yes("vrepl_key_range_holds", *text(self._text), *text(keyspace_id))

    @staticmethod
    def tiles(ranges: Iterable[KeyRange | str]) -> bool:
        """Whether ranges lie end to end over all keyspace ids, in this order: then each id is in exactly one of them."""
        given = ",".join(it if isinstance(it, str) else it._text for it in ranges)
        return bool(given) and yes("vrepl_key_ranges_tile", *text(given))

    def __eq__(self, other: object) -> bool:
        return isinstance(other, KeyRange) and (self.start, self.end) == (other.start, other.end)

    def __hash__(self) -> int:
        return hash((self.start, self.end))

    def __str__(self) -> str:
        return f"{self.start.hex()}-{(self.end or b'').hex()}"

    def __repr__(self) -> str:
        return f"KeyRange({str(self)!r})"


class Workflow:
    """A workflow file (docs/FORMATS.md, 'Workflow file'): `Workflow({...})` of its object, or `Workflow(bytes)`."""

    __slots__ = ("_text", "streams")

    def __init__(self, file: bytes | str | Mapping):
        self._text = _file(file)
        try:
            self.streams = number("vrepl_workflow", *text(self._text))
            """How many streams it has."""
        except Refused as refused:
            raise Refused(refused.number, place=Workflow.check(self._text).place) from None

    @staticmethod
    def check(file: bytes | str | Mapping) -> Checked:
        """What is told of a workflow file: why it is refused and where, or what is warned of it."""
        refused = ctypes.c_uint32()
        told = rooms("vrepl_workflow_check", *text(_file(file)), ctypes.byref(refused))[0].decode()
        if refused.value:
            return Checked(refused.value, told, [])
        return Checked(0, "", told.splitlines())

    def rules(self) -> list[str]:
        """The rows of each table that each stream passes, in words: a line each, as `vrepl check` prints it."""
        return rooms("vrepl_workflow_rules", *text(self._text), size=4096)[0].decode().split("\n")[:-1]

    def plan(self, stream: int = 0) -> Plan:
        """What a stream, by its number from 0, has of its keyspace and tables."""
        if not 0 <= stream < 2**64:
            raise Refused(115)
        return _Cursor(rooms("vrepl_plan", *text(self._text), stream, size=4096)[0]).plan()

    def passes(self, stream: int, table: str, row: Row) -> bool:
        """Whether a row of a table, its columns in order, passes the filter of a stream, by its number from 0."""
        if not 0 <= stream < 2**64:
            raise Refused(115)
        return yes("vrepl_row_passes", *text(self._text), stream, *text(table), *text(row_message(row)))

    def key(self, stream: int, table: str, row: Row) -> tuple[bytes, ...]:
        """The key of a row of a table: each part's bytes, a number as its shortest decimal text."""
        if not 0 <= stream < 2**64:
            raise Refused(115)
        return _Cursor(rooms("vrepl_row_key", *text(self._text), stream, *text(table), *text(row_message(row)))[0]).key()

    def __bytes__(self) -> bytes:
        return self._text


def _file(given: bytes | str | Mapping) -> bytes:
    return json.dumps(given).encode() if isinstance(given, Mapping) else text(given)[0]


@dataclass(frozen=True)
class Checked:
    """What is told of a workflow file: the number by which it is refused, 0 for none, where its fault is, as
    `tables[3].key: no list`, and what is warned of one that is read, a line each. It is true where nothing is told."""

    refused: int
    place: str
    warnings: list[str]

    def __bool__(self) -> bool:
        return not self.refused and not self.warnings


@dataclass(frozen=True)
class Table:
    """A table of a plan: its columns in order, each with its type's number, and by name those of its key and those that
    a target keeps, each in its own order."""

    name: str
    columns: dict[str, int]
    key: tuple[str, ...]
    kept: tuple[str, ...]


@dataclass(frozen=True)
class Plan:
    """The plan of a stream of a workflow."""

    keyspace: str
    shard: str
    tables: list[Table]


@dataclass(frozen=True)
class Entry:
    """A row of a dump, with its table and its key: each part's bytes, a number as its shortest decimal text."""

    table: str
    key: tuple[bytes, ...]
    row: Cells


class _Cursor:
    """A place in bytes that the library gave (include/vrepl.h, vrepl_cursor)."""

    def __init__(self, given: bytes):
        self.given, self.at = given, 0

    def number(self) -> int:
        self.at += 8
        return int.from_bytes(self.given[self.at - 8 : self.at], "little")

    def bytes(self) -> bytes | None:
        count = self.number()
        if count == _ABSENT:
            return None
        self.at += count
        return self.given[self.at - count : self.at]

    def row(self) -> Cells | None:
        count = self.number()
        return None if count == _ABSENT else tuple(self.bytes() for _ in range(count))

    def text(self) -> str:
        return (self.bytes() or b"").decode()

    def key(self) -> tuple[bytes, ...]:
        return tuple(self.bytes() or b"" for _ in range(self.number()))

    def table(self) -> Table:
        name = self.text()
        columns = [(self.text(), self.number()) for _ in range(self.number())]
        key, kept = (tuple(columns[self.number()][0] for _ in range(self.number())) for _ in range(2))
        return Table(name, dict(columns), key, kept)

    def plan(self) -> Plan:
        return Plan(self.text(), self.text(), [self.table() for _ in range(self.number())])


@dataclass(frozen=True)
class Change:
    """A change of one row: `before` alone is a delete, `after` alone an insert."""

    table: str
    before: Cells | None
    after: Cells | None


@dataclass(frozen=True)
class Group:
    """The changes of one transaction of the source, with the position behind them."""

    number: int
    position: str
    changes: list[Change]


def groups(feed: bytes | str | os.PathLike | Feed, keyspace: str = "", shard: str = "") -> Iterator[Group]:
    """The groups of a feed, given as its bytes, its path, or a `Feed`. A `Refused` where the feed is."""
    if isinstance(feed, (str, os.PathLike)):
        with open(feed, "rb") as file:
            feed = file.read()
    given = bytes(feed)
    cursor = _Cursor(rooms("vrepl_groups", *text(given), *text(keyspace), *text(shard), size=4 * len(given) + 256)[0])
    return _groups_at(cursor)


def _groups_at(cursor: _Cursor) -> Iterator[Group]:
    while cursor.at < len(cursor.given):
        number, position = cursor.number(), cursor.text()
        yield Group(number, position, [Change(cursor.text(), cursor.row(), cursor.row()) for _ in range(cursor.number())])


GivenWorkflow = Workflow | bytes | str | os.PathLike | Mapping
"""A workflow that was read, its file's bytes or path, or the object that the file's JSON says."""
GivenDump = Dump | bytes | str | os.PathLike
"""A dump, its bytes or its path."""


def _bytes_of(given: GivenWorkflow | GivenDump) -> bytes:
    if isinstance(given, (str, os.PathLike)):
        with open(given, "rb") as file:
            return file.read()
    return _file(given) if isinstance(given, Mapping) else bytes(given)


def entries(workflow: GivenWorkflow, dump: GivenDump) -> list[Entry]:
    """The rows of a dump of a workflow's tables, by rising key. A `Refused` of 121, with the line, where it is none."""
    given = _bytes_of(dump)
    count, line = ctypes.c_size_t(), ctypes.c_size_t()
    try:
        [made] = rooms("vrepl_dump", *text(_bytes_of(workflow)), *text(given), ctypes.byref(count), ctypes.byref(line), size=4 * len(given) + 256)
    except Refused as refused:
        raise _placed(refused, f"line {line.value}") from None
    cursor = _Cursor(made)
    return [Entry(cursor.text(), cursor.key(), cursor.row() or ()) for _ in range(count.value)]


def compare(workflow: GivenWorkflow, source: GivenDump, target: GivenDump, first: int | None = 10) -> Comparison:
    """Two dumps of a workflow's tables compared, with the first keys at which they differ, or with None all of them.

    A `Refused` of 121, with the line, where one is no dump. `vdiff` has the counts of each table beside.
    """
    counts, line, in_target = Counts(), ctypes.c_size_t(), ctypes.c_bool()
    most = 2**64 - 1 if first is None else first
    if not 0 <= most < 2**64:
        raise ValueError("so many differences can't be asked for")
    given = [it for one in (workflow, source, target) for it in text(_bytes_of(one))]
    try:
        [made] = rooms("vrepl_compare", *given, most, ctypes.byref(counts), ctypes.byref(line), ctypes.byref(in_target), size=4096)
    except Refused as refused:
        raise _placed(refused, f"line {line.value} of the {'target' if in_target.value else 'source'}") from None
    cursor, differences = _Cursor(made), []
    while cursor.at < len(made):
        differences.append(Difference(cursor.text(), cursor.key(), cursor.row(), cursor.row()))
    return Comparison(*(getattr(counts, name) for name in COUNTS), differences)


def _placed(refused: Refused, place: str) -> Refused:
    return Refused(refused.number, place=place) if refused.number == _BAD_DUMP else refused


tiles = KeyRange.tiles


def vindex_id(vindex: str, value: bytes | None) -> bytes:
    """The keyspace id of a value, None for NULL, under a vindex by its name, as `numeric` or `binary_md5`."""
    there = b"" if value is None else value
    return rooms("vrepl_vindex_id", *text(vindex), value is None, *text(there), size=max(64, len(there)))[0]


def _spans(feed: bytes) -> Iterator[tuple[int, int]]:
    """Where each message of a feed begins, behind its length, and where it ends."""
    at, place = 0, address(feed)
    while at < len(feed):
        start, length = numbers("vrepl_message", place + at, len(feed) - at)
        yield at + start, at + start + length
        at += start + length


def messages(feed: bytes) -> Iterator[bytes]:
    """The messages of a feed, without their lengths. A `Refused` of 81 at one that is cut short."""
    for start, end in _spans(feed):
        yield feed[start:end]


def whole(feed: bytes) -> int:
    """How many bytes of a feed are whole messages, one behind another from its beginning on."""
    end = 0
    try:
        for _, end in _spans(feed):
            pass
    except Refused as refused:
        if refused.number != _CUT_MESSAGE:
            raise
    return end
