"""Moments: the positions at which rows are compared, and the beginning of a feed that is up to one."""
import os
import re
from bisect import bisect_right
from collections.abc import Iterable
from dataclasses import dataclass
from typing import NamedTuple

from .gtids import LAST, GtidSet
from .note import ends, position_of
from .position import SNAPSHOT_UUID, Gtid, domain_uuid, turn_of
from .stop import Stop

_OF_MARIADB = re.compile(r"\d+-\d+-\d+(\s*,\s*\d+-\d+-\d+)*")


@dataclass(frozen=True)
class Moment:
    """A position, in the terms of one feed."""

    text: str
    _least: GtidSet
    """What a feed has that has come so far."""
    _most: GtidSet
    """What a group has at most that isn't behind it."""

    @classmethod
    def read(cls, text: str, reached: str) -> "Moment":
        """Of MariaDB's text, or of a GTID set, for a feed that has reached a position. ValueError where it is neither."""
        if not _OF_MARIADB.fullmatch(text.strip()):
            said = _read(text)
            return cls(text.strip(), said, said)
        # the domains are those of the feed's last turn; what it has of earlier ones, and of snapshots, is before them
        before = _read(reached).intervals
        turn = max((one for uuid in before if (one := turn_of(uuid)) is not None), default=0)
        past = [uuid for uuid in before if (one := turn_of(uuid)) is not None and one < turn]
        said = {domain_uuid(gtid.domain, turn): [(1, gtid.sequence)] for gtid in map(Gtid.read, text.split(","))}
        return cls(text.strip(), GtidSet(said), GtidSet(said | dict.fromkeys([*past, SNAPSHOT_UUID], [(1, LAST)])))

    def is_reached(self, position: str) -> bool:
        return self._least.is_within(_read(position))

    def has(self, position: str) -> bool:
        return _read(position).is_within(self._most)


def _read(position: str) -> GtidSet:
    return GtidSet.read(position) if position.strip() else GtidSet()


def is_same(one: str, other: str) -> bool:
    """Whether two positions are the same set."""
    return _read(one).is_within(_read(other)) and _read(other).is_within(_read(one))


class End(NamedTuple):
    """Where a feed's groups end that aren't behind a moment."""

    size: int
    position: str
    """That of the last of them."""
    is_amid: bool
    """Whether anything is behind it."""


class Beginning:
    """A feed's file, open, from the end of a group on; its position is `reached`. What is asked is of the whole messages that
    have come so far."""

    def __init__(self, path: str, file: int, start: int, reached: str) -> None:
        self._path, self._file, self._start, self._reached = path, file, start, reached
        self._ends: list[int] = []
        """Where each message ends."""

    def _read_on(self) -> range:
        """The messages."""
        self._ends += ends(self._file, self._ends[-1] if self._ends else self._start, os.fstat(self._file).st_size)
        return range(len(self._ends))

    def _position(self, at: int) -> str | None:
        start = self._ends[at - 1] if at else self._start
        return position_of(self._file, start, self._ends[at])

    def _first(self, messages: Iterable[int]) -> str | None:
        """The position of the first of these messages that ends a group."""
        return next((position for at in messages if (position := self._position(at)) is not None), None)

    def last(self) -> str:
        """The position of the last whole group, empty where there is none."""
        return self._first(reversed(self._read_on())) or self._reached

    def up_to(self, moment: Moment) -> End:
        there = self._read_on()

        def is_behind(at: int) -> bool:
            """Whether the group of a message is; one that isn't whole is behind every moment."""
            position = self._first(there[at:])
            return position is None or not self._has(moment, position)

        count = bisect_right(there, False, key=is_behind)
        if not count:
            return End(self._start, self._reached, bool(there))
        return End(self._ends[count - 1], self._position(count - 1) or "", count < len(there))

    def _has(self, moment: Moment, position: str) -> bool:
        try:
            return moment.has(position)
        except ValueError as fault:
            raise Stop("no feed", f"in {self._path}", str(fault)) from None
