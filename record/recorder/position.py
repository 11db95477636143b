"""Positions: MariaDB's domains as the GTID sets that a feed has.

MariaDB numbers the transactions of a domain by one rising sequence, whichever server writes them. So a
domain has one uuid, and everything up to the sequence number N of it is `uuid:1-N`; numbers that the log
doesn't have are in the set too, and never come again. The rows of a snapshot have a uuid of their own,
one number a group, since a group's position must say something that no earlier group's said.

A feed may go on with a log whose numbers aren't all above those that it has reached. Its positions keep these,
and the domains of that log have other uuids, those of the next turn.
"""
import re
from dataclasses import dataclass
from typing import NamedTuple

from .gtids import GtidSet

SNAPSHOT_UUID = "6d617269-6164-6201-8000-000000000000"
_FIRST_TURN = 0x6200
_MOST_TURNS = 0xDFE


def domain_uuid(domain: int, turn: int = 0) -> str:
    """The uuid of a domain: `mariadb` in ASCII, the turn (00, and from 02 on the further ones), and the domain's number."""
    return f"6d617269-6164-{_FIRST_TURN + (turn and turn + 1):04x}-8000-{domain:012x}"


_UUID = re.compile(r"6d617269-6164-(6[2-9a-f][0-9a-f]{2})-8000-([0-9a-f]{12})")
_PART = re.compile(_UUID.pattern + r":(?:1-)?(\d+)")


def turn_of(uuid: str) -> int | None:
    """The turn of a domain's uuid, None where it isn't one."""
    found = _UUID.fullmatch(uuid)
    number = int(found[1], 16) - _FIRST_TURN if found else 1
    return None if number == 1 else max(0, number - 1)


def turned(uuid: str, turn: int) -> str:
    """The uuid of a domain's in another turn."""
    return domain_uuid(int(uuid[-12:], 16), turn)


class Gtid(NamedTuple):
    """A transaction's name, as MariaDB prints it: domain-server-sequence."""

    domain: int
    server: int
    sequence: int

    def __str__(self) -> str:
        return f"{self.domain}-{self.server}-{self.sequence}"

    @classmethod
    def read(cls, text: str) -> "Gtid":
        found = re.fullmatch(r"(\d+)-(\d+)-(\d+)", text.strip())
        if not found:
            raise ValueError(f"no GTID of MariaDB: {text!r}")
        return cls(*map(int, found.groups()))


def sets_of(text: str) -> dict[str, int]:
    """By uuid the last number of a feed's position. ValueError where it isn't one."""
    return {uuid: found[-1][1] for uuid, found in GtidSet.read(text).intervals.items() if found}


def text_of(sets: dict[str, int]) -> str:
    """The feed's text of a position, of the last number by uuid."""
    return "MySQL56/" + ",".join(f"{uuid}:1-{number}" if number > 1 else f"{uuid}:1" for uuid, number in sorted(sets.items()))


class Position:
    """All transactions up to a place: the last one of each domain, how many groups snapshots have, and by uuid the
    numbers that were reached in the turns before this one."""

    def __init__(self, last: dict[int, Gtid] | None = None, snapshot: int = 0, turn: int = 0, past: dict[str, int] | None = None) -> None:
        self.last = dict(last or {})
        self.snapshot, self.turn, self.past = snapshot, turn, dict(past or {})
        self._domain, self._around = -1, None
        """The domain of the last transaction, and the text around its number."""

    @classmethod
    def read(cls, gtids: str, snapshot: int = 0, turn: int = 0, past: dict[str, int] | None = None) -> "Position":
        """Of MariaDB's text, GTIDs parted by commas, empty before the first transaction."""
        read = [Gtid.read(part) for part in gtids.split(",") if part.strip()]
        return cls({gtid.domain: gtid for gtid in read}, snapshot, turn, past)

    @classmethod
    def behind(cls, gtids: str, reached: str) -> "Position":
        """The one of a log behind these transactions, for a feed that has reached a position, in the turn in which it has
        all of that."""
        sets = sets_of(reached)
        turns = {uuid: turn for uuid in sets if (turn := turn_of(uuid)) is not None}
        turn, read = max(turns.values(), default=0), cls.read(gtids)
        there = {domain_uuid(domain, turn): gtid.sequence for domain, gtid in read.last.items()}
        if any(there.get(uuid, -1) < sets[uuid] for uuid, one in turns.items() if one == turn):
            turn += 1
        if turn > _MOST_TURNS:
            raise ValueError(f"more than {_MOST_TURNS} turns")
        return cls(read.last, sets.get(SNAPSHOT_UUID, 0), turn, {uuid: sets[uuid] for uuid, one in turns.items() if one < turn})

    def goes_back(self, gtid: Gtid) -> bool:
        return gtid.domain in self.last and gtid.sequence <= self.last[gtid.domain].sequence

    def add(self, gtid: Gtid) -> None:
        if gtid.domain != self._domain or gtid.sequence == 1:
            self._domain, self._around = gtid.domain, None
        self.last[gtid.domain] = gtid

    def has(self, other: "Position") -> bool:
        """Whether this log has all transactions of another one's domains."""
        return all(domain in self.last and self.last[domain].sequence >= gtid.sequence for domain, gtid in other.last.items())

    def gtids(self) -> str:
        """MariaDB's text, by domain."""
        return ",".join(str(gtid) for _, gtid in sorted(self.last.items()))

    def text(self) -> str:
        """The feed's text."""
        if self._around and self._around[0] == self.snapshot:
            return f"{self._around[1]}{self.last[self._domain].sequence}{self._around[2]}"
        text = self._whole_text()
        if self._domain in self.last and self.last[self._domain].sequence > 1:
            before, number, behind = text.partition(f"{domain_uuid(self._domain, self.turn)}:1-{self.last[self._domain].sequence}")
            self._around = self.snapshot, before + number[:39], behind
        return text

    def _whole_text(self) -> str:
        sets = {domain_uuid(domain, self.turn): gtid.sequence for domain, gtid in self.last.items()} | self.past
        return text_of(sets | ({SNAPSHOT_UUID: self.snapshot} if self.snapshot else {}))


@dataclass(frozen=True)
class Until:
    """A position that a recording is to reach: of some domains the number that each has there."""

    numbers: dict[int, int]

    @classmethod
    def read(cls, text: str) -> "Until":
        """Of MariaDB's text or of a feed's, of which the last turn counts. ValueError where it is neither, or names no
        transaction."""
        parts = [part.strip() for part in text.removeprefix("MySQL56/").split(",")]
        numbers, of_turns = {}, {}
        for part in parts:
            if (found := _PART.fullmatch(part)) and (turn := turn_of(part[:36])) is not None:
                of_turns.setdefault(turn, {})[int(found[2], 16)] = int(found[3])
            elif not part.startswith(SNAPSHOT_UUID):
                gtid = Gtid.read(part)
                numbers[gtid.domain] = gtid.sequence
        numbers |= of_turns[max(of_turns)] if of_turns else {}
        if not numbers:
            raise ValueError(f"no transaction in {text!r}")
        return cls(numbers)

    def is_reached(self, position: Position) -> bool:
        return all(domain in position.last and position.last[domain].sequence >= number for domain, number in self.numbers.items())

    def is_passed(self, position: Position) -> bool:
        """Whether the position is behind this one."""
        return self.is_reached(position) and any(position.last[domain].sequence > number for domain, number in self.numbers.items())

    def __str__(self) -> str:
        return ",".join(f"{domain}-*-{number}" for domain, number in sorted(self.numbers.items()))
