"""GTID sets: the positions of a feed, read as the program reads them (docs/FORMATS.md, 'Positions')."""
import re
from bisect import bisect_right
from dataclasses import dataclass, field

MOST_OF_TEXT = 1_048_576
LAST = 2**63 - 2
BLANKS = " \t\r\n"
UUID = re.compile(r"[0-9a-fA-F]{8}(?:-[0-9a-fA-F]{4}){3}-[0-9a-fA-F]{12}")
DIGITS = re.compile(r"0*([0-9]{1,19})")


@dataclass(frozen=True)
class GtidSet:
    """By uuid the numbers of its transactions, as intervals that rise and neither meet nor touch."""

    intervals: dict[str, list[tuple[int, int]]] = field(default_factory=dict)

    @classmethod
    def read(cls, text: str) -> "GtidSet":
        """ValueError, in words, where the program would refuse the position (94)."""
        if len(text.encode()) > MOST_OF_TEXT:
            raise ValueError(f"a position of more than {MOST_OF_TEXT} bytes")
        flavour, slash, sets = text.strip(BLANKS).partition("/")
        if slash and flavour != "MySQL56":
            raise ValueError(f"a position of flavour {flavour}")
        read: dict[str, list[tuple[int, int]]] = {}
        for part in (sets if slash else flavour).split(","):
            if part := part.strip(BLANKS):
                read.setdefault(_uuid(part), []).extend(_intervals(part[37:]))
        return cls({uuid: _merged(found) for uuid, found in read.items()})

    def is_within(self, other: "GtidSet") -> bool:
        return all(_is_within(own, other.intervals.get(uuid, [])) for uuid, own in self.intervals.items())


def _uuid(part: str) -> str:
    if not UUID.fullmatch(part[:36]):
        raise ValueError(f"a position without a uuid ({part[:36]})")
    if part[36:37] != ":":
        raise ValueError(f"a position without numbers ({part[:36]})")
    return part[:36].lower()


def _intervals(text: str) -> list[tuple[int, int]]:
    found = []
    for piece in text.split(":"):
        first, dash, last = piece.partition("-")
        start = _number(first, piece, 1)
        end = _number(last, piece, 0) if dash else start
        if start <= end:
            found.append((start, end))
    return found


def _number(text: str, piece: str, least: int) -> int:
    found = DIGITS.fullmatch(text)
    if not found or not least <= int(found[1]) <= LAST:
        raise ValueError(f"a position with {piece[:60]!r} in place of numbers, as a tagged GTID has")
    return int(found[1])


def _merged(intervals: list[tuple[int, int]]) -> list[tuple[int, int]]:
    merged: list[tuple[int, int]] = []
    for start, end in sorted(intervals):
        if merged and start <= merged[-1][1] + 1:
            merged[-1] = merged[-1][0], max(end, merged[-1][1])
        else:
            merged.append((start, end))
    return merged


def _is_within(own: list[tuple[int, int]], others: list[tuple[int, int]]) -> bool:
    for start, end in own:
        at = bisect_right(others, (start, LAST)) - 1
        if at < 0 or others[at][1] < end:
            return False
    return True
