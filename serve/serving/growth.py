"""A feed's file as it grows, and how far something is behind its end."""
import os
import time
from typing import NamedTuple

LOOK = 0.1
"""The seconds between two looks at the files."""
MOST = 600
"""How many sizes and ends are kept; of more every second one goes."""


class Look(NamedTuple):
    """What the system says of a file: another one, a longer one, or a changed one."""

    device: int
    inode: int
    size: int
    changed: int


class Behind(NamedTuple):
    """How far a stream is behind its feed's end: groups that are read, bytes at most, and for how many seconds the first of these is there."""

    groups: int
    bytes: int
    seconds: float


class Growth:
    """A feed's file: its size at each look, and of groups at which byte they end."""

    def __init__(self, path: str) -> None:
        self.path = path
        self.begin()

    def begin(self) -> None:
        """From here on the file is one of which nothing is known, for a program that reads it from its beginning."""
        self.last: Look | None = None
        self.is_there = False
        self._sizes: list[tuple[int, float]] = []
        """Sizes that rise, each with the time at which it was seen first."""
        self._ends: list[tuple[int, int]] = [(0, 0)]
        """How many groups end at which byte, where that is known."""

    @property
    def size(self) -> int:
        return self.last.size if self.last else 0

    def look(self) -> bool:
        """Whether the file is another one than at the last look, or changed."""
        try:
            said = os.stat(self.path)
        except OSError:
            changed, self.is_there = self.is_there, False
            return changed
        look, before = Look(said.st_dev, said.st_ino, said.st_size, said.st_mtime_ns), self.last
        self.last, self.is_there = look, True
        if before and (look[:2] != before[:2] or look.size < before.size):
            self._sizes.clear()
        if look != before and look.size > (self._sizes[-1][0] if self._sizes else 0):
            self._sizes.append((look.size, time.monotonic()))
            self._sizes = _thinned(self._sizes)
        return look != before

    def note(self, groups: int, size: int, applied: int) -> None:
        """So many groups are in so many bytes of the file, and so many are applied: what is before that isn't asked any more."""
        if (groups, size) > self._ends[-1]:
            self._ends = _thinned([*self._ends, (groups, size)])
        while len(self._ends) > 1 and self._ends[1][0] <= applied:
            del self._ends[0]
        while self._sizes and self._sizes[0][0] <= self._end(applied):
            del self._sizes[0]

    def _end(self, applied: int) -> int:
        """A byte at which so many groups have ended, the last one that is known."""
        return max((size for groups, size in self._ends if groups <= applied), default=0)

    def behind(self, applied: int, groups: int) -> Behind:
        """Of a stream that has applied so many of the groups that were read."""
        end, now = self._end(applied), time.monotonic()
        seconds = next((now - since for size, since in self._sizes if size > end), 0.0)
        return Behind(max(0, groups - applied), max(0, self.size - end), seconds)


def _thinned(said: list) -> list:
    """Every second one of too many, and the last."""
    return said if len(said) <= MOST else [*said[:-1:2], said[-1]]
