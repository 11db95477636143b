"""How far a recording is."""
import sys
import time

from .ending import show, tell
from .server import Place

MINUTE = 60
"""The seconds between two lines that say so."""


class Progress:
    """How far a recording is, on standard error: a bar where that is a terminal, else a line a minute."""

    def __init__(self, sizes: dict[str, int], start: Place, end: Place) -> None:
        self._is_seen = bool(sys.stderr) and sys.stderr.isatty()
        logs = list(sizes)
        between = logs[logs.index(start.log):logs.index(end.log) + 1] if start.log in sizes and end.log in sizes else []
        self._before = {log: sum(sizes[one] for one in between[:at]) for at, log in enumerate(between)}
        self._start, self._whole = start.offset, max(1, sum(sizes[log] for log in between) - start.offset)
        self._last, self._told_at = -1, time.monotonic()

    def at(self, place: Place, count: int) -> None:
        part = min(1000, 1000 * (self._before.get(place.log, 0) + place.offset - self._start) // self._whole)
        if self._is_seen and part != self._last:
            self._last = part
            show(f"\r[{'#' * (part // 40):25}] {part / 10:5.1f}% {place} {count} transactions")
        elif not self._is_seen and time.monotonic() >= self._told_at + MINUTE:
            self._told_at = time.monotonic()
            tell(f"feed: {time.strftime('%Y-%m-%dT%H:%M:%SZ', time.gmtime())} {part / 10:.1f}% of the log read, at {place}; {count} transactions")

    def close(self) -> None:
        if self._is_seen and self._last >= 0:
            show("\r\033[K")
