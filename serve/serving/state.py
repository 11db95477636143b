"""What is known of the target: what the page, `/state` and Prometheus tell.

It is changed by the loop alone, between two waits, so that whoever looks sees one moment; `version` is another number
behind each change, and `changed` wakes who waits for one.
"""
import asyncio
import time
from collections import Counter, deque
from dataclasses import dataclass, field

from recorder.ending import tell

from .cells import readable, values_of
from .growth import Behind, Growth
from .plan import Plan

WINDOW = 10.0
"""The seconds over which rates are taken."""
RUNNING, BEGINNING, WAITING, ENDED = "running", "beginning", "waiting", "ended"
LINES = 20
OF_FILES = (127, 131)
"""What a stream is refused for its feed's file, which the program doesn't name: it is the stream's."""


class Rate:
    """How much more of something there is a second, over the last seconds."""

    def __init__(self) -> None:
        self._said: deque[tuple[float, int]] = deque()

    def note(self, value: int) -> None:
        now = time.monotonic()
        if self._said and value < self._said[-1][1]:
            self._said.clear()
        self._said.append((now, value))
        while len(self._said) > 2 and self._said[1][0] < now - WINDOW:
            self._said.popleft()

    def of_now(self) -> float:
        if len(self._said) < 2:
            return 0.0
        (begun, first), (_, last) = self._said[0], self._said[-1]
        return (last - first) / max(time.monotonic() - begun, 0.001)


@dataclass
class Stream:
    """A stream: what the program says of it, and its feed."""

    shard: str
    feed: Growth
    said: dict = field(default_factory=dict)
    groups: Rate = field(default_factory=Rate)
    bytes: Rate = field(default_factory=Rate)

    def applied(self) -> int:
        return self.said.get("applied", 0)


@dataclass
class Into:
    """The database that the rows go into."""

    place: str
    trouble: str | None = None
    positions: list[str | None] = field(default_factory=list)
    """Of each stream the position that the database has."""
    applied: list[int] = field(default_factory=list)
    """Of each stream how many groups of its feed are in the database; nothing where that isn't known yet."""
    transactions: int = 0
    rows: int = 0
    held: int = 0
    mended: int = 0
    """How many rows were held to the board's, and how many of them made equal."""


@dataclass
class State:
    name: str
    plan: Plan
    streams: list[Stream]
    into: Into | None = None
    program: str = BEGINNING
    trouble: str | None = None
    """Why there is no session, or the last checkpoint couldn't be saved."""
    pid: int | None = None
    starts: int = 0
    changes: int = 0
    """How many keys were told as changed, in all sessions."""
    counts: dict[str, list[int]] = field(default_factory=dict)
    """By table the rows of each stream."""
    saved: float | None = None
    saved_bytes: int = 0
    refusals: Counter[int] = field(default_factory=Counter)
    version: int = 0
    begun: float = field(default_factory=time.time)
    lines: deque[tuple[float, str]] = field(default_factory=lambda: deque(maxlen=LINES))
    changed: asyncio.Condition = field(default_factory=asyncio.Condition)

    def tell(self, line: str) -> None:
        """A line for standard error, and for the page."""
        tell(f"target: {line}")
        self.lines.append((time.time(), line))

    async def publish(self) -> None:
        self.version += 1
        async with self.changed:
            self.changed.notify_all()

    def take(self, streams: list[dict]) -> None:
        """What the program says of its streams."""
        for at, (stream, said) in enumerate(zip(self.streams, streams)):
            before, now = stream.said.get("refused"), said.get("refused")
            if now and now["number"] in OF_FILES:
                now = {**now, "file": stream.feed.path}
                said = {**said, "refused": now}
            if now and (not before or before != now):
                self.refusals[now["number"]] += 1
                self.tell(f"stream {said['stream']} shard {stream.shard}: {refusal_in_words(now)}")
            stream.said = said
            stream.feed.note(said["groups"], said["bytes"], self.committed(at))
            stream.groups.note(said["applied"])
            stream.bytes.note(said["bytes"])

    def is_healthy(self) -> bool:
        """Whether there is a session, no stream is refused, and the database, where there is one, takes the rows."""
        is_free = not self.into or not self.into.trouble and bool(self.into.positions)
        return self.program == RUNNING and not self.trouble and is_free and not any(stream.said.get("refused") for stream in self.streams)

    def behind(self, at: int) -> Behind:
        """How far a stream is behind its feed's end, with a database, how far that is."""
        return self.streams[at].feed.behind(self.committed(at), self.streams[at].said.get("groups", 0))

    def committed(self, at: int) -> int:
        """How many groups of a stream's feed are applied, with a database, there."""
        if not self.into:
            return self.streams[at].applied()
        return self.into.applied[at] if self.into.applied else 0

    def applied_positions(self) -> list[str | None]:
        """Of each stream the position that it has applied: where rows go into a database, the one that this has."""
        if self.into:
            return list(self.into.positions) or [None] * len(self.streams)
        return [stream.said.get("position") for stream in self.streams]

    def as_json(self) -> dict:
        streams = [self._stream(at) for at in range(len(self.streams))]
        tables = [{"table": table.name, "columns": table.columns, "key": table.key_columns(), "rows": self.counts.get(table.name)} for table in self.plan.tables.values()]
        into = self.into and {"place": self.into.place, "trouble": self.into.trouble, "positions": self.into.positions, "transactions": self.into.transactions,
                              "rows": self.into.rows, "held": self.into.held, "mended": self.into.mended}  # fmt: skip
        return {
            "name": self.name, "version": self.version, "now": time.time(), "begun": self.begun, "healthy": self.is_healthy(),
            "program": {"state": self.program, "trouble": self.trouble, "starts": self.starts, "pid": self.pid},
            "streams": streams, "tables": tables, "changes": self.changes, "into": into,
            "checkpoint": {"saved": self.saved, "bytes": self.saved_bytes},
            "lines": [{"time": at, "line": line} for at, line in self.lines],
        }  # fmt: skip

    def _stream(self, at: int) -> dict:
        stream = self.streams[at]
        said, behind, reached = stream.said, self.behind(at), self.applied_positions()[at]
        refused = said.get("refused")
        copies = []
        for one in said.get("copied", []):
            counts = self.counts.get(one["table"])
            key = [readable(value) for value in values_of(one["key"])] if one["key"] is not None else None
            copies.append({"table": one["table"], "what": one["what"], "key": key, "rows": counts[at] if counts else None})
        return {
            "stream": at, "shard": stream.shard, "feed": stream.feed.path, "size": stream.feed.size, "phase": said.get("phase"), "position": said.get("position"),
            "committed": reached, "applied": stream.applied(), "read": said.get("read", 0), "groups": said.get("groups", 0), "bytes": said.get("bytes", 0),
            "behind": {"groups": behind.groups, "bytes": behind.bytes, "seconds": round(behind.seconds, 3)},
            "rate": {"groups": round(stream.groups.of_now(), 2), "bytes": round(stream.bytes.of_now(), 1)},
            "copied": copies, "refused": refused and {**refused, "line": refusal_in_words(refused)},
        }  # fmt: skip


def refusal_in_words(said: dict) -> str:
    """A refusal as a line: `refused 71 (words): table t key 7 owner 1`."""
    details = []
    for name, value in said.items():
        if name in ("number", "words"):
            continue
        if name == "key" and isinstance(value, list):
            value = ", ".join(str(readable(one)) for one in values_of(value))
        details.append(f"{name} {value}")
    return f"refused {said['number']} ({said['words']})" + (f": {' '.join(details)}" if details else "")
