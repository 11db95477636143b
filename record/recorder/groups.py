"""Rows as the groups of a feed: a message, or several of about a megabyte, a table's columns before its first row."""
from collections.abc import Iterable, Iterator
from typing import NamedTuple

from .catalogue import Table
from .messages import Message, Stored
from .wire import FIELDS, GTID, ROWS, VGTID, EventType, behind_head, columns_bytes, event_bytes, head_bytes, message_bytes, sized, text_bytes, vgtid_bytes

PIECE = 2**20
"""The bytes of events behind which a message of a group ends."""


class Change(NamedTuple):
    """Rows of one table that are changed together: `data` are the row changes of a RowEvent."""

    table: Table
    data: bytes | Stored


class Groups:
    """`told` are the tables whose columns the feed has. Positions are of a shard of a keyspace, where that is said."""

    def __init__(self, told: set[str], keyspace: str | None = None, shard: str = "") -> None:
        self.told, self._keyspace, self._shard = told, keyspace, shard
        self._names: dict[str, bytes] = {}
        self._time = -1

    def _begin(self, time: int) -> None:
        """What the events of one time that say nothing else are, and what the others begin with."""
        self._time, self._ends = time, (event_bytes(EventType.BEGIN, time), event_bytes(EventType.COMMIT, time))
        self._rows = head_bytes(EventType.ROW, time, ROWS)

    def group(self, changes: Iterable[Change], position: str, time: int) -> Iterable[Message]:
        """The messages of a transaction, or where nothing changes the one of the position alone."""
        if time != self._time:
            self._begin(time)
        return self._messages(changes, position)

    def columns(self, tables: Iterable[Table], position: str) -> Iterable[Message]:
        """The message of a position that tells the columns of some tables before it."""
        self._begin(0)
        told = [self._told(table) for table in tables]
        return (_framed([self._ends[0], *told, self._position(position), self._ends[1]] if told else [self._position(position)]),)

    def _messages(self, changes: Iterable[Change], position: str) -> Iterator[Message]:
        events, size, is_empty = [], 0, True
        for change in changes:
            if is_empty:
                events.append(self._ends[0])
            elif size >= PIECE:
                yield _framed(events)
                events, size = [], 0
            is_empty = False
            if change.table.name not in self._names:
                self._names[change.table.name] = text_bytes(1, change.table.name)
                if change.table.name not in self.told:
                    events.append(self._told(change.table))
            name, data = self._names[change.table.name], change.data
            events += behind_head(self._rows, len(name) + len(data)), name, data
            size += len(data)
        events.append(self._position(position))
        if not is_empty:
            events.append(self._ends[1])
        yield _framed(events)

    def _told(self, table: Table) -> bytes:
        """The table's columns, before its first row."""
        self.told.add(table.name)
        return event_bytes(EventType.FIELD, self._time, FIELDS, columns_bytes(table.name, ((column.name, column.kind) for column in table.columns)))

    def _position(self, position: str) -> bytes:
        if self._keyspace is None:
            return event_bytes(EventType.GTID, self._time, GTID, position.encode())
        return event_bytes(EventType.VGTID, self._time, VGTID, vgtid_bytes(self._keyspace, self._shard, position))


def _framed(events: list[bytes | Stored]) -> Message:
    """A message behind its length."""
    is_stored = any(isinstance(part, Stored) for part in events)
    return [sized(sum(map(len, events))), *events] if is_stored else message_bytes(*events)
