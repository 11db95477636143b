"""Feeds written by hand, for tests: the events of docs/FORMATS.md, 'Feed', in the shortest spelling of their messages."""
from __future__ import annotations

from collections.abc import Iterable, Mapping, Sequence

from .wire import FIELDS, GTID, ROWS, EventType, change_bytes, columns_bytes, event_bytes, field_bytes, message_bytes, row_bytes, text_bytes

TYPES = {
    **{"INT8": 257, "INT16": 259, "INT24": 261, "INT32": 263, "INT64": 265},
    **{"UINT8": 770, "UINT16": 772, "UINT24": 774, "UINT32": 776, "UINT64": 778},
    **{"TEXT": 6163, "VARCHAR": 6165, "CHAR": 6167, "BLOB": 10260, "VARBINARY": 10262, "BINARY": 10264},
}
"""The types of columns by name (docs/FORMATS.md, 'Workflow file')."""

Value = bytes | str | int | None
Row = Sequence[Value]


def _octets(value: str | bytes | int) -> bytes:
    return value if isinstance(value, bytes) else str(value).encode()


def row_message(row: Row) -> bytes:
    """A Row message: each column's bytes, those of a text or a number's digits, or NULL for None."""
    return row_bytes([None if value is None else _octets(value) for value in row])


class Feed:
    """A feed of one shard: transactions of changes, each a message with its position.

        feed = Feed({"t": {"id": "INT64", "v": "VARCHAR"}})
        feed.transaction(("t", None, (1, "a")), ("t", None, (2, "b")))     # two inserts
        feed.transaction(("t", (1, "a"), (1, "c")), ("t", (2, "b"), None))   # an update, a delete
        open("feed", "wb").write(bytes(feed))

    `tables` has each table's columns in order, a type by its name or number. Positions go up by one for each
    transaction, under the feed's uuid, unless one is given.
    """

    def __init__(
        self,
        tables: Mapping[str, Mapping[str, str | int]],
        uuid: str = "3e11fa47-71ca-11e1-9e33-c80aa9429562",
    ):
        self.tables, self.uuid = {name: dict(columns) for name, columns in tables.items()}, uuid
        self._messages: list[bytes] = []
        self._count, self._told = 0, set[str]()

    def transaction(
        self,
        *changes: tuple[str, Row | None, Row | None],
        position: str | None = None,
    ) -> Feed:
        """Adds a transaction: changes of a table's name, its row before and its row after, None where there is none."""
        self._count += 1
        at = f"{self.uuid}:1-{self._count}" if position is None else position
        fields = [self._field_event(table) for table in dict.fromkeys(table for table, _, _ in changes) if table not in self._told]
        self._told.update(table for table, _, _ in changes)
        rows = [self._row_event(*change) for change in changes]
        position = event_bytes(EventType.GTID, 0, GTID, f"MySQL56/{at}".encode())
        self._messages.append(message_bytes(event_bytes(EventType.BEGIN, 0), *fields, *rows, position, event_bytes(EventType.COMMIT, 0)))
        return self

    def message(self, *events: bytes) -> Feed:
        """Adds a message of events as they are."""
        self._messages.append(message_bytes(*(field_bytes(1, event) for event in events)))
        return self

    def insert(self, table: str, *rows: Row) -> Feed:
        """Adds a transaction that inserts rows."""
        return self.transaction(*((table, None, row) for row in rows))

    def delete(self, table: str, *rows: Row) -> Feed:
        """Adds a transaction that deletes rows."""
        return self.transaction(*((table, row, None) for row in rows))

    def update(self, table: str, *pairs: tuple[Row, Row]) -> Feed:
        """Adds a transaction that changes rows, each given before and after."""
        return self.transaction(*((table, before, after) for before, after in pairs))

    def _field_event(self, table: str) -> bytes:
        columns = ((name, TYPES[kind] if isinstance(kind, str) else kind) for name, kind in self.tables[table].items())
        return event_bytes(EventType.FIELD, 0, FIELDS, columns_bytes(table, columns))

    def _row_event(self, table: str, before: Row | None, after: Row | None) -> bytes:
        images = [None if row is None else row_message(row) for row in (before, after)]
        return event_bytes(EventType.ROW, 0, ROWS, text_bytes(1, table), change_bytes(*images))

    def __bytes__(self) -> bytes:
        return b"".join(self._messages)

    def workflow(self, *shards: str, key: Iterable[str] | None = None, vindex: str | None = None, keyspace: str = "ks") -> dict:
        """A workflow of the feed's tables, one stream a shard, which passes every row: its file as an object.

        The key is each table's first column unless some are given; with a vindex's name each table has it on that column.
        """
        tables = []
        for name, columns in self.tables.items():
            keys = list(key) if key else [next(iter(columns))]
            table = {"name": name, "columns": [list(it) for it in columns.items()], "key": keys}
            tables.append({**table, "vindex": [keys[0], vindex]} if vindex else table)
        rules = {"rules": [{"match": "/.*", "filter": ""}]}
        return {"keyspace": keyspace, "tables": tables, "streams": [{"shard": it, "filter": rules} for it in shards or ("-",)]}
