"""What a feed that is there says: its rows at its end, and its groups under other columns."""
import os
from collections.abc import Iterator
from contextlib import closing
from dataclasses import dataclass
from typing import BinaryIO

from google.protobuf.message import DecodeError

from .catalogue import Table
from .files import open_file, writing
from .growing import read_messages
from .held import HeldRows, key_bytes
from .messages import MOST_OF_ROW, cells_of, framed, row_bytes, set_row
from .protos import Response
from .stop import ANEW, Stop
from .wire import EventType

Fields = list[list]
"""The name and type number of each column."""


@dataclass(frozen=True)
class Recorded:
    """A table that is recorded now: its place among the held rows, and its columns."""

    place: int
    table: Table

    @property
    def key(self) -> list[tuple[int, int]]:
        return [(at, self.table.columns[at].kind) for at in self.table.key]


class OldFeed:
    """A feed up to a whole group's end. `told` are the tables whose columns it has, `others` those among them that have other
    columns now."""

    def __init__(self, path: str, end: int, tables: list[Table]) -> None:
        self._path, self._end = path, end
        self._tables = {table.name: Recorded(place, table) for place, table in enumerate(tables)}
        self.told: dict[str, Fields] = {}

    def has_other_columns(self) -> bool:
        return any(fields != self._tables[name].table.layout() for name, fields in self.told.items())

    def read(self, rows: HeldRows) -> None:
        """Reads the feed; its rows at the end are held by their keys, as they are under the columns of now."""
        for message in self._messages():
            for event in message.events:
                if event.type == EventType.FIELD:
                    said = event.field_event
                    self.told[said.table_name] = [[field.name, field.type] for field in said.fields]
                    self._check_columns(said.table_name)
                elif event.type == EventType.ROW:
                    self._hold(event.row_event, rows)

    def _check_columns(self, name: str) -> None:
        """Stops where a table isn't recorded now, or has another key."""
        if name not in self._tables:
            raise Stop("a table of the feed that isn't named", f"({name})", f"name all of them, or {ANEW}")
        table, told = self._tables[name].table, [tuple(field) for field in self.told[name]]
        for at in table.key:
            column = table.columns[at]
            if (column.name, int(column.kind)) not in told:
                raise Stop("another key than the feed has", f"in {'.'.join(table.full)} (column {column.name})", ANEW)

    def _hold(self, said, rows: HeldRows) -> None:
        recorded, places = self._tables[said.table_name], self._places(said.table_name)
        for change in said.row_changes:
            for row, is_there in (change.before, False), (change.after, True):
                if row.lengths:
                    cells = _moved(cells_of(row), places)
                    rows.put((recorded.place, self._key(cells, recorded)), row_bytes(cells) if is_there else None)

    def _key(self, cells: tuple, recorded: Recorded) -> bytes:
        try:
            return key_bytes(cells, recorded.key, recorded.table.name)
        except ValueError as fault:
            raise Stop(str(fault), f"in {self._path}", f"it is no feed of record/feed; {ANEW}") from None

    def _places(self, name: str) -> list[int | None]:
        """Where each column of now stands in the rows that the feed has, None where it isn't there."""
        names = [field[0] for field in self.told[name]]
        return [names.index(column.name) if column.name in names else None for column in self._tables[name].table.columns]

    def under_columns_of_now(self) -> Iterator[bytes]:
        """The feed's messages, in which each table has the columns of now: what a row hasn't is NULL."""
        for message in self._messages():
            for event in message.events:
                if event.type == EventType.FIELD:
                    del event.field_event.fields[:]
                    for column in self._tables[event.field_event.table_name].table.columns:
                        event.field_event.fields.add(name=column.name, type=column.kind)
                elif event.type == EventType.ROW:
                    self._rewrite(event.row_event)
            yield framed(message)

    def _rewrite(self, said) -> None:
        places = self._places(said.table_name)
        if places == list(range(len(self.told[said.table_name]))):
            return
        for change in said.row_changes:
            for row in change.before, change.after:
                if row.lengths:
                    cells = _moved(cells_of(row), places)
                    row.Clear()
                    if set_row(row, cells) > MOST_OF_ROW:
                        raise Stop(f"a row of more than {MOST_OF_ROW} bytes", f"in {said.table_name}", "leave the table out")

    def _messages(self) -> Iterator:
        with writing(self._path), closing(_opened(self._path)) as file:
            end = 0
            try:
                for data, end in read_messages(file):
                    yield Response.FromString(data)
                    if end >= self._end:
                        return
            except (ValueError, DecodeError):
                raise Stop("no message of a feed", f"in {self._path}, about byte {end}", ANEW) from None


def _opened(path: str) -> BinaryIO:
    return os.fdopen(open_file(path, os.O_RDONLY), "rb")


def _moved(cells: tuple, places: list[int | None]) -> tuple:
    return tuple(None if at is None else cells[at] for at in places)
