"""A feed that goes on from a snapshot: a group, at the snapshot's position, that brings the rows of the old feed to the
snapshot's. Where columns changed the old groups are written anew under those of now."""
import os
from collections.abc import Iterator
from dataclasses import replace
from itertools import chain

from .catalogue import Name, Table
from .feedfile import FeedFile
from .files import held_path, open_file, writing
from .groups import Change, Groups
from .held import HeldRows, key_bytes
from .note import Note, groups_between
from .oldfeed import OldFeed
from .position import Position
from .snapshot import Snapshot, in_portions
from .stop import ANEW, Stop
from .wire import change_bytes


class Behind:
    """The rows of a feed and those of a snapshot, side by side. Use it with `with`: the file that holds them is gone afterwards."""

    def __init__(self, path: str, note: Note, tables: list[Table], snapshot: Snapshot) -> None:
        self._path, self._note, self._tables, self._snapshot = path, note, tables, snapshot
        self._rows = HeldRows(held_path(path), "the rows of the feed and of the snapshot")
        _check_keys(note, tables)

    def __enter__(self) -> "Behind":
        self._rows.__enter__()
        try:
            self._read()
        except BaseException:
            self._rows.__exit__()
            raise
        return self

    def __exit__(self, *how: object) -> None:
        self._rows.__exit__(*how)

    def _read(self) -> None:
        self._last, self._end, self._reached = self._note.last, self._note.size, self._note.position
        with writing(self._path):
            file = open_file(self._path, os.O_RDONLY)
            try:
                # a killed writer's whole groups are the feed's, and whoever reads along may have them
                for self._last, self._end, self._reached in groups_between(file, self._end, os.fstat(file).st_size):
                    pass
            finally:
                os.close(file)
        self._old = OldFeed(self._path, self._end, self._tables)
        self._old.read(self._rows)
        for place, table in enumerate(self._tables, len(self._tables)):
            key = [(at, table.columns[at].kind) for at in table.key]
            for row, data in self._snapshot.rows_of(table):
                self._rows.put((place, key_bytes(row, key, table.name)), data)

    def feed(self) -> FeedFile:
        """The feed that is gone on with, or the one in its place where columns changed."""
        self._groups = Groups(set(self._old.told), self._note.keyspace, self._note.shard)
        if self._old.has_other_columns():
            return FeedFile(self._path, self._groups, over=True)
        return FeedFile(self._path, self._groups, replace(self._note, size=self._end, last=self._last))

    def position(self, of_log: Position) -> Position:
        """The one of the log at the snapshot, for this feed."""
        try:
            return Position.behind(of_log.gtids(), self._reached)
        except ValueError as fault:
            raise Stop(str(fault), f"in {self._path}", ANEW) from None

    def write(self, feed: FeedFile, position: Position) -> str:
        """Writes what the rows need, at a position that has one group of a snapshot more then; answers the last position."""
        if self._old.has_other_columns():
            for message in self._old.under_columns_of_now():
                feed.message(message)
        changes = self._changes()
        if not (first := next(changes, None)):
            return self._reached
        position.snapshot += 1
        feed.group(chain([first], changes), position.text())
        return position.text()

    def _changes(self) -> Iterator[Change]:
        for place, table in enumerate(self._tables):
            differing = self._rows.differing(place, place + len(self._tables))
            yield from in_portions(table, (change_bytes(before, after) for before, after in differing))

    def filled(self) -> set[Name]:
        """The tables of which the feed has had rows."""
        return {table.full for table in self._tables if table.name in self._groups.told}


def _check_keys(note: Note, tables: list[Table]) -> None:
    """Stops where a table has another primary key than the note says: a change of the one isn't one of the other."""
    for table in tables:
        name = ".".join(table.full)
        if name in note.filled and note.keys.get(name, table.key_names) != table.key_names:
            raise Stop("another key than the feed has", f"in {name} ({', '.join(table.key_names)}, and not {', '.join(map(str, note.keys[name]))})", ANEW)
