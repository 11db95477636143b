"""A feed of a server's log by this reader: of all of the log, or of what it has behind a feed that is there."""
import os
from contextlib import closing

from recorder.catalogue import Name, read_tables
from recorder.feedfile import FeedFile
from recorder.groups import Groups
from recorder.note import Note, note_path
from recorder.position import Position, Until
from recorder.server import Login, Place, end_place, events, first_place

from .transactions import Transactions


def decode(login: Login, shard: str, keyspace: str | None, out: str, names: list[Name], append: bool = False, until: str = "") -> None:
    """Makes a feed and its note, or goes on with them, up to the log's end, or to a position. Stop where the log can't be told."""
    with closing(login.connect()) as connection, closing(login.connect()) as stream:
        old = Note.read(note_path(out)) if append else None
        tables, end, wanted = read_tables(connection, names), end_place(connection), Until.read(until) if until else None
        start, position = (old.place, old.reached()) if old else (first_place(connection), Position())
        filled = {table.full for table in tables if old and ".".join(table.full) in old.filled}
        prepared = {bytes.fromhex(xa): None for xa in old.prepared} if old else {}
        reading = Transactions(tables, position, filled, prepared, {table.full for table in tables} if old else set(), os.path.dirname(out))
        written, place = old.position if old else "", start
        with FeedFile(out, Groups({name for _, name in filled}, old.keyspace if old else keyspace, shard), old, over=True) as feed:
            for transaction in reading.read(events(stream, start), start, end):
                if transaction.changes:
                    written = position.text()
                    feed.group(transaction.changes, written, transaction.time)
                place = transaction.end
                if wanted and wanted.is_reached(position):
                    break
            else:
                place = reading.place
            if pending := reading.pending():
                raise pending
            if position.last and position.text() != written:
                written = position.text()
                feed.group([], written)
            feed.put(_note(old, shard, keyspace, place, position, written, tables, filled, reading))


def _note(old: Note | None, shard: str, keyspace: str | None, place: Place, position: Position, written: str, tables: list, filled: set, reading: Transactions) -> Note:
    return Note("", shard, place, reading.begun or (old and old.begun) or None, position.gtids(), position.snapshot, written, 0, {},
                {".".join(table.full): table.layout() for table in tables}, sorted(".".join(name) for name in filled), [xa.hex() for xa in reading.prepared],
                keyspace=old.keyspace if old else keyspace, turn=position.turn, past=dict(position.past))  # fmt: skip
