"""The program's messages with positions in other words: as GTIDs, where a feed has no keyspace, and of a further turn.

The program has the log's own uuids, and a keyspace. Rows and groups stay as it writes them.
"""
from contextlib import ExitStack
from tempfile import TemporaryFile
from typing import BinaryIO

from . import messages
from .catalogue import Table
from .files import writing
from .groups import Groups
from .messages import Message, Stored
from .note import EVENT, with_flavour
from .position import Position, sets_of, text_of, turn_of, turned
from .wire import GTID, VGTID, EventType, event_bytes, sized, vgtid_bytes

NO_KEYSPACE = "log"
"""The program's keyspace where a feed has none."""


class Spelling:
    """How a feed of some tables says the positions of the log behind a `position`, which is moved on."""

    def __init__(self, keyspace: str | None, shard: str, position: Position, tables: list[Table]) -> None:
        self.keyspace = NO_KEYSPACE if keyspace is None else keyspace
        self._keyspace, self._shard, self._position, self._tables = keyspace, shard, position, tables

    def after(self, opened: ExitStack, folder: str) -> BinaryIO | None:
        """Of a feed in a further turn what the program goes on behind in its place: the tables' columns, and the position as the log
        has it. None where it is the feed itself."""
        if not self._position.turn:
            return None
        of_log = Position(self._position.last, self._position.snapshot)
        with writing(folder):
            feed = opened.enter_context(TemporaryFile(dir=folder))
            for message in Groups(set(), self.keyspace, self._shard).columns(self._tables, of_log.text()):
                for piece in messages.pieces_of(message):
                    feed.write(piece)
            feed.flush()
        return feed

    def position(self, said: str) -> str:
        """The feed's words for a position of the program's."""
        if not self._position.turn:
            return with_flavour(said)
        there = {uuid if turn_of(uuid) is None else turned(uuid, self._position.turn): number for uuid, number in sets_of(said).items()}
        return text_of(there | self._position.past)

    def message(self, file: BinaryIO, start: int, end: int, read: list[bytes], position: str) -> Message | None:
        """One of the program's messages, between two places of an open file, with a position in the feed's words; `read` are its events
        (`events_of`). None where the program's are the feed's."""
        if self._keyspace is not None and not self._position.turn:
            return None
        at = next(at for at, event in enumerate(read) if messages.position_in([event]) is not None)
        behind = sum(1 + len(sized(len(event))) + len(event) for event in read[at:])
        _, begin = messages.number(_head(file, start), 0)
        before = Stored(file, start + begin, end - behind - start - begin)
        parts = [before, self._said(position), *(bytes((EVENT,)) + sized(len(event)) + event for event in read[at + 1:])]
        return [sized(sum(map(len, parts))), *parts]

    def _said(self, position: str) -> bytes:
        if self._keyspace is None:
            return event_bytes(EventType.GTID, 0, GTID, position.encode())
        return event_bytes(EventType.VGTID, 0, VGTID, vgtid_bytes(self._keyspace, self._shard, position))


def _head(file: BinaryIO, start: int) -> bytes:
    file.seek(start)
    return file.read(10)
