"""The messages of a feed (docs/FORMATS.md, 'Messages'): what the program takes of them, and what of a message is asked alone.
What writes them is `wire`. What reads all of one goes by the classes of `protos`, which take a while to come and are read when
one of them is asked for."""
import errno
import os
from collections.abc import Iterator
from typing import BinaryIO

from . import wire
from .wire import GTID, VGTID, EventType, varint

MOST_OF_FEED = 2**31 - 1
MOST_OF_ROW = 2**24
"""The bytes of a feed, and of a Row message, above which the program refuses them."""


def __getattr__(name: str) -> type:
    if name not in ("Response", "Request"):
        raise AttributeError(name)
    from . import protos

    return getattr(protos, name)


Row = tuple[bytes | None, ...]
"""A row: the bytes of each column, None for NULL."""
PIECE = 2**20
"""The bytes that are read at once of what lies in a file."""


class Stored:
    """Bytes that lie in a file, from a place on."""

    __slots__ = ("_file", "_at", "_size")

    def __init__(self, file: BinaryIO, at: int, size: int) -> None:
        self._file, self._at, self._size = file, at, size

    def __len__(self) -> int:
        return self._size

    def pieces(self) -> Iterator[bytes]:
        """The bytes, one behind the other. OSError where they can't be read."""
        at, end = self._at, self._at + self._size
        while at < end:
            self._file.seek(at)
            data = self._file.read(min(PIECE, end - at))
            if not data:
                raise OSError(errno.EIO, os.strerror(errno.EIO))
            yield data
            at += len(data)


Message = bytes | list[bytes | Stored]
"""A message behind its length, as a whole or in parts."""


def pieces_of(message: Message) -> Iterator[bytes]:
    """The bytes of a message, one behind the other."""
    for part in [message] if isinstance(message, bytes) else message:
        yield from part.pieces() if isinstance(part, Stored) else (part,)


class LongRow(ValueError):
    """A row of more bytes than the program reads."""

    def __init__(self) -> None:
        super().__init__(f"a row of more than {MOST_OF_ROW} bytes")


def row_bytes(row: Row) -> bytes:
    """A Row message. LongRow where it is above the limit."""
    data = wire.row_bytes(row)
    if len(data) > MOST_OF_ROW:
        raise LongRow
    return data


def set_row(message, row: Row) -> int:
    """Fills a Row message, which is there from then on also where it has no column's bytes; answers its size."""
    message.SetInParent()
    message.lengths.extend(-1 if cell is None else len(cell) for cell in row)
    message.values = b"".join(cell for cell in row if cell is not None)
    return message.ByteSize()


def cells_of(row, count: int | None = None) -> Row:
    """The columns of a Row message, or so many of them."""
    cells, at, values = [], 0, row.values
    for length in row.lengths[:count]:
        if length < 0:
            cells.append(None)
        else:
            cells.append(values[at:at + length])
            at += length
    return tuple(cells)


def rows_of(message: bytes) -> Iterator[tuple[str, Row]]:
    """The rows that a message behind its length says, before a change and behind it, each with its table."""
    [(start, end)] = frames(message)
    for event in __getattr__("Response").FromString(message[start:end]).events:
        for change in event.row_event.row_changes:
            for row in change.before, change.after:
                if row.lengths:
                    yield event.row_event.table_name, cells_of(row)


def fields(data: bytes) -> Iterator[tuple[int, int | bytes]]:
    """The fields of a message: their numbers, and what they have. ValueError or IndexError where the bytes are none."""
    at = 0
    while at < len(data):
        tag, at = number(data, at)
        if tag & 7 == 0:
            value, at = number(data, at)
        elif tag & 7 == 2:
            size, at = number(data, at)
            at += size
            if at > len(data):
                raise ValueError("a field is cut short")
            value = data[at - size:at]
        else:
            raise ValueError("a field of another kind")
        yield tag >> 3, value


def number(data: bytes, at: int) -> tuple[int, int]:
    """A varint, and where it ends."""
    value = shift = 0
    while shift < 64:
        value |= (data[at] & 0x7F) << shift
        shift, at = shift + 7, at + 1
        if data[at - 1] < 0x80:
            return value, at
    raise ValueError("a number that is too long")


def kind_of(event: bytes) -> int:
    return dict(fields(event)).get(1, 0)


def position_in(events: list[bytes]) -> str | None:
    """The position that a message's events say, None where they say none. ValueError where they can't be read."""
    said = []
    for event in events:
        found = dict(fields(event))
        if found.get(1) == EventType.GTID:
            said.append(found.get(GTID, b""))
        elif found.get(1) == EventType.VGTID:
            [shard] = [one for _, one in fields(found[VGTID])]
            said.append(dict(fields(shard)).get(3, b""))
    return bytes(said[0]).decode() if len(said) == 1 else None


def framed(response) -> bytes:
    """A message behind its length as a varint."""
    body = response.SerializeToString(deterministic=True)
    return varint(len(body)) + body


def frames(feed: bytes) -> Iterator[tuple[int, int]]:
    """Start and end of each message of a feed, without its length. ValueError where one is cut short."""
    at = 0
    while at < len(feed):
        length = shift = 0
        while True:
            if at == len(feed) or shift > 63:
                raise ValueError(f"no length of a message before byte {at}")
            byte = feed[at]
            at += 1
            length |= (byte & 0x7F) << shift
            shift += 7
            if byte < 0x80:
                break
        if at + length > len(feed):
            raise ValueError(f"a message is cut short at byte {at}")
        yield at, at + length
        at += length
