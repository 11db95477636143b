"""The bodies of table maps, row events and statements, from bytes to values. One that is cut short is an IndexError or a
struct.error."""
import zlib
from dataclasses import dataclass

from recorder.events import Bytes, LogEvent

from .cells import LogType

WRITES = {LogEvent.WRITE_ROWS_V1, LogEvent.WRITE_ROWS, LogEvent.WRITE_ROWS_COMPRESSED_V1, LogEvent.WRITE_ROWS_COMPRESSED}
UPDATES = {LogEvent.UPDATE_ROWS_V1, LogEvent.UPDATE_ROWS, LogEvent.UPDATE_ROWS_COMPRESSED_V1, LogEvent.UPDATE_ROWS_COMPRESSED}
DELETES = {LogEvent.DELETE_ROWS_V1, LogEvent.DELETE_ROWS, LogEvent.DELETE_ROWS_COMPRESSED_V1, LogEvent.DELETE_ROWS_COMPRESSED}
IGNORABLE = 0x80


@dataclass(frozen=True)
class TableMap:
    """A table's number in the row events behind it, and its columns as the log has them."""

    number: int
    schema: str
    table: str
    types: tuple[LogType, ...]
    names: tuple[str, ...] | None
    """The columns' names, where binlog_row_metadata is FULL."""


@dataclass(frozen=True)
class RowsHead:
    """What stands before the rows of a row event: the table's number, how many columns the images have, and whether each
    image has all of them; and the bytes in which the rows are from a place on."""

    number: int
    columns: int
    whole: bool
    data: Bytes
    at: int


MOST_UNPACKED = 2**30
# how many bytes of metadata a type has in a table map
_META = {4: 1, 5: 1, 15: 2, 16: 2, 17: 1, 18: 1, 19: 1, 140: 1, 141: 2, 245: 1, 246: 2, 247: 2, 248: 2, 252: 1, 253: 2, 254: 2, 255: 1}
_COLUMN_NAME = 4


def _counted(data: bytes, at: int) -> tuple[int, int]:
    """A length-encoded whole number, and where it ends."""
    first = data[at]
    if first < 251:
        return first, at + 1
    size = {252: 2, 253: 3, 254: 8}[first]
    return int.from_bytes(data[at + 1:at + 1 + size], "little"), at + 1 + size


def read_table_map(body: bytes) -> TableMap:
    number, at = int.from_bytes(body[:6], "little"), 8
    texts = []
    for _ in range(2):
        end = at + 1 + body[at]
        texts.append(body[at + 1:end].decode())
        at = end + 1
    count, at = _counted(body, at)
    numbers = body[at:at + count]
    _size, at = _counted(body, at + count)
    types = []
    for one in numbers:
        size = _META.get(one, 0)
        types.append(LogType(one, body[at:at + size]))
        at += size
    return TableMap(number, texts[0], texts[1], tuple(types), _column_names(body, at + (count + 7) // 8))


def _column_names(body: bytes, at: int) -> tuple[str, ...] | None:
    """The names among the optional metadata: number, length and value of each."""
    while at < len(body):
        kind = body[at]
        size, at = _counted(body, at + 1)
        if kind == _COLUMN_NAME:
            names, end = [], at + size
            while at < end:
                length, at = _counted(body, at)
                names.append(body[at:at + length].decode())
                at += length
            return tuple(names)
        at += size
    return None


def read_rows_head(kind: int, body: Bytes) -> RowsHead:
    number, at = int.from_bytes(body[:6], "little"), 8
    if kind in (30, 31, 32) or 169 <= kind <= 171:
        at += int.from_bytes(body[at:at + 2], "little")
    columns, at = _counted(body, at)
    size, whole = (columns + 7) // 8, True
    for _ in range(2 if kind in UPDATES else 1):
        bits = int.from_bytes(body[at:at + size], "little")
        whole = whole and bits & (1 << columns) - 1 == (1 << columns) - 1
        at += size
    if kind >= LogEvent.WRITE_ROWS_COMPRESSED_V1:
        return RowsHead(number, columns, whole, _unpacked(body[at:]), 0)
    return RowsHead(number, columns, whole, body, at)


def _unpacked(data: Bytes) -> bytes:
    """What was packed with log_bin_compress: a byte with the size of the length, the length, zlib's bytes."""
    behind = 1 + (data[0] & 7)
    # (where there is room for all of it no second copy is made)
    return zlib.decompress(data[behind:], bufsize=max(1, min(MOST_UNPACKED, int.from_bytes(data[1:behind], "big"))))


@dataclass(frozen=True)
class QueryEvent:
    schema: str
    text: str

    @classmethod
    def read(cls, kind: int, body: Bytes) -> "QueryEvent":
        body = bytes(body)
        schema, variables = body[8], int.from_bytes(body[11:13], "little")
        at = 13 + variables
        text = body[at + schema + 1:]
        if kind == LogEvent.QUERY_COMPRESSED:
            text = _unpacked(text)
        return cls(body[at:at + schema].decode("utf-8", "replace"), text.decode("utf-8", "replace"))
