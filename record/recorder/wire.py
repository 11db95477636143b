"""The messages of a feed (docs/FORMATS.md, 'Messages') as bytes, in their shortest spelling: what the recorder writes of a
server, and `Feed` of the Python module by hand. This is the one file of both: the module has it as `vrepl.wire`, a copy in what
is installed, and from here in a checkout. So it needs no other part of either, and nothing but the standard library."""
from collections.abc import Iterable, Sequence
from enum import IntEnum

ROWS, FIELDS, GTID, VGTID = 5, 6, 3, 7
"""The numbers of an event's fields."""


class EventType(IntEnum):
    """The kinds of events."""

    GTID = 1
    BEGIN = 2
    COMMIT = 3
    ROLLBACK = 4
    DDL = 5
    OTHER = 11
    ROW = 12
    FIELD = 13
    HEARTBEAT = 14
    VGTID = 15
    VERSION = 17
    LASTPK = 18
    SAVEPOINT = 19
    COPY_COMPLETED = 20


def varint(number: int) -> bytes:
    """A number from 0 on."""
    head = bytearray()
    while number > 0x7F:
        head.append(number & 0x7F | 0x80)
        number >>= 7
    head.append(number)
    return bytes(head)


SIZES = [bytes((number,)) for number in range(0x80)] + [bytes((number & 0x7F | 0x80, number >> 7)) for number in range(0x80, 1 << 14)]
"""The varints of small numbers."""


def sized(number: int) -> bytes:
    """The same, looked up where it is small."""
    return SIZES[number] if number < len(SIZES) else varint(number)


def number_bytes(field: int, number: int) -> bytes:
    """A number as the field of this number."""
    return sized(field * 8) + sized(number)


def field_bytes(field: int, data: bytes) -> bytes:
    """Bytes as the field of this number."""
    return sized(field * 8 + 2) + sized(len(data)) + data


def text_bytes(field: int, text: str) -> bytes:
    """A text as the field of this number."""
    return field_bytes(field, text.encode())


def row_bytes(row: Sequence[bytes | None]) -> bytes:
    """A Row message: the bytes of each column, None for NULL."""
    lengths = b"".join([b"\1" if cell is None else sized(2 * len(cell)) for cell in row])
    values = b"".join([cell for cell in row if cell])
    return b"\x0a" + sized(len(lengths)) + lengths + (b"\x12" + sized(len(values)) + values if values else b"")


def change_bytes(before: bytes | None, after: bytes | None) -> bytes:
    """A row change among those of a RowEvent, of the Row messages before and after."""
    body = b"" if before is None else b"\x0a" + sized(len(before)) + before
    if after is not None:
        body += b"\x12" + sized(len(after)) + after
    return b"\x12" + sized(len(body)) + body


def columns_bytes(table: str, columns: Iterable[tuple[str, int]]) -> bytes:
    """A FieldEvent: a table's columns, each by its name and its type's number."""
    fields = [field_bytes(2, text_bytes(1, name) + number_bytes(2, kind)) for name, kind in columns]
    return b"".join([text_bytes(1, table), *fields])


def vgtid_bytes(keyspace: str, shard: str, position: str) -> bytes:
    """A VGtid of one shard."""
    return field_bytes(1, text_bytes(1, keyspace) + text_bytes(2, shard) + text_bytes(3, position))


def head_bytes(kind: EventType, time: int, number: int) -> bytes:
    """How an event begins, up to the size of its field of this number, if it has one."""
    return b"\x08" + sized(kind) + (b"\x10" + varint(time) if time else b"") + (sized(number * 8 + 2) if number else b"")


def behind_head(head: bytes, size: int) -> bytes:
    """What stands before so many bytes of a field, in an event among those of a VStreamResponse."""
    said = sized(size)
    return b"\x0a" + sized(len(head) + len(said) + size) + head + said


def event_bytes(kind: EventType, time: int, number: int = 0, *parts: bytes) -> bytes:
    """An event among those of a VStreamResponse; what stands in its field of this number is in parts."""
    head = head_bytes(kind, time, number)
    return b"".join([behind_head(head, sum(map(len, parts))) if number else b"\x0a" + sized(len(head)) + head, *parts])


def message_bytes(*events: bytes) -> bytes:
    """A VStreamResponse of events, behind its length."""
    return b"".join([sized(sum(map(len, events))), *events])
