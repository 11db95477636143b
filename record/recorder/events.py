"""The binary log's events, from bytes to values.

Sources: "Replication Protocol" of MariaDB's knowledge base, and sql/log_event.h of its sources. An event is
a header of 19 bytes (time, type, server, size, end in the log, flags) and a body; `server` has taken off
the checksum. A body that is cut short is an IndexError or a struct.error.
"""
import struct
from enum import IntEnum
from typing import NamedTuple

Bytes = bytes | memoryview
"""Bytes, or where they are many a view of them."""
HEADER = struct.Struct("<IBIIIH")


class LogEvent(IntEnum):
    QUERY = 2
    STOP = 3
    ROTATE = 4
    INTVAR = 5
    LOAD = 6
    APPEND_BLOCK = 9
    DELETE_FILE = 11
    RAND = 13
    USER_VAR = 14
    FORMAT_DESCRIPTION = 15
    XID = 16
    BEGIN_LOAD_QUERY = 17
    EXECUTE_LOAD_QUERY = 18
    TABLE_MAP = 19
    WRITE_ROWS_V1 = 23
    UPDATE_ROWS_V1 = 24
    DELETE_ROWS_V1 = 25
    INCIDENT = 26
    HEARTBEAT = 27
    WRITE_ROWS = 30
    UPDATE_ROWS = 31
    DELETE_ROWS = 32
    XA_PREPARE = 38
    ANNOTATE_ROWS = 160
    BINLOG_CHECKPOINT = 161
    GTID = 162
    GTID_LIST = 163
    START_ENCRYPTION = 164
    QUERY_COMPRESSED = 165
    WRITE_ROWS_COMPRESSED_V1 = 166
    UPDATE_ROWS_COMPRESSED_V1 = 167
    DELETE_ROWS_COMPRESSED_V1 = 168
    WRITE_ROWS_COMPRESSED = 169
    UPDATE_ROWS_COMPRESSED = 170
    DELETE_ROWS_COMPRESSED = 171


class Event(NamedTuple):
    """One event: `log` is its file's name, `kind` its number, `end` where it ends there (0 where the server made it up)."""

    log: str
    time: int
    kind: int
    server: int
    end: int
    flags: int
    body: Bytes


def event_of(log: str, data: Bytes, behind: int) -> Event:
    """The event that some bytes are up to a place."""
    time, kind, server, _size, end, flags = HEADER.unpack_from(data)
    return Event(log, time, kind, server, end, flags, data[HEADER.size:behind])


_unpack_gtid = struct.Struct("<QIB").unpack_from


class GtidEvent(NamedTuple):
    domain: int
    sequence: int
    alone: bool
    """One statement, without a commit behind it."""
    xa: bytes
    """The id of an XA transaction that is prepared or ended here, or none."""
    ends_xa: bool

    @classmethod
    def read(cls, body: Bytes) -> "GtidEvent":
        sequence, domain, flags = _unpack_gtid(body)
        xa = b""
        if flags & (0x40 | 0x80):
            at = 13 + (8 if flags & 2 else 0)
            xa = body[at:at + 6 + body[at + 4] + body[at + 5]]
        return tuple.__new__(cls, (domain, sequence, bool(flags & 1), xa, bool(flags & 0x80)))


def table_of(body: Bytes) -> tuple[str, str]:
    """The schema and the name of a table map's table, each behind the count of its bytes and before a 00."""
    end = 9 + body[8]
    return bytes(body[9:end]).decode(), bytes(body[end + 2:end + 2 + body[end + 1]]).decode()
