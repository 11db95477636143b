"""Workflows and feeds of sessions: two streams of three tables, in groups that are made one by one."""
import json

from model import making
from model.checkpoint import put_message, put_text

UUIDS = [making.U, making.V]
SHARDS = ["-80", "80-"]
QUOTED = 'é"\\'
TABLES = {
    "t": ([["id", "INT64"], ["v", "VARCHAR"]], ["id"]),
    "a b": ([["k", "VARBINARY"], ["n", "INT16"], ["b", "BLOB"]], ["k", "n"]),
    QUOTED: ([["id", "VARCHAR"]], ["id"]),
}
KINDS = {"INT64": 265, "VARCHAR": 6165, "VARBINARY": 10262, "INT16": 259, "BLOB": 10260}


def workflow(shards: list[str] | None = None) -> bytes:
    said = [{"name": name, "columns": columns, "key": key} for name, (columns, key) in TABLES.items()]
    streams = [{"shard": shard, "filter": {"rules": [{"match": "/.*"}]}} for shard in shards or SHARDS]
    return json.dumps({"keyspace": "ks", "tables": said, "streams": streams}).encode()


def fields(table: str) -> bytes:
    return making.field_event(table.encode(), [(name.encode(), KINDS[kind]) for name, kind in TABLES[table][0]])


def position(stream: int, n: int) -> bytes:
    return UUIDS[stream] + (b":1" if n == 1 else b":1-%d" % n)


def gtid(stream: int, n: int) -> bytes:
    return making.event(1, put_text(3, b"MySQL56/" + position(stream, n)))


def events(stream: int, n: int, *changes: tuple) -> list[bytes]:
    """Those of the transaction number n, whose changes are (table, before, after)."""
    said = [making.event(2)]
    for table, before, after in changes:
        said += [fields(table), making.row_event(table.encode(), [(before, after)])]
    return [*said, gtid(stream, n), making.event(3)]


def group(stream: int, n: int, *changes: tuple) -> bytes:
    """That transaction as one message."""
    return making.frame(*events(stream, n, *changes))


def added(stream: int, n: int, number: int, text: bytes = b"v") -> bytes:
    """One that inserts a row into `t`."""
    return group(stream, n, ("t", None, (b"%d" % number, text)))


def scattered(stream: int, n: int, *changes: tuple) -> bytes:
    """That transaction with a message for each event."""
    return b"".join(making.frame(it) for it in events(stream, n, *changes))


def faults(n: int) -> dict[int, bytes]:
    """By its number what a feed of stream 0 is refused for, behind its group number n - 1."""
    begin, commit, row = making.event(2), making.event(3), making.row_event(b"t", [(None, (b"7", b"v"))])
    # a position that lies elsewhere; one that is none
    elsewhere = making.event(1, put_text(3, b"MySQL56/" + making.V + b":1"))
    vgtid = making.event(15, put_message(7, put_message(1, put_text(1, b"ks") + put_text(2, b"other") + put_text(3, position(0, n)))))
    return {
        81: b"\xff" * 11,
        82: making.frame(b"\x0b"),
        83: making.frame(begin, fields("t"), row, commit),
        84: making.frame(elsewhere),
        85: making.frame(begin, making.field_event(b"t", [(b"id", 265), (b"other", 6165)]), gtid(0, n), commit),
        86: making.frame(begin, making.row_event(b"never told", [(None, (b"7",))]), gtid(0, n), commit),
        87: making.frame(begin, fields("t"), making.row_event(b"t", [(None, (b"7",))]), gtid(0, n), commit),
        89: making.frame(vgtid),
        90: group(0, n, ("t", None, (None, b"a row without a key"))),
        92: making.frame(begin, begin),
        94: making.frame(making.event(1, put_text(3, b"MySQL56/no position"))),
    }  # fmt: skip
