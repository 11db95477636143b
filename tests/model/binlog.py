"""A server's binary log, as MariaDB 10.11 writes it: the events of which tests make logs, and random logs with the feed that
is to come of them. Numbers are little-endian; an event is a head of 19 bytes, a body and the check of both (CRC-32)."""
import random
import struct
import zlib
from dataclasses import dataclass, field

QUERY, ROTATE, FORMAT, XID, TABLE_MAP = 2, 4, 15, 16, 19
WRITE, UPDATE, DELETE, XA_PREPARE = 23, 24, 25, 38
CHECKPOINT, GTID, GTID_LIST = 161, 162, 163
ALONE, DDL, PREPARES, ENDS = 1, 32, 64, 128
"""Flags of a GTID event."""

VERSION = b"10.11.19-MariaDB-log"


def length(number: int) -> bytes:
    """A number that tells its own size."""
    if number < 251:
        return bytes((number,))
    return b"\xfc" + struct.pack("<H", number) if number < 1 << 16 else b"\xfd" + struct.pack("<I", number)[:3]


def bits(marks: list[bool]) -> bytes:
    """A bit for each, the lowest first."""
    return sum(1 << place for place, mark in enumerate(marks) if mark).to_bytes((len(marks) + 7) // 8, "little")


class Log:
    """A file of a log: its bytes, and where its events begin."""

    def __init__(self, reached: dict[int, int], checked: bool = True, in_use: bool = False) -> None:
        self.checked, self.in_use, self.places, self.data = checked, in_use, [], bytearray(b"\xfebin")
        body = struct.pack("<H50sIB", 4, VERSION, 0, 19) + bytes(171) + bytes((checked,))
        self.put(FORMAT, body, sums=True)
        if in_use:
            self.data[4 + 17] |= 1
        listed = b"".join([struct.pack("<IIQ", domain, 7, number) for domain, number in sorted(reached.items())])
        self.put(GTID_LIST, struct.pack("<I", len(reached)) + listed + (b"" if reached else bytes(2)))

    def put(self, kind: int, body: bytes, flags: int = 0, sums: bool = False) -> None:
        """One more event."""
        self.places.append(len(self.data))
        size = 19 + len(body) + 4 * (self.checked or sums)
        event = struct.pack("<IBIIIH", 0x6B095D90, kind, 7, size, (len(self.data) + size) % (1 << 32), flags) + body
        self.data += event + (struct.pack("<I", zlib.crc32(event)) if self.checked or sums else b"")

    def gtid(self, domain: int, number: int, flags: int = 0, xid: bytes | None = None) -> None:
        body = struct.pack("<QIB", number, domain, flags)
        self.put(GTID, body + (struct.pack("<IBB", 1, len(xid), 0) + xid if xid is not None else bytes(6)), 8)

    def query(self, text: bytes, schema: bytes = b"ks") -> None:
        variables = b"\x00" + bytes(4)
        self.put(QUERY, struct.pack("<IIBHH", 4, 0, len(schema), 0, len(variables)) + variables + schema + b"\0" + text)

    def table_map(self, number: int, schema: bytes, table: "Table", extra: bytes = b"") -> None:
        metadata = b"".join([column.metadata for column in table.columns])
        parts = [struct.pack("<Q", number)[:6], b"\1\0", bytes((len(schema),)), schema, b"\0", bytes((len(table.name),)), table.name, b"\0"]
        parts += [length(len(table.columns)), bytes([column.log_type for column in table.columns]), length(len(metadata)), metadata]
        self.put(TABLE_MAP, b"".join(parts) + bits([column.nullable for column in table.columns]) + extra)

    def rows(self, kind: int, number: int, table: "Table", images: list[list[bytes | None]]) -> None:
        everything = bits([True] * len(table.columns))
        body = struct.pack("<Q", number)[:6] + b"\1\0" + length(len(table.columns)) + everything * (2 if kind == UPDATE else 1)
        self.put(kind, body + b"".join([table.image(row) for row in images]))


@dataclass
class Column:
    """A column: its name and type in a workflow, its type and metadata in a log, and how a text is written there."""

    name: bytes
    said: object
    number: int
    log_type: int
    metadata: bytes = b""
    nullable: bool = True

    def written(self, text: bytes) -> bytes:
        if self.log_type in SIZES:
            size = SIZES[self.log_type]
            return (int(text) % (1 << 8 * size)).to_bytes(size, "little")
        count = 1 if self.log_type == 15 and struct.unpack("<H", self.metadata)[0] < 256 else 2
        return len(text).to_bytes(count, "little") + text

    def text(self, r: random.Random) -> bytes:
        if self.log_type in SIZES:
            half = 1 << 8 * SIZES[self.log_type] - 1
            low, high = (0, 2 * half - 1) if self.number in (770, 772, 774, 776, 778) else (-half, half - 1)
            return str(r.choice([low, high, 0, 1, r.randint(low, high)] if low == 0 or r.random() < 0.5 else [-1, r.randint(low, high)])).encode()
        return bytes([r.choice(b"abc\0'\\\xff") for _ in range(r.choice([0, 1, 3, 19]))]) if self.number > 8192 else r.choice([b"", b"a", b"hello", "ü€".encode()])


SIZES = {1: 1, 2: 2, 9: 3, 3: 4, 8: 8}
"""The types of whole numbers, and their bytes."""

KINDS = [("INT8", 257, 1), ("UINT8", 770, 1), ("INT16", 259, 2), ("UINT16", 772, 2), ("INT24", 261, 9), ("UINT24", 774, 9), ("INT32", 263, 3), ("UINT32", 776, 3), ("INT64", 265, 8), ("UINT64", 778, 8)]
TEXTS = [("VARCHAR", 6165, 15, struct.pack("<H", 80)), ("VARCHAR", 6165, 15, struct.pack("<H", 400)), ("VARBINARY", 10262, 15, struct.pack("<H", 40)), (6163, 6163, 252, b"\2"), (10260, 10260, 252, b"\2")]


@dataclass
class Table:
    name: bytes
    columns: list[Column]
    rows: dict = field(default_factory=dict)

    def image(self, row: list[bytes | None]) -> bytes:
        return bits([cell is None for cell in row]) + b"".join([c.written(cell) for c, cell in zip(self.columns, row) if cell is not None])

    def said(self) -> dict:
        return {"name": self.name.decode(), "columns": [[c.name.decode(), c.said] for c in self.columns], "key": ["id"]}


def column_names(table: Table) -> bytes:
    """What a server tells of a table's columns beyond their types: their names."""
    body = b"".join([bytes((len(column.name),)) + column.name for column in table.columns])
    return b"\4" + length(len(body)) + body


def random_table(r: random.Random, name: bytes) -> Table:
    columns = [Column(b"id", "INT64", 265, 8, nullable=False)]
    for place in range(r.randrange(5)):
        said, number, log_type, *metadata = r.choice(KINDS + TEXTS)
        columns.append(Column(b"c%d" % place, r.choice([said, number]), number, log_type, *metadata))
    return Table(name, columns)


class History:
    """Random transactions of some tables over several files, and the feed of those of the workflow's."""

    def __init__(self, r: random.Random, writer) -> None:
        self.r, self.writer = r, writer
        self.keyspace, self.shard = r.choice(["ks", "shop"]), r.choice(["-", "-80", "80-"])
        self.schema = r.choice([None, "s"])
        self.tables = [random_table(r, name) for name in r.sample([b"t", b"u", b"orders", b"a_1"], r.randrange(1, 4))]
        self.other = random_table(r, b"other")
        self.reached, self.feed, self.said, self.fields = {}, b"", True, set()
        self.checked, self.named = r.random() < 0.8, r.random() < 0.5
        self.waiting: dict[bytes, list] = {}
        self.logs, self.starts = [], []
        files = r.randrange(1, 4)
        for place in range(files):
            self.log = Log(self.reached, self.checked, in_use=place == files - 1 and r.random() < 0.5)
            self.log.put(CHECKPOINT, struct.pack("<I", 12) + b"binlog.00000%d" % (place + 1))
            if place == 0:
                self.make_tables()
            for _ in range(r.randrange(6)):
                self.transaction()
            if place == files - 1 or r.random() < 0.3:
                self.end_all()
            if place < files - 1:
                self.log.put(ROTATE, struct.pack("<Q", 4) + b"binlog.00000%d" % (place + 2))
            self.logs.append(self.log)
        if not self.said:
            self.feed += writer.message_bytes(self.place())

    def workflow(self) -> dict:
        return {"keyspace": self.keyspace, "tables": [t.said() for t in self.tables], "streams": [{"shard": self.shard, "filter": {"rules": [{"match": "/.*", "filter": ""}]}}]}

    @property
    def schema_there(self) -> bytes:
        return (self.schema or self.keyspace).encode()

    # ---- positions

    def position(self) -> str:
        parts = [f"6d617269-6164-6200-8000-{domain:012x}:1" + (f"-{number}" if number > 1 else "") for domain, number in sorted(self.reached.items())]
        return ",".join(parts)

    def place(self) -> bytes:
        w = self.writer
        return w.event_bytes(w.EventType.VGTID, 0, w.VGTID, w.vgtid_bytes(self.keyspace, self.shard, self.position()))

    def begin(self, flags: int = 0, xid: bytes | None = None) -> None:
        """The next transaction's position, now and then a number that skips some."""
        domain = self.r.choice([0, 0, 0, 5])
        number = self.reached.get(domain, 0) + self.r.choice([1, 1, 1, 3])
        self.log.gtid(domain, number, flags, xid)
        self.reached[domain] = number
        self.starts.append((len(self.logs), self.log.places[-1]))

    # ---- what a feed tells

    def tell(self, changes: list) -> None:
        w, events = self.writer, []
        for table, data in changes:
            if table is self.other:
                continue
            name = table.name.decode()
            if name not in self.fields:
                self.fields.add(name)
                events.append(w.event_bytes(w.EventType.FIELD, 0, w.FIELDS, w.columns_bytes(name, [(c.name.decode(), c.number) for c in table.columns])))
            body = w.text_bytes(1, name) + b"".join([w.change_bytes(*[row and w.row_bytes(row) for row in change]) for change in data])
            events.append(w.event_bytes(w.EventType.ROW, 0, w.ROWS, body))
        self.said = bool(events)
        if events:
            self.feed += w.message_bytes(w.event_bytes(w.EventType.BEGIN, 0), *events, self.place(), w.event_bytes(w.EventType.COMMIT, 0))

    # ---- transactions

    def make_tables(self) -> None:
        self.begin(ALONE | DDL)
        self.log.query(b"create database " + self.schema_there, b"")
        self.tell([])
        for table in [*self.tables, self.other]:
            self.begin(ALONE | DDL)
            self.log.query(b"CREATE TABLE " + self.r.choice([b"", self.schema_there + b"."]) + table.name + b" (id bigint primary key)", self.schema_there)
            self.tell([])

    def row(self, table: Table, key: int) -> list:
        return [str(key).encode(), *[None if self.r.random() < 0.2 else c.text(self.r) for c in table.columns[1:]]]

    def change(self, table: Table) -> tuple:
        """One row event, as it is written, and its changes."""
        r, kind = self.r, self.r.choice([WRITE, UPDATE, DELETE] if table.rows else [WRITE])
        images, changes = [], []
        for _ in range(r.randrange(1, 4)):
            if kind == WRITE or not table.rows:
                row = self.row(table, r.choice([-1, 1]) * r.randrange(1 << 62))
                if kind != WRITE or row[0] in table.rows:
                    continue
                table.rows[row[0]] = row
                images, changes = [*images, row], [*changes, (None, row)]
                continue
            key = r.choice(list(table.rows))
            old = table.rows.pop(key)
            if kind == DELETE:
                images, changes = [*images, old], [*changes, (old, None)]
            else:
                new = self.row(table, int(key))
                table.rows[key] = new
                images, changes = [*images, old, new], [*changes, (old, new)]
        number = r.randrange(1, 1 << 40)
        self.log.table_map(number, self.schema_there, table, column_names(table) if self.named else b"")
        self.log.rows(kind, number, table, images)
        return table, changes

    def changes(self) -> list:
        """Row events, some of which are taken back to a savepoint."""
        r, kept = self.r, []
        for _ in range(r.randrange(4)):
            table = r.choice([*self.tables, self.other])
            if r.random() < 0.2:
                self.log.query(b"SAVEPOINT `x`")
                before = {id(t): dict(t.rows) for t in [*self.tables, self.other]}
                self.change(table)
                self.log.query(b"ROLLBACK TO `x`")
                for t in [*self.tables, self.other]:
                    t.rows = before[id(t)]
            else:
                kept.append(self.change(table))
        return kept

    def transaction(self) -> None:
        r, way = self.r, self.r.random()
        if way < 0.6:
            self.begin()
            kept = self.changes()
            self.log.put(XID, struct.pack("<Q", r.getrandbits(32))) if r.random() < 0.8 else self.log.query(b"COMMIT")
            self.tell(kept)
        elif way < 0.7:
            self.begin()
            before = {id(t): dict(t.rows) for t in [*self.tables, self.other]}
            self.changes()
            self.log.query(b"ROLLBACK")
            for t in [*self.tables, self.other]:
                t.rows = before[id(t)]
            self.tell([])
        elif way < 0.8:
            self.begin(ALONE)
            self.log.query(r.choice([b"flush tables", b"GRANT SELECT ON *.* TO x@y", b"analyze table t", b"create table third (id int)"]), b"elsewhere")
            self.tell([])
        elif way < 0.9 and len(self.waiting) < 3:
            xid = r.choice([xid for xid in (b"x", b"y", b"xy", b"z") if xid not in self.waiting])
            self.begin(PREPARES, xid)
            self.waiting[xid] = self.changes()
            self.log.query(b"XA END X'" + xid.hex().encode() + b"',X'',1")
            self.log.put(XA_PREPARE, struct.pack("<BIII", 0, 1, len(xid), 0) + xid)
            self.tell([])
        elif self.waiting:
            self.end_xa(r.choice(list(self.waiting)))

    def end_all(self) -> None:
        while self.waiting:
            self.end_xa(self.r.choice(list(self.waiting)))

    def end_xa(self, xid: bytes) -> None:
        """Of an XA transaction that is prepared: its commit, or its rollback."""
        self.begin(ALONE | ENDS, xid)
        back, changes = self.r.random() < 0.3, self.waiting.pop(xid)
        self.log.query((b"XA ROLLBACK X'" if back else b"XA COMMIT X'") + xid.hex().encode() + b"',X'',1")
        self.tell([] if back else changes)
