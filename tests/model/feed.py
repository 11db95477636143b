"""Positions, and a feed as its groups."""
import json
import re

from . import Refused, cell, wire

LONGEST_FEED, LONGEST_POSITION = 2**31 - 1, 1 << 20
BLANKS = b" \t\r\n"
UUID = re.compile(rb"[0-9a-fA-F]{8}(-[0-9a-fA-F]{4}){3}-[0-9a-fA-F]{12}")
INTERVAL = re.compile(rb"([0-9]+)(?:-([0-9]+))?")
LAST = 2**63 - 2


class BadPosition(Exception):
    pass


def read_position(text):
    """A set as a dict: of each uuid the rising intervals of its numbers, merged."""
    if len(text) > LONGEST_POSITION:
        raise BadPosition(36)
    text = text.strip(BLANKS)
    if b"/" in text:
        flavour, text = text.split(b"/", 1)
        if flavour != b"MySQL56":
            raise BadPosition(31)
    found = {}
    for part in text.split(b","):
        part = part.strip(BLANKS)
        if not part:
            continue
        if not UUID.fullmatch(part[:36]):
            raise BadPosition(32)
        if part[36:37] != b":":
            raise BadPosition(35)
        for interval in part[37:].split(b":"):
            it = INTERVAL.fullmatch(interval)
            first = it and int(it[1])
            last = it and int(it[2] or it[1])
            if not it or not 1 <= first <= LAST or last > LAST:
                raise BadPosition(33)
            if first <= last:
                found.setdefault(part[:36].lower(), []).append((first, last))
    return {uuid: merged(found[uuid]) for uuid in sorted(found)}


def merged(intervals):
    out = []
    for first, last in sorted(intervals):
        if out and first <= out[-1][1] + 1:
            out[-1] = (out[-1][0], max(last, out[-1][1]))
        else:
            out.append((first, last))
    return out


def union(one, other):
    return {uuid: merged(one.get(uuid, []) + other.get(uuid, [])) for uuid in sorted({*one, *other})}


def is_within(one, other):
    return union(one, other) == other


def print_position(position):
    def shown(first, last):
        return b"%d" % first if first == last else b"%d-%d" % (first, last)

    return b",".join(uuid + b":" + b":".join(shown(*it) for it in position[uuid]) for uuid in position)


class Feed:
    """The groups of a feed, each as (position, changes), a change as (table, before, after)."""

    def __init__(self, data, keyspace=b"", shard=b"", tables=None):
        self.keyspace, self.shard, self.tables = keyspace, shard, tables
        self.groups, self.columns, self.seen, self.differs = [], {}, {}, False
        self.told = {}  # of each table the names of a FIELD that has the most of them, and whether all name them alike
        self.open, self.position, self.changes = False, None, []
        if len(data) > LONGEST_FEED:
            raise Refused(95)
        at = 0
        while at < len(data):
            size, after = wire.varint(data, at, len(data))
            if size is None or size > len(data) - after:
                raise Refused(81)
            at = after + size
            self.message(data, (after, at))
        if self.open:
            raise Refused(88)
        if self.differs:
            raise Refused(85)

    def message(self, data, span):
        found, fault = wire.fields(data, span)
        for number, kind, payload in found:
            if (number, kind) == (1, 2):
                try:
                    event = wire.Event(data, payload)
                except wire.BadEvent as bad:
                    raise Refused(82, b" cause %d%s" % (bad.cause, bad.details)) from None
                self.event(event)
        if fault:
            raise Refused(82, b" cause %d" % fault.cause)

    def table(self, event):
        prefix = self.keyspace + b"."
        return event.table[len(prefix) :] if self.keyspace and event.table.startswith(prefix) else event.table

    def event(self, event):
        if event.type == wire.BEGIN:
            if self.open:
                raise Refused(92)
            self.open, self.position, self.changes = True, None, []
        elif event.type == wire.FIELD:
            name = self.table(event)
            self.columns[name] = len(event.columns)
            self.told[name] = told_with(self.told.get(name), [column for column, _ in event.columns])
            self.differs |= self.tables is not None and self.tables.get(name, event.columns) != event.columns
        elif event.type == wire.ROW:
            self.rows(event)
        elif event.type in (wire.GTID, wire.VGTID):
            self.position_event(event)
        elif event.type == wire.COMMIT and self.open:
            if self.position is None:
                raise Refused(83)
            self.group(self.position, self.changes)
            self.open = False
        elif event.type == wire.ROLLBACK:
            self.open = False

    def rows(self, event):
        if not self.open:
            raise Refused(92)
        name = self.table(event)
        if name not in self.columns:
            raise Refused(86)
        for change in event.changes:
            if any(row is not None and len(row) != self.columns[name] for row in change):
                raise Refused(87)
            if change != [None, None] and (self.tables is None or name in self.tables):
                self.changes.append((name, *change))

    def position_event(self, event):
        text = event.gtid
        if event.type == wire.VGTID:
            if [entry[:2] for entry in event.entries] != [(self.keyspace, self.shard)]:
                raise Refused(89)
            text = event.entries[0][2]
        try:
            position = read_position(text)
        except BadPosition as bad:
            raise Refused(94, b" cause %d" % bad.args[0]) from None
        if self.open:
            self.position = position
        else:
            self.group(position, [])

    def group(self, position, changes):
        if is_within(position, self.seen):
            return
        if not is_within(self.seen, position):
            raise Refused(84, b" group %d" % (len(self.groups) + 1))
        self.groups.append((position, changes))
        self.seen = union(self.seen, position)


def show(data, keyspace=b"", shard=b""):
    """What `show` prints of a feed."""
    out = []
    for number, (position, changes) in enumerate(Feed(data, keyspace, shard).groups, 1):
        out.append(b"group %d %s\n" % (number, print_position(position)))
        for table, before, after in changes:
            for sign, row in ((b"-", before), (b"+", after)):
                if row is not None:
                    out.append(b"\t".join([sign + b" " + table, *map(cell, row)]) + b"\n")
    return b"".join(out)


def are_apart(names):
    return len(names) <= 256 and b"" not in names and len(set(names)) == len(names)


def told_with(told, names):
    """What the FIELDs of a table say of its columns' names, behind one more."""
    if told is None:
        return names, are_apart(names)
    most, agreed = told
    if names == most[: len(names)]:
        return told
    return names, agreed and most == names[: len(most)] and are_apart(names)


def json_value(value):
    """A value as JSON: a text where it is one without control characters but blanks, else its bytes."""
    if value is None:
        return None
    try:
        if all(byte >= 32 and byte != 127 or byte in b"\t\n\r" for byte in value):
            return value.decode()
    except UnicodeDecodeError:
        pass
    return {"bytes": cell(value).decode()}


def show_json(data, keyspace=b"", shard=b""):
    """What `show --json` prints of a feed."""
    feed = Feed(data, keyspace, shard)

    def row_of(table, row):
        if row is None:
            return None
        most, agreed = feed.told[table]
        names = [it.decode() for it in most] if agreed else [str(i) for i in range(1, len(row) + 1)]
        return {name: json_value(value) for name, value in zip(names, row)}

    out = []
    for number, (position, changes) in enumerate(feed.groups, 1):
        told = [{"after": row_of(table, after), "before": row_of(table, before), "table": table.decode()} for table, before, after in changes]
        line = {"changes": told, "group": number, "position": print_position(position).decode()}
        out.append(json.dumps(line, ensure_ascii=False, separators=(",", ":")).encode() + b"\n")
    return b"".join(out)


def bytes_of_hex(text):
    text = bytes(it for it in text if it not in BLANKS)
    if len(text) % 2 or not re.fullmatch(rb"[0-9a-fA-F]*", text):
        raise Refused(93)
    return bytes.fromhex(text.decode())
