"""A feed at random, in any of the spellings that the wire and the grammar allow."""
from . import checkpoint, making
from .checkpoint import put_message, put_number, put_row, put_varint
from .random_workflow import Workflows
from .wire import fields
from .workflow import TYPE, WHOLE

NUMBERS = [b"0", b"1", b"2", b"3", b"10", b"-1", b"-0", b"007", b"9223372036854775807", b"9223372036854775808"]
NUMBERS += [b"18446744073709551615", b"-9223372036854775808", b"12", b"200", b"00"]
BAD_NUMBERS = [b"", b"x", b"1x", b"+1", b"18446744073709551616", b"-9223372036854775809", b" 1", b"-", b"1.0"]
TEXTS = [b"", b"a", b"b", b"ab", b"abc", b"\0", b"a\0", b"\xff\xfe", b"\t\n", b"007"]
UUIDS = [making.U, making.V, b"00000000-0000-0000-0000-0000000000ff"]

# Of each message its embedded messages, and the scalars that may stand twice, each as it stands before the one that counts.
JUNK = b"x\xff"
MESSAGES = {
    "event": ({5: "rows", 6: "columns", 7: "vgtid"}, {1: put_number(1, 6), 3: put_message(3, JUNK)}),
    "rows": ({2: "change"}, {1: put_message(1, JUNK)}),
    "change": ({1: "row", 2: "row"}, {}),
    "row": ({}, {2: put_message(2, b"left over")}),
    "columns": ({2: "column"}, {1: put_message(1, JUNK)}),
    "column": ({}, {1: put_message(1, JUNK), 2: put_number(2, 1)}),
    "vgtid": ({1: "entry"}, {}),
    "entry": ({}, {number: put_message(number, JUNK) for number in (1, 2, 3)}),
    "stream": ({2: "table"}, {1: put_message(1, JUNK)}),
    "table": ({2: "answer"}, {1: put_number(1, 7), 3: put_message(3, JUNK)}),
    "answer": ({1: "column", 2: "column", 4: "row", 5: "row"}, {3: put_message(3, JUNK)}),
}


class Feeds(Workflows):
    """Feeds over the tables of the workflow `read`; the sets of stream s are of the uuids `uuids[s]`."""

    def value(self, kind):
        r = self.r
        if self.chance(0.05):
            return None
        if TYPE.get(kind, kind) in WHOLE:
            return r.choice(BAD_NUMBERS) if self.is_faulty(0.03) else r.choice(NUMBERS[: r.choice([4, 4, 8, len(NUMBERS)])])
        return r.choice(TEXTS)

    def row(self, table):
        row = [self.value(kind) for _, kind in table.columns]
        for place in table.key_places if not self.is_faulty(0.05) else []:
            while row[place] is None or table.columns[place][1] in WHOLE and row[place] in BAD_NUMBERS:
                row[place] = self.value(table.columns[place][1])
        return row

    def feed(self, s, shard):
        """A feed of groups in any of the spellings that the wire and the grammar allow."""
        r = self.r
        tables = self.read.tables if self.read else []
        self.keyspace = self.read.keyspace if self.read else b"ks"
        self.sets, rows, known = {it: 1 for it in self.uuids[s]}, {}, set()
        events, out = [], []
        for _ in range(r.choices([0, 1, 2, 3, 5, 9], [1, 3, 5, 5, 4, 1])[0]):
            events += self.noise((3, 4)) if self.chance(0.1) else []
            at = self.position(s)
            if tables and self.chance(0.1):
                table = r.choice(tables)
                events.append(self.fields_of(table.name, table.columns))
                known.add(table.name)
            if tables and self.is_faulty(0.05):
                events.append(making.field_event(tables[0].name, [*tables[0].columns[:-1], (b"other", 265)]))
            if self.chance(0.1):
                events.append(at)
                continue
            group = [making.event(2)]
            for _ in range(r.choices([0, 1, 2, 3, 6], [1, 5, 4, 3, 1])[0]):
                if self.chance(0.05) or not tables:
                    group += self.foreign(known)
                    continue
                table = r.choice(tables)
                if table.name not in known or self.chance(0.1):
                    group.append(self.fields_of(table.name, table.columns))
                    known.add(table.name)
                there = rows.setdefault(table.name, {})
                group.append(self.rows_event(table.name, [self.change(table, there) for _ in range(r.choices([0, 1, 2, 4], [1, 12, 3, 1])[0])]))
                group += self.noise() if self.chance(0.05) else []
            group += [self.position(s)] if self.chance(0.05) else []
            group.insert(r.randrange(1, len(group) + 1), at) if not self.is_faulty(0.03) else None
            events += group + [making.event(4 if self.chance(0.04) else 3)]
            if self.chance(0.7):
                out.append(self.frame(events))
                events = []
        return b"".join(out + [self.frame(events)] * bool(events))

    def change(self, table, there):
        r = self.r
        if self.chance(0.01):
            return None, None
        before = r.choice(list(there.values())) if there and self.chance(0.5) else None
        if before is None and self.chance(0.1):
            before = self.row(table)
        after = None if before is not None and self.chance(0.4) else self.row(table)
        if before is not None:
            there.pop(table.key_of(before), None)
        if after is not None:
            there[table.key_of(after)] = after
        return before, after

    def position(self, s):
        """A VGTID or a GTID event whose set grows, stays or goes back."""
        r = self.r
        uuid = r.choice(self.uuids[s])
        self.sets[uuid] += r.choice([1, 1, 1, 2]) if not self.chance(0.07) else 0
        text = b",".join(it + (b":1" if last == 1 and self.chance(0.5) else b":1-%d" % last) for it, last in self.sets.items())
        if self.chance(0.1):
            text = r.choice([text.upper(), b" " + text + b"\n", text.replace(b":1-", b":1:1-"), b"," + text, text.replace(b",", b" , "), b"", text + b":5-3"])
        if self.is_faulty(0.03):
            text = r.choice([text[:40], text + b":0", b"x", making.U, b"MariaDB/0-1-2", making.V + b":1", text + b",x", making.U + b":9223372036854775807"])
        if self.chance(0.7):
            text = b"MySQL56/" + text
        if self.is_faulty(0.05):
            text = self.scratched(text.decode(), "/:-, \t\v0189afAFgM").encode()
        if self.chance(0.6):
            return making.gtid(text)
        shard = self.read.shards[s] if self.read else b""
        entry = [self.keyspace if not self.is_faulty(0.01) else b"other", shard, text]
        body = b"".join(checkpoint.put_text(i, it) for i, it in enumerate(entry, 1))
        entries = put_message(1, body) * (1 if not self.is_faulty(0.01) else 2)
        return making.event(15, put_message(7, entries))

    def named(self, name):
        return self.keyspace + b"." + name if self.keyspace and self.chance(0.2) else name

    def fields_of(self, name, columns):
        if self.is_faulty(0.05):
            columns = [*columns[:-1], (b"other", 265)]
        return making.field_event(self.named(name), columns)

    def rows_event(self, name, changes):
        body = checkpoint.put_text(1, self.named(name))
        for change in changes:
            parts = [(number, row) for number, row in zip((1, 2), change) if row is not None]
            if self.chance(0.1):
                parts.reverse()
            body += put_message(2, b"".join(put_message(number, self.spelled_row(row)) for number, row in parts))
        return making.event(12, put_message(5, body))

    def spelled_row(self, row):
        """A row in one of its spellings: lengths packed or not, in several parts, and with what is skipped."""
        r = self.r
        if self.chance(0.7):
            return put_row(row)
        lengths = [self.spelled_varint(r.choice([1, 3, 2**64 - 1]) if it is None else 2 * len(it)) for it in row]
        values = put_message(2, b"".join(it for it in row if it is not None) + r.choice([b"", b"", b"left over"]))
        parts, at = [], 0
        while at < len(lengths):
            size = r.randrange(1, 4)
            some = lengths[at : at + size]
            parts.append(put_message(1, b"".join(some)) if self.chance(0.5) else b"".join(b"\x08" + it for it in some))
            at += size
        parts.insert(r.randrange(len(parts) + 1), values)
        if self.chance(0.2):
            parts.insert(r.randrange(len(parts) + 1), self.unknown())
        return b"".join(parts)

    def spelled_varint(self, value):
        if self.chance(0.8) or value >= 1 << 56:
            return put_varint(value)
        out = put_varint(value)
        return out[:-1] + bytes([out[-1] | 128]) + b"\x80" * self.r.randrange(3) + b"\0"

    def unknown(self):
        """A field that is skipped, or that is none."""
        if self.is_faulty(0.1):
            return self.r.choice([b"\x78" + b"\xff" * 9 + b"\x02", b"\x78" + b"\x80" * 10 + b"\0", b"\x7b", b"\x7c", b"\x7e", b"\x7f", b"\0\0", b"\x80\x80\x80\x80\x10\0", b"\x79", b"\x7d12"])
        return self.r.choice([b"\x78" + b"\xff" * 9 + b"\x01", b"\xf8\xff\xff\xff\x0f\x01", b"\x78\x01", b"\x7a\x02hi", b"\x79" + b"8" * 8, b"\x7d" + b"4" * 4, b"\x11" + b"8" * 8, b"\x98\x80\x01\x00"])

    def foreign(self, known):
        """Events of a table that isn't planned, with an odd key or name."""
        name = self.r.choice([b"other", b"", b"x\ty"])
        out = [] if name in known else [making.field_event(name, making.COLUMNS)]
        known.add(name)
        return out + [making.row_event(name, [(None, (self.r.choice([b"1", None, b"q"]), b"v"))])]

    def noise(self, ends=()):
        """An event that is ignored, or that ends a transaction, or that is refused."""
        kinds = [5, 11, 14, 17, 19, *ends] if not self.is_faulty(0.1) else [0, 3, 4, 6, 10, 16, 18, 20, 99]
        return [making.event(self.r.choice(kinds))]

    def frame(self, events):
        parts = [put_message(1, self.spelled_event(it)) for it in events]
        if self.chance(0.1):
            parts.insert(self.r.randrange(len(parts) + 1), self.unknown())
        body = b"".join(parts)
        return self.spelled_varint(len(body)) + body

    def spelled_event(self, event):
        """An event in another spelling, or with one field more."""
        if self.is_faulty(0.05):
            return self.unknown() + event if self.chance(0.5) else event + self.unknown()
        return self.respelled(event, "event") if self.chance(0.15) else event

    def respelled(self, body, kind):
        """A message with its fields in another order, scalars twice, of which the last counts, and fields that are skipped."""
        inner, scalars = MESSAGES[kind]
        numbers, spelled = [], {}
        found, fault = fields(body, (0, len(body)))
        if fault or any(wire_type not in (0, 2) for _, wire_type, _ in found):
            return body
        for number, _, payload in found:
            if isinstance(payload, tuple):
                text = body[slice(*payload)]
                text = self.respelled(text, inner[number]) if number in inner else text
                one = put_varint(number << 3 | 2) + self.spelled_varint(len(text)) + text
            else:
                one = self.spelled_varint(number << 3) + self.spelled_varint(payload)
            numbers.append(number)
            spelled.setdefault(number, []).append(one)
        if kind == "answer" and 4 in spelled and self.is_faulty(0.2):
            # a row whose key doesn't rise
            numbers.append(4)
            spelled[4].append(self.r.choice(spelled[4]))
        if self.chance(0.3):
            self.r.shuffle(numbers)
        parts = [spelled[number].pop(0) for number in numbers]
        for number in scalars:
            if number in numbers and self.chance(0.2):
                parts.insert(0, scalars[number])
        if kind != "change" and self.chance(0.2):
            parts.insert(self.r.randrange(len(parts) + 1), self.unknown())
        return b"".join(parts)
