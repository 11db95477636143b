"""What `check` prints of a workflow and its feeds."""
from . import Refused, told as file, wire
from .board import Board, key_text
from .feed import Feed, print_position
from .shown import printable, shown
from .vdiff import line as json_line

PASSED_OVER = {5: b"DDL", 11: b"OTHER", 19: b"SAVEPOINT"}
WHY = (b"missing", b"differs", b"standing", b"moved")


def skipped(data):
    """The events of a feed that may change rows without saying which, each with its message's number."""
    at, number = 0, 0
    while at < len(data):
        size, after = wire.varint(data, at, len(data))
        at, number = after + size, number + 1
        for field, kind, payload in wire.fields(data, (after, at))[0]:
            if (field, kind) == (1, 2):
                found = wire.fields(data, payload)[0]
                said = ([0] + [it for no, wired, it in found if (no, wired) == (1, 0)])[-1]
                text = data[slice(*([(0, 0)] + [it for no, wired, it in found if (no, wired) == (4, 2)])[-1])]
                if said in PASSED_OVER:
                    yield number, PASSED_OVER[said], shown(text)


def told(workflow, groups):
    """What is told of changes: (why, group, place, table, key), by replay from no row on."""
    rows, places = {}, {table.name: i for i, table in enumerate(workflow.tables)}
    for number, (_, changes) in enumerate(groups, 1):
        for place, (name, before, after) in enumerate(changes, 1):
            if name not in places:
                continue
            table = workflow.tables[places[name]]
            keys = [None if row is None else table.key_of(row) for row in (before, after)]
            at = number, place, name
            if before is not None:
                there = rows.get((name, keys[0]))
                if there != before:
                    yield (WHY[there is not None], *at, keys[0])
            if after is not None and keys[0] != keys[1]:
                if (name, keys[1]) in rows:
                    yield (WHY[2], *at, keys[1])
                if before is not None:
                    yield (WHY[3], *at, keys[1])
            if before is not None:
                rows.pop((name, keys[0]), None)
            if after is not None:
                rows[name, keys[1]] = after


def counted(lines):
    return [b"%d" % len(lines)] * bool(lines), lines[:10]


class Stream:
    """What is found of a stream's feed."""

    def __init__(self, workflow, board, s, name, data):
        self.number, self.name, self.shard = s, name, workflow.shards[s]
        self.groups = Feed(data, workflow.keyspace, self.shard).groups
        self.places = [print_position(it) for it, _ in self.groups]
        self.touches = [board.touches(s, n) for n in range(1, len(self.groups) + 1)]
        self.keys = {it[:2] for group in self.touches for it in group}
        table_names = [table.name for table in workflow.tables]
        rows = [it for it, _ in board.passed(s, len(self.groups))]
        self.tables = [(table, *self.groups_of(t), rows.count(t)) for t, table in enumerate(table_names)]
        unknown = {name: None for _, changes in self.groups for name, *_ in changes if name not in table_names}
        behind = [it.partition(b".")[2] for it in unknown]
        self.unknown = [(one, it if it in table_names else None) for one, it in zip(unknown, behind)]
        self.findings = list(told(workflow, self.groups))
        self.skipped = list(skipped(data))

    def groups_of(self, t):
        """How many groups touch a table, and how many put a row there that passes."""
        touching = sum(any(it[0] == t for it in group) for group in self.touches)
        return touching, sum(any(it[0] == t and it[2] is not None and it[3] for it in group) for group in self.touches)

    def lines(self):
        line = b"stream %d file %s shard %s groups %d" % (self.number, shown(self.name), shown(self.shard), len(self.groups))
        if self.groups:
            line += b" first %s last %s" % (self.places[0], self.places[-1])
        return [line] + [b"table %s groups %d passing %d rows %d" % (shown(table), *counts) for table, *counts in self.tables]

    def starts_late(self):
        intervals = list(self.groups[0][0].values()) if self.groups else []
        return bool(self.groups) and (len(intervals) != 1 or list(intervals[0]) != [(1, 1)])

    def base_rows(self):
        """How many rows the first group inserts into the workflow's tables; 0 where it does anything else to one."""
        names = {table for table, *_ in self.tables}
        changes = [before for name, before, _ in self.groups[0][1] if name in names]
        return 0 if any(before is not None for before in changes) else len(changes)

    def of_kind(self, why):
        """The lines of the changes that are told for a reason."""
        count, first = counted([it for it in self.findings if it[0] == why])
        told = [b"%s group %d change %d table %s key %s at %s" % (*it[:3], shown(it[3]), key_text(it[4]), self.places[it[1] - 1]) for it in first]
        return [why + b" " + it for it in count] + told

    def notes(self):
        noted = []
        if self.starts_late():
            rows = self.base_rows()
            noted.append(b"starts at " + self.places[0] + (b" with %d rows" % rows if rows else b""))
        for table, touching, passing, _ in self.tables:
            if not touching:
                noted.append(b"table %s untouched" % shown(table))
            elif not passing:
                noted.append(b"table %s passes no row" % shown(table))
        return [b"note stream %d %s" % (self.number, it) for it in noted + self.of_kind(b"moved")]

    def warnings(self):
        warned = [b"no groups"] * (not self.groups)
        warned += [b"no table " + shown(one) + (b" nearest " + shown(it) if it else b"") for one, it in self.unknown]
        for why in WHY[:3]:
            warned += self.of_kind(why)
        count, first = counted(self.skipped)
        warned += [b"skipped " + it for it in count] + [b"skipped message %d %s %s" % it for it in first]
        return [b"warning stream %d %s" % (self.number, it) for it in warned]

    def start(self):
        """Where the feed starts, if not at the start of its source, and how many rows its base has."""
        if not self.starts_late():
            return []
        rows = self.base_rows()
        return [item("note", "base" if rows else "starts", "", rows or 1, stream=self.number, position=self.places[0])]

    def items(self):
        """All that is told, each kind of each table once, with how many there are of it."""
        told = [("fault", "no_groups", "", not self.groups)]
        for table, touching, passing, _ in self.tables:
            told += [("note", "untouched", table, not touching), ("note", "no_row", table, bool(touching) and not passing)]
            for why in WHY:
                count = sum(it[0] == why and it[3] == table for it in self.findings)
                told.append(("note" if why == b"moved" else "fault", why, table, count))
        told += [("fault", "no_table", one, 1) for one, _ in self.unknown] + [("fault", "skipped", "", len(self.skipped))]
        return self.start() + [item(*it, stream=self.number) for it in told if it[-1]]

    def as_object(self):
        def found(is_move):
            names = ("why", "group", "change", "table")
            these = [it for it in self.findings if (it[0] == b"moved") == is_move]
            return [dict(zip(names, it), key=key_parts(it[4]), position=self.places[it[1] - 1]) for it in these]

        return {
            "stream": self.number,
            "file": self.name,
            "shard": self.shard,
            "groups": len(self.groups),
            "first": self.places[0] if self.places else None,
            "last": self.places[-1] if self.places else None,
            "tables": [dict(zip(("table", "groups", "passing", "rows"), it)) for it in self.tables],
            "unknown": [dict(zip(("name", "nearest"), it)) for it in self.unknown],
            "findings": found(False),
            "moves": found(True),
            "skipped": [dict(zip(("message", "type", "statement"), it)) for it in self.skipped],
        }


def item(is_class, kind, table, count, stream=None, path=None, position=None):
    said = {"class": is_class, "kind": kind, "stream": stream, "table": table or None, "path": path}
    return {**said, "position": position, "count": int(count)}


def key_parts(key):
    return key_text(key).split(b",")


def touched_twice(streams):
    """The least key that two feeds touch, if there is one, with the first two streams whose feeds do."""
    at = {}
    for it in streams:
        for key in it.keys:
            at.setdefault(key, []).append(it.number)
    return min(((key, who[:2]) for key, who in at.items() if len(who) > 1), default=None)


def decoded(said):
    """A value with each text as it is read from its bytes."""
    if isinstance(said, dict):
        return {name: decoded(it) for name, it in said.items()}
    if isinstance(said, list):
        return [decoded(it) for it in said]
    return said.decode() if isinstance(said, bytes) else said


def whole_object(workflow, streams, text, warned, noted):
    twice = touched_twice(streams)
    told = [one for it in streams for one in it.items()]
    if twice:
        (table, key), who = twice
        twice = {"table": workflow.tables[table].name, "key": key_parts(key), "streams": who}
        told.append(item("fault", "touched", twice["table"], 1, stream=who[0]))
    told += [item("note" if why in file.MAY_STAND else "fault", why, table, 1, path=path) for path, why, table in file.notes(text)]
    said = {
        "rules": [{"stream": i, "table": table, "rows": rows} for i, table, rows in file.rules(text)],
        "streams": [it.as_object() for it in streams],
        "touched": twice,
        "told": told,
        "notes": [{"path": path, "why": why, "table": table or None} for path, why, table in file.notes(text)],
        "noted": noted,
        "warned": warned,
    }
    return json_line(decoded(said))


def check(workflow, feeds, names, datas, text, as_json=False, is_strict=False):
    """The status and the text, where the workflow's file has this text."""
    board = Board(workflow, feeds)
    for s, feed in enumerate(feeds):
        for n in range(1, len(feed.groups) + 1):
            try:
                board.touches(s, n)
            except Refused as bad:
                raise Refused(90, b"".join(bad.line.partition(b" cause ")[1:])[:-1].split(b" table")[0]) from None
    streams = [Stream(workflow, board, s, *it) for s, it in enumerate(zip(names, datas))]
    noted = [line for it in streams for line in it.notes()]
    warned = [line for it in streams for line in it.warnings()]
    twice = touched_twice(streams)
    if twice:
        (table, key), who = twice
        warned.append(b"warning streams %d and %d touch table %s key %s" % (*who, shown(workflow.tables[table].name), key_text(key)))
    of_file = file.note_lines(file.notes(text))
    lines = [b"rule stream %d table %s %s" % (i, shown(table.encode()), printable(rows)) for i, table, rows in file.rules(text)]
    lines += [line for it in streams for line in it.lines()] + noted + warned + of_file
    is_warned, is_noted = (any(it.startswith(word) for it in noted + warned + of_file) for word in (b"warning ", b"note "))
    said = whole_object(workflow, streams, text, is_warned, is_noted) if as_json else b"".join(line + b"\n" for line in lines)
    return (3 if is_warned or (is_strict and is_noted) else 0), said
