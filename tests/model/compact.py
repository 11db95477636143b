"""A feed without its past: in the place of its first groups stands one that inserts the rows which they leave."""
from . import Refused, checkpoint, making, wire
from .board import Board
from .checkpoint import put_row
from .feed import BadPosition, Feed, bytes_of_hex, is_within, print_position, read_position
from .workflow import Workflow

ROWS, BYTES = 1000, 1 << 20


class Cut:
    """A feed in two, behind the event with which its group of a number ends."""

    def __init__(self, data, feed, number):
        self.data, self.feed, self.left = data, feed, number
        self.open, self.inside, self.reached, self.fields = False, None, None, {}
        at = 0
        while self.left:
            size, after = wire.varint(data, at, len(data))
            at = after + size
            events = self.events((after, at))
            while events and self.left:
                self.goes_on(events.pop(0))
        self.others, self.rest = events, data[at:]

    def events(self, span):
        return [self.data[slice(*payload)] for number, kind, payload in wire.fields(self.data, span)[0] if (number, kind) == (1, 2)]

    def goes_on(self, raw):
        event = wire.Event(raw, (0, len(raw)))
        if event.type == wire.BEGIN:
            self.open, self.inside = True, None
        elif event.type == wire.ROLLBACK:
            self.open = False
        elif event.type == wire.COMMIT:
            if self.open:
                self.ends(self.inside)
            self.open = False
        elif event.type == wire.FIELD:
            name = self.feed.table(event)
            self.fields.pop(name, None)
            self.fields[name] = event.table, raw
        elif event.type in (wire.GTID, wire.VGTID):
            place = raw, read_position(event.gtid if event.type == wire.GTID else event.entries[0][2])
            if self.open:
                self.inside = place
            else:
                self.ends(place)

    def ends(self, place):
        """A block ends: it is a group unless it is a repeat."""
        if not is_within(place[1], self.reached[1] if self.reached else {}):
            self.reached = place
            self.left -= 1


def left(board, s, count):
    """The rows that the first groups leave, whether or not they pass."""
    rows = {}
    for n in range(1, count + 1):
        for table, key, row, _ in board.touches(s, n):
            rows.pop((table, key), None)
            if row is not None:
                rows[table, key] = row
    return rows


def portions(rows):
    """The rows by rising key, as a table and so many rows each."""
    out, size = [], 0
    for table, key in sorted(rows):
        row = rows[table, key]
        if not out or out[-1][0] != table or len(out[-1][1]) == ROWS or size >= BYTES:
            out.append((table, []))
            size = 0
        out[-1][1].append((None, row))
        size += len(put_row(row))
    return out


def last_number(workflow, feed, s, at, checkpoints):
    """The number of the last group that may be replaced."""
    positions = [{}] + [it[0] for it in feed.groups]

    def number_of(position):
        if position not in positions:
            raise Refused(118, b" stream %d" % s)
        return positions.index(position)

    number = len(feed.groups)
    if at is not None:
        try:
            number = number_of(read_position(at))
        except BadPosition as bad:
            raise Refused(94, b" cause %d" % bad.args[0]) from None
    for data in checkpoints:
        try:
            position = checkpoint.read(data, workflow)[s][0]
        except checkpoint.Bad:
            raise Refused(116) from None
        number = min([number, *[it for it in [number_of(position)] if it]])
    return number


def compact(is_hex, workflow, data, s=0, at=None, checkpoints=(), drop_unknown=False):
    """The new feed, and the line that tells what was done."""
    workflow = Workflow(workflow)
    if s >= len(workflow.shards):
        raise Refused(115)
    data = bytes_of_hex(data) if is_hex else data
    whose = workflow.keyspace, workflow.shards[s]
    feed = Feed(data, *whose, workflow.columns)
    number = last_number(workflow, feed, s, at, checkpoints)
    if not number:
        raise Refused(91)
    names = [table.name for table in workflow.tables]
    groups = Feed(data, *whose).groups[:number]
    if not drop_unknown and any(it[0] not in names for _, changes in groups for it in changes):
        raise Refused(123)
    board = Board(workflow, [feed] * len(workflow.shards))
    rows = left(board, s, number)
    cut = Cut(data, feed, number)
    out = [making.frame(*[raw for _, raw in cut.fields.values()], making.event(wire.BEGIN))]
    for table, changes in portions(rows):
        name = next(name for short, (name, _) in cut.fields.items() if short == names[table])
        out.append(making.frame(making.row_event(name, changes)))
    out.append(making.frame(cut.reached[0], making.event(wire.COMMIT)))
    if cut.others:
        out.append(making.frame(*cut.others))
    new = b"".join([*out, cut.rest])
    told = number, print_position(groups[-1][0]), len(rows), len(data), len(new)
    return new, b"compacted %d groups up to %s into %d rows: %d bytes to %d\n" % told
