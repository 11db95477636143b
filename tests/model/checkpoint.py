"""The checkpoint: its bytes, and the board that bytes make with the feeds."""
from . import Refused, wire
from .board import Board, key_text
from .feed import BadPosition, print_position, read_position

MAGIC = {1: b"VREPLCP1", 2: b"VREPLCP2"}


def put_varint(value):
    out = bytearray()
    while value > 127:
        out.append(value & 127 | 128)
        value >>= 7
    return bytes(out) + bytes([value])


def put_number(number, value):
    return put_varint(number << 3) + put_varint(value) if value else b""


def put_text(number, text):
    return put_message(number, text) if text else b""


def put_message(number, body):
    return put_varint(number << 3 | 2) + put_varint(len(body)) + body


def put_row(columns):
    lengths = b"".join(put_varint(1 if it is None else 2 * len(it)) for it in columns)
    return put_text(1, lengths) + put_text(2, b"".join(it for it in columns if it is not None))


def put_field(name, kind):
    return put_text(1, name) + put_number(2, kind)


def save(board, version=2, count=None):
    """What a board saves: version 1 doesn't say the tables' names, and version 2 may have the parts of the first so many tables."""
    out = [MAGIC[version]]
    for s, shard in enumerate(board.workflow.shards):
        part, rows = put_text(1, shard), board.rows_of(s)
        for t, table in enumerate(board.workflow.tables[:count]):
            mark = board.streams[s].marks[t]
            answer = b"".join(put_message(1, put_field(*it)) for it in table.kept_columns())
            answer += b"".join(put_message(2, put_field(*table.columns[it])) for it in table.key_places)
            answer += put_text(3, b"MySQL56/" + print_position(board.position(s)))
            answer += b"".join(put_message(4, put_row(rows[key])) for key in sorted(rows) if key[0] == t)
            if isinstance(mark, tuple):
                answer += put_message(5, put_row([b"%d" % it if isinstance(it, int) else it for it in mark]))
            number = {"waits": 0, "done": 2}.get(mark, 1) if isinstance(mark, str) else 1
            name = put_text(3, table.name) if version == 2 else b""
            part += put_message(2, put_number(1, number) + put_message(2, answer) + name)
        out.append(put_varint(len(part)) + part)
    return b"".join(out)


class Bad(Exception):
    """Bytes that are no checkpoint."""


def need(holds):
    if not holds:
        raise Bad


class Reading:
    """What a message notes while it is read: its broken fields, and whether a single message occurs twice."""

    def __init__(self):
        self.faults, self.twice = [], False


def message(data, span, single=()):
    reading = Reading()
    it = wire.Message(data, span, reading, single=single)
    need(not reading.faults and not reading.twice)
    return it


def row(data, span):
    try:
        return wire.read_row(data, span)
    except wire.BadEvent:
        raise Bad from None


def columns(data, spans):
    return [(it.text(1), it.number(2)) for it in (message(data, span) for span in spans)]


def table_part(data, span, table, version):
    """The position, the mark and the rows by key that a table's part says."""
    part = message(data, span, (2,))
    need(version == 1 or part.text(3) == table.name)
    answer = message(data, (part.spans(2) or [(0, 0)])[0], (5,))
    need(columns(data, answer.spans(1)) == table.kept_columns())
    need(columns(data, answer.spans(2)) == [table.columns[it] for it in table.key_places])
    try:
        position = read_position(answer.text(3))
    except BadPosition:
        raise Bad from None
    number = part.number(1)
    need(number in (0, 1, 2) and bool(answer.spans(5)) == (number == 1))
    mark = ("waits", None, "done")[number] or key_of_lastpk(table, row(data, answer.spans(5)[0]))
    rows, last = {}, None
    for it in answer.spans(4):
        said = row(data, it)
        need(len(said) == len(table.kept))
        key = table.key_of_kept(said)
        need(isinstance(key, tuple) and (last is None or last < key))
        last = key
        rows[key] = said
    return position, mark, rows


def key_of_lastpk(table, said):
    need(len(said) == len(table.key_places))
    key = table.key_in(said)
    need(isinstance(key, tuple))
    return key


def stream_part(data, span, workflow, s, version):
    """What a stream's part says, and how many tables it has; further tables wait."""
    part = message(data, span)
    count, whole = len(part.spans(2)), len(workflow.tables)
    need(part.text(1) == workflow.shards[s] and (count == whole if version == 1 else 1 <= count <= whole))
    said = [table_part(data, *it, version) for it in zip(part.spans(2), workflow.tables)]
    positions, marks = [it[0] for it in said], [it[1] for it in said]
    need(all(it == positions[0] for it in positions))
    order = ["done key waits".split().index(it if isinstance(it, str) else "key") for it in marks]
    need(order == sorted(order) and order.count(1) <= 1)
    marks += ["waits"] * (whole - count)
    return count, (positions[0], marks, {(t, key): it for t in range(len(said)) for key, it in said[t][2].items()})


def read(data, workflow):
    versions = [it for it in MAGIC if MAGIC[it] == data[:8]]
    need(versions)
    at, parts, counts = 8, [], set()
    for s in range(len(workflow.shards)):
        size, after = wire.varint(data, at, len(data))
        need(size is not None and size <= len(data) - after)
        at = after + size
        count, said = stream_part(data, (after, at), workflow, s, versions[0])
        parts.append(said)
        counts.add(count)
    need(at == len(data) and len(counts) == 1)
    return parts


def resume(workflow, feeds, data):
    """The board that the bytes make with the feeds."""
    try:
        parts = read(data, workflow)
    except Bad:
        raise Refused(116) from None
    board = Board(workflow, feeds)
    for s, (position, marks, _) in enumerate(parts):
        positions = [{}] + [it[0] for it in feeds[s].groups]
        if position not in positions:
            raise Refused(118, b" stream %d" % s)
        it = board.streams[s]
        it.read = it.applied = positions.index(position)
        it.marks = marks
    for s, it in enumerate(board.streams):
        for n in range(1, it.applied + 1):
            board.touches(s, n)
    for s, (_, _, rows) in enumerate(parts):
        there = board.rows_of(s)
        for key in sorted({*rows, *there}):
            if key not in rows or key not in there or rows[key] != there[key]:
                raise Refused(117, b" stream %d%s" % (s, place_of(workflow, key)))
    refuse_shared_keys(board)
    return board


def place_of(workflow, key):
    return b" table %s key %s" % (workflow.tables[key[0]].name, key_text(key[1]))


def refuse_shared_keys(board):
    """Refuses the first stream that has a row at a key of a lower one's, with its least such key."""
    owners = {}
    for s in range(len(board.streams)):
        rows = board.rows_of(s)
        for key in sorted({*rows} & {*owners}):
            raise Refused(71, b"%s owner %d" % (place_of(board.workflow, key), owners[key]))
        owners |= dict.fromkeys(rows, s)


def how_far(stream):
    """How far on a stream is: by its applied groups, then by its done tables, then by the key that the next one is copied up to."""
    mark = [it for it in stream.marks if isinstance(it, tuple)]
    return stream.applied, stream.done(), mark


def join(one, other):
    """The board of which each stream is that of the one or the other board, in which it is further on."""
    board = Board(one.workflow, one.feeds)
    board.streams = [b if how_far(a) < how_far(b) else a for a, b in zip(one.streams, other.streams)]
    refuse_shared_keys(board)
    return board
