"""Feeds and workflows written out: the shortest spelling of each, and the examples that the tests share."""
import json

from .checkpoint import put_field, put_message, put_number, put_row, put_text, put_varint

U, V = b"3e11fa47-71ca-11e1-9e33-c80aa9429562", b"3e11fa47-71ca-11e1-9e33-c80aa9429563"
COLUMNS = [(b"id", 265), (b"v", 6165)]


def frame(*events):
    body = b"".join(put_message(1, it) for it in events)
    return put_varint(len(body)) + body


def event(kind, body=b""):
    return put_number(1, kind) + body


def field_event(table, columns):
    return event(13, put_message(6, put_text(1, table) + b"".join(put_message(2, put_field(*it)) for it in columns)))


def row_change(before, after):
    parts = ((1, before), (2, after))
    return put_message(2, b"".join(put_message(number, put_row(row)) for number, row in parts if row is not None))


def row_event(table, changes):
    return event(12, put_message(5, put_text(1, table) + b"".join(row_change(*it) for it in changes)))


def gtid(text):
    return event(1, put_text(3, text))


def group(position, changes, table=b"t", columns=COLUMNS):
    """One message: a transaction with a FIELD event, a ROW event for each change, and a position."""
    rows = [row_event(table, [it]) for it in changes]
    return frame(event(2), field_event(table, columns), *rows, gtid(b"MySQL56/" + position), event(3))


def feed(groups, uuid=U):
    """A feed over the table `t` of two columns, whose changes are pairs of rows, a row (id, value) or nothing."""
    said = []
    for number, changes in enumerate(groups, 1):
        position = uuid + (b":1" if number == 1 else b":1-%d" % number)
        rows = [[row and (b"%d" % row[0], row[1]) for row in change] for change in changes]
        said.append(group(position, rows))
    return b"".join(said)


def workflow(*shards, match="/.*", text=""):
    table = {"name": "t", "columns": [["id", "INT64"], ["v", "VARCHAR"]], "key": ["id"], "vindex": ["id", "numeric"]}
    streams = [{"shard": it, "filter": {"rules": [{"match": match, "filter": text}]}} for it in shards]
    return json.dumps({"keyspace": "ks", "tables": [table], "streams": streams}).encode()


def added(*rows):
    return [(None, row) for row in rows]


ONE, TWO = workflow("-80"), workflow("-80", "80-")
ONE_ROW = feed([added((1, b"ab"))])
MOVING = feed([added((3, b"c"), (5, b"e"), (7, b"g")), [((7, b"g"), (4, b"h"))], [((3, b"c"), (8, b"k"))]])
LOWER = feed([added((1, b"a")), added((2, b"b"))])
UPPER = feed([added((11, b"k")), added((12, b"l"))], V)
SAME_KEY = feed([added((1, b"z"))], V)
COPY_ONE = b"offer 0 1\nadvance 0\nopen 0 1\ncopy 0 1\n"
NINE_STEPS = b"offer 0 1\nadvance 0\nopen 0 1\ncopy 0 2\nclose 0\noffer 0 2\nadvance 0\noffer 0 3\nadvance 0\n"
TO_THE_END = b"offer 0 1\noffer 0 2\noffer 0 3\nadvance 0\nadvance 0\nadvance 0\nopen 0 3\ncopy 0 9\ndump\n"
