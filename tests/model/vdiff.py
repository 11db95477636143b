"""What `vdiff` prints of two dumps."""
import json

from . import Refused, cell
from .board import key_text
from .workflow import Workflow

COUNTS = ("processed", "matching", "mismatched", "extra_source", "extra_target")


def vdiff(workflow, source, target, names=("source", "target"), tables=False, first=None, as_json=False):
    """The status and the text, with the first so many differences; all is one object of JSON where that is asked for."""
    workflow = Workflow(workflow)
    one, other = [read_named(workflow, *it, as_json) for it in zip((source, target), names)]
    differ = sorted(key for key in {*one, *other} if one.get(key) != other.get(key))
    counts = counts_of(one, other)
    parts = [(table.name, counts_of(*[rows_of(it, t) for it in (one, other)])) for t, table in enumerate(workflow.tables)]
    if as_json:
        out = whole_object(workflow, one, other, counts, parts, differ[: 1 if first is None else first])
    else:
        out = b"".join(b"table %s %s\n" % (name, counts_text(it, b" ")) for name, it in parts if tables)
        out += counts_text(counts, b"\n") + b"\n"
        out += b"".join(b"first %s\n" % place(workflow, key) for key in differ[:1])
        out += b"".join(difference(workflow, one, other, key) for key in differ[: first or 0])
    return (3 if differ else 0), out


def rows_of(rows, t):
    return {key: row for key, row in rows.items() if key[0] == t}


def counts_of(one, other):
    same = sum(key in other and other[key] == row for key, row in one.items())
    alone = sum(key not in other for key in one), sum(key not in one for key in other)
    return len({*one, *other}), same, len(one) - alone[0] - same, *alone


def counts_text(counts, between):
    return between.join(b"%s %d" % (name.replace("_", " ").encode(), it) for name, it in zip(COUNTS, counts))


def place(workflow, key):
    return b"table %s key %s" % (workflow.tables[key[0]].name, key_text(key[1]))


def difference(workflow, one, other, key):
    sides = [(name, rows[key]) for name, rows in ((b"source", one), (b"target", other)) if key in rows]
    return b"differs %s\n" % place(workflow, key) + b"".join(b"\t".join([name, *map(cell, row)]) + b"\n" for name, row in sides)


# JSON


def line(value):
    return json.dumps(value, ensure_ascii=False, separators=(",", ":"), sort_keys=True).encode() + b"\n"


def cells(row):
    return None if row is None else [None if it is None else cell(it).decode() for it in row]


def whole_object(workflow, one, other, counts, parts, keys):
    differences = [
        {
            "table": workflow.tables[key[0]].name.decode(),
            "key": key_text(key[1]).decode().split(","),
            "source": cells(one.get(key)),
            "target": cells(other.get(key)),
        }
        for key in keys
    ]
    tables = [dict(zip(COUNTS, it), table=name.decode()) for name, it in parts]
    return line(dict(zip(COUNTS, counts), differences=differences, tables=tables))


# dumps


def read_named(workflow, data, name, as_json):
    """The rows of a dump; where all is JSON, a bad one is named."""
    try:
        return read_dump(workflow, data)
    except Refused as refused:
        refused.line += b"place file %s\n" % name.encode() if as_json else b""
        raise


def read_dump(workflow, data):
    lines = data.split(b"\n")
    at, rows, table, last = 0, {}, -1, None
    for at, line in enumerate(lines[:-1], 1):
        if table + 1 < len(workflow.tables) and line == b"table " + workflow.tables[table + 1].name:
            table, last = table + 1, None
            continue
        key = read_line(workflow.tables[table], line) if table >= 0 else None
        if key is None or last is not None and key[0] <= last:
            raise Refused(121, b" line %d" % at)
        last = key[0]
        rows[table, last] = key[1]
    if lines[-1] or table + 1 < len(workflow.tables):
        raise Refused(121, b" line %d" % len(lines))
    return rows


def read_line(table, line):
    """The key and the columns of a dump's line, or nothing."""
    row = []
    for text in line.split(b"\t"):
        try:
            value = None if text == b"N" else bytes.fromhex(text[1:].decode())
        except ValueError:
            return None
        if cell(value) != text:
            return None
        row.append(value)
    key = table.key_of_kept(row) if len(row) == len(table.kept) else 0
    return None if isinstance(key, int) else (key, row)
