#!/usr/bin/env python3
"""The shapes of feeds that measure.py measures, and the making of them.

usage: bench/shapes/shapes.py SHAPE MB

Writes the workflow and a feed for each of its streams into /tmp/vrepl_shapes, MB millions of bytes in all, where they
aren't there yet or are older than this file or make_feed.py; of a shape with a number of rows MB is passed over. All
that is drawn comes from one seed, so that the same shape has the same bytes each time. Which columns a table has and
what stands in them is a Table, what the feed does with its rows a Shape; `ten` is the one from which the others differ
in one thing.
"""
import dataclasses
import functools
import hashlib
import itertools
import json
import os
import random
import sys

HERE = os.path.dirname(os.path.abspath(__file__))
sys.path.append(os.path.join(HERE, "..", "feed"))

from make_feed import U, event, row, scalar, text, varint

FOLDER = "/tmp/vrepl_shapes"
TYPES = {"INT32": 263, "INT64": 265, "TEXT": 6163, "VARCHAR": 6165}


@dataclasses.dataclass(frozen=True)
class Table:
    columns: list  # of pairs, a name and a type
    key: list
    cells: object  # the row's columns by its number and its version, which is 0 when it is inserted


def plain_cells(number, version):
    return b"%d" % number, b"value of row %d" % (number + version)


def short_cells(number, version):
    return b"%d" % number, b"%d" % ((number + version) % 10)


def wide_cells(number, version):
    digest = hashlib.md5(b"%d" % number).hexdigest().encode()
    address = b"street %d, town %d" % (number % 1000, number % 77)
    return b"%d" % number, b"customer %09d" % number, digest[:16] + b"@mail.example", b"%d" % version, address, b"note on the customer: " + digest


def text_cells(number, version):
    return b"customer/%011d" % number, b"value of row %d" % (number + version)


def two_part_cells(number, version):
    return b"%d" % (number // 100), b"item %02d" % (number % 100), b"value of row %d" % (number + version)


def eight_number_cells(number, version):
    return *(b"%c" % digit for digit in b"%08d" % number), b"value of row %d" % (number + version)


def eight_text_cells(number, version):
    return *(b"part %c" % digit for digit in b"%08d" % number), b"value of row %d" % (number + version)


def of_numbers(count):
    """A table of so many columns, all of them numbers."""
    columns = [NUMBER, *((f"column_{it}", "INT64") for it in range(1, count))]
    return Table(columns, ["id"], lambda number, version: [b"%d" % number, *(b"%d" % (number % 10 + version + it) for it in range(1, count))])


NUMBER, VALUE = ("id", "INT64"), ("v", "VARCHAR")
PLAIN = Table([NUMBER, VALUE], ["id"], plain_cells)
SHORT = Table([NUMBER, VALUE], ["id"], short_cells)
WIDE = Table([NUMBER, ("name", "VARCHAR"), ("mail", "VARCHAR"), ("visits", "INT32"), ("address", "VARCHAR"), ("note", "TEXT")], ["id"], wide_cells)
TEXT_KEY = Table([("name", "VARCHAR"), VALUE], ["name"], text_cells)
TWO_PARTS = Table([("owner", "INT64"), ("item", "VARCHAR"), VALUE], ["owner", "item"], two_part_cells)
PARTS = [f"part_{it}" for it in range(1, 9)]
EIGHT_NUMBERS = Table([*((it, "INT64") for it in PARTS), VALUE], PARTS, eight_number_cells)
EIGHT_TEXTS = Table([*((it, "VARCHAR") for it in PARTS), VALUE], PARTS, eight_text_cells)


def inserts(numbers, _):
    """Changes are pairs of what stands before and after, each a number and a version, or None."""
    return ((None, (number, 0)) for number in numbers)


def mixed(numbers, draw, inserted=0.6, updated=0.3):
    """Six of ten changes insert where nothing else is said; three update and one deletes a row drawn from all that stand."""
    standing = []
    while True:
        kind = draw.random()
        if kind < inserted or not standing:
            standing.append((next(numbers), 0))
            yield None, standing[-1]
            continue
        at = draw.randrange(len(standing))
        before = standing[at]
        if kind < inserted + updated:
            standing[at] = before[0], before[1] + 1
            yield before, standing[at]
        else:
            standing[at] = standing[-1]
            standing.pop()
            yield before, None


def of_a_thousand(numbers, draw, after):
    """A thousand rows are inserted; from then on each change puts another one in the place of a row drawn from them."""
    standing = [(number, 0) for number in itertools.islice(numbers, 1000)]
    yield from ((None, it) for it in list(standing))
    while True:
        at = draw.randrange(len(standing))
        before = standing[at]
        standing[at] = after(before, numbers)
        yield before, standing[at]


def updates(numbers, draw):
    return of_a_thousand(numbers, draw, lambda before, _: (before[0], before[1] + 1))


def moves(numbers, draw):
    """The row gets the next number, and so another key."""
    return of_a_thousand(numbers, draw, lambda before, numbers: (next(numbers), before[1]))


def deletes(numbers, draw):
    """As `moves`, in two changes: the one deletes, the other inserts."""
    for before, after in moves(numbers, draw):
        yield from ((before, None), (None, after)) if before else ((None, after),)


@dataclasses.dataclass(frozen=True)
class Shape:
    name: str
    told: str
    table: Table = PLAIN
    group: int = 10  # changes a group
    changes: object = inserts
    order: str = "rising"  # of new rows' numbers; or "falling", or "none"
    streams: int = 1
    filter: str = ""
    rows: int = None  # how many changes all feeds have; where it isn't said, so many as fill the megabytes
    tables: int = 1  # how many tables of these columns the feed has; a group is of one of them, in turn
    together: bool = False  # each group has a row of each of them instead
    unknown: int = 0  # how many of them, from the last on, the workflow lacks
    others: int = 0  # further tables of the workflow, of 32 columns each, which no feed names


SHAPES = [
    Shape("ten", "ten rows a group, numbers as keys, rising, one stream"),
    Shape("one", "one row a group", group=1),
    Shape("one-under-64", "one row a group, under a workflow of 63 further tables of 32 columns", group=1, others=63),
    Shape("hundred", "a hundred rows a group", group=100),
    Shape("short", "rows of a number and one byte", SHORT),
    Shape("wide", "rows of some 130 bytes in six columns", WIDE),
    Shape("wide-mixed", "the same, of which 25 of 100 changes update and ten delete", WIDE, changes=functools.partial(mixed, inserted=0.65, updated=0.25)),
    Shape("two-of-six", "two of these six columns picked", WIDE, filter="select id, name from t"),
    Shape("six-turned", "all six picked, from the last to the first", WIDE, filter="select note, address, visits, mail, name, id from t"),
    Shape("mixed", "six of ten changes insert, three update, one deletes", changes=mixed),
    Shape("updates", "updates of a thousand rows", changes=updates),
    Shape("deletes", "a thousand rows, of which one is deleted and another one inserted in turn", changes=deletes),
    Shape("moves", "changes of the key of a thousand rows", changes=moves),
    Shape("text", "texts of 20 bytes as keys", TEXT_KEY),
    Shape("text-no-order", "the same in no order", TEXT_KEY, order="none"),
    Shape("two-parts", "keys of a number and a text", TWO_PARTS),
    Shape("eight-numbers", "keys of eight numbers", EIGHT_NUMBERS),
    Shape("eight-no-order", "the same in no order", EIGHT_NUMBERS, order="none"),
    Shape("eight-texts", "keys of eight texts", EIGHT_TEXTS),
    Shape("hash", "a filter by the hash of the key, which half the rows pass", filter="select * from t where in_keyrange(id, 'binary_md5', '-80')"),
    Shape("falling", "keys falling", order="falling"),
    Shape("no-order", "keys in no order", order="none"),
    Shape("tables-20", "20 tables of 20 columns, one row a group", of_numbers(20), group=1, tables=20),
    Shape("tables-64", "64 tables of two columns, one row a group", group=1, tables=64),
    Shape("tables-64-wide", "64 tables of 64 columns, one row a group", of_numbers(64), group=1, tables=64),
    Shape("together-20", "20 tables of two columns, a row of each in each group", group=20, tables=20, together=True),
    Shape("together-64", "64 tables of two columns, a row of each in each group", group=64, tables=64, together=True),
    Shape("unknown", "half of the groups are of a table that the workflow lacks", tables=2, unknown=1),
    Shape("streams-2", "2 streams", streams=2),
    Shape("streams-4", "4 streams", streams=4),
    Shape("streams-64", "64 streams", streams=64),
]
BY_ROWS = [Shape(f"rows-{rows}", f"keys in no order, {rows:,} rows", order="none", rows=rows) for rows in (100_000, 400_000, 1_600_000)]


def names_of(shape):
    """The feed's tables."""
    return ["t", *(f"t_{it}" for it in range(1, shape.tables))]


def workflow(shape):
    bounds = ["", *(f"{256 * it // shape.streams:02x}" for it in range(1, shape.streams)), ""]
    rules = {"rules": [{"match": "t" if shape.filter else "/.*", "filter": shape.filter}]}
    tables = [{"name": it, "columns": shape.table.columns, "key": shape.table.key} for it in names_of(shape)[: shape.tables - shape.unknown]]
    columns = [NUMBER, *((f"column_{it}", "VARCHAR") for it in range(1, 32))]
    others = [{"name": f"other_{it}", "columns": columns, "key": ["id"]} for it in range(shape.others)]
    streams = [{"shard": f"{low}-{high}", "filter": rules} for low, high in zip(bounds, bounds[1:])]
    return {"keyspace": "ks", "tables": [*tables, *others], "streams": streams}


def field_of(table, name):
    columns = (text(2, text(1, column.encode()) + scalar(2, TYPES[kind])) for column, kind in table.columns)
    return event(13, text(6, text(1, name.encode()) + b"".join(columns)))


def change_of(table, before, after):
    sides = ((number, table.cells(*side)) for number, side in ((1, before), (2, after)) if side)
    return text(2, b"".join(text(number, row(*cells)) for number, cells in sides))


def rows_of(table, name, changes):
    return event(12, text(5, text(1, name.encode()) + b"".join(change_of(table, *it) for it in changes)))


def message_of(shape, k, changes):
    """The group of number k, from 1: the first one has the tables' columns before it."""
    table, names = shape.table, names_of(shape)
    of = [(name, changes[at :: len(names)]) for at, name in enumerate(names)] if shape.together else [(names[k % len(names)], changes)]
    position = b"MySQL56/" + U + (b":1" if k == 1 else b":1-%d" % k)
    fields = [field_of(table, it) for it in names] if k == 1 else []
    events = b"".join([event(2), *fields, *(rows_of(table, *it) for it in of), event(1, text(3, position)), event(3)])
    return varint(len(events)) + events


def count_of(shape, megabytes):
    """How many changes each of the shape's feeds has: whole groups."""
    if shape.rows:
        return shape.rows // shape.streams
    some = list(itertools.islice(shape.changes(iter(range(50_000, 150_000)), random.Random(1)), 10_000))
    size = sum(len(change_of(shape.table, *it)) for it in some) / len(some)
    groups = megabytes * 1_000_000 / shape.streams / (size * shape.group + len(message_of(shape, 10_000, [])))
    return max(1, int(groups)) * shape.group


def numbers_of(shape, stream, count):
    """The numbers of new rows, of which each stream has its own."""
    numbers = list(range(stream + 1, stream + 1 + count * shape.streams, shape.streams))
    if shape.order == "falling":
        numbers.reverse()
    elif shape.order == "none":
        random.Random(stream).shuffle(numbers)
    return iter(numbers)


def paths_of(shape, megabytes):
    """The words of the files: the workflow, and a feed for each stream."""
    size = "" if shape.rows else f"_{megabytes:g}"
    return [f"{FOLDER}/{shape.name}{size}{end}" for end in (".json", *(f"_{it}" for it in range(shape.streams)))]


def is_made(path):
    sources = __file__, sys.modules["make_feed"].__file__
    return os.path.exists(path) and os.path.getmtime(path) > max(map(os.path.getmtime, sources))


def put(path, pieces):
    """Writes a file that is there whole or not at all."""
    with open(path + ".part", "wb") as out:
        out.writelines(pieces)
    os.replace(path + ".part", path)


def make(shape, megabytes):
    os.makedirs(FOLDER, exist_ok=True)
    count = count_of(shape, megabytes)
    first, *feeds = paths_of(shape, megabytes)
    put(first, [json.dumps(workflow(shape)).encode()])
    for stream, path in enumerate(feeds):
        if not is_made(path):
            changes = itertools.islice(shape.changes(numbers_of(shape, stream, count), random.Random(stream)), count)
            groups = (list(itertools.islice(changes, shape.group)) for _ in range(count // shape.group))
            put(path, (message_of(shape, k, it) for k, it in enumerate(groups, 1)))


if __name__ == "__main__":
    if len(sys.argv) != 3:
        sys.exit(__doc__)
    make(next(it for it in SHAPES + BY_ROWS if it.name == sys.argv[1]), float(sys.argv[2]))
