"""Changes of a keyspace between the chunks of its copy: of each kind, before and behind the key that the copy has reached."""
from collections.abc import Callable, Iterator
from random import Random

from recorder.messages import Response

from .vtgate_copy import Change, Keyspace, Table

KINDS = ["insert", "update", "delete", "move", "cross", "again", "twice"]
TABLES: dict[str, Callable[[], Table]] = {
    "a": lambda: Table([("id", 265), ("v", 6165)], [0]),
    "b": lambda: Table([("n", 263), ("v", 6165), ("x", 6165)], [2, 0]),
    "c": lambda: Table([("v", 6163), ("k", 10264)], [1]),
    "d": lambda: Table([("id", 778), ("v", 6165)], [0]),
    "e": lambda: Table([("id", 257), ("v", 6165)], [0]),
    "f": lambda: Table([("p", 10262), ("v", 6165), ("q", 6167)], [0, 2]),
}
KEYS: dict[str, Callable[[Random], tuple[bytes, ...]]] = {
    "a": lambda random: (b"%d" % random.choice([random.randint(-40, 40), -(2**63), 2**63 - 1]),),
    "b": lambda random: (random.choice([b"", b"a", b"a\0", b"ab", b"\xff"]), b"%d" % random.randint(-3, 3)),
    "c": lambda random: (bytes([random.randrange(4), random.randrange(20), 1]),),
    "d": lambda random: (b"%d" % random.choice([random.randint(0, 60), 2**64 - 1]),),
    "f": lambda random: (random.choice([b"", b"a", b"ab", b"a\0", b"\0", b"\0\xff"]), random.choice([b"", b"b", b"\0", b"\0b", b"\xff\0"])),
}
FILLED = {"a": 12, "b": 9, "c": 15, "d": 0, "e": 0, "f": 14}


def row(random: Random, name: str, table: Table, key: tuple[bytes, ...]) -> tuple:
    cells = dict(zip(table.key, key))
    return tuple(cells.get(at, random.choice([None, b"", b"\0\t\n", random.randbytes(random.choice([1, 5, 300]))])) for at in range(len(table.columns)))


def filled(random: Random, has_flags: bool) -> Keyspace:
    """A keyspace of tables with rows, one that gets its rows while others are copied, and one that stays empty."""
    source = Keyspace("ks", "-", {name: made() for name, made in TABLES.items()}, has_flags)
    for name, count in FILLED.items():
        for _ in range(count):
            source.change(inserted(random, source, name, lambda _: True))
    return source


def inserted(random: Random, source: Keyspace, name: str, fits: Callable[[tuple], bool]) -> list[Change]:
    """An insert at a key that fits and isn't there, or nothing where that isn't found."""
    table = source.tables[name]
    for _ in range(60):
        new = row(random, name, table, KEYS[name](random))
        if table.key_of(new) not in table.rows and fits(table.key_of(new)):
            return [(name, None, new)]
    return []


def changed(random: Random, source: Keyspace, name: str, mark: tuple | None, kind: str, is_behind: bool) -> Iterator[list[Change]]:
    """Transactions of a kind at keys on one side of the mark, the nearest there is as often as another one."""
    table = source.tables[name]

    def fits(key: tuple) -> bool:
        return mark is None or (key > mark) == is_behind

    keys = sorted(filter(fits, table.rows), reverse=not is_behind)
    if kind == "insert" or not keys:
        yield inserted(random, source, name, fits)
        return
    old = table.rows[random.choice([keys[0], random.choice(keys)])]
    key = tuple(old[at] for at in table.key)
    if kind in ("move", "cross"):
        for _, _, new in inserted(random, source, name, fits if kind == "move" else lambda key: not fits(key)):
            yield [(name, old, new)]
    elif kind == "update":
        yield [(name, old, row(random, name, table, key))]
    elif kind == "again":
        yield [(name, old, None), (name, None, row(random, name, table, key))]
    else:
        yield [(name, old, None)]
        if kind == "twice":
            yield [(name, None, row(random, name, table, key))]


def edges(random: Random) -> Callable[[Keyspace, str], Iterator[Response]]:
    """What `Keyspace.copy` sends between chunks: all kinds on both sides in the table at hand, some in the others."""

    def between(source: Keyspace, name: str) -> Iterator[Response]:
        kinds = [(kind, is_behind) for kind in KINDS for is_behind in (False, True)]
        for at in random.sample(range(len(kinds)), len(kinds)):
            for table in sorted({name, random.choice(sorted(KEYS))} & KEYS.keys()):
                if table != name and random.random() < 0.5:
                    continue
                for transaction in changed(random, source, table, source.mark if table == name else None, *kinds[at]):
                    yield from source.transaction(source.change(transaction))

    return between
