"""Tables, columns and keys as the server's catalogue has them, and the tables that can't be recorded."""
import re
from dataclasses import dataclass

from pymysql import Connection

from .kinds import KEYS, WHOLE, Kind, kind_of
from .labels import read_labels
from .server import ask
from .stop import ANEW, Stop

_COLUMNS = """SELECT column_name, data_type, CONVERT(column_type USING ascii), character_set_name, collation_name, numeric_precision, numeric_scale,
    character_octet_length FROM information_schema.columns WHERE table_schema=%s AND table_name=%s ORDER BY ordinal_position"""
_KEY = """SELECT column_name, sub_part FROM information_schema.statistics
    WHERE table_schema=%s AND table_name=%s AND index_name='PRIMARY' ORDER BY seq_in_index"""
_HASHED = "SELECT index_name FROM information_schema.statistics WHERE table_schema=%s AND table_name=%s AND index_type='HASH'"
Name = tuple[str, str]
"""A table's schema and name."""
BYTE_ORDERED = ("ascii", "utf8mb3", "utf8mb4", "latin1")
"""Character sets of which a _bin collation is the order of bytes."""


@dataclass(frozen=True)
class Printing:
    """How the server prints a column, as far as it isn't said by the values."""

    kind: Kind
    width: int = 0
    """Of ZEROFILL the characters at least, of BINARY the bytes, of YEAR the digits."""
    places: int | None = None
    """Of a FLOAT or DOUBLE the digits behind the point, as of FLOAT(7,2), where they were said."""
    labels: tuple[bytes, ...] = ()
    """Of ENUM and SET."""
    comma: bytes = b","
    """What parts the labels of a SET, in its character set."""


@dataclass(frozen=True)
class Column:
    name: str
    printing: Printing
    pads: bool = False
    """A key column whose collation ignores blanks at the end, but is that of bytes otherwise."""

    @property
    def kind(self) -> Kind:
        return self.printing.kind


@dataclass(frozen=True)
class Table:
    schema: str
    name: str
    columns: tuple[Column, ...]
    key: tuple[int, ...]
    """The key's columns, in key order."""

    @property
    def full(self) -> Name:
        return self.schema, self.name

    @property
    def key_names(self) -> list[str]:
        return [self.columns[at].name for at in self.key]

    def layout(self) -> list[list]:
        """Name and type number of each column, as the note beside a feed keeps them."""
        return [[column.name, int(column.kind)] for column in self.columns]


def quoted(name: str) -> str:
    return "`" + name.replace("`", "``") + "`"


def split_name(word: str) -> Name:
    """SCHEMA.TABLE. ValueError where there is no dot."""
    schema, dot, table = word.partition(".")
    if not (schema and dot and table):
        raise ValueError(f"{word} isn't SCHEMA.TABLE")
    return schema, table


class OtherOrder(Stop):
    """A key whose equality or order isn't that of bytes."""


def read_tables(connection: Connection, names: list[Name], has_labels: bool = True) -> list[Table]:
    """The tables of these names, in this order, with the labels of their columns if these are wanted. Stops at the first
    that can't be recorded; where that is for its key's order, the others of which it is so are named too."""
    tables, skipped = read_sorted(connection, names, has_labels)
    if skipped:
        (_, stop), *others = skipped.items()
        what, _, todo = str(stop).partition(": ")
        raise OtherOrder(what, "", todo + (f"; so are keys of {', '.join('.'.join(name) for name, _ in others)}" if others else ""))
    return tables


def read_sorted(connection: Connection, names: list[Name], has_labels: bool) -> tuple[list[Table], dict[Name, OtherOrder]]:
    """The tables of these names, in this order, and those among them that can't be recorded for their keys' order. Stops
    at the first that can't be for another reason."""
    tables, skipped = [], {}
    for name in names:
        try:
            tables.append(_table(connection, *name, has_labels))
        except OtherOrder as stop:
            skipped[name] = stop
    for name in {table.name for table in tables}:
        if sum(table.name == name for table in tables) > 1:
            raise Stop(f"two tables {name}", "of several schemas", "a feed's table names have no schema; record one feed of each")
    return tables, skipped


def without_skipped(connection: Connection, names: list[Name]) -> tuple[list[Name], list[str]]:
    """The names of the tables that are left where those go whose keys have another order, and a line for each of these.
    Stops where none is left."""
    _, skipped = read_sorted(connection, names, False)
    lines = [f"{'.'.join(name)} is left out: {str(stop).partition(': ')[0]}" for name, stop in skipped.items()]
    if len(skipped) == len(names):
        raise Stop("no table is left", "", "; ".join(lines))
    return [name for name in names if name not in skipped], lines


def has_rows(connection: Connection, table: Table) -> bool:
    return bool(ask(connection, f"SELECT 1 FROM {quoted(table.schema)}.{quoted(table.name)} LIMIT 1"))


def _table(connection: Connection, schema: str, name: str, has_labels: bool) -> Table:
    where = f"in {schema}.{name}"
    found = ask(connection, "SELECT table_type, engine FROM information_schema.tables WHERE table_schema=%s AND table_name=%s", schema, name)
    if not found:
        raise Stop("no such table", f"as {schema}.{name}", "name it as the server does, and look whether the user may see it")
    kind, engine = found[0]
    if kind == "SYSTEM VERSIONED":
        raise Stop("system versioning", where, "its keys have rows of the past beside them; leave it out")
    if kind != "BASE TABLE":
        raise Stop(f"a {kind.lower()}", where, "only base tables have rows of their own; leave it out")
    if engine != "InnoDB":
        raise Stop(f"engine {engine}", where, f"ALTER TABLE .. ENGINE=InnoDB, and {ANEW}")
    _check_cascades(connection, schema, name, where)
    for (index,) in ask(connection, _HASHED, schema, name):
        raise Stop(f"unique index {index} over a hash", where,
                   f"the log has the hash as one more column; give the index's columns a length, and {ANEW}, or leave the table out")  # fmt: skip
    rows = ask(connection, _COLUMNS, schema, name)
    columns = [_column(row, where) for row in rows]
    if has_labels:
        table = f"{quoted(schema)}.{quoted(name)}"
        columns = [(_labelled(connection, table, column, *row[2:4]), collation) for row, (column, collation) in zip(rows, columns)]
    if len(columns) > 256:
        raise Stop(f"{len(columns)} columns", where, "a row has at most 256; leave it out")
    key = _key(connection, schema, name, where, columns)
    padding = {at for at in key if columns[at][1] and "_nopad_" not in columns[at][1]}
    return Table(schema, name, tuple(Column(column.name, column.printing, at in padding) for at, (column, _) in enumerate(columns)), key)


def _column(row: tuple, where: str) -> tuple[Column, str | None]:
    name, data_type, column_type, _charset, collation, precision, scale, octets = row
    kind = kind_of(data_type, "unsigned" in column_type)
    if kind is None:
        raise Stop(f"type {data_type} of column {name}, which Vitess has no number for,", where,
                   f"make it BINARY or VARCHAR, and {ANEW}, or leave the table out")  # fmt: skip
    if kind in (Kind.ENUM, Kind.SET):
        return Column(name, Printing(kind)), collation
    if "COMPRESSED" in column_type:
        raise Stop(f"compressed column {name}", where, f"make it a plain one, and {ANEW}, or leave the table out")
    width = octets if kind == Kind.BINARY else 0
    if kind == Kind.YEAR or "zerofill" in column_type:
        width = _width(kind, column_type, precision, scale)
    return Column(name, Printing(kind, width, scale if kind in (Kind.FLOAT32, Kind.FLOAT64) else None)), collation


def _labelled(connection: Connection, table: str, column: Column, definition: str, charset: str | None) -> Column:
    """The column with the labels that it has, if it is an ENUM or a SET."""
    if column.kind not in (Kind.ENUM, Kind.SET):
        return column
    labels, comma = read_labels(connection, f"{table}.{quoted(column.name)}", definition, charset)
    return Column(column.name, Printing(column.kind, labels=labels, comma=comma))


def _width(kind: Kind, column_type: str, precision: int, scale: int | None) -> int:
    """How many characters a YEAR or a column with ZEROFILL has at least."""
    if kind in (*WHOLE, Kind.YEAR):
        return int(re.search(r"\((\d+)\)", column_type)[1])
    return precision + (kind == Kind.DECIMAL and scale > 0)


_FOREIGN_KEY = re.compile(r"^  CONSTRAINT (`(?:[^`]|``)+`) FOREIGN KEY .*? REFERENCES .*?\)((?: ON (?:DELETE|UPDATE) [A-Z ]+?)*),?$", re.M)


def _check_cascades(connection: Connection, schema: str, name: str, where: str) -> None:
    """Stops at a foreign key by which rows change without the log. SHOW CREATE TABLE says them to whoever may
    read the table, or is refused; information_schema hides them from a user who may only read it."""
    # labels in it may be no UTF-8
    connection.use_unicode = False
    try:
        created = ask(connection, f"SHOW CREATE TABLE {quoted(schema)}.{quoted(name)}")[0][1].decode("utf-8", "replace")
    finally:
        connection.use_unicode = True
    for constraint, rules in _FOREIGN_KEY.findall(created):
        for rule in ("CASCADE", "SET NULL", "SET DEFAULT"):
            if rule in rules:
                raise Stop(f"foreign key {constraint}{rules}", where, f"its changes aren't in the log; make it RESTRICT, and {ANEW}, or leave the table out")


def _key(connection: Connection, schema: str, name: str, where: str, columns: list[tuple[Column, str | None]]) -> tuple[int, ...]:
    """The places of the key's columns among these, which have their collations beside them."""
    parts = ask(connection, _KEY, schema, name)
    if not parts:
        raise Stop("no primary key", where, f"ALTER TABLE .. ADD PRIMARY KEY, and {ANEW}, or leave the table out")
    if len(parts) > 8:
        raise Stop(f"{len(parts)} key columns", where, "a key has at most 8; leave the table out")
    places = [column.name for column, _ in columns]
    for part, prefix in parts:
        column, collation = columns[places.index(part)]
        if prefix:
            raise Stop(f"key column {part} by its first {prefix} characters", where, "keys are whole columns; leave the table out")
        if column.kind not in KEYS:
            raise Stop(f"key column {part} of type {column.kind.name}", where,
                       "keys are whole numbers, VARCHAR, CHAR, VARBINARY or BINARY; leave the table out")  # fmt: skip
        if collation and not (collation.endswith("_bin") and collation.split("_")[0] in BYTE_ORDERED):
            raise OtherOrder(f"key column {part} of collation {collation}, whose equality or order isn't that of bytes,", where,
                             f"make it {collation.split('_')[0]}_nopad_bin or VARBINARY, and {ANEW}, or leave the table out (--skip)")  # fmt: skip
    return tuple(places.index(part) for part, _ in parts)
