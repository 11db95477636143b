"""The tables of the target's database: made of the workflow's types where they aren't there, judged where they are; and how a
row, a key and a table are written in SQL.

What a workflow doesn't say isn't guessed: of DECIMAL, TIME, DATETIME, TIMESTAMP, BIT, ENUM and SET it lacks digits or labels, and so
such a table has to be there. Texts, which have no length in a workflow, become LONGTEXT, bytes LONGBLOB.
"""
import re
from collections.abc import Iterable
from dataclasses import dataclass

import pymysql
from recorder.catalogue import quoted
from recorder.kinds import BYTES, TEXTS, WHOLE, Kind
from recorder.server import ask
from recorder.stop import Stop

from .cells import Value, cell_of, in_words
from .plan import Table

MOST_OF_KEY = 3072
"""The bytes that a key of InnoDB may have."""
AS_THEY_ARE = "make it as its source has it (SHOW CREATE TABLE there)"
STREAMS, COPIES = "vrepl_streams", "vrepl_copies"
OWN = f"""
CREATE TABLE IF NOT EXISTS {STREAMS} (workflow VARCHAR(255) NOT NULL, stream INT NOT NULL, shard VARCHAR(255) NOT NULL,
    position LONGTEXT NOT NULL, applied BIGINT UNSIGNED NOT NULL, phase VARCHAR(20) NOT NULL, written TIMESTAMP(6) NOT NULL,
    PRIMARY KEY (workflow, stream)) ENGINE=InnoDB CHARACTER SET utf8mb4 COLLATE utf8mb4_nopad_bin;
CREATE TABLE IF NOT EXISTS {COPIES} (workflow VARCHAR(255) NOT NULL, stream INT NOT NULL, place INT NOT NULL, table_name LONGTEXT NOT NULL,
    what VARCHAR(20) NOT NULL, upto LONGTEXT, PRIMARY KEY (workflow, stream, place)) ENGINE=InnoDB CHARACTER SET utf8mb4 COLLATE utf8mb4_nopad_bin
"""
"""What a target has beside its rows: where each stream stands, and how far each table of it is copied; `upto` is the last key, as the session has it."""
DIGITS = (*WHOLE, Kind.DECIMAL, Kind.YEAR, Kind.FLOAT32, Kind.FLOAT64)
NUMBER = re.compile(rb"-?[0-9]+(\.[0-9]+)?([eE][-+]?[0-9]+)?")
COMPUTED = re.compile("VIRTUAL|STORED|PERSISTENT", re.I)
"""What `extra` says of a column that the server computes, and that isn't written."""
PLAIN = {
    Kind.INT8: "TINYINT", Kind.INT16: "SMALLINT", Kind.INT24: "MEDIUMINT", Kind.INT32: "INT", Kind.INT64: "BIGINT",
    Kind.UINT8: "TINYINT UNSIGNED", Kind.UINT16: "SMALLINT UNSIGNED", Kind.UINT24: "MEDIUMINT UNSIGNED", Kind.UINT32: "INT UNSIGNED",
    Kind.UINT64: "BIGINT UNSIGNED", Kind.YEAR: "YEAR", Kind.FLOAT32: "FLOAT", Kind.FLOAT64: "DOUBLE", Kind.DATE: "DATE", Kind.GEOMETRY: "GEOMETRY",
}  # fmt: skip
JSON = 2078
AS_TEXT = "CHARACTER SET utf8mb4 COLLATE utf8mb4_nopad_bin"


class Halted(Stop):
    """A row that can't be written."""


@dataclass(frozen=True)
class There:
    """A table as it is there: how it is named in SQL, the places of the columns that are written, and the character sets and
    collations of its key's texts."""

    table: Table
    name: str
    written: list[int]
    charsets: list[str | None]
    collations: list[str | None]

    def deleting(self, keys: Iterable[list[Value]]) -> str:
        """The statement that takes the rows of these keys away."""
        columns = [quoted(name) for name in self.table.key_columns()]
        if len(columns) == 1:
            return f"DELETE FROM {self.name} WHERE {columns[0]} IN ({', '.join(self._key(key)[0] for key in keys)})"
        return f"DELETE FROM {self.name} WHERE ({', '.join(columns)}) IN ({', '.join('(' + ', '.join(self._key(key)) + ')' for key in keys)})"

    def _key(self, key: list[Value]) -> list[str]:
        # (without its character set the column would be compared as bytes, and its index be of no use)
        kinds = [self.table.kinds[at] for at in self.table.key]
        for value, collation in zip(key, self.collations):
            if collation and "_nopad_" not in collation and value.endswith(b" "):
                raise Halted("a key that ends with a blank", f"in table {self.table.name}, key {in_words(key)}", f"{collation} doesn't tell it from one without: utf8mb4_nopad_bin does")
        return [f"_{charset} {literal(value, kind)}" if charset else literal(value, kind) for value, kind, charset in zip(key, kinds, self.charsets)]

    def inserting(self, rows: Iterable[list[Value]]) -> str:
        """The statement that inserts these rows."""
        columns = ", ".join(quoted(self.table.columns[at]) for at in self.written)
        said = ", ".join("(" + ", ".join(literal(row[at], self.table.kinds[at]) for at in self.written) + ")" for row in rows)
        return f"INSERT INTO {self.name} ({columns}) VALUES {said}"

    def dumping(self) -> str:
        """The query of its rows, each as a line of cells, by rising key."""
        planned = self.table.planned
        return f"SELECT {planned.cells(self.table.columns)} FROM {self.name} ORDER BY {', '.join(planned.order())}"


def literal(value: Value, kind: int) -> str:
    """A value as SQL: a number by its digits, all else, and what is no number, as bytes."""
    if value is None:
        return "NULL"
    if kind in DIGITS and NUMBER.fullmatch(value):
        return value.decode()
    return f"X'{cell_of(value)[1:]}'"


def creation(table: Table, schema: str) -> str:
    """The statement that makes a table. Stops where the workflow doesn't say enough of it."""
    in_key = [table.kinds[at] for at in table.key]
    long = sum(kind not in WHOLE for kind in in_key)
    most = (MOST_OF_KEY - 8 * len(in_key)) // max(1, long)
    columns = [f"{quoted(name)} {_type(table, at, most)}{' NOT NULL' if at in table.key else ''}" for at, name in enumerate(table.columns)]
    key = ", ".join(quoted(name) for name in table.key_columns())
    return f"CREATE TABLE {quoted(schema)}.{quoted(table.name)} ({', '.join(columns)}, PRIMARY KEY ({key})) ENGINE=InnoDB"


def _type(table: Table, at: int, most: int) -> str:
    kind = table.kinds[at]
    if kind in PLAIN:
        return PLAIN[kind]
    if kind in TEXTS or kind == JSON:
        return f"VARCHAR({most // 4}) {AS_TEXT}" if at in table.key else f"LONGTEXT {AS_TEXT}"
    if kind in BYTES:
        return f"VARBINARY({most})" if at in table.key else "LONGBLOB"
    named = next((one.name for one in Kind if one == kind), f"of type {kind}")
    raise Stop(f"no table {table.name}", f"(its column {table.columns[at]} is {named}, of which a workflow doesn't say enough)", AS_THEY_ARE)


def there(connection: pymysql.Connection, schema: str, table: Table) -> There | None:
    """The table as it is there, None where it isn't. Stops where no rows can be held in it."""
    where = f"in table {table.name} of the target"
    engines = ask(connection, "SELECT engine FROM information_schema.tables WHERE table_schema=%s AND BINARY table_name=%s", schema, table.name)
    if not engines:
        return None
    if engines[0][0] != "InnoDB":
        raise Stop(f"the engine {engines[0][0]}", where, "rows and positions are in one transaction, which InnoDB has")
    said = ask(connection, "SELECT column_name, extra, character_set_name, collation_name FROM information_schema.columns WHERE table_schema=%s"
               " AND BINARY table_name=%s", schema, table.name)  # fmt: skip
    columns = {name: (extra, charset, collation) for name, extra, charset, collation in said}
    if missing := [name for name in table.columns if name not in columns]:
        raise Stop(f"no column {missing[0]}", where, AS_THEY_ARE)
    parts = ask(connection, "SELECT column_name, sub_part FROM information_schema.statistics WHERE table_schema=%s AND BINARY table_name=%s"
                " AND index_name='PRIMARY' ORDER BY seq_in_index", schema, table.name)  # fmt: skip
    key = [f"{name}({size})" if size else name for name, size in parts]
    if sorted(key) != sorted(table.key_columns()):
        raise Stop(f"another primary key ({', '.join(key) or 'none'})", where, f"the workflow's is {', '.join(table.key_columns())}")
    for name in table.key_columns():
        if (collation := columns[name][2]) and not collation.endswith("_bin"):
            raise Stop(f"the collation {collation} of the key's column {name}", where, "keys are told apart by their bytes: utf8mb4_nopad_bin does so")
    written = [at for at, name in enumerate(table.columns) if not COMPUTED.search(columns[name][0])]
    key = table.key_columns()
    return There(table, f"{quoted(schema)}.{quoted(table.name)}", written, [columns[name][1] for name in key], [columns[name][2] for name in key])
