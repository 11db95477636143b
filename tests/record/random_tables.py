"""Random tables: columns of every type that is recorded, with random lengths, places, character sets and labels,
and random rows in them. A round is one table, made from its number alone."""
import random
import re
import struct
from collections.abc import Callable
from contextlib import closing
from dataclasses import dataclass

import pymysql

SCHEMA = "r"
CHARSETS = ["ascii", "latin1", "latin2", "cp1251", "utf8mb3", "utf8mb4", "utf8mb4", "ucs2", "utf16", "utf16le", "utf32", "sjis", "gbk", "eucjpms", "big5"]
TEXTS = ["TINYTEXT", "TEXT", "MEDIUMTEXT", "LONGTEXT"]
SIGNS = ["", "", " UNSIGNED", " ZEROFILL"]
INTEGERS = {"TINYINT": 8, "SMALLINT": 16, "MEDIUMINT": 24, "INT": 32, "BIGINT": 64}
MODES = "SET time_zone='+00:00', sql_mode='ALLOW_INVALID_DATES'"
SIGNS_OF_TEXT = ["\0", "\n", "\r", "\x1a", "\t", "\\", "'", '"', "`", "%", "?", " ", "  ", ",", "(", ")", "/*",
                 "a", "B", "z", "0", "ä", "ß", "é", "Ж", "€", "あ", "中",
                 "\x7f", "\x80", "\xa0", "\u0120", "\u2028", "😀", "𐍈"]  # fmt: skip


@dataclass(frozen=True)
class Column:
    """A column as SQL defines it, and a value of it as SQL spells it, a new one each time."""

    definition: str
    value: Callable[[], str]


class Maker:
    """Makes the columns and rows of one round."""

    def __init__(self, number: int) -> None:
        self.number, self.r = number, random.Random(f"table {number}")

    def text(self, most: int) -> str:
        r = self.r
        return "".join(r.choice(SIGNS_OF_TEXT) if r.random() < 0.7 else chr(r.randrange(1, 0xD800)) for _ in range(r.randrange(most + 1)))

    def bytes(self, most: int) -> str:
        return f"X'{self.r.randbytes(self.r.randrange(most + 1)).hex()}'"

    def digits(self, most: int) -> str:
        return "".join(self.r.choices("0123456789", k=self.r.randrange(1, most + 1)))

    def number_of(self, whole: int, places: int) -> str:
        """A decimal number, with more digits than there is room for now and then."""
        return self.r.choice(["", "-"]) + self.digits(max(1, whole)) + "." + self.digits(places + 3)

    def integer(self) -> Column:
        r, name = self.r, self.r.choice(list(INTEGERS))
        width, bits = r.choice(["", f"({r.randrange(256)})"]), INTEGERS[name]
        edges = [0, 1, -1, (1 << bits) - 1, (1 << bits - 1) - 1, -(1 << bits - 1)]
        return Column(name + width + r.choice(SIGNS), lambda: str(r.choice(edges) if r.random() < 0.5 else r.randrange(-(1 << bits), 1 << bits)))

    def decimal(self) -> Column:
        r, precision = self.r, self.r.randrange(1, 66)
        scale = r.randrange(min(precision, 38) + 1)
        return Column(f"DECIMAL({precision},{scale}){r.choice(SIGNS)}", lambda: self.number_of(precision - scale, scale))

    def float(self) -> Column:
        r, name = self.r, self.r.choice(["FLOAT", "DOUBLE"])
        form, size = ("<f", 4) if name == "FLOAT" else ("<d", 8)
        places = r.randrange(31)
        whole = r.choice([0, 3, 9, 15, 20, 40, 225])
        sized = r.random() < 0.7 and max(1, min(255, whole + places))

        def value() -> str:
            if r.random() < 0.5:
                return self.number_of(min(whole, 20) if sized else 20, places)
            number = struct.unpack(form, r.randbytes(size))[0]
            return repr(number) if abs(number) < 3e38 or size == 8 and abs(number) < 1e308 else "0"

        return Column(name + (f"({max(sized, places)},{places})" if sized else "") + r.choice(SIGNS), value)

    def bit(self) -> Column:
        size = self.r.randrange(1, 65)
        return Column(f"BIT({size})", lambda: f"{self.r.getrandbits(size)}")

    def year(self) -> Column:
        return Column(self.r.choice(["YEAR", "YEAR(2)"]), lambda: self.r.choice(["0", "'0000'", "'00'", str(self.r.randrange(1901, 2156))]))

    def moment(self) -> str:
        r = self.r
        date = r.choice([f"{r.randrange(1, 10000):04d}-{r.randrange(1, 13):02d}-{r.randrange(1, 32):02d}", "0000-00-00", f"{r.randrange(10000):04d}-00-00",
                         f"{r.randrange(1971, 2038)}-{r.randrange(1, 13):02d}-{r.randrange(1, 29):02d}"])  # fmt: skip
        return f"{date} {r.randrange(24):02d}:{r.randrange(60):02d}:{r.randrange(60):02d}.{self.digits(6)}"

    def date(self) -> Column:
        name = self.r.choice(["DATE", f"DATETIME({self.r.randrange(7)})", f"TIMESTAMP({self.r.randrange(7)})"])
        return Column(name, lambda: f"'{self.moment()}'")

    def time(self) -> Column:
        r = self.r
        return Column(f"TIME({r.randrange(7)})", lambda: f"'{r.choice(['', '-'])}{r.choice([0, 1, 9, 99, 838, r.randrange(839)])}:"
                      f"{r.randrange(60):02d}:{r.randrange(60):02d}.{self.digits(6)}'")  # fmt: skip

    def collated(self) -> tuple[str, str]:
        """A character set, or the bytes' own, and the words for it."""
        charset = self.r.choice(CHARSETS)
        collation = self.r.choice(["", "", f" COLLATE {charset}_bin", f" COLLATE {charset}_nopad_bin"])
        return charset, f" CHARACTER SET {charset}{collation}"

    def characters(self) -> Column:
        r = self.r
        charset, words = self.collated()
        most = r.choice([0, 1, 3, 60, 86, 127, 255])
        name = r.choice([f"CHAR({most})", f"VARCHAR({most * r.choice([1, 2])})", r.choice(TEXTS)])
        return Column(name + words, lambda: f"CONVERT(_utf8mb4 X'{self.text(max(3, most)).encode().hex()}' USING {charset})")

    def binary(self) -> Column:
        most = self.r.choice([0, 1, 9, 255])
        kinds = [f"BINARY({most})", f"VARBINARY({self.r.choice([most, 300, 700])})", *(text.replace("TEXT", "BLOB") for text in TEXTS)]
        return Column(self.r.choice(kinds), lambda: self.bytes(most + 3))

    def label(self, charset: str, is_set: bool) -> str:
        """A label as SQL spells it, of all signs or of all bytes. A label of a SET has no comma."""
        if charset in ("binary", "latin1"):
            return "X'" + self.r.randbytes(self.r.randrange(1, 9)).replace(b"," if is_set else b"", b"").hex() + "'"
        text = self.text(6).replace("," if is_set else "", "")
        return "'" + text.replace("\\", "\\\\").replace("'", "''").replace("\0", "\\0") + "'"

    def labelled(self) -> Column:
        r, is_set = self.r, self.r.random() < 0.5
        charset, words = self.r.choice([("binary", " CHARACTER SET binary"), self.collated(), self.collated(), self.collated()])
        count = r.choice([1, 2, 7, 8, 9, 17, 25, 33, 64] if is_set else [1, 2, 9, 255, 256, 300])
        labels = [self.label(charset, is_set) for _ in range(count)]
        definition = f"{'SET' if is_set else 'ENUM'}({', '.join(labels)}){words}"
        return Column(definition, lambda: str(r.getrandbits(count) if is_set else r.randrange(count + 1)))

    def geometry(self) -> Column:
        r = self.r
        points = lambda: ", ".join(f"{r.randrange(-99, 99)} {r.random()}" for _ in range(r.randrange(2, 5)))  # noqa: E731
        return Column(r.choice(["GEOMETRY", "LINESTRING"]), lambda: f"ST_GeomFromText('LINESTRING({points()})')")

    def column(self) -> Column:
        makers = [self.integer, self.decimal, self.float, self.float, self.bit, self.year, self.date, self.date, self.time, self.characters,
                  self.characters, self.binary, self.labelled, self.labelled, self.geometry]  # fmt: skip
        return self.r.choice(makers)()

    def key(self) -> Column:
        """A column of a type that a key may have; of a collation that ignores blanks it has none."""
        r, word = self.r, lambda: f"'{''.join(self.r.choices('aAbBzZ09', k=self.r.randrange(1, 6)))}'"
        return r.choice([
            Column("BIGINT", lambda: str(r.randrange(-(1 << 63), 1 << 63))), self.integer(), self.integer(),
            Column("VARCHAR(40) COLLATE utf8mb4_nopad_bin", lambda: f"_utf8mb4 X'{self.text(9).encode().hex()}'"),
            Column("CHAR(9) CHARACTER SET latin1 COLLATE latin1_bin", word), Column("VARCHAR(300) CHARACTER SET ascii COLLATE ascii_bin", word),
            Column("VARBINARY(20)", lambda: self.bytes(12)), Column("BINARY(6)", lambda: self.bytes(6)),
        ])  # fmt: skip

    def statements(self) -> list[str]:
        """A table, its rows, and changes of some of these."""
        r, name = self.r, f"{SCHEMA}.t{self.number}"
        keys = [self.key() for _ in range(r.choice([1, 1, 1, 2]))]
        columns = [self.column() for _ in range(r.randrange(1, 9))]
        names = [f"`{sign}{at}`" for sign, of in (("k", keys), ("c", columns)) for at in range(len(of))]
        parts = [f"{here} {one.definition}{r.choice([' NULL', ' NULL', ' NULL INVISIBLE']) if one in columns else ' NOT NULL'}"
                 for here, one in zip(names, [*keys, *columns])]  # fmt: skip
        if r.random() < 0.3:
            parts.insert(r.randrange(len(parts) + 1), f"g BIGINT UNSIGNED AS (LENGTH(RTRIM({names[0]}))) {r.choice(['STORED', 'VIRTUAL'])}")
        made = f"CREATE TABLE {name} ({', '.join(parts)}, PRIMARY KEY ({', '.join(names[:len(keys)])})) CHARACTER SET utf8mb4"
        value = lambda one: "NULL" if one in columns and r.random() < 0.1 else one.value()  # noqa: E731
        rows = [f"({', '.join(map(value, [*keys, *columns]))})" for _ in range(r.randrange(1, 25))]
        changes = [f"UPDATE IGNORE {name} SET {here}={value(one)} LIMIT {r.randrange(1, 4)}" for here, one in zip(names, [*keys, *columns]) if r.random() < 0.6]
        inserts = [f"INSERT IGNORE INTO {name} ({', '.join(names)}) VALUES {row}" for row in rows]
        return [made, *inserts, *changes, f"DELETE FROM {name} LIMIT {r.randrange(2)}"]


BATCH = 20
"""How many tables one feed has."""


def _make(connection, number: int) -> str:
    """Makes the table of a round on the server; answers its definition."""
    made, *rows = Maker(number).statements()
    with closing(connection.cursor()) as cursor:
        for statement in (MODES, made, *rows):
            cursor.execute(statement)
    return made


def _parts(dump: bytes) -> dict[str, bytes]:
    """The rows of each table of a dump."""
    return {name.decode(): rows for name, _, rows in (part.partition(b"\n") for part in re.split(rb"^table ", dump, flags=re.M)[1:])}


def compare(trial, first: int, count: int) -> None:
    """Rounds `first` and on: each table's rows, as the decoder reads the log, are what the server prints of it. A check a round."""
    for begin in range(first, first + count, BATCH):
        numbers = range(begin, min(begin + BATCH, first + count))
        metadata = ("FULL", "MINIMAL", "NO_LOG")[begin // BATCH % 3]
        packed = begin // BATCH % 2
        trial.server.sql(f"CREATE DATABASE {SCHEMA}; RESET MASTER; SET GLOBAL binlog_row_metadata={metadata}, log_bin_compress={packed},"
                         " log_bin_compress_min_len=10")  # fmt: skip
        with closing(pymysql.connect(unix_socket=trial.server.socket, user="root", charset="utf8mb4", autocommit=True)) as connection:
            made = {f"t{number}": _make(connection, number) for number in numbers}
        tables = [f"{SCHEMA}.{name}" for name in made]
        workflow = trial.workflow("random.json", ["-"], tables)
        wanted, dumps = _parts(trial.selected(workflow, SCHEMA)), {}
        trial.decoded("-", trial.path("random.feed"), *tables)
        dumps["the log"] = _parts(trial.made(trial.program, "run", workflow, trial.path("random.feed.own")))
        for name, definition in made.items():
            others = [how for how, dump in dumps.items() if dump[name] != wanted[name]]
            trial.check(f"round {name[1:]}", f"other rows from {' and '.join(others)} of {definition}" if others else None)
        trial.server.sql(f"DROP DATABASE {SCHEMA}; RESET MASTER; SET GLOBAL binlog_row_metadata=FULL, log_bin_compress=0")
