"""The target's database: rows, positions and how far tables are copied, in one transaction, as VReplication has them.

One connection writes, under a lock of the server's (GET_LOCK), and each transaction begins with a look whether the positions are those that the
last one left. All that is touched is taken away first and then inserted as it is to be, so that rows may swap the values of a
further unique index. All of this waits for the server, and so stands in a thread of its own.
"""
import hashlib
import socket
import tempfile
from collections.abc import Callable, Iterable, Iterator
from contextlib import closing, suppress
from dataclasses import dataclass, field

import pymysql
from recorder.catalogue import quoted
from recorder.server import ask, fault_of, rows
from recorder.stop import Lost, Stop

from .cells import Value, bytes_of, cell_of, in_words, values_of
from .login import Place
from .plan import Plan, Table
from .tables import COPIES, OWN, STREAMS, Halted, There, creation, there

MODE = "STRICT_ALL_TABLES,NO_AUTO_VALUE_ON_ZERO,NO_BACKSLASH_ESCAPES,NO_ENGINE_SUBSTITUTION,ALLOW_INVALID_DATES"
SESSION = f"SET NAMES utf8mb4, sql_mode='{MODE}', time_zone='+00:00', foreign_key_checks=0, wait_timeout=86400, innodb_lock_wait_timeout=10"
"""What a session has of its own; whether it writes the binary log is the server's to say."""
READING = "SET NAMES utf8mb4, sql_mode='NO_BACKSLASH_ESCAPES', time_zone='+00:00', max_sort_length=16384"
"""As `record/select` reads."""
PATIENCE = 10
"""The seconds that another one's lock is waited for: the server may not know yet that it was killed."""
MOST_OF_ROWS, MOST_OF_TEXT = 500, 2**20
LOCKED, DEADLOCK = 1205, 1213
TRIES = 5


class Moved(Stop):
    """The positions in the database aren't those that were left there."""


@dataclass(frozen=True)
class Standing:
    """Where a stream stands."""

    position: str
    copies: tuple[tuple[str, str, str | None], ...]
    """Of each table its name, `waiting`, `upto` or `done`, and the last key that is copied."""

    @classmethod
    def of(cls, said: dict) -> "Standing":
        copies = [(one["table"], one["what"], ",".join(one["key"]) if one["key"] is not None else None) for one in said["copied"]]
        return cls(said["position"] or "", tuple(copies))

    def done(self) -> int:
        return sum(what == "done" for _, what, _ in self.copies)


@dataclass(frozen=True)
class Change:
    table: str
    key: list[Value]
    row: list[Value] | None

    @classmethod
    def of(cls, said: dict) -> "Change":
        return cls(said["table"], values_of(said["key"]), None if said["row"] is None else values_of(said["row"]))


@dataclass
class Mended:
    """How many rows were held to the board's, and how many of them were made equal."""

    held: int = 0
    mended: int = 0


@dataclass
class _Batch:
    """Things that go into one statement."""

    things: list = field(default_factory=list)
    size: int = 0

    def add(self, thing: list[Value]) -> None:
        self.things.append(thing)
        self.size += sum(2 * len(value) + 8 for value in thing if value is not None)

    def is_full(self) -> bool:
        return len(self.things) >= MOST_OF_ROWS or self.size >= MOST_OF_TEXT


def _batches(things: Iterable[list[Value]]) -> Iterator[list]:
    batch = _Batch()
    for thing in things:
        batch.add(thing)
        if batch.is_full():
            yield batch.things
            batch = _Batch()
    if batch.things:
        yield batch.things


class Database:
    """`open` connects; what stands behind it may find the connection lost (`Lost`), and then it is opened again."""

    def __init__(self, place: Place, plan: Plan, name: str, is_adopting: bool, tell: Callable[[str], None]) -> None:
        self.place, self._plan, self._name, self._is_adopting, self._tell = place, plan, name, is_adopting, tell
        self._connection: pymysql.Connection | None = None
        self._reading: pymysql.Connection | None = None
        """The one by which rows are read that are held to the board's."""
        self._there: dict[str, There] = {}
        self._most = 0
        """The bytes that a statement may have."""
        self._standings: list[Standing] | None = None
        if len(name) > 255 or not name.isprintable():
            raise Stop("no name for this workflow in the database", f"({name[:80]!r})", "--name gives it one of at most 255 printable characters")
        if own := [table for table in plan.tables if table.lower() in (STREAMS, COPIES)]:
            raise Stop(f"a table called {own[0]}", "in the workflow", "in a target's schema this is the daemon's own")

    # Opening.

    def open(self) -> list[Standing] | None:
        """Connects, has its tables there, and answers where the streams stand in the database, None where it doesn't say."""
        self.close()
        self._connection = connection = self.place.login.connect()
        ask(connection, SESSION)
        self._most = ask(connection, "SELECT @@max_allowed_packet")[0][0]
        schemas = ask(connection, "SELECT schema_name FROM information_schema.schemata WHERE BINARY schema_name=%s", self.place.schema)
        if not schemas:
            raise Stop("no database", f"{self.place}", "CREATE DATABASE makes it")
        ask(connection, f"USE {quoted(self.place.schema)}")
        if ask(connection, "SELECT GET_LOCK(%s, %s)", self._lock(), PATIENCE)[0][0] != 1:
            raise Lost("another serve/target that writes", f"to {self.place} under the name {self._name}", "end it, or give another --name")
        for statement in OWN.split(";"):
            ask(connection, statement)
        self._there = {name: self._table(table) for name, table in self._plan.tables.items()}
        self._standings = self._read(for_update=False)
        if self._standings is None and not self._is_adopting:
            for table in self._there.values():
                if ask(connection, f"SELECT 1 FROM {table.name} LIMIT 1"):
                    raise Stop(f"rows in table {table.table.name}", f"of {self.place}, of which {STREAMS} doesn't say where they stand",
                               "empty it, or have the rows made equal to the workflow's by --adopt")  # fmt: skip
        ask(connection, "ROLLBACK")
        return self._standings

    def _lock(self) -> str:
        # (a lock's name has at most 64 characters)
        return "vrepl." + hashlib.sha256(f"{self.place.schema}\0{self._name}".encode()).hexdigest()[:40]

    def _table(self, table: Table) -> There:
        found = there(self._connection, self.place.schema, table)
        if not found:
            ask(self._connection, creation(table, self.place.schema))
            self._tell(f"table {table.name} is made in {self.place}, of the workflow's types")
            found = there(self._connection, self.place.schema, table)
        if not found:
            raise Stop(f"no table {table.name}", f"in {self.place}", "the server has it under another name (lower_case_table_names)")
        return found

    def _read(self, for_update: bool) -> list[Standing] | None:
        """Where the streams stand, as the tables say it."""
        behind = " FOR UPDATE" if for_update else ""
        streams = ask(self._connection, f"SELECT stream, shard, position FROM {STREAMS} WHERE workflow=%s ORDER BY stream{behind}", self._name)
        if not streams:
            return None
        if [(at, shard) for at, shard, _ in streams] != list(enumerate(self._plan.shards)):
            raise Stop("other streams", f"in {STREAMS} of {self.place} under the name {self._name}", "they are another workflow's: give another --name")
        copies: list[list[tuple[str, str, str | None]]] = [[] for _ in streams]
        for stream, table, what, upto in ask(self._connection, f"SELECT stream, table_name, what, upto FROM {COPIES} WHERE workflow=%s ORDER BY stream, place", self._name):
            if 0 <= stream < len(copies):
                copies[stream].append((table, what, upto))
        return [Standing(position, tuple(own)) for (_, _, position), own in zip(streams, copies)]

    def abort(self) -> None:
        """For another thread: what the server is waited for is lost."""
        for connection in (self._connection, self._reading):
            with suppress(OSError, AttributeError):
                connection._sock.shutdown(socket.SHUT_RDWR)

    def close(self) -> None:
        """Closes the connection; the server drops what it hasn't committed."""
        if self._connection:
            with suppress(pymysql.err.MySQLError, OSError):
                self._connection.close()
            self._connection = None

    # Writing.

    def standings(self) -> list[Standing] | None:
        """Those that the database has, as far as this knows."""
        return self._standings

    def apply(self, changes: list[Change], streams: list[dict]) -> None:
        """The rows at all keys that changed, and where the streams stand by then, in one transaction. `Halted` where the server refuses a row."""
        for tries in range(1, TRIES + 1):
            try:
                return self._in_transaction(streams, lambda: self._write(changes))
            except pymysql.err.MySQLError as fault:
                if fault.args[:1] not in ((LOCKED,), (DEADLOCK,)) or tries == TRIES:
                    raise self._stop_of(fault, "the database can't be written") from None

    def _in_transaction(self, streams: list[dict], write: Callable[[], None]) -> None:
        standings = [Standing.of(said) for said in streams]
        try:
            self._do("START TRANSACTION")
            if self._read(for_update=True) != self._standings:
                raise Moved("positions that another one wrote", f"in {STREAMS} of {self.place}", "the rows are held to those here")
            write()
            self._put(streams, standings)
            self._do("COMMIT")
        except BaseException:
            # (where the connection is lost the server does so)
            with suppress(Exception):
                self._do("ROLLBACK")
            raise
        self._standings = standings

    def _stop_of(self, fault: pymysql.err.MySQLError, what: str) -> Stop:
        """The stop that a fault of the server is."""
        stop, said = fault_of(fault, what, f"({self.place})"), str(fault.args[-1] if fault.args else fault)
        return Lost(what, f"({self.place})", said) if isinstance(stop, Lost) else Halted(what, f"({self.place})", said)

    def _write(self, changes: list[Change]) -> None:
        for name, table in self._there.items():
            for keys in _batches(change.key for change in changes if change.table == name):
                self._delete(table, keys)
        for name, table in self._there.items():
            for found in _batches(change.row for change in changes if change.table == name and change.row is not None):
                self._insert(table, found)

    def _delete(self, table: There, keys: list[list[Value]]) -> None:
        self._in_one(keys, table.deleting, lambda key: key, table)

    def _insert(self, table: There, found: list[list[Value]]) -> None:
        self._in_one(found, table.inserting, lambda row: [row[at] for at in table.table.key], table)

    def _in_one(self, things: list[list[Value]], statement: Callable[[list], str], key_of: Callable[[list], list[Value]], table: There) -> None:
        """One statement for all of these; where the server refuses it, one for each, so that the row is known that it refuses."""
        try:
            return self._do(statement(things))
        except pymysql.err.MySQLError as fault:
            if fault.args[:1] in ((LOCKED,), (DEADLOCK,)) or isinstance(fault_of(fault, "", ""), Lost):
                raise
            if len(things) == 1:
                where = f"of table {table.table.name} at key {in_words(key_of(things[0]))}"
                raise Halted("the server refuses a row", where, str(fault.args[-1])) from None
        # (what was refused has left nothing, and the transaction goes on)
        for thing in things:
            self._in_one([thing], statement, key_of, table)

    def _put(self, streams: list[dict], standings: list[Standing]) -> None:
        """Where the streams stand."""
        before: list[Standing | None] = [*(self._standings or [None] * len(standings))]
        with self._connection.cursor() as cursor:
            for said, standing, shard, old in zip(streams, standings, self._plan.shards, before):
                if old is None or old.position != standing.position or old.copies != standing.copies:
                    cursor.execute(f"REPLACE INTO {STREAMS} VALUES (%s, %s, %s, %s, %s, %s, NOW(6))",
                                   (self._name, said["stream"], shard, standing.position, said["applied"], said["phase"]))  # fmt: skip
                if old is None or old.copies != standing.copies:
                    cursor.execute(f"DELETE FROM {COPIES} WHERE workflow=%s AND stream=%s", (self._name, said["stream"]))
                    for place, (table, what, upto) in enumerate(standing.copies):
                        cursor.execute(f"INSERT INTO {COPIES} VALUES (%s, %s, %s, %s, %s, %s)", (self._name, said["stream"], place, table, what, upto))

    def _do(self, statement: str) -> None:
        if len(statement) + 4096 > self._most:
            # (the server would close the connection, as if it were lost)
            raise pymysql.err.DataError(0, f"{len(statement)} bytes of SQL, where max_allowed_packet is {self._most}: SET GLOBAL max_allowed_packet=1073741824")
        with self._connection.cursor() as cursor:
            cursor.execute(statement)

    # Holding.

    def hold(self, pages: Callable[[str], Iterator[list[Value]]], streams: list[dict]) -> Mended:
        """Holds the rows of each table to those that the board has by rising key, and makes them equal, in one transaction."""
        found = Mended()
        try:
            self._in_transaction(streams, lambda: self._mend(pages, found))
        except pymysql.err.MySQLError as fault:
            raise self._stop_of(fault, "the database's rows can't be made equal") from None
        return found

    def _mend(self, pages: Callable[[str], Iterator[list[Value]]], found: Mended) -> None:
        with closing(self.place.login.connect(raw=True)) as reading, tempfile.TemporaryFile() as lacking:
            self._reading = reading
            ask(reading, READING)
            ask(reading, "START TRANSACTION WITH CONSISTENT SNAPSHOT")
            for name, table in self._there.items():
                for keys in _batches(self._differing(reading, table, pages(name), lacking, found)):
                    self._delete(table, keys)
                lacking.write(b"\n")
            lacking.seek(0)
            for table in self._there.values():
                for own in _batches(_rows_of(lacking)):
                    self._insert(table, own)

    def _differing(self, reading: pymysql.Connection, there: There, ours: Iterator[list[Value]], lacking, found: Mended) -> Iterator[list[Value]]:
        """The keys whose rows in the database aren't those of the board; the rows that they are to have go into a file."""
        table = there.table
        theirs = (_row_of(line) for (line,) in rows(reading, there.dumping(), f"of table {table.name}"))
        mine, other = next(ours, None), next(theirs, None)
        while mine is not None or other is not None:
            found.held += 1
            key = table.key_of(mine) if mine is not None else None
            its = table.key_of(other) if other is not None else None
            is_mine, is_its = its is None or key is not None and key <= its, key is None or its is not None and its <= key
            if is_mine and is_its and mine == other:
                mine, other = next(ours, None), next(theirs, None)
                continue
            found.mended += 1
            if is_mine:
                lacking.write("\t".join(map(cell_of, mine)).encode() + b"\n")
            if is_its:
                yield [other[at] for at in table.key]
                other = next(theirs, None)
            if is_mine:
                mine = next(ours, None)


def _row_of(line: bytes | None) -> list[Value]:
    if line is None:
        raise Stop("a row whose line the server doesn't print", "(it is longer than max_allowed_packet)", "SET GLOBAL max_allowed_packet=1073741824")
    return [bytes_of(cell) for cell in line.decode().split("\t")]


def _rows_of(lacking) -> Iterator[list[Value]]:
    """The rows of one table in the file."""
    while (line := lacking.readline()) not in (b"\n", b""):
        yield _row_of(line[:-1])
