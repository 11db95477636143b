"""A load of several clients over four tables of two source shards, by fixed seeds.

Each key belongs to the shard that its vindex says, so that the two shards never have the same one. Clients
take turns as the server lets them: what is left differs from run to run, and what the log has with it.
"""
import hashlib
import random
import threading
from collections import Counter
from collections.abc import Callable
from dataclasses import dataclass

import pymysql

SCHEMAS = ["ks_lower", "ks_upper"]
SHARDS = ["-80", "80-"]
PATIENCE = 600
"""The seconds in which clients have to be done; on a machine with nothing else to do it takes them four."""
DUPLICATE, LOCKED, DEADLOCK, XA_OVER = 1062, 1205, 1213, 1614
Value = int | bytes | str | None


def reverse_bits(number: int) -> bytes:
    return int(f"{number:064b}"[::-1], 2).to_bytes(8, "big")


def md5(text: str) -> bytes:
    return hashlib.md5(text.encode()).digest()


def whole(low: int, high: int) -> Callable[[random.Random], int]:
    """Numbers of a type, its ends often among them."""
    return lambda random: random.choice([low, high, 0 if low < 0 else low, random.randint(low, high)])


def some_bytes(most: int) -> Callable[[random.Random], bytes]:
    return lambda random: random.choice([b"", b"\0", b"\t\n\\x'\"", b" \xff ", bytes(range(256))[:most], random.randbytes(random.randint(0, most))])


def some_text(most: int) -> Callable[[random.Random], str]:
    return lambda random: "".join(random.choice("aAbz \t'\\ä€𝄞") for _ in range(random.randint(0, most)))


@dataclass(frozen=True)
class Table:
    name: str
    columns: dict[str, Callable[[random.Random], Value]]
    """What each column that isn't of the key is given."""
    key: dict[str, Callable[[random.Random], Value]]
    id: Callable[[tuple], bytes]
    vindex: str
    made: str


TABLES = [
    Table("whole", {f"i{bits}": whole(-(2 ** (bits - 1)), 2 ** (bits - 1) - 1) for bits in (8, 16, 24, 32, 64)}
          | {f"u{bits}": whole(0, 2**bits - 1) for bits in (8, 16, 24, 32)},
          {"id": whole(0, 2**64 - 1)}, lambda key: reverse_bits(key[0]), "id:reverse_bits",
          "i8 TINYINT, i16 SMALLINT, i24 MEDIUMINT, i32 INT, i64 BIGINT, u8 TINYINT UNSIGNED, u16 SMALLINT UNSIGNED,"
          " u24 MEDIUMINT UNSIGNED, u32 INT UNSIGNED, id BIGINT UNSIGNED PRIMARY KEY"),
    Table("blobs", {"b": some_bytes(8), "v": some_bytes(600), "c": some_text(10)},
          {"k": some_bytes(300)}, lambda key: key[0], "k:binary",
          "b BINARY(8), k VARBINARY(300) PRIMARY KEY, v VARBINARY(600), c CHAR(10)"),
    Table("pairs", {"note": some_text(80), "n": whole(-5, 5)},
          {"a": some_text(3), "b": whole(-300, 300)}, lambda key: md5(key[0]), "a:binary_md5",
          "note VARCHAR(80), b SMALLINT, a VARCHAR(20) COLLATE utf8mb4_nopad_bin, n INT, PRIMARY KEY (a, b)"),
    Table("long_values", {"body": lambda random: random.randbytes(random.choice([0, 1, 300, 70000])), "more": some_text(2000)},
          {"id": whole(0, 2**31 - 1)}, lambda key: reverse_bits(key[0]), "id:reverse_bits",
          "id INT PRIMARY KEY, body LONGBLOB, more MEDIUMTEXT"),
]  # fmt: skip
VINDEXES = [f"--vindex={table.name}={table.vindex}" for table in TABLES]


def tables_of(schema: str) -> list[str]:
    return [f"{schema}.{table.name}" for table in TABLES]


def creation() -> str:
    return "".join(f"CREATE DATABASE {schema}; " + "".join(f"CREATE TABLE {schema}.{table.name} ({table.made}); " for table in TABLES) for schema in SCHEMAS)


def keys_of(table: Table) -> list[list[tuple]]:
    """By shard the keys that the clients use, the same for all of them."""
    chance, keys = random.Random(table.name), [[], []]
    while min(map(len, keys)) < 40:
        key = tuple(value(chance) for value in table.key.values())
        keys[table.id(key)[:1] >= b"\x80"].append(key)
    return keys


class Client:
    """One client: some transactions of one to four changes each, a few until it may end, and as many as are said then."""

    def __init__(self, socket: str, seed: int, transactions: int, xa: bool, may_end: threading.Event) -> None:
        self._socket, self._seed, self._transactions, self._xa, self._may_end = socket, seed, transactions, xa, may_end
        self._random = random.Random(seed)
        self._keys = [keys_of(table) for table in TABLES]
        self.done: Counter[str] = Counter()
        self.fault: Exception | None = None

    def run(self) -> None:
        try:
            connection = pymysql.connect(unix_socket=self._socket, user="root", charset="utf8mb4")
            with connection, connection.cursor() as self._cursor:
                number = 0
                while not self._may_end.wait(0.02):
                    self._transaction(number)
                    number += 1
                for more in range(number, number + self._transactions):
                    self._transaction(more)
        except Exception as fault:  # noqa: BLE001
            self.fault = fault

    def _transaction(self, number: int) -> None:
        xa = f"'{self._seed}-{number}'" if self._xa and self._random.random() < 0.1 else ""
        self._do(f"XA START {xa}" if xa else "BEGIN")
        try:
            for _ in range(self._random.randint(1, 4)):
                self._change(bool(xa))
        except pymysql.err.MySQLError as fault:
            if fault.args[0] not in (LOCKED, DEADLOCK, XA_OVER):
                raise
            self.done["deadlock"] += 1
            self._end(xa, keep=False, lost=True)
        else:
            self._end(xa, keep=self._random.random() < 0.85)

    def _end(self, xa: str, keep: bool, lost: bool = False) -> None:
        self.done["commit" if keep else "rollback"] += 1
        if not xa:
            return self._do("COMMIT" if keep else "ROLLBACK")
        try:
            self._do(f"XA END {xa}")
        except pymysql.err.MySQLError:
            if not lost:
                raise
        one_phase = keep and self._random.random() < 0.3
        if not one_phase and not lost:
            self._do(f"XA PREPARE {xa}")
        self.done["xa"] += 1
        self._do(f"XA COMMIT {xa}{' ONE PHASE' if one_phase else ''}" if keep else f"XA ROLLBACK {xa}")

    def _do(self, query: str, *values: Value) -> None:
        self._cursor.execute(query, values or None)

    def _change(self, in_xa: bool) -> None:
        at = self._random.randrange(len(TABLES))
        shard = self._random.randrange(2)
        table, keys = TABLES[at], self._keys[at][shard]
        ways = [self._put, self._put, self._replace, self._upsert, self._update, self._move, self._delete, self._again, self._many]
        way = self._random.choice(ways if in_xa else [*ways, self._undone])
        self.done[way.__name__] += 1
        try:
            way(table, f"{SCHEMAS[shard]}.{table.name}", keys)
        except pymysql.err.IntegrityError as fault:
            if fault.args[0] != DUPLICATE:
                raise

    def _row(self, table: Table, key: tuple) -> dict[str, Value]:
        return dict(zip(table.key, key)) | {name: None if self._random.random() < 0.2 else value(self._random) for name, value in table.columns.items()}

    def _write(self, verb: str, table: Table, name: str, key: tuple, behind: str = "") -> None:
        row = self._row(table, key)
        self._do(f"{verb} INTO {name} ({', '.join(row)}) VALUES ({', '.join(['%s'] * len(row))}){behind}", *row.values())

    def _put(self, table: Table, name: str, keys: list[tuple]) -> None:
        self._write("INSERT", table, name, self._random.choice(keys))

    def _replace(self, table: Table, name: str, keys: list[tuple]) -> None:
        self._write("REPLACE", table, name, self._random.choice(keys))

    def _upsert(self, table: Table, name: str, keys: list[tuple]) -> None:
        column = next(iter(table.columns))
        self._write("INSERT", table, name, self._random.choice(keys), f" ON DUPLICATE KEY UPDATE {column}=VALUES({column})")

    def _at(self, table: Table) -> str:
        return " AND ".join(f"{name}=%s" for name in table.key)

    def _update(self, table: Table, name: str, keys: list[tuple]) -> None:
        row = self._row(table, ())
        self._do(f"UPDATE {name} SET {', '.join(f'{column}=%s' for column in row)} WHERE {self._at(table)}", *row.values(), *self._random.choice(keys))

    def _move(self, table: Table, name: str, keys: list[tuple]) -> None:
        old, new = self._random.choice(keys), self._random.choice(keys)
        self._do(f"UPDATE {name} SET {', '.join(f'{column}=%s' for column in table.key)} WHERE {self._at(table)}", *new, *old)

    def _delete(self, table: Table, name: str, keys: list[tuple]) -> None:
        self._do(f"DELETE FROM {name} WHERE {self._at(table)}", *self._random.choice(keys))

    def _again(self, table: Table, name: str, keys: list[tuple]) -> None:
        key = self._random.choice(keys)
        self._do(f"DELETE FROM {name} WHERE {self._at(table)}", *key)
        self._write("INSERT", table, name, key)

    def _many(self, table: Table, name: str, keys: list[tuple]) -> None:
        column, value = self._random.choice(list(table.columns.items()))
        self._do(f"UPDATE {name} SET {column}=%s ORDER BY {', '.join(table.key)} LIMIT 5", value(self._random))

    def _undone(self, table: Table, name: str, keys: list[tuple]) -> None:
        self._do("SAVEPOINT here")
        self._write("REPLACE", table, name, self._random.choice(keys))
        self._many(table, name, keys)
        self._do("ROLLBACK TO SAVEPOINT here")


class Load:
    """Some clients at once. With `goes_on` it is used with `with`, and all their transactions but a few follow behind that."""

    def __init__(self, socket: str, seed: int, clients: int, transactions: int, xa: bool, goes_on: bool = False) -> None:
        self._may_end = threading.Event()
        if not goes_on:
            self._may_end.set()
        self._clients = [Client(socket, seed * 100 + at, transactions, xa, self._may_end) for at in range(clients)]
        self._threads = [threading.Thread(target=client.run, daemon=True) for client in self._clients]
        for thread in self._threads:
            thread.start()

    def __enter__(self) -> "Load":
        return self

    def __exit__(self, *_: object) -> None:
        self._may_end.set()

    def wait(self) -> Counter[str]:
        """What was done, when all clients are done. Raises a client's fault."""
        for client, thread in zip(self._clients, self._threads):
            thread.join(timeout=PATIENCE)
            if client.fault:
                raise client.fault
            if thread.is_alive():
                raise RuntimeError(f"a client isn't done after {PATIENCE} seconds")
        return sum((client.done for client in self._clients), Counter())


def large_transaction(socket: str) -> None:
    """One that a feed has in several messages, in a shard's table of long values: what clients write may be as much, or not."""
    with pymysql.connect(unix_socket=socket, user="root") as connection, connection.cursor() as cursor:
        for key in range(2, 10, 2):
            cursor.execute(f"REPLACE INTO {SCHEMAS[0]}.long_values (id, body) VALUES (%s, REPEAT('l', 700000))", key)
        connection.commit()


def deadlock(socket: str) -> bool:
    """Two clients that wait for each other over two rows of a shard; answers whether one was rolled back."""
    one, other = (pymysql.connect(unix_socket=socket, user="root") for _ in range(2))
    name, faults = f"{SCHEMAS[0]}.whole", []

    def touch(connection: pymysql.Connection, key: int) -> None:
        try:
            with connection.cursor() as cursor:
                cursor.execute(f"UPDATE {name} SET i8=IFNULL(i8, 0) DIV 2 + 1 WHERE id=%s", key)
        except pymysql.err.MySQLError as fault:
            faults.append(fault.args[0])

    with one, other:
        with one.cursor() as cursor:
            cursor.execute(f"REPLACE INTO {name} (id) VALUES (2), (4)")
        one.commit()
        touch(one, 2)
        touch(other, 4)
        waiting = threading.Thread(target=touch, args=(one, 4))
        waiting.start()
        touch(other, 2)
        waiting.join()
        one.commit()
        other.commit()
    return faults == [DEADLOCK]
