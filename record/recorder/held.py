"""Rows by table and key, held in a file of SQLite that is gone when it is closed: more than memory may have."""
import os
import re
import sqlite3
from collections.abc import Iterator, Sequence
from contextlib import contextmanager, suppress

from .ending import Held
from .kinds import WHOLE, Kind
from .stop import Stop

PENDING = 1 << 22
"""The bytes of rows that are kept until they are put into the file."""
LEAST, MOST = -(2**63), 2**64 - 1
NUMBER = re.compile(rb"-?[0-9]+")
SETTINGS = ("page_size=16384", "journal_mode=OFF", "synchronous=OFF", "locking_mode=EXCLUSIVE", "cache_size=-65536", "temp_store=MEMORY")
HeldKey = tuple[int, bytes]
"""A table's place among those that are held, and a row's key."""


class HeldRows:
    """Use it with `with`. `what` are the rows, in the line of a stop."""

    def __init__(self, path: str, what: str) -> None:
        self._path, self._what = path, what
        self._pending: dict[HeldKey, bytes | None] = {}
        self._size = 0
        self._rows: sqlite3.Connection | None = None

    def __enter__(self) -> "HeldRows":
        try:
            with self._file():
                self._open()
        except BaseException:
            self.__exit__()
            raise
        return self

    def _open(self) -> None:
        with suppress(FileNotFoundError):
            os.unlink(self._path)
        os.close(os.open(self._path, os.O_RDWR | os.O_CREAT | os.O_EXCL, 0o600))
        self._rows = sqlite3.connect(self._path, isolation_level=None)
        for setting in SETTINGS:
            self._rows.execute(f"PRAGMA {setting}")
        self._rows.execute("CREATE TABLE held (place INTEGER, key BLOB, row BLOB, PRIMARY KEY (place, key)) WITHOUT ROWID")
        self._rows.execute("BEGIN")

    def __exit__(self, *_: object) -> None:
        with Held(), suppress(sqlite3.Error, OSError):
            if self._rows:
                self._rows.close()
            os.unlink(self._path)

    @contextmanager
    def _file(self) -> Iterator[None]:
        try:
            yield
        except (sqlite3.Error, OSError) as fault:
            raise Stop(f"{self._what} can't be held", f"in {self._path}", str(fault)) from None

    def put(self, key: HeldKey, row: bytes | None) -> None:
        """Puts a row at a key, or takes the one there away."""
        self._pending[key] = row
        self._size += len(key[1]) + len(row or b"")
        if self._size > PENDING:
            self.flush()

    def flush(self) -> None:
        with self._file():
            self._rows.executemany("DELETE FROM held WHERE place = ? AND key = ?", [key for key, row in self._pending.items() if row is None])
            self._rows.executemany("INSERT OR REPLACE INTO held VALUES (?, ?, ?)", [(*key, row) for key, row in self._pending.items() if row is not None])
        self._pending, self._size = {}, 0

    def rows(self, place: int) -> Iterator[bytes]:
        """The rows of a table, by their keys."""
        for (row,) in self._asked("SELECT row FROM held WHERE place = ? ORDER BY key", place):
            yield row

    def differing(self, place: int, other: int) -> Iterator[tuple[bytes | None, bytes | None]]:
        """What makes one table's rows those of another: the rows that go, then those that change, each with what it becomes, then
        those that come, each by their keys."""
        other_row = "(SELECT row FROM held AS other WHERE other.place = ? AND other.key = held.key)"
        yield from self._asked(f"SELECT row, NULL FROM held WHERE place = ? AND {other_row} IS NULL ORDER BY key", place, other)
        yield from self._asked(f"SELECT row, {other_row} AS becomes FROM held WHERE place = ? AND becomes <> row ORDER BY key", other, place)
        yield from self._asked(f"SELECT NULL, row FROM held WHERE place = ? AND {other_row} IS NULL ORDER BY key", other, place)

    def _asked(self, query: str, *values: int) -> Iterator[tuple]:
        self.flush()
        with self._file():
            yield from self._rows.execute(query, values)


def key_bytes(cells: Sequence[bytes | None], key: list[tuple[int, int]], table: str) -> bytes:
    """A row's key, of columns with their types: bytes that are the same where the keys are, and in the keys' order. ValueError
    where a part is none."""
    return b"".join([_part(cells[at], kind, table) for at, kind in key])


def _part(cell: bytes | None, kind: int, table: str) -> bytes:
    if cell is None:
        raise ValueError(f"NULL in a key of {table}")
    if kind not in WHOLE:
        cell = cell.rstrip(b"\0") if kind == Kind.BINARY else cell
        return cell.replace(b"\0", b"\0\xff") + b"\0\0"
    if not NUMBER.fullmatch(cell) or not LEAST <= (number := int(cell)) <= MOST:
        raise ValueError(f"a key of {table} that is no number in range")
    return (number - LEAST).to_bytes(9, "big")
