"""The rows of one consistent snapshot, and the place in the log that it stands at.

MariaDB gives the two together: START TRANSACTION WITH CONSISTENT SNAPSHOT stands between two commits of the
log, and the variables binlog_snapshot_% say which, without a lock. XA COMMIT alone is in the log a moment before its rows
are seen, so a snapshot that may stand in that moment is let go, and another one opened.
"""
import time
from collections.abc import Iterable, Iterator, Sequence
from contextlib import closing

from pymysql import Connection

from .catalogue import Table, quoted
from .events import Bytes, GtidEvent, LogEvent
from .groups import PIECE, Change
from .messages import LongRow, Row, row_bytes
from .server import Login, Place, ask, check_settings, end_place, events, rows
from .stop import AGAIN, BEHIND, Prepared, Stop
from .wire import change_bytes

PORTION = 1000
BEGIN = "START TRANSACTION WITH CONSISTENT SNAPSHOT"
STANDS, PATIENCE, PAUSE = 0.5, 60, 0.003
"""The seconds behind which an XA transaction that is still prepared isn't one that is just committed, those in which a snapshot has
to be had amid XA transactions, and those between two of them."""


def opened(login: Login) -> Connection:
    """A connection that sees all tables as they are now."""
    connection = _ready(login)
    try:
        ask(connection, BEGIN)
    except BaseException:
        connection.close()
        raise
    return connection


def _ready(login: Login) -> Connection:
    connection = login.connect(raw=True)
    try:
        ask(connection, "SET SESSION TRANSACTION ISOLATION LEVEL REPEATABLE READ")
    except BaseException:
        connection.close()
        raise
    return connection


def place_of(connection: Connection) -> Place:
    """Where in its server's log such a connection's snapshot stands."""
    status = {name: value.decode() for name, value in ask(connection, "SHOW STATUS LIKE 'binlog\\_snapshot\\_%'")}
    status = {name.decode().lower() if isinstance(name, bytes) else name.lower(): value for name, value in status.items()}
    return Place(status["binlog_snapshot_file"], int(status["binlog_snapshot_position"]))


def opened_at(login: Login) -> tuple[Connection, Place]:
    """The same of a server whose log is read, and the place in that log at which it sees them."""
    since: dict[tuple, float] = {}
    """When each XA transaction that is prepared was first seen."""
    last, connection = time.monotonic() + PATIENCE, _ready(login)
    try:
        with closing(login.connect()) as beside:
            check_settings(beside)
            while True:
                end, listed, now = end_place(beside), _prepared(beside), time.monotonic()
                ask(connection, BEGIN)
                place = place_of(connection)
                since = {xa: since.get(xa, now) for xa in listed}
                # one whose commit is in the log by `end`, and isn't seen, is still listed behind that
                if all(now - one > STANDS for one in since.values()) and not _has_xa_end(login, end, place) and _stand(beside, listed):
                    return connection, place
                if now > last:
                    raise Prepared("XA transactions are committed all the time", f"before {place}", AGAIN)
                time.sleep(PAUSE)
    except BaseException:
        connection.close()
        raise


def _prepared(connection: Connection) -> set[tuple]:
    return set(map(tuple, ask(connection, "XA RECOVER")))


def _stand(connection: Connection, listed: set[tuple]) -> bool:
    """Whether XA transactions that were prepared still are, and so weren't just committed."""
    if listed:
        time.sleep(STANDS)
    return not listed or listed <= _prepared(connection)


def _has_xa_end(login: Login, start: Place, end: Place) -> bool:
    """Whether an XA transaction ends in the log between two places."""
    if start == end:
        return False
    with closing(login.connect()) as stream:
        for event in events(stream, start):
            if event.log == end.log and event.end > end.offset:
                break
            if event.kind == LogEvent.GTID and GtidEvent.read(event.body).ends_xa:
                return True
    return False


class Snapshot:
    def __init__(self, login: Login) -> None:
        self._connection, self.place = opened_at(login)

    def changes(self, tables: list[Table]) -> Iterator[Change]:
        """All rows of the tables as inserts, at most 1,000 at once, and a megabyte."""
        for table in tables:
            yield from in_portions(table, (change_bytes(None, data) for _, data in self.rows_of(table)))

    def rows_of(self, table: Table) -> Iterator[tuple[Row, bytes]]:
        """The rows of a table in its key's order, each with its message."""
        names = ", ".join(quoted(column.name) for column in table.columns)
        order = ", ".join(quoted(name) for name in table.key_names)
        query = f"SELECT {names} FROM {quoted(table.schema)}.{quoted(table.name)} ORDER BY {order}"
        for row in rows(self._connection, query, f"in {table.schema}.{table.name}"):
            check_key(table, row, "in the snapshot")
            try:
                yield row, row_bytes(row)
            except LongRow as fault:
                raise Stop(str(fault), f"in {table.schema}.{table.name}, in the snapshot", "leave the table out") from None

    def close(self) -> None:
        if self._connection.open:
            self._connection.close()


def in_portions(table: Table, changes: Iterable[bytes]) -> Iterator[Change]:
    """Row changes of a table, at most 1,000 at once, and a megabyte."""
    portion, size = [], 0
    for change in changes:
        portion.append(change)
        size += len(change)
        if len(portion) == PORTION or size >= PIECE:
            yield Change(table, b"".join(portion))
            portion, size = [], 0
    if portion:
        yield Change(table, b"".join(portion))


def check_key(table: Table, row: Sequence[Bytes | None], where: str) -> None:
    """Stops at a key that a collation which ignores blanks at the end orders or compares otherwise than bytes."""
    for at in table.key:
        value = row[at]
        if table.columns[at].pads and value and (value[-1:] == b" " or min(value) < 0x20):
            raise Stop(f"a key of {table.schema}.{table.name} with a blank at its end or a control character, {bytes(value[:40])!r},", where,
                       f"make the collation of column {table.columns[at].name} a _nopad_bin one, or VARBINARY, and {BEHIND}")  # fmt: skip
