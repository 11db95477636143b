"""XA transactions that are prepared where a snapshot stands. Their rows aren't in it, and a commit behind it has
none in the log: whether they are rows of the recorded tables is said by the log before the snapshot."""
import struct
from contextlib import closing

from pymysql import Connection

from .catalogue import Name, Table
from .events import Event, GtidEvent, LogEvent, table_of
from .server import Login, Place, ask, events, first_place
from .stop import Stop

TODO = "XA COMMIT or XA ROLLBACK it (XA RECOVER lists it), and record again"
NO_GTIDS = b"\0\0\0\0"
"""How the GTID list begins of a log's first file, before which there is nothing."""
FIRST = 4
"""Where the first event of a file begins."""


def prepared_at(login: Login, connection: Connection, tables: list[Table], snapshot: Place) -> set[bytes]:
    """The XA transactions that are prepared at a snapshot and change none of these tables. Stops at one that does, and
    at one of which the log doesn't say what it changes."""
    listed = {_id(*row) for row in ask(connection, "XA RECOVER")}
    if not listed:
        return set()
    first, said = first_place(connection), _said_at(login, connection, snapshot)
    recorded = {table.full for table in tables}
    for xa in sorted(listed):
        for table in sorted(said.there.get(xa, set()) & recorded):
            raise Stop(f"XA transaction {xa[6:].hex()} of {'.'.join(table)} is prepared", "in the snapshot", TODO)
        if xa not in said.told and not said.is_whole:
            raise Stop(f"XA transaction {xa[6:].hex()} is prepared, and what it changes was purged from the log", f"before {first.log}", TODO)
    return {xa for xa, names in said.there.items() if not names & recorded}


def first_prepared(login: Login, connection: Connection, prepared: set[bytes], place: Place) -> Place | None:
    """Where the first log begins that prepares one of the XA transactions that are prepared at a place; None where none is."""
    if not prepared:
        return None
    logs = [log for xa, log in _said_at(login, connection, place).logs.items() if xa in prepared]
    return Place(logs[0], FIRST) if logs else None


def _said_at(login: Login, connection: Connection, place: Place) -> "_Said":
    said = _Said()
    with closing(login.connect()) as stream:
        said.read(events(stream, first_place(connection)), place)
    return said


def _id(form: int, first: int, second: int, data: bytes) -> bytes:
    """An XA transaction's id as the log has it."""
    return struct.pack("<IBB", form & 0xFFFFFFFF, first, second) + data


class _Said:
    """What a log says of the XA transactions that are prepared at a place: which tables each changes."""

    def __init__(self) -> None:
        self.there: dict[bytes, set[Name]] = {}
        """Those that are prepared there."""
        self.told: set[bytes] = set()
        """All that it has, before the place and behind it."""
        self.is_whole = False
        self.logs: dict[bytes, str] = {}
        """The logs in which those that are prepared at the place were, in the logs' order."""
        self._prepared: dict[bytes, set[Name]] = {}
        self._logs: dict[bytes, str] = {}
        self._xa, self._names = b"", set()

    def read(self, log_events, place: Place) -> None:
        is_behind = has_reached = False
        for event in log_events:
            has_reached = has_reached or event.log == place.log
            if not is_behind and has_reached and event.end and (event.log != place.log or event.end > place.offset):
                is_behind, self.there, self.logs = True, dict(self._prepared), dict(self._logs)
            self._take(event)
        if not is_behind:
            self.there, self.logs = self._prepared, self._logs

    def _take(self, event: Event) -> None:
        if event.kind == LogEvent.GTID_LIST:
            self.is_whole = self.is_whole or event.body[:4] == NO_GTIDS
        elif event.kind == LogEvent.GTID:
            read = GtidEvent.read(event.body)
            self._xa, self._names = read.xa, set()
            if read.ends_xa:
                self._prepared.pop(self._xa, None)
                self._logs.pop(self._xa, None)
        elif event.kind == LogEvent.TABLE_MAP and self._xa:
            self._names.add(table_of(event.body))
        elif event.kind == LogEvent.XA_PREPARE and self._xa:
            self._prepared[self._xa], self._logs[self._xa] = self._names, event.log
            self.told.add(self._xa)
