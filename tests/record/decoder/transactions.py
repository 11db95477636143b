"""Events to whole transactions of the recorded tables.

A transaction stands where it commits: MariaDB writes each one to the log as one run of events behind its
GTID, in the order of commits; one of XA in two, of which the second decides. What was rolled back isn't in
the log, or is dropped here.
"""
import struct
import zlib
from collections.abc import Iterable, Iterator
from typing import NamedTuple

from recorder.catalogue import Name, Table
from recorder.events import Bytes, Event, GtidEvent, LogEvent
from recorder.messages import LongRow
from recorder.position import Gtid, Position
from recorder.server import Place
from recorder.snapshot import check_key
from recorder.stop import AGAIN, BEHIND, Prepared, Stop

from .bodies import DELETES, IGNORABLE, UPDATES, WRITES, QueryEvent, TableMap, read_rows_head, read_table_map
from .cells import UnknownType
from .changes import Changes
from .rowcode import AFTER, BEFORE, LARGE, Rows
from .statements import Does, Statement, read_statement


class Transaction(NamedTuple):
    """A transaction with what it changes in the recorded tables, perhaps nothing; `end` is where it ends in the log."""

    gtid: Gtid
    time: int
    changes: Changes | None
    log: str
    offset: int

    @property
    def end(self) -> Place:
        return Place(self.log, self.offset)


class _Open:
    """What has been read of the transaction that is read."""

    __slots__ = ("gtid", "alone", "xa", "changes", "savepoints")

    def __init__(self, gtid: Gtid, alone: bool, xa: bytes, changes: Changes) -> None:
        self.gtid, self.alone, self.xa, self.changes, self.savepoints = gtid, alone, xa, changes, {}


class _Layout:
    """How the rows of a recorded table stand in the log. `heads` is what stood before the rows, of each kind of event."""

    def __init__(self, table: Table, rows: Rows, columns: int) -> None:
        self.table, self.rows, self.columns, self.heads = table, rows, columns, {}


MAPS_KEPT = 10_000
_new = tuple.__new__
TABLE_MAP, GTID, XID = int(LogEvent.TABLE_MAP), int(LogEvent.GTID), int(LogEvent.XID)
IMAGES = dict.fromkeys(map(int, WRITES), (AFTER,)) | dict.fromkeys(map(int, UPDATES), (BEFORE, AFTER)) | dict.fromkeys(map(int, DELETES), (BEFORE,))
"""By the kinds of row events the images that each row has."""
STATEMENTS = {LogEvent.LOAD, LogEvent.APPEND_BLOCK, LogEvent.DELETE_FILE, LogEvent.BEGIN_LOAD_QUERY, LogEvent.EXECUTE_LOAD_QUERY}
SKIPPED = {LogEvent.STOP, LogEvent.ROTATE, LogEvent.INTVAR, LogEvent.RAND, LogEvent.USER_VAR, LogEvent.HEARTBEAT, LogEvent.ANNOTATE_ROWS,
           LogEvent.BINLOG_CHECKPOINT, LogEvent.GTID_LIST, LogEvent.START_ENCRYPTION}  # fmt: skip


class Transactions:
    """Reads a log's transactions. `position` is moved on by each; `filled` are the tables that have had rows,
    `prepared` the changes of XA transactions that are neither committed nor rolled back. `begun_with` are the
    tables all of whose rows are known where the reading begins; the others have to be made in the log."""

    def __init__(self, tables: list[Table], position: Position, filled: set[Name], prepared: dict[bytes, Changes | None], begun_with: set[Name],
                 folder: str) -> None:  # fmt: skip
        """What a transaction changes lies in files of the folder, where it is much."""
        self.tables = {table.full: table for table in tables}
        self.position, self.filled, self.prepared, self.begun_with = position, filled, prepared, begun_with
        self.begun, self._folder = 0, folder
        self._maps: dict[bytes, tuple[TableMap, _Layout | None]] = {}
        """By a table's number in the row events."""
        self._maps_read: dict[bytes, tuple[TableMap, _Layout | None]] = {}
        """By a table map's bytes what is read of it."""
        self._open: _Open | None = None
        self._log, self._offset = "", 0
        self.altered = False
        """Whether a recorded table, of which no row was recorded, was altered or made since the catalogue was read."""

    def read(self, events: Iterable[Event], start: Place, end: Place | None) -> Iterator[Transaction]:
        """The transactions from a place to another one, none that was committed behind it; without that one to where the
        events end. Stops where the log can't be told as rows."""
        self.place = start
        for event in events:
            log, time, kind, server, offset, _, body = event
            if offset:
                # one that the server made up stands nowhere, and is read wherever the log is
                if end and self._open is None and self._has_reached(end):
                    break
                self._log, self._offset = log, offset
            try:
                if kind in IMAGES:
                    self._rows(kind, body)
                    ends = False
                elif kind == TABLE_MAP:
                    self._map(body)
                    ends = False
                elif kind == GTID:
                    self._begin(GtidEvent.read(body), server)
                    ends = False
                elif kind == XID and self._open:
                    ends = True
                else:
                    ends = self._take(event)
            except (IndexError, KeyError, ValueError, struct.error, zlib.error) as fault:
                raise Stop(f"an event of type {kind} that can't be read ({fault!r})", self._where(),
                           "report it, with this event of mariadb-binlog --hexdump") from None  # fmt: skip
            if ends:
                gtid, changes, self._open = self._open.gtid, self._open.changes or None, None
                self.position.add(gtid)
                if changes and len(self.filled) < len(self.tables):
                    self.filled |= changes.tables
                yield _new(Transaction, (gtid, time, changes, log, self._offset))
                if changes:
                    changes.close()
            # a large one goes before another one comes
            event = body = None
        if end and not self._has_reached(end):
            raise Stop(f"the log ends before {end}", self._where(), AGAIN)
        if end:
            self._check_ended()

    @property
    def place(self) -> Place:
        """How far the log was read: `position` is the one there, wherever no transaction is open."""
        return Place(self._log, self._offset)

    @place.setter
    def place(self, place: Place) -> None:
        self._log, self._offset = place.log, place.offset

    @property
    def is_between(self) -> bool:
        """Whether no transaction is open."""
        return self._open is None

    def _has_reached(self, end: Place) -> bool:
        return self._offset >= end.offset and self._log == end.log

    def _where(self) -> str:
        return (f"in transaction {self._open.gtid}, " if self._open else "") + f"before {self.place}"

    def _check_begun(self, table: Table) -> None:
        if table.full not in self.begun_with:
            raise Stop(f"a table that was there before the log, {table.schema}.{table.name},", self._where(), BEHIND)

    def _check_ended(self) -> None:
        for table in self.tables.values():
            self._check_begun(table)
        if self._open:
            raise Stop("a transaction without an end", self._where(), "the log was cut there; record again when the server has written it")

    def pending(self) -> Stop | None:
        """Why no note can be made here, if it can't: an XA transaction is prepared that changes a recorded table, and none has its rows."""
        for xa, changes in self.prepared.items():
            if changes:
                return Prepared(f"XA transaction {xa[6:].hex()} is prepared", f"at {self.place}",
                                f"XA COMMIT or XA ROLLBACK it (XA RECOVER lists it), and {AGAIN}")  # fmt: skip
        return None

    def _take(self, event: Event) -> bool:
        """Takes an event of another kind; answers whether it ends a transaction, of which the changes are the open one's then."""
        kind = event.kind
        if kind in (LogEvent.QUERY, LogEvent.QUERY_COMPRESSED):
            query = QueryEvent.read(kind, event.body)
            return self._statement(read_statement(query.text, query.schema), query.text)
        elif kind == LogEvent.XA_PREPARE and self._open:
            self.prepared[self._open.xa] = self._open.changes
            self._open.changes = None
            return True
        elif kind == LogEvent.FORMAT_DESCRIPTION:
            self.begun = event.time
            self._maps.clear()
        elif kind == LogEvent.INCIDENT:
            raise Stop("an incident: the server lost events", self._where(), BEHIND)
        elif kind in STATEMENTS:
            raise Stop("a LOAD DATA in statement format", self._where(), f"SET GLOBAL binlog_format=ROW, let clients connect anew, and {BEHIND}")
        elif kind not in SKIPPED and not event.flags & IGNORABLE:
            raise Stop(f"an event of type {kind}, which isn't known,", self._where(), BEHIND)
        return False

    def _begin(self, event: GtidEvent, server: int) -> None:
        gtid = _new(Gtid, (event.domain, server, event.sequence))
        if self._open:
            raise Stop("a transaction without an end", self._where(), BEHIND)
        if self.position.goes_back(gtid):
            raise Stop(f"a position that goes back, from {self.position.last[gtid.domain]} to {gtid},", self._where(),
                       f"numbers of a domain have to rise (gtid_strict_mode=1); {BEHIND}")  # fmt: skip
        self._open = _Open(gtid, event.alone, event.xa, Changes(self._folder))

    def _statement(self, statement: Statement, text: str) -> bool:
        now = self._open
        if now is None:
            raise Stop("a statement without a GTID", self._where(), BEHIND)
        match statement.does:
            case Does.COMMIT:
                return True
            case Does.ROLLBACK:
                now.changes = None
                return True
            case Does.SAVEPOINT:
                now.savepoints[statement.savepoint] = now.changes.mark()
            case Does.ROLLBACK_TO:
                if statement.savepoint not in now.savepoints:
                    raise Stop(f"no savepoint {statement.savepoint}", self._where(), BEHIND)
                now.changes.cut(now.savepoints[statement.savepoint])
            case Does.XA_COMMIT | Does.XA_ROLLBACK if now.xa:
                if now.xa not in self.prepared:
                    raise Stop("the end of an XA transaction that was prepared before this recording", self._where(), BEHIND)
                changes = self.prepared.pop(now.xa)
                now.changes = changes if statement.does == Does.XA_COMMIT else None
                return True
            case Does.XA_COMMIT:
                return True
            case Does.XA_ROLLBACK:
                now.changes = None
                return True
            case Does.ROWS:
                raise Stop(f"statement or mixed format ({_cut(text)})", self._where(),
                           f"SET GLOBAL binlog_format=ROW, let clients connect anew, and {BEHIND}")  # fmt: skip
            case Does.CREATE | Does.LAYOUT | Does.TRUNCATE | Does.DROP_SCHEMA:
                self._check_layout(statement, text)
        if now.alone:
            now.changes = None
        return now.alone

    def _check_layout(self, statement: Statement, text: str) -> None:
        """A recorded table may change as a whole as long as no row of it was recorded, and none comes in by it."""
        what = "TRUNCATE" if statement.does == Does.TRUNCATE else "DDL"
        filled = self.filled | self._open.changes.tables
        for schema, name in statement.names:
            for full in self.tables:
                if full[0].lower() != schema.lower() or name and full[1].lower() != name.lower():
                    continue
                self.altered = True
                if statement.does == Does.CREATE and full not in filled:
                    self.begun_with.add(full)
                elif statement.moves or full in filled:
                    raise Stop(f"{what} of a recorded table, {'.'.join(full)} ({_cut(text)}),", self._where(), BEHIND)

    def _map(self, body: Bytes) -> None:
        body = bytes(body)
        read = self._maps_read.get(body)
        if read is None:
            found = read_table_map(body)
            table = self.tables.get((found.schema, found.table))
            read = found, None
            if table:
                self._check_begun(table)
                read = found, self._layout(found, table)
            if len(self._maps_read) > MAPS_KEPT:
                self._maps_read.clear()
            self._maps_read[body] = read
        found, layout = read
        if layout and self._open is None:
            raise Stop(f"rows of {found.schema}.{found.table} without a GTID", self._where(), BEHIND)
        self._maps[body[:6]] = read

    def _layout(self, found: TableMap, table: Table) -> _Layout:
        if len(found.types) != len(table.columns) or found.names not in (None, tuple(column.name for column in table.columns)):
            raise self._altered(table, "has other columns there than the catalogue has now")
        columns = [(log, column.printing) for log, column in zip(found.types, table.columns)]
        has_odd_keys = any(table.columns[at].pads for at in table.key)
        try:
            rows = Rows(columns, (lambda cells: check_key(table, cells, self._where())) if has_odd_keys else None)
        except UnknownType as fault:
            raise self._altered(table, f"has {fault}") from None
        return _Layout(table, rows, len(columns))

    def _altered(self, table: Table, what: str) -> Stop:
        """The catalogue is read before the log: where they differ, the table was altered between."""
        return Stop(f"DDL of a recorded table, {table.schema}.{table.name}: the log {what},", self._where(),
                    f"{BEHIND}, or leave the table out where that says the same")  # fmt: skip

    def _rows(self, kind: int, body: Bytes) -> None:
        found, layout = self._maps[bytes(body[:6])]
        if layout is None:
            return
        known, is_large = layout.heads.get(kind), isinstance(body, memoryview)
        if known and not is_large and body.startswith(known, 8):
            data, at = body, 8 + len(known)
        else:
            head = read_rows_head(kind, body)
            if not head.whole or head.columns != layout.columns:
                raise Stop(f"a row image of {found.schema}.{found.table} that isn't FULL", self._where(),
                           f"SET GLOBAL binlog_row_image=FULL, let clients connect anew, and {BEHIND}")  # fmt: skip
            data, at = head.data, head.at
            if kind < LogEvent.WRITE_ROWS_COMPRESSED_V1 and not is_large:
                layout.heads[kind] = body[8:at]
        try:
            if is_large or len(data) >= LARGE:
                # of these no second copy is made
                for parts in layout.rows.one_by_one(IMAGES[kind], memoryview(data), at):
                    self._open.changes.add_parts(layout.table, parts)
            else:
                self._open.changes.add(layout.table, layout.rows.changes(*IMAGES[kind])(data, at))
        except LongRow as fault:
            raise Stop(str(fault), f"in {found.schema}.{found.table} {self._where()}", "leave the table out") from None


def _cut(text: str) -> str:
    """A statement on one line, at most 120 characters."""
    line = " ".join("".join(sign if sign.isprintable() else " " for sign in text).split())
    return line if len(line) <= 120 else line[:117] + "..."
