"""A recording: settings and tables are checked, the rows of a snapshot are read here and then the log's by the program's
`transcribe`, of copies of the log's files (`logcopies`), and they take their place in the feed together, when the log was read
to its end; then, where that is wanted, each transaction as it commits (`forever`)."""
import os
from collections.abc import Iterator
from contextlib import ExitStack, closing
from dataclasses import dataclass
from itertools import chain
from tempfile import TemporaryFile
from typing import BinaryIO

from . import messages
from .catalogue import Name, Table, has_rows, read_tables
from .elsewhere import Elsewhere
from .ending import Ended, Held, Last, tell
from .events import LogEvent
from .feedfile import FeedFile, check_free
from .groups import Groups
from .locks import check_there, locked
from .logcopies import Copies
from .messages import Message, Stored, rows_of
from .note import OF_ROWS, Note, check_end, ends, events_of, note_path
from .plans import Plan, printed
from .position import SNAPSHOT_UUID, Position, Until, domain_uuid, sets_of
from .prepared import first_prepared, prepared_at
from .program import Program, name_of
from .progress import Progress
from .refusals import check_told, told_refusal
from .server import Login, Place, check_schemas, check_settings, copied, end_place, first_place, gtids_at, log_sizes, server_id, why_unread
from .snapshot import Snapshot, check_key
from .spelling import Spelling
from .stop import AGAIN, ANEW, BEHIND, Beyond, Lost, Prepared, Refused, Stop
from .untold import check_names, told_of
from .wire import FIELDS, EventType

LARGE = 2**16
"""The bytes of a message from which on it isn't held in memory."""
OPEN = 156
"""How the program refuses logs at whose end an XA transaction is prepared that changes the tables, among others."""


@dataclass(frozen=True)
class Wanted:
    """What is to be recorded, and where to."""

    login: Login
    shard: str
    out: str
    tables: list[Name]
    from_snapshot: bool = False
    append: bool = False
    over: bool = False
    """Whether a new feed may take the place of an old one."""
    until: Until | None = None
    """The position behind which nothing is recorded; else all up to the log's end."""
    behind: bool = False
    """Whether the rows of a snapshot stand between the feed that is gone on with and the log behind it."""
    keyspace: str | None = None
    """Of which positions are to be VGTIDs; else they are GTIDs, or what the feed that is gone on with has."""
    program: Program = Program()
    """The one that reads the log."""


@dataclass
class Start:
    """Where a recording goes on: a place in the log, and what the feed has before it."""

    place: Place
    position: Position
    filled: set[Name]
    prepared: set[bytes]
    """The XA transactions that are prepared there, and change none of the tables."""
    written: str = ""
    """The last position that the feed has."""
    begun: int | None = None
    """When the log there was begun, where that is known."""
    elsewhere: Elsewhere | None = None
    """Where it is another server's log."""


def record(wanted: Wanted) -> Note:
    """Writes a feed and its note, or goes on with them, up to where the log ends. Stops, and leaves what is there
    as it is, where the feed couldn't say what the tables are."""
    try:
        with locked(wanted.out, lambda: check_free_or_there(wanted)), ExitStack() as opened:
            recording = Recording(wanted, opened)
            recording.catch_up()
            recording.check_whole()
            with Last():
                recording.put()
            return recording.note
    except Ended as ended:
        raise Stop(f"ended by {ended}", "", left_as_it_was(wanted)) from None


def left_as_it_was(wanted: Wanted) -> str:
    return f"{wanted.out} is as it was" if wanted.append or wanted.over else "no feed was made"


def check_free_or_there(wanted: Wanted) -> None:
    """Stops where there is no feed to go on with, or where a file is that mustn't be lost."""
    check_there(wanted.out) if wanted.append else check_free(wanted.out, wanted.over)


class Recording:
    """What one connection records. `note` is the one of all groups; where an XA transaction is `pending` it can't be the
    feed's. `is_done` where the position is reached up to which is recorded."""

    def __init__(self, wanted: Wanted, opened: ExitStack) -> None:
        """What is opened is closed with `opened`."""
        self.wanted = wanted
        self.connection = opened.enter_context(closing(wanted.login.connect()))
        self.version, self._server_id = check_settings(self.connection), server_id(self.connection)
        check_schemas(self.connection, {schema for schema, _ in wanted.tables})
        old = self._old = self._old_note() if wanted.append else None
        self._keyspace = old.keyspace if old else wanted.keyspace
        further = {name for name in wanted.tables if old and not wanted.behind and ".".join(name) not in old.tables}
        with_snapshot = wanted.from_snapshot or wanted.behind or further
        self._snapshot = opened.enter_context(closing(Snapshot(wanted.login))) if with_snapshot else None
        self.tables = read_tables(self.connection, wanted.tables)
        check_names(self.tables, self._keyspace or "")
        check_told(self.connection, self.tables)
        self._further = [table for table in self.tables if table.full in further]
        start = self._start = self._first() if wanted.behind or not old else self._behind(old)
        self._with_rows = set() if old or self._snapshot else {table.full for table in self.tables if has_rows(self.connection, table)}
        """The tables of a feed that begins with the log that have rows before the log's end."""
        self._end = self._log_end()
        if not old or further:
            for line in told_of(self.connection, self._further or self.tables, wanted.shard):
                tell(f"feed: warning: {line}")
        self.position, self.filled = start.position, start.filled
        self.until, self.is_done, self.groups = wanted.until, False, 0
        """`groups`: how many transactions of the recorded tables the program has read."""
        self._place, self._begun, self._prepared = start.place, start.begun, start.prepared
        self._recorder = start.position.gtids() if wanted.behind or not old else old.gtids if old.recorder is None else old.recorder
        """Up to where the feed has what isn't the program's: a snapshot, or what a recorder read before."""
        self._folder = os.path.dirname(wanted.out) or "."
        if wanted.behind:
            self._go_behind(old, opened)
        else:
            groups = Groups({name for _, name in start.filled}, self._keyspace, wanted.shard)
            with Held():
                self.feed = opened.enter_context(FeedFile(wanted.out, groups, old, wanted.over))
            self._check_left()
            self.written = self._write_snapshot() if wanted.from_snapshot else start.written
        self._tell_columns(self.tables if wanted.from_snapshot or wanted.behind else [])
        self.copies = self._copies()
        opened.callback(lambda: self.copies.close())
        self._workflow = opened.enter_context(TemporaryFile(dir=self._folder))
        self.note, self.pending = self._noted(), None

    def _copies(self) -> Copies:
        return Copies(self.wanted.out, self._place, self._begun, self.position, self._prepared, self.until)

    def _tables_there(self) -> list[Table]:
        """The tables that the feed has where the reading begins."""
        return [table for table in self.tables if table not in self._further]

    def _first(self) -> Start:
        """The start of a new feed: the log's beginning, or the place of a snapshot."""
        snapshot = self._snapshot
        if snapshot is None:
            return Start(first_place(self.connection), Position(), set(), set())
        gtids = gtids_at(self.connection, snapshot.place)
        if gtids is None:
            raise Stop("the snapshot's place isn't in the log", f"at {snapshot.place}", why_unread(self.connection, snapshot.place) + AGAIN)
        prepared = prepared_at(self.wanted.login, self.connection, self.tables, snapshot.place)
        return Start(snapshot.place, Position.read(gtids), set(), prepared)

    def _old_note(self) -> Note:
        """The note of the feed that is gone on with."""
        wanted, note = self.wanted, Note.read(note_path(self.wanted.out))
        check_end(wanted.out, note)
        if note.shard != wanted.shard:
            raise Stop(f"shard {wanted.shard}", f"for the feed of {note.shard}", "append to the feed of this shard")
        if wanted.keyspace is not None and note.keyspace is not None and wanted.keyspace != note.keyspace:
            raise Stop(f"keyspace {wanted.keyspace}", f"for the feed of {note.keyspace}", "append to the feed of this keyspace")
        named = {".".join(name) for name in wanted.tables}
        for name in sorted(set(note.filled) - named):
            raise Stop("another table, or other columns, than the feed has", f"in {name}, which isn't named", "name all tables of the feed")
        return note

    def _behind(self, note: Note) -> Start:
        """The start of an append, behind what the note's feed has."""
        there = self._tables_there()
        layouts = {".".join(table.full): table.layout() for table in there}
        for name in note.tables.keys() | layouts.keys():
            if note.tables.get(name) != layouts.get(name) and (name in note.filled or name not in note.tables or name not in layouts):
                raise Stop("another table, or other columns, than the feed has", f"in {name}", BEHIND)
        filled = {table.full for table in there if ".".join(table.full) in note.filled}
        start = Start(note.place, note.reached(), filled, {bytes.fromhex(xa) for xa in note.prepared}, note.position, note.begun)
        if note.server_id not in (None, self._server_id):
            start.elsewhere, start.begun = Elsewhere(self.connection, note.reached()), None
            start.place = start.elsewhere.start
            tell(f"feed: {note.place} is of server {note.server_id}, and here is {self._server_id}: going on behind {note.gtids or 'nothing'}, by GTID")
            return start
        gtids = gtids_at(self.connection, note.place)
        if gtids is None:
            raise Stop("the log was purged or begun anew", f"at {note.place}, where the feed ends", why_unread(self.connection, note.place) + BEHIND)
        if Position.read(gtids).gtids() != note.gtids:
            raise Stop("another log than the feed's", f"at {note.place}: behind {gtids or 'nothing'} and not {note.gtids or 'nothing'}", BEHIND)
        return start

    def _check_left(self) -> None:
        """Stops where a killed writer left the rows of a snapshot behind the note's length: the log doesn't say them again."""
        if self._old and self.feed.left and sets_of(self.feed.left).get(SNAPSHOT_UUID, 0) > self._old.snapshot:
            raise Stop("rows of a snapshot, which a killed writer left,", f"behind byte {self._old.size} of {self.wanted.out}", "go on with --anew-behind")

    def _go_behind(self, note: Note, opened: ExitStack) -> None:
        """Brings the feed's rows to those of the snapshot."""
        # it reads messages by Google's library, which takes a while to come
        from .behind import Behind

        behind = opened.enter_context(Behind(self.wanted.out, note, self.tables, self._snapshot))
        with Held():
            self.feed = opened.enter_context(behind.feed())
        self.position = behind.position(self.position)
        self.written = behind.write(self.feed, self.position)
        self.filled |= behind.filled()
        self._snapshot.close()

    def _log_end(self) -> Place:
        """Where the log ends, at a time when the tables are as they were read: a statement that alters one stands before it."""
        end = end_place(self.connection)
        if read_tables(self.connection, self.wanted.tables) != self.tables:
            raise Lost("a table was altered just now", f"before {end}", AGAIN)
        return end

    def _write_snapshot(self) -> str:
        """The snapshot's rows, whose positions say nothing of the log; answers the last one."""
        position = Position()
        for change in self._snapshot.changes(self.tables):
            position.snapshot += 1
            self.filled.add(change.table.full)
            self.feed.group([change], position.text())
        self.position.snapshot = position.snapshot
        self._snapshot.close()
        return position.text() if position.snapshot else ""

    def _tell_columns(self, tables: list[Table]) -> None:
        """Has the feed say the columns of each of these tables, also of one without rows, whose first ones no log has to tell of then,
        and the position that was reached, where no group of it has that: behind it a log is gone on with."""
        untold = [table for table in tables if table.name not in self.feed.told]
        if untold:
            self.position.snapshot += 1
        if untold or self.position.last and self.position.text() != self.written:
            self.written = self.position.text()
            self.feed.columns(untold, self.written)
        self.filled |= {table.full for table in tables}

    def catch_up(self) -> None:
        """Copies the log up to where it ended, and has the program read the copies. That no table was altered before is known only
        there, so nothing of it is in the feed before it is `put`."""
        if self.until and self.until.is_passed(self.position):
            raise Stop("the position is passed already", f"at {self.position.gtids()}", "--until takes one that is still to come")
        self._write_workflow(self._tables_there())
        start = self._begin_copies(is_anew=bool(self.wanted.behind or self._start.elsewhere))
        if self._further:
            self._copy(start, self._snapshot.place)
            self._check_elsewhere()
            self.transcribe()
            start = self._add_further()
        self._copy(start, self._end)
        self._check_elsewhere()
        self.transcribe()
        before = sorted(self._with_rows - self.filled)
        if before and not (self.pending or self.is_done):
            raise Stop(f"a table that was there before the log, {'.'.join(before[0])},", f"before {self.copies.end}", ANEW)

    def _begin_copies(self, is_anew: bool) -> Place:
        """Where the log is to be copied from. An XA transaction that ends in the copies has to be prepared in them."""
        whole = self._place if self._start.elsewhere else first_place(self.connection) if self._wants_made else None
        return self.copies.begin(whole, lambda: first_prepared(self.wanted.login, self.connection, self._prepared, self._place), is_anew)

    @property
    def _wants_made(self) -> bool:
        """Whether the copies have to say that a table was made, before its first rows: one whose columns the feed hasn't told, where no
        snapshot had it."""
        return len(self.filled) < len(self._tables_there()) and not self.position.snapshot

    def _check_elsewhere(self) -> None:
        elsewhere, self._start.elsewhere = self._start.elsewhere, None
        if elsewhere:
            elsewhere.check(self.copies.passed)

    def _copy(self, start: Place, end: Place) -> None:
        """Copies the log between two places."""
        progress, seen = Progress(log_sizes(self.connection), start, end), 0
        self.copies.look()
        with closing(self.wanted.login.connect()) as stream:
            for _ in self._copying(stream, start, end):
                seen += 1
                progress.at(self.copies.end, seen)
                if self._is_at(end):
                    break
        progress.close()
        self.copies.look()

    def _is_at(self, end: Place) -> bool:
        """Whether the copies have all up to a place."""
        there = self.copies.end
        return self.copies.is_done or there.log == end.log and there.offset >= end.offset

    def copying(self, stream) -> Iterator[bool]:
        """Copies what comes, for ever; at each transaction's beginning, and wherever nothing comes (so), something is answered."""
        return self._copying(stream, self.copies.end, None)

    def _copying(self, stream, start: Place, end: Place | None) -> Iterator[bool]:
        if self.copies.is_done:
            return
        for log, event in copied(stream, start, end is None):
            with Held():
                kind = self.copies.take(log, event)
            if kind == LogEvent.HEARTBEAT:
                self.copies.look()
            if kind in (LogEvent.GTID, LogEvent.HEARTBEAT) or end and kind != LogEvent.ROTATE and self._is_at(end):
                yield kind == LogEvent.HEARTBEAT

    def _write_workflow(self, tables: list[Table]) -> None:
        """Writes the workflow by which the program reads the logs."""
        self._spelling = Spelling(self._keyspace, self.wanted.shard, self.position, tables)
        self._workflow.seek(0)
        self._workflow.truncate()
        self._workflow.write(printed(Plan(self._spelling.keyspace, tables, [self.wanted.shard], {}, []).workflow("")).encode())
        self._workflow.flush()

    def transcribe(self, is_last: bool = True, before: Place | None = None) -> None:
        """Has the program read the copies, or what of them is `before` a place, and keeps what they have behind the feed; where it
        `is_last` also how far they reach. An XA transaction that is prepared is pending."""
        self.copies.flush()
        self.pending = None
        if (self.wanted.append or self.written) and not self.copies.marks and (self.written == self.position.text() or not self.copies.paths()):
            if self.copies.end.log:
                self._is_reached()
            self.is_done = self.copies.is_done
            return
        with TemporaryFile(dir=self._folder) as made:
            try:
                self._answer(made, before)
            except Refused as refused:
                if refused.number != OPEN or not self.copies.has_prepared:
                    raise told_refusal(refused, self.copies) from None
                todo = f"XA COMMIT or XA ROLLBACK it (XA RECOVER lists it), and {AGAIN}"
                self.pending = Prepared("an XA transaction is prepared", f"before {self.copies.end}", todo)
                return
            with Held():
                self._keep(made, is_last)

    def _answer(self, made: BinaryIO, before: Place | None) -> None:
        """What the copies have behind the feed, before a place where one is said."""
        with ExitStack() as opened:
            words, files = ["transcribe", f"--shard={self.wanted.shard}", f"--schema={self.tables[0].schema}"], [self._workflow]
            if self.feed.is_there or self.feed.size:
                files.append(self._spelling.after(opened, self._folder) or self.feed.whole(opened))
                words += ["--after", name_of(files[-1])]
            logs = self.copies.paths(before)
            if before:
                files.append(opened.enter_context(self.copies.part(before)))
                logs.append(name_of(files[-1]))
            self.wanted.program.answer("the log's copies", *words, name_of(self._workflow), *logs, files=tuple(files), out=made)

    def _keep(self, made: BinaryIO, is_last: bool) -> None:
        """Keeps the program's messages for the feed."""
        file, start, was, is_last = made.fileno(), 0, self.written, is_last or bool(self.copies.thinned)
        for end in ends(file, 0, os.fstat(file).st_size):
            read = events_of(file, start, end)
            if len(read) > 1 or is_last:
                try:
                    self._check_keys(file, start, end)
                except Stop:
                    self._is_reached()
                    raise
                self.written = self._spelling.position(messages.position_in(read))
                self.feed.message(self._spelling.message(made, start, end, read, self.written) or _message(made, start, end))
                self.groups += len(read) > 1
                told = {name for name in map(_told, read) if name}
                self.feed.told.update(told)
                self.filled |= {(self.tables[0].schema, name) for name in told}
            start = end
        self._is_reached()
        if self.written != was and self.written != self.position.text():
            raise Stop("the program's position is another one than the copies'", f"({self.written} and {self.position.text()})", "report it")
        self.is_done = self.copies.is_done and not self.copies.marks
        if self.is_done and self.feed.is_beyond:
            raise Beyond("the feed goes on behind the position", f"in {self.wanted.out}", "append to it without --until")

    def _check_keys(self, file: int, start: int, end: int) -> None:
        """Stops at a key that its collation orders or compares otherwise than bytes: the program doesn't know collations."""
        padded = {table.name: table for table in self.tables if any(table.columns[at].pads for at in table.key)}
        if padded:
            for name, row in rows_of(os.pread(file, end - start, start)):
                if name in padded:
                    check_key(padded[name], row, f"behind {self.position.gtids() or 'nothing'}")

    def _is_reached(self) -> None:
        """Makes the note of how far the feed has come in the copies."""
        self._place, self._prepared = self.copies.reached(sets_of(self.written) if self.written else {}, self.position)
        self._begun = self.copies.begun.get(self._place.log)
        self.note = self._noted()

    def up_to_fault(self) -> None:
        """Keeps what the program reads before the transaction at which it finds a fault."""
        marks, passed, least = list(self.copies.marks), 0, len(self.copies.marks)
        while passed + 1 < least:
            middle = (passed + least) // 2
            passed, least = (middle, least) if self._passes(marks[middle].place) else (passed, middle)
        if passed or self.copies.thinned and self._passes(marks[0].place):
            self.transcribe(before=marks[passed].place)

    def _passes(self, before: Place) -> bool:
        """Whether the program reads what is before a place."""
        with TemporaryFile(dir=self._folder) as made:
            try:
                self._answer(made, before)
            except Stop:
                return False
        return True

    def is_altered(self) -> bool:
        """Whether a table of which the feed has no row has other columns now, and none of the others has."""
        now = read_tables(self.connection, self.wanted.tables)
        return now != self.tables and all(one == other for one, other in zip(now, self.tables) if other.full in self.filled)

    def _add_further(self) -> Place:
        """The rows of the tables that the feed hasn't had, as one group at the snapshot's position; from there on they are recorded
        with the others. Answers where the log is to be copied from."""
        if self.pending:
            raise self.pending
        if self.is_done:
            raise Stop("the position is before the rows of a further table", f"({self._further[0].name})", "record up to it without that table")
        others = prepared_at(self.wanted.login, self.connection, self._further, self._snapshot.place)
        changes = self._snapshot.changes(self._further)
        if first := next(changes, None):
            self.position.snapshot += 1
            self.written = self.position.text()
            self.feed.group(chain([first], changes), self.written)
        self._further, self._place, self._prepared = [], self._snapshot.place, self._prepared | others
        self._recorder = self.position.gtids()
        self._snapshot.close()
        self._tell_columns(self.tables)
        self._write_workflow(self.tables)
        self.copies.close()
        self.copies = self._copies()
        return self._begin_copies(is_anew=True)

    def check_begun(self) -> None:
        """Stops where what was read can't begin a feed."""
        if self.pending and (self.wanted.behind or not self.wanted.append):
            raise self.pending

    def check_whole(self) -> None:
        """Stops where what was read can't be all that is recorded."""
        if self.pending:
            raise self.pending
        if self.until and not self.is_done:
            raise Stop("the log doesn't reach the position", f"at {self.note.gtids or 'its beginning'}", f"{AGAIN} when the server has it, or with --forever")

    def _noted(self) -> Note:
        position = self.position
        uuids = {str(domain): domain_uuid(domain, position.turn) for domain in position.last} | ({"snapshot": SNAPSHOT_UUID} if position.snapshot else {})
        tables = {".".join(table.full): table for table in self.tables}
        return Note(self.version, self.wanted.shard, self._place, self._begun, position.gtids(), position.snapshot,
                    self.written, self.feed.size, uuids, {name: table.layout() for name, table in tables.items()},
                    sorted(".".join(name) for name in self.filled), [xa.hex() for xa in self._prepared],
                    server_id=self._server_id, keyspace=self._keyspace, turn=position.turn, past=dict(position.past), recorder=self._recorder,
                    keys={name: table.key_names for name, table in tables.items()})  # fmt: skip

    def put(self) -> None:
        """Puts the groups in their place in the feed, and the note in its, behind which copies go that are wanted no more: those of logs
        before that of the note, unless one has to tell that a table was made."""
        if not self.pending:
            self.copies.sync()
        self.feed.put(None if self.pending else self.note)
        if not self.pending and not self._wants_made and self.note.position == self.note.reached().text():
            self.copies.discard_before(self.note.place.log)

    def lost(self) -> Lost:
        return Lost("the server ended the log", f"behind {self.copies.end}", AGAIN)


def _message(file: BinaryIO, start: int, end: int) -> Message:
    """A message of the program's, between two places of an open file."""
    return os.pread(file.fileno(), end - start, start) if end - start < LARGE else [Stored(file, start, end - start)]


def _told(event: bytes) -> str:
    """The table whose columns an event tells, or none."""
    found = dict(messages.fields(event)) if not event.startswith(OF_ROWS) else {}
    return dict(messages.fields(found[FIELDS]))[1].decode() if found.get(1) == EventType.FIELD else ""
