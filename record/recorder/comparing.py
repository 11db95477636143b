"""Rows held to rows while clients write: those that a server's tables have in one consistent snapshot, and those that the
program makes of the feeds up to the snapshot's position.

Of a source each stream is compared by itself, at its own server's position, by its own rows: a snapshot of two servers is
no one moment, and a row that goes from one to the other may be in both or in neither. A target's rows are compared as
a whole, at the positions that its own server says in the same snapshot.

What lies between is in files without a name, so that nothing is left of it, however a comparison ends.
"""
import json
import mmap
import os
import time
from collections.abc import Callable, Iterator
from contextlib import ExitStack, closing
from dataclasses import dataclass, replace
from functools import cached_property
from tempfile import TemporaryFile, gettempdir
from typing import BinaryIO, ContextManager

from .catalogue import split_name
from .checkpoints import stream_of
from .files import is_at, open_file, writing
from .filters import dump_statements, of_stream, of_target
from .moments import Beginning, End, Moment, is_same
from .note import Note, begins_with_base, fits, note_path
from .position import SNAPSHOT_UUID, Until, sets_of
from .program import DIFFERS, Program, beginning, name_of
from .recording import Wanted, record
from .server import MOST_ALLOWED, Login, ask, gtids_at, rows, why_unread
from .snapshot import opened, opened_at
from .stop import AGAIN, Beyond, Prepared, Stop, Taken

OF_REPLICA = """SELECT COALESCE(GROUP_CONCAT(CONCAT_WS('-', domain_id, server_id, seq_no)), '') FROM mysql.gtid_slave_pos AS one
    WHERE sub_id = (SELECT MAX(sub_id) FROM mysql.gtid_slave_pos AS other WHERE other.domain_id = one.domain_id)"""
"""What a replica of MariaDB has of its source, as one row: it writes this with each transaction."""
PAUSE, PREPARED_TRIES = 0.2, 20
"""The seconds between two looks at a feed that another recording writes, or at an XA transaction that is prepared; and how
many snapshots are opened where each meets one."""


@dataclass(frozen=True)
class Asked:
    """What is to be compared. `schemas` are those of the streams, or the target's one."""

    workflow: dict
    feeds: list[str]
    schemas: list[str]
    logins: list[Login | None]
    """The streams' servers; none where a feed is only waited for."""
    program: Program
    is_of_target: bool = False
    checkpoint: str | None = None
    patience: float = 90
    """The seconds in which a feed that another recording writes has to come so far."""
    words: tuple[str, ...] = ()
    """Those of `vdiff`."""

    def shard(self, stream: int) -> str:
        return self.workflow["streams"][stream]["shard"]


@dataclass(frozen=True)
class Compared:
    """What was compared: the streams with the positions of the feeds' groups, and what `vdiff` answers."""

    streams: list[tuple[int, str, str]]
    """Numbers, shards, and the positions of the snapshots."""
    differs: bool
    report: str


class Feed:
    """A stream's feed, open, up to a moment."""

    def __init__(self, asked: Asked, stream: int, held: ExitStack) -> None:
        self.path, self._asked, self._stream, self._login = asked.feeds[stream], asked, stream, asked.logins[stream]
        held.callback(self._close)
        self.file: BinaryIO | None = None
        self._open(is_new=True)
        self.end = End(0, "", False)
        """Where the moment is in it."""

    def _open(self, is_new: bool) -> None:
        """Opens the file that is there; it is another one where the feed was compacted meanwhile."""
        self._close()
        try:
            self.file = os.fdopen(open_file(self.path, os.O_RDONLY), "rb")
        except OSError as fault:
            raise Stop("no feed", f"at {self.path}", fault.strerror or str(fault)) from None
        # what a source's feed has now is before a snapshot that is still to come
        note = self._own_note() if is_new and not self._asked.is_of_target else None
        self._begun = Beginning(self.path, self.file.fileno(), note.size if note else 0, note.position if note else "")

    def _close(self) -> None:
        if self.file:
            self.file.close()

    def _own_note(self) -> Note | None:
        """The note, where it is the one of the file that is open; none where a compaction has just put another one there."""
        note = self._note()
        return note if fits(self.file.fileno(), note) else None

    def _note(self) -> Note:
        note, shard = Note.read(note_path(self.path)), self._asked.shard(self._stream)
        if note.shard != shard:
            raise Stop(f"a feed of shard {note.shard}", f"in {self.path}", f"stream {self._stream} is of shard {shard}: name the feeds in the streams' order")
        return note

    def come_to(self, text: str) -> None:
        """Brings the feed up to a position, and finds where that is in it."""
        last, is_recorded = time.monotonic() + self._asked.patience, False
        while not self._finds(text):
            if self._login and not is_recorded and self._records(self._login, text):
                is_recorded = True
                continue
            if time.monotonic() >= last or is_recorded:
                raise Stop("a feed that isn't up to the snapshot", f"at {text}, in {self.path}", "bring it there by record/feed --append, or wait longer (--patience)")
            time.sleep(PAUSE)

    def _records(self, login: Login, text: str) -> bool:
        """Records up to a position, unless another recording writes the feed."""
        note = self._note()
        try:
            until = Until.read(text)
        except ValueError as fault:
            raise Stop(f"a position that stream {self._stream}'s server doesn't have", f"({text[:200]})", str(fault)) from None
        wanted = Wanted(login, note.shard, self.path, [split_name(name) for name in note.tables], append=True, until=until,
                        program=self._asked.program)  # fmt: skip
        try:
            record(wanted)
        except Taken:
            return False
        except Beyond:
            record(replace(wanted, until=None))
        return True

    def _finds(self, text: str) -> bool:
        """Whether the feed has come to a position: by its groups, or by its note, which may say more."""
        reached = self._begun.last()
        moment = self._moment(text, reached)
        has_come = moment.is_reached(reached) or bool(self._login) and moment.is_reached(self._note().reached().text())
        # (a compacted feed takes its place before its note does)
        if not is_at(self.file.fileno(), self.path):
            self._open(is_new=False)
            return self._finds(text)
        if not has_come:
            return False
        self.end = self._begun.up_to(moment)
        if not self.end.size and self.end.is_amid and begins_with_base(self.file.fileno()):
            raise Stop("a feed that was compacted behind the snapshot", f"at {text}, in {self.path}", "compare again; a target has to have come so far")
        return True

    def _moment(self, text: str, reached: str) -> Moment:
        try:
            return Moment.read(text, reached)
        except ValueError as fault:
            raise Stop("no position", f"of stream {self._stream} ({text[:200]})", str(fault)) from None

    def piped(self) -> ContextManager[BinaryIO]:
        """A pipe that has the feed's beginning."""
        return beginning(self.file, self.end.size)


class Comparison:
    """Use it with `with`: its files and connections are gone afterwards."""

    def __init__(self, asked: Asked) -> None:
        self._asked, self._opened = asked, ExitStack()

    def __enter__(self) -> "Comparison":
        return self

    def __exit__(self, *how: object) -> None:
        self._opened.close()

    @cached_property
    def _feeds(self) -> list[Feed]:
        return [Feed(self._asked, stream, self._opened) for stream in range(len(self._asked.feeds))]

    def of_sources(self) -> Iterator[Compared]:
        """The streams one after another."""
        asked, streams = self._asked, range(len(self._feeds))
        dumps, texts = self._come(self._of_sources)
        whole = self._follow(*["--dump"] * (len(streams) == 1)) if asked.checkpoint else None
        for stream in streams:
            workflow = self._written(of_stream(asked.workflow, stream))
            if whole:
                there = whole if len(streams) == 1 else self._of_checkpoint(stream)
            else:
                there = self._run(workflow, [self._feeds[stream]], f"stream {stream}")
            yield self._vdiff([(stream, texts[stream])], workflow, dumps[stream], there)

    def of_target(self, login: Login, query: str) -> Compared:
        """The target's tables, at the positions that a query answers there, a row a stream."""
        asked = self._asked
        [there], texts = self._come(lambda: self._of_target(login, query))
        for feed, text in zip(self._feeds, texts):
            if feed.end.is_amid and set(sets_of(feed.end.position)) == {SNAPSHOT_UUID} and "-" in text and ":" not in text:
                raise Stop("a target that may be before the feed's snapshot", f"at {text}, in {feed.path}", f"let it come to {feed.path}'s end, and compare again")
        said = self._written(asked.workflow)
        made = self._follow("--dump") if asked.checkpoint else self._run(said, self._feeds, "the feeds")
        return self._vdiff(list(enumerate(texts)), said, made, there)

    def _come(self, snapshot: Callable[[], tuple[list[BinaryIO], list[str]]]) -> tuple[list[BinaryIO], list[str]]:
        """The rows of a snapshot, and the streams' positions, up to which the feeds are brought; of another snapshot where an
        XA transaction is prepared there, which no note of a feed can say."""
        for tries in range(PREPARED_TRIES):
            dumps, texts = snapshot()
            try:
                for feed, text in zip(self._feeds, texts):
                    feed.come_to(text)
                break
            except Prepared:
                if tries + 1 == PREPARED_TRIES:
                    raise
                for dump in dumps:
                    dump.close()
                time.sleep(PAUSE)
        return dumps, texts

    def _of_target(self, login: Login, query: str) -> tuple[list[BinaryIO], list[str]]:
        """The rows of the target, and the streams' positions."""
        with closing(_Reading(login, is_of_source=False)) as reading:
            texts, there = reading.positions(query, len(self._feeds)), self._file()
            reading.write(_statements(of_target(self._asked.workflow), self._asked.schemas), there)
        return [there], texts

    def _of_sources(self) -> tuple[list[BinaryIO], list[str]]:
        """The rows of each stream and its position, of one snapshot a server."""
        asked, feeds = self._asked, self._feeds
        dumps: list[BinaryIO] = [self._file() for _ in feeds]
        texts = [""] * len(feeds)
        for login in dict.fromkeys(asked.logins):
            with closing(_Reading(login, is_of_source=True)) as reading:
                text = reading.own_position()
                for stream in (at for at, one in enumerate(asked.logins) if one == login):
                    texts[stream] = text
                    reading.write(_statements(of_stream(asked.workflow, stream), [asked.schemas[stream]]), dumps[stream])
        return dumps, texts

    def _file(self) -> BinaryIO:
        with writing(gettempdir()):
            return self._opened.enter_context(TemporaryFile())

    def _written(self, workflow: dict) -> BinaryIO:
        """A workflow file."""
        file = self._file()
        with writing(gettempdir()):
            file.write(json.dumps(workflow).encode())
            file.flush()
        return file

    def _run(self, workflow: BinaryIO, feeds: list[Feed], who: str) -> BinaryIO:
        out = self._file()
        self._answer(who, feeds, out, "run", workflow=workflow)
        return out

    def _follow(self, *words: str) -> BinaryIO:
        """Moves the checkpoint on, to the snapshots' positions; what that prints."""
        file, out = self._asked.checkpoint, self._file()
        there = ["--checkpoint", file] if os.path.exists(file) else []
        self._answer(f"checkpoint {file}", self._feeds, out, "follow", *words, *there, "--save-to", file, workflow=self._written(self._asked.workflow))
        return out

    def _answer(self, who: str, feeds: list[Feed], out: BinaryIO, *words: str, workflow: BinaryIO) -> None:
        with ExitStack() as piping:
            pipes = [piping.enter_context(feed.piped()) for feed in feeds]
            self._asked.program.answer(who, *words, name_of(workflow), *map(name_of, pipes), files=(workflow, *pipes), out=out)

    def _of_checkpoint(self, stream: int) -> BinaryIO:
        out, name, wanted = self._file(), self._asked.checkpoint, self._feeds[stream].end.position
        try:
            with open(name, "rb") as file:
                position, lines = stream_of(memoryview(mmap.mmap(file.fileno(), 0, access=mmap.ACCESS_READ)), stream)
            if not is_same(position, wanted):
                raise Stop("a checkpoint that another program moved meanwhile", f"at {name}", "compare again")
            _write(out, lines)
        except (ValueError, LookupError) as fault:
            raise Stop("no checkpoint of the program", f"in {name}", str(fault)) from None
        return out

    def _vdiff(self, streams: list[tuple[int, str]], workflow: BinaryIO, source: BinaryIO, target: BinaryIO) -> Compared:
        who = ", ".join(f"stream {stream}" for stream, _ in streams)
        files = workflow, source, target
        status, report = self._asked.program.answer(who, "vdiff", *self._asked.words, *map(name_of, files), files=files)
        return Compared([(stream, self._asked.shard(stream), text) for stream, text in streams], status == DIFFERS, report)


class _Reading:
    """A snapshot of a server's tables: of a source's at a place in its log, or of a target's."""

    def __init__(self, login: Login, is_of_source: bool) -> None:
        self._login = login
        self._tables, self._place = opened_at(login) if is_of_source else (opened(login), None)

    def own_position(self) -> str:
        """The position of a source's snapshot in the server's own log."""
        with closing(self._login.connect()) as beside:
            text = gtids_at(beside, self._place)
            if text is None:
                raise Stop("the snapshot's place isn't in the log", f"at {self._place}", why_unread(beside, self._place) + AGAIN)
            return text

    def positions(self, query: str, count: int) -> list[str]:
        """Those of the streams, as of the snapshot."""
        said = [row[0] for row in ask(self._tables, query)]
        if len(said) != count or None in said:
            raise Stop(f"{len(said)} positions", f"({query})", f"one a stream is wanted, {count} in all, and none that is NULL")
        return [text.decode(errors="replace") for text in said]

    def write(self, statements: list[str], out: BinaryIO) -> None:
        """The lines that they answer."""
        begin, *others = statements
        ask(self._tables, begin)
        for statement in others:
            _write(out, (_whole(line) for (line,) in rows(self._tables, statement, f"({statement[:200]})")))

    def close(self) -> None:
        if self._tables.open:
            self._tables.close()


def _whole(line: bytes | None) -> bytes:
    if line is None:
        raise Stop("a row whose line the server doesn't print", "(it is longer than max_allowed_packet)", f"SET GLOBAL max_allowed_packet={MOST_ALLOWED}, and {AGAIN}")
    return line + b"\n"


def _statements(workflow: dict, schemas: list[str]) -> list[str]:
    try:
        return dump_statements(workflow, schemas)
    except (ValueError, KeyError, TypeError) as fault:
        raise Stop("a workflow file whose rows the server can't print", "", f"{fault}") from None


def _write(out: BinaryIO, lines: Iterator[bytes]) -> None:
    with writing(gettempdir(), "it wants room for the rows; TMPDIR names another folder"):
        for line in lines:
            out.write(line)
        out.flush()
