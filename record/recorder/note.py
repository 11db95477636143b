"""The note beside a feed, FEED.json: what the feed itself can't say.

Where in which log it ends, MariaDB's names of its transactions, the uuids of its positions, and the tables
with their columns. It is replaced as a whole, behind its feed, so that it is never ahead of it.
"""
import json
import os
from collections.abc import Iterator
from contextlib import suppress
from dataclasses import asdict, dataclass, field

from . import messages
from .files import held_path, kind_at, left_files, new_file, open_file, put, read_file, sync_folder, write_at
from .position import Position, sets_of
from .server import Place
from .stop import ANEW, Stop
from .wire import FIELDS, EventType


AT_ONCE = 2**16
"""The bytes of a message above which it isn't read as a whole."""
EVENT, OF_ROWS = 0x0A, bytes((0x08, EventType.ROW))
"""The tag of an event in a message, and how one begins that has rows."""


@dataclass
class Note:
    server: str
    shard: str
    place: Place
    begun: int | None
    """When that log was begun, in seconds since 1970, where that is known: a log of the same name that was begun anew is another."""
    gtids: str
    snapshot: int
    position: str
    size: int
    uuids: dict[str, str]
    tables: dict[str, list]
    """By SCHEMA.TABLE the name and type number of each column."""
    filled: list[str]
    """The tables of which rows were recorded."""
    prepared: list[str] = field(default_factory=list)
    """XA transactions, in hexadecimal, that are prepared and change none of the tables."""
    last: int = -1
    """Where the feed's last message begins; -1 in a note that doesn't say so."""
    server_id: int | None = None
    """The number of the server whose log it is, where that is known."""
    keyspace: str | None = None
    """Where positions are VGTIDs, the keyspace of these."""
    turn: int = 0
    past: dict[str, int] = field(default_factory=dict)
    """Of the feed's positions what isn't of the log that it goes on with (`Position`)."""
    keys: dict[str, list[str]] = field(default_factory=dict)
    """By SCHEMA.TABLE the columns of its primary key, in key order, where they are known."""
    recorder: str | None = None
    """The transactions up to which the feed has rows of a snapshot, or those of a recorder that read the log itself, where that is
    known; behind them it has what the program read."""

    @classmethod
    def read(cls, path: str) -> "Note":
        try:
            data = json.loads(read_file(path))
            note = cls(**{**data, "place": Place(**data["place"])})
            note._check()
        except (OSError, ValueError, TypeError, KeyError, RecursionError) as fault:
            raise Stop("no note", f"in {path}", f"--append needs it beside the feed ({_why(fault)}); {ANEW}") from None
        return note

    def _check(self) -> None:
        """ValueError where a member isn't of its type."""
        texts = self.keyspace, self.recorder
        if any(type(one) not in (int, type(None)) for one in (self.begun, self.server_id)) or any(type(one) not in (str, type(None)) for one in texts):
            raise ValueError("a member of another type")
        of_type: list[tuple[type, list]] = [
            (str, [self.server, self.shard, self.place.log, self.gtids, self.position]),
            (int, [self.place.offset, self.snapshot, self.size, self.last, self.turn]),
            (dict, [self.uuids, self.tables, self.keys, self.past]),
            (list, [self.filled, self.prepared]),
        ]
        for kind, values in of_type:
            if any(type(value) is not kind for value in values):
                raise ValueError("a member of another type")
        if any(type(value) is not int for value in self.past.values()) or any(type(value) is not list for value in self.keys.values()):
            raise ValueError("a member of another type")
        if any(type(value) is not str for value in (*self.filled, *self.prepared)):
            raise ValueError("a name of another type")
        self.reached().text()
        [bytes.fromhex(xa) for xa in self.prepared]

    def reached(self) -> Position:
        return Position.read(self.gtids, self.snapshot, self.turn, self.past)

    def new_file(self, path: str) -> str:
        """A new file that is to be the note there, written and synced; its own name."""
        file, own = new_file(path)
        try:
            try:
                write_at(file, (json.dumps(asdict(self), indent=1) + "\n").encode(), 0)
                os.fsync(file)
            finally:
                os.close(file)
        except BaseException:
            with suppress(OSError):
                os.unlink(own)
            raise
        return own

    def write(self, path: str) -> None:
        """Puts the note in the place of the one there."""
        own = self.new_file(path)
        try:
            put(own, path, over=True)
        except BaseException:
            with suppress(OSError):
                os.unlink(own)
            raise


def note_path(feed: str) -> str:
    return feed + ".json"


def _why(fault: Exception) -> str:
    return fault.strerror if isinstance(fault, OSError) and fault.strerror else str(fault)


def check_end(path: str, note: Note) -> None:
    """Stops unless the feed has a message's end at the length that the note gives, and the note's position there."""
    try:
        file = open_file(path, os.O_RDONLY)
    except OSError as fault:
        raise Stop("no feed to append to", f"in {path}", f"{_why(fault)}; {ANEW}") from None
    try:
        is_its = fits(file, note)
    except OSError as fault:
        raise Stop("no feed to append to", f"in {path}", f"{_why(fault)}; {ANEW}") from None
    finally:
        os.close(file)
    if not is_its:
        raise Stop("a feed that isn't the one of its note", f"in {path}", f"put back the two files of one recording, or {ANEW}")


def is_of(file: int, note: Note) -> bool:
    """Whether an open feed has, up to the note's length, the last message that the note tells of."""
    if note.last < 0:
        note.last = last_message(file, note.size)
    if not 0 <= note.last <= note.size <= os.fstat(file).st_size or (note.last == note.size) != (note.position == ""):
        return False
    return note.size == 0 or position_of(file, note.last, note.size) == note.position


def fits(file: int, note: Note) -> bool:
    """Whether an open feed is the one of the note; or one that was compacted since, as by the program alone, which begins with a base
    of the note's tables and has a group of its position. The note's length is that group's end then."""
    if is_of(file, note):
        return True
    if _base_of(file) is None or not _are_noted(_base_of(file), note):
        return False
    groups = groups_between(file, 0, os.fstat(file).st_size)
    found = next(((start, end) for start, end, position in groups if position == note.position), None)
    if found:
        note.last, note.size = found
    return found is not None


def begins_with_base(file: int) -> bool:
    """Whether an open feed was compacted: its first message has the tables' columns and a BEGIN, and no more."""
    return _base_of(file) is not None


def _base_of(file: int) -> list[bytes] | None:
    """The tables' columns in the first message of a compacted feed."""
    end = next(ends(file, 0, os.fstat(file).st_size), None)
    try:
        events = events_of(file, 0, end) if end else []
        *fields, begin = map(messages.kind_of, events) if events else (EventType.COMMIT,)
    except (ValueError, IndexError):
        return None
    return events[:-1] if begin == EventType.BEGIN and set(fields) <= {EventType.FIELD} else None


def _are_noted(fields: list[bytes], note: Note) -> bool:
    """Whether a note has these tables, with these columns."""
    noted = [(name.partition(".")[2], layout) for name, layout in note.tables.items()]
    try:
        return all(_layout(event) in noted for event in fields)
    except (ValueError, IndexError, KeyError):
        return False


def _layout(event: bytes) -> tuple[str, list[list]]:
    """A table's name, and its columns as a note has them."""
    said = list(messages.fields(dict(messages.fields(event))[FIELDS]))
    columns = [dict(messages.fields(field)) for number, field in said if number == 2]
    return dict(said)[1].decode(), [[column[1].decode(), column.get(2, 0)] for column in columns]


def ends(file: int, start: int, end: int) -> Iterator[int]:
    """Where each message of a feed ends that is whole between two places."""
    while start < end:
        length = shift = 0
        for at, byte in enumerate(os.pread(file, min(10, end - start), start), start + 1):
            length |= (byte & 0x7F) << shift
            shift += 7
            if byte < 0x80:
                break
        else:
            return
        start = at + length
        if start > end:
            return
        yield start


def last_message(file: int, size: int) -> int:
    """Where the last message begins of a feed of this size; `size` where none ends there."""
    before = at = 0
    for end in ends(file, 0, size):
        before, at = at, end
    return before if at == size else size


def with_flavour(position: str) -> str:
    """A position as the note has it; the program leaves the flavour out."""
    return position if "/" in position else f"MySQL56/{position}"


def position_of(file: int, start: int, end: int) -> str | None:
    """The position of the group that one message ends, None where a file's bytes between two places aren't such a message."""
    try:
        position = messages.position_in(events_of(file, start, end))
    except (ValueError, IndexError):
        return None
    return position and with_flavour(position)


def groups_between(file: int, start: int, end: int) -> Iterator[tuple[int, int, str]]:
    """Of each group of a feed that is whole between two places, where its last message begins, where it ends, and its position."""
    for behind in ends(file, start, end):
        position = position_of(file, start, behind)
        if not (_is_part(file, start, behind) if position is None else _is_readable(position)):
            return
        if position is not None:
            yield start, behind, position
        start = behind


def _is_readable(position: str) -> bool:
    try:
        return bool(sets_of(position))
    except ValueError:
        return False


def _is_part(file: int, start: int, end: int) -> bool:
    """Whether a file's bytes between two places are a message that ends no group."""
    try:
        return {messages.kind_of(event) for event in events_of(file, start, end)} <= {EventType.BEGIN, EventType.FIELD, EventType.ROW}
    except (ValueError, IndexError):
        return False


def events_of(file: int, start: int, end: int) -> list[bytes]:
    """The events of one message behind its length, between two places of a file; of one with many rows its kind alone."""
    if end - start <= AT_ONCE:
        data = os.pread(file, end - start, start)
        [(begin, behind)] = messages.frames(data)
        return [value for number, value in messages.fields(data[begin:behind]) if number == 1 and isinstance(value, bytes)]
    size, at = _number_at(file, start)
    if at + size != end:
        raise ValueError("no message, or more than one")
    events = []
    while at < end:
        tag, at = _number_at(file, at)
        size, at = _number_at(file, at)
        if tag != EVENT or at + size > end:
            raise ValueError("no event, or a part of one")
        is_rows = size > AT_ONCE and os.pread(file, len(OF_ROWS), at) == OF_ROWS
        events.append(OF_ROWS if is_rows else os.pread(file, size, at))
        at += size
    return events


def _number_at(file: int, at: int) -> tuple[int, int]:
    """A varint of a file, and where it ends."""
    number, size = messages.number(os.pread(file, 10, at), 0)
    return number, at + size


def _has_note(file: int, path: str) -> bool:
    """Whether the note that is there is of an open feed."""
    try:
        return is_of(file, Note.read(path))
    except Stop:
        return False


def settle(feed: str) -> None:
    """Ends what a killed writer began: a note takes its place that is whole and of all of the feed, or of a feed that was compacted,
    which the note there isn't of. Other new files go."""
    path = note_path(feed)
    for own in left_files(path):
        with suppress(Stop, OSError):
            note, file = Note.read(own), open_file(feed, os.O_RDONLY)
            try:
                is_its = is_of(file, note) and (note.size == os.fstat(file).st_size or not _has_note(file, path))
            finally:
                os.close(file)
            if is_its and kind_at(path) in ("a file", "nothing"):
                os.rename(own, path)
                sync_folder(path)
    # (two names of one file are still both there)
    for own in left_files(path) + left_files(feed) + ([held_path(feed)] if kind_at(held_path(feed)) == "a file" else []):
        os.unlink(own)
