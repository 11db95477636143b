"""A server's log files copied byte for byte beside a feed, as FEED.logs/LOG, and the transactions that begin in them.

The feed and its note are what holds: a copy is cut at the note's place before it grows on, and is made anew where it doesn't
reach that place, or is another log's. It is synced before a note tells of it. What no `transcribe` behind the feed wants any
more is taken away once the note is in its place.

The first copy may begin amid its log, behind a snapshot or where a feed ends: it has the log's own first event, a list of the
transactions that are before that place, as each log begins with one, and the log's bytes from there on.
"""
import os
import struct
import zlib
from collections.abc import Callable
from contextlib import suppress
from tempfile import TemporaryFile
from typing import BinaryIO, NamedTuple

from .events import HEADER, Bytes, GtidEvent, LogEvent
from .files import PIECE, open_file, writing
from .position import Gtid, Position, Until, domain_uuid
from .server import CRC32, Place
from .stop import BEHIND, Stop

MAGIC = b"\xfebin"
FIRST = len(MAGIC)
"""Where the first event of a file begins."""
FLAGS, IN_USE = FIRST + 17, 1
"""The byte of a file that says whether its server still writes it, and how."""
BUFFER = 2**20
LEANS = ".leans"
"""The end of the name of an empty file beside a copy that may need the one before it."""
MOST_MARKS = 2**16
FARTHEST = 2**32
"""The place in a log from which on a copy doesn't begin amid it: its events don't say where they end."""
LISTED = struct.Struct("<IIQ")
"""How a list of transactions has each domain's last one: its domain, its server, and its number."""
SUM = struct.Struct("<I")
PREPARED, ENDED = 0x40, 0x80
"""Of a transaction's flags: an XA transaction is prepared by it, or ended."""
ITS_FLAGS = HEADER.size + 12


class Mark(NamedTuple):
    """Where a transaction begins, and which XA transactions are prepared there."""

    gtid: Gtid
    place: Place
    prepared: frozenset[bytes]


def folder_of(feed: str) -> str:
    return f"{feed}.logs"


def number_of(log: str) -> int:
    """A log's place among a server's; -1 of what is no log's name."""
    name, _, number = log.rpartition(".")
    return int(number) if name and number.isdigit() and number.isascii() else -1


class Copies:
    """The copies beside a feed whose lock is held, and the transactions behind a place. `begun` has by log when it was begun."""

    def __init__(self, feed: str, place: Place, begun: int | None, position: Position, prepared: set[bytes], until: Until | None) -> None:
        self.folder, self._file, self._log, self._size, self._is_whole = folder_of(feed), None, "", 0, False
        self._lacks = 0
        """How many bytes of its log the copy that is open lacks."""
        self._place, self._before, self._until = place, Position(position.last), until
        self.begun = {place.log: begun}
        self._seen, self.prepared, self.marks = Position(position.last), set(prepared), []
        self.passed: dict[int, Gtid] = {}
        """Of each domain the last transaction that was copied and is the feed's already."""
        self.thinned: dict[int, Gtid] = {}
        """Of each domain the last transaction before the marked ones whose mark was left out: the feed has to reach it."""
        self.is_done = False
        """Whether the position is reached up to which is copied."""

    def begin(self, whole: Place | None, prepared: Callable[[], Place | None], is_anew: bool) -> Place:
        """Where the server's log is to be copied from: behind the copies that are there, unless they are made anew, or else from the
        place on from which `whole` files are wanted, or where one begins that has what is `prepared`, or from that where the feed ends."""
        wants_all = whole is not None
        with writing(self.folder):
            if os.path.islink(self.folder):
                raise Stop("a link", f"at {self.folder}", "let a folder be there, or nothing")
            os.makedirs(self.folder, 0o700, exist_ok=True)
            number, names = number_of(self._place.log), self._names()
            is_there = not is_anew and self._place.log in names and self._opens()
            if is_there and wants_all and (number_of(names[0]) > number_of(whole.log) or self._lacking(names[0])):
                is_there = False
            wants_all = wants_all or self._leans(self._place.log)
            for name in names:
                if not is_there or number_of(name) > number or number_of(name) < number and not wants_all:
                    self._unlink(name)
        if is_there:
            return self._place
        self.close()
        self._log, self._size = "", 0
        return whole or prepared() or (self._place if self._place.offset < FARTHEST else Place(self._place.log, FIRST))

    def _lacking(self, log: str) -> int:
        """How many bytes of its log a copy lacks: where it begins amid it the list says where that ends in the log."""
        with open(os.path.join(self.folder, log), "rb") as file:
            file.seek(FIRST)
            behind = FIRST
            for _ in range(2):
                if len(head := file.read(HEADER.size)) < HEADER.size:
                    return 0
                _time, kind, _server, size, end, _flags = HEADER.unpack(head)
                behind += size
                file.seek(behind)
        return end - behind if kind == LogEvent.GTID_LIST else 0

    def _leans(self, log: str) -> bool:
        """Whether a copy's log began while an XA transaction was prepared, so that it may end what an earlier one has."""
        return os.path.exists(os.path.join(self.folder, log + LEANS))

    def _unlink(self, log: str) -> None:
        for name in log + LEANS, log:
            with suppress(FileNotFoundError):
                os.unlink(os.path.join(self.folder, name))

    def _names(self) -> list[str]:
        return sorted((name for name in os.listdir(self.folder) if number_of(name) >= 0), key=number_of)

    def paths(self, before: Place | None = None) -> list[str]:
        """The copies, or those of the logs before that of a place."""
        return [os.path.join(self.folder, name) for name in self._names() if before is None or number_of(name) < number_of(before.log)]

    def _opens(self) -> bool:
        """Opens the copy of the place's log, and cuts it there, if it is of that log."""
        file = os.fdopen(open_file(os.path.join(self.folder, self._place.log), os.O_RDWR), "r+b", BUFFER)
        head = file.read(FIRST + HEADER.size)
        lacks = self._lacking(self._place.log)
        is_its = len(head) == FIRST + HEADER.size and head.startswith(MAGIC) and os.fstat(file.fileno()).st_size >= self._place.offset - lacks > FIRST
        time, kind, *_ = HEADER.unpack(head[FIRST:]) if is_its else (0, 0)
        if not is_its or kind != LogEvent.FORMAT_DESCRIPTION or time != self.begun[self._place.log]:
            file.close()
            return False
        file.truncate(self._place.offset - lacks)
        self._is(file, self._place.log, self._place.offset, lacks)
        self._say_in_use(True)
        return True

    def _is(self, file, log: str, size: int, lacks: int = 0) -> None:
        self._file, self._log, self._size, self._lacks, self._is_whole = file, log, size, lacks, False
        file.seek(size - lacks)

    def _say_in_use(self, is_so: bool) -> None:
        self._file.flush()
        _say_in_use(self._file.fileno(), is_so)

    def take(self, log: str, event: Bytes) -> LogEvent | int:
        """Writes an event that the log's file has, unless it is beyond the position that is to be reached; answers its kind."""
        time, kind, server, _size, end, _flags = HEADER.unpack_from(event)
        if kind == LogEvent.FORMAT_DESCRIPTION:
            if self.begun.get(log) not in (None, time):
                raise Stop("another log than the feed's", f"in {log}, which was begun anew", BEHIND)
            self.begun[log] = time
            if not self._file and end == 0 and self._place.offset > FIRST:
                # (so a server begins where it is asked for what is amid a log)
                with writing(self.folder):
                    self._begin_amid(log, event)
        if kind == LogEvent.HEARTBEAT or end == 0 or self.is_done:
            return kind
        with writing(self.folder):
            if kind == LogEvent.FORMAT_DESCRIPTION and log != self._log:
                self._begin_log(log)
            if log != self._log or end != self._size + len(event) & 0xFFFFFFFF:
                raise Stop("a log that isn't sent as its file has it", f"at {log}:{end}", BEHIND)
            if kind == LogEvent.GTID:
                self._mark(event, server)
                if self.is_done:
                    return kind
            self._file.write(event)
            self._size += len(event)
            self._is_whole = kind in (LogEvent.ROTATE, LogEvent.STOP)
            if kind == LogEvent.FORMAT_DESCRIPTION:
                self._say_in_use(True)
        return kind

    def _begin_amid(self, log: str, first: Bytes) -> None:
        """Begins a copy at the place: with the log's first event, and the transactions that are before the place."""
        self._begin_log(log)
        # (the first event has a sum in every log, which the server doesn't make anew where the others have none)
        head = bytearray(first[:-SUM.size])
        head[FLAGS - FIRST] &= ~IN_USE
        self._file.write(_summed(head))
        last = sorted(self._before.last.items())
        body = struct.pack("<I", len(last)) + b"".join(LISTED.pack(domain, gtid.server, gtid.sequence) for domain, gtid in last)
        is_summed = head[-1] == CRC32
        time, _kind, server, *_ = HEADER.unpack_from(head)
        listed = HEADER.pack(time, LogEvent.GTID_LIST, server, HEADER.size + len(body) + SUM.size * is_summed, self._place.offset, 0) + body
        self._file.write(_summed(listed) if is_summed else listed)
        self._size, self._lacks = self._place.offset, self._place.offset - self._file.tell()
        self._say_in_use(True)

    def _begin_log(self, log: str) -> None:
        if os.path.basename(log) != log or number_of(log) < 0:
            raise Stop("a log's name that no file has", f"({log})", "name the server's logs NAME.NUMBER (log_bin)")
        if self._file and self._is_whole:
            self._say_in_use(False)
        self.sync()
        self.close()
        if self.prepared and self._names():
            os.close(os.open(os.path.join(self.folder, log + LEANS), os.O_CREAT | os.O_WRONLY, 0o600))
        self._is(open(os.path.join(self.folder, log), "w+b", BUFFER), log, 0)  # noqa: SIM115
        self._file.write(MAGIC)
        self._size = FIRST

    def _mark(self, event: Bytes, server: int) -> None:
        """Marks a transaction that is behind the feed, and looks whether all that is wanted is before it."""
        read = GtidEvent.read(event[HEADER.size:])
        gtid = Gtid(read.domain, server, read.sequence)
        if self._seen.goes_back(gtid):
            self.passed[gtid.domain] = gtid
            return
        if self._looks_done():
            return
        if len(self.marks) >= MOST_MARKS:
            self.thinned |= {mark.gtid.domain: mark.gtid for mark in self.marks[:MOST_MARKS // 2]}
            del self.marks[:MOST_MARKS // 2]
        self.marks.append(Mark(gtid, self.end, frozenset(self.prepared)))
        self._seen.add(gtid)
        if event[ITS_FLAGS] & PREPARED:
            self.prepared.add(bytes(read.xa))
        elif event[ITS_FLAGS] & ENDED:
            self.prepared.discard(bytes(read.xa))

    def _looks_done(self) -> bool:
        self.is_done = self.is_done or self._until is not None and self._until.is_reached(self._seen)
        return self.is_done

    def look(self) -> None:
        """Looks whether all that is wanted is there, at a place where no transaction is open."""
        self._looks_done()

    @property
    def end(self) -> Place:
        """Where the copies end; of no log where there are none yet."""
        return Place(self._log, self._size)

    def reached(self, sets: dict[str, int], position: Position) -> tuple[Place, set[bytes]]:
        """Adds those of the marked transactions to a position that a feed's has; answers where the first one begins that it hasn't,
        and what is prepared there."""
        for gtid in self.thinned.values():
            position.add(gtid)
        self.thinned.clear()
        lacks = (number for number, mark in enumerate(self.marks) if sets.get(domain_uuid(mark.gtid.domain, position.turn), 0) < mark.gtid.sequence)
        count = next(lacks, len(self.marks))
        for mark in self.marks[:count]:
            position.add(mark.gtid)
        del self.marks[:count]
        return (self.marks[0].place, set(self.marks[0].prepared)) if self.marks else (self.end, set(self.prepared))

    def part(self, before: Place) -> BinaryIO:
        """The beginning of a copy, up to a place, as a file of its own that a server still writes."""
        part = TemporaryFile(dir=self.folder)  # noqa: SIM115
        with writing(self.folder), open(os.path.join(self.folder, before.log), "rb") as whole:
            left = before.offset - self._lacking(before.log)
            while left and (piece := whole.read(min(PIECE, left))):
                part.write(piece)
                left -= len(piece)
            part.flush()
            _say_in_use(part.fileno(), True)
        return part

    def place_of(self, path: str, byte: int) -> Place | None:
        """The place in the log of a byte of a copy; None of what is no copy."""
        folder, log = os.path.split(path)
        return Place(log, byte + self._lacking(log)) if folder == self.folder and log in self._names() else None

    @property
    def has_prepared(self) -> bool:
        """Whether an XA transaction is prepared where the copies end, or may be: of a last one that ends it they may have a part."""
        return bool(self.prepared or self.marks and self.marks[-1].prepared)

    def flush(self) -> None:
        with writing(self.folder):
            if self._file:
                self._file.flush()

    def sync(self) -> None:
        """Makes the copies last."""
        with writing(self.folder):
            if self._file:
                self._file.flush()
                os.fsync(self._file.fileno())

    def discard_before(self, log: str) -> None:
        """Takes the copies of earlier logs away, unless that one may end what they have."""
        for name in self._names():
            if number_of(name) < number_of(log) and not self._leans(log):
                with suppress(OSError):
                    self._unlink(name)

    def close(self) -> None:
        if self._file:
            with suppress(OSError):
                self._file.close()
        self._file = None


def _summed(event: Bytes) -> bytes:
    """An event with its checksum."""
    return bytes(event) + SUM.pack(zlib.crc32(event))


def _say_in_use(file: int, is_so: bool) -> None:
    """Has a file say whether its server still writes it."""
    [flags] = os.pread(file, 1, FLAGS)
    os.pwrite(file, bytes([flags & ~IN_USE | IN_USE * is_so]), FLAGS)
