"""A recording that goes on: what the log has, and then each transaction as it commits, until a signal ends it.

Where the connection is lost it begins anew behind the note, with all checks, after a pause that grows. What
commits within a quarter of a second goes into the feed together. A compaction that asks for the feed has it for as
long as it takes; then too it begins anew.
"""
import time
from contextlib import ExitStack, closing, suppress
from dataclasses import replace

from .ending import Ended, Held, Last, tell
from .locks import Lent, locked
from .note import Note, note_path
from .progress import MINUTE
from .recording import Recording, Wanted, check_free_or_there, left_as_it_was
from .stop import Lost, Stop

TOGETHER = 0.25
LONG = 5
"""The seconds from which on a reading by the program takes too long: transactions come as late."""
SHORTER = "a smaller max_binlog_size, record/compact and rows in each table make that less"
FIRST_PAUSE, LONGEST_PAUSE = 0.5, 30


class _Altered(Exception):
    """A table of which no row was recorded was altered: its columns have to be read anew."""


class _Asked(Exception):
    """A compaction asks for the feed."""


def record_forever(wanted: Wanted) -> Note:
    """Goes on until a signal or the wanted position ends it; answers the note of a feed that is whole."""
    forever = _Forever(wanted)
    try:
        while True:
            try:
                return forever.with_lock()
            except _Asked:
                tell(f"feed: {wanted.out} is left to a compaction")
    except Ended as ended:
        if not (wanted.append or forever.has_begun):
            raise Stop(f"ended by {ended}", "", left_as_it_was(wanted)) from None
        return Note.read(note_path(wanted.out))


class _Forever:
    """One recording behind the other, each over a connection of its own."""

    def __init__(self, wanted: Wanted) -> None:
        self._wanted, self._pause, self.has_begun = wanted, FIRST_PAUSE, False

    def with_lock(self) -> Note:
        """Records as long as the feed's lock isn't asked for."""
        self._lock = Lent(self._wanted.out, is_back=self.has_begun)
        with locked(self._wanted.out, lambda: check_free_or_there(self._wanted), self._lock):
            return self._run()

    def _run(self) -> Note:
        while True:
            try:
                return self._over_one_connection()
            except _Altered:
                continue
            except Lost as lost:
                if not self.has_begun:
                    raise
                tell(f"feed: {lost} in {self._pause:g} seconds")
                time.sleep(self._pause)
                self._pause = min(2 * self._pause, LONGEST_PAUSE)

    def _over_one_connection(self) -> Note:
        with ExitStack() as opened:
            recording = Recording(self._wanted, opened)
            recording.catch_up()
            recording.check_begun()
            with Held():
                recording.put()
                self._wanted, self._pause, self.has_begun = replace(self._wanted, append=True, from_snapshot=False, behind=False), FIRST_PAUSE, True
            _Live(recording, self._lock).run()
            return recording.note


class _Live:
    """One connection's reading behind the log's end: the program reads what was copied as often as there are whole transactions more,
    and at most half of the time."""

    def __init__(self, recording: Recording, lock: Lent) -> None:
        self._recording, self._feed, self._lock = recording, recording.feed, lock
        self._put_at = self._told_at = self._looked_at = time.monotonic()
        self._groups, self._place, self._behind = 0, recording.note.place, ""
        self._least = TOGETHER
        """The seconds between two readings."""
        self._whole: list = []
        """The last whole transaction that was there at the last one."""
        self._is_told = self._is_long = False
        """Whether a line has said that an XA transaction is waited for, and how long a reading takes."""

    def run(self) -> None:
        if self._recording.is_done:
            return
        self._tell()
        try:
            self._read()
        except Ended:
            with Last():
                self._round(is_last=True)
        except (Lost, _Asked):
            self._round(is_last=True)
            raise

    def _read(self) -> None:
        recording, marks = self._recording, self._recording.copies.marks
        with closing(recording.wanted.login.connect()) as stream:
            for is_between in recording.copying(stream):
                # the last one that has begun is whole where nothing comes
                whole = marks[-1:] if is_between or recording.copies.is_done else marks[-2:-1]
                self._behind = "at the log's end" if is_between else "before the log's end"
                if recording.copies.is_done or time.monotonic() >= self._told_at + MINUTE:
                    self._round(is_last=True)
                    if recording.is_done:
                        return
                    self._tell()
                elif whole and whole != self._whole and time.monotonic() >= self._put_at + self._least:
                    self._round()
                    self._whole = whole
                    self._look_at_time()
                self._look_at_lock()
        raise recording.lost()

    def _round(self, is_last: bool = False) -> None:
        """Has the program read what was copied. What is before a fault is put, before it is told."""
        recording, begun = self._recording, time.monotonic()
        try:
            self._transcribe(is_last)
        except Stop:
            with suppress(Stop):
                recording.up_to_fault()
            with Held():
                self._put()
            if recording.is_altered():
                raise _Altered from None
            raise
        self._least = max(TOGETHER, time.monotonic() - begun)

    def _look_at_time(self) -> None:
        """Says where a reading takes too long."""
        if self._least > LONG and not self._is_long:
            self._is_long = True
            tell(f"feed: {self._recording.wanted.out}: a reading takes {self._least:.0f} seconds: {SHORTER}")

    def _transcribe(self, is_last: bool) -> None:
        recording, groups = self._recording, self._recording.groups
        recording.transcribe(is_last)
        self._groups += recording.groups - groups
        if recording.pending and not self._is_told:
            self._is_told = True
            tell(f"feed: {self._recording.wanted.out} waits: {recording.pending}")
        with Held():
            if is_last and recording.note.place.log != self._place.log:
                # (else the log could be purged in which the note ends)
                recording.put()
                self._place = recording.note.place
            self._put()
        self._put_at = time.monotonic()

    def _put(self) -> None:
        if self._feed.waits:
            self._recording.put()
            self._put_at, self._place = time.monotonic(), self._recording.note.place

    def _look_at_lock(self) -> None:
        """Leaves the feed to a compaction that asks for it."""
        if time.monotonic() >= self._looked_at + TOGETHER:
            self._looked_at = time.monotonic()
            if self._lock.is_asked():
                raise _Asked

    def _tell(self) -> None:
        note, groups = self._recording.note, self._groups
        self._told_at, self._groups = time.monotonic(), 0
        which = f"{groups} groups since the last line, {self._behind}" if self._behind else "going on"
        tell(f"feed: {time.strftime('%Y-%m-%dT%H:%M:%SZ', time.gmtime())} {self._recording.wanted.out}: {self._feed.size} bytes,"
             f" up to {note.gtids or 'nothing'} at {note.place}; {which}")
