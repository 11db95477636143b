"""A feed's file: made whole under a name of its own, and then grown in its place, whole groups behind its end.

Groups are kept aside until `put`, which writes them behind the feed's end, syncs them, and replaces the note.
So a reader may follow the file: a whole group that it has seen stays. A writer that was killed amid a `put`
leaves bytes behind the end that the note gives: a group that isn't whole is cut off at the next start, whole
ones are held to what the log says again, and stay where that is the same, byte for byte.
"""
import os
from collections.abc import Iterable
from contextlib import ExitStack, suppress
from tempfile import SpooledTemporaryFile
from typing import BinaryIO

from .catalogue import Table
from .ending import Held, tell
from .files import PIECE, is_at, kind_at, new_file, not_written, open_file, put, write_at, writing
from .groups import Change, Groups
from .messages import Message, pieces_of
from .note import Note, groups_between, note_path
from .program import beginning
from .stop import ANEW, Stop

MOST = 2**31 - 1
KEPT_IN_MEMORY = 2**22


class FeedFile:
    """Use it with `with`, and begin it in `Held`. `note` is that of the feed that is gone on with; without one a new feed
    is made, which `over` lets take the place of an old one."""

    def __init__(self, path: str, groups: Groups, note: Note | None = None, over: bool = False) -> None:
        self.path, self.over = path, over
        self.size = note.size if note else 0
        """How many bytes the feed has with all groups, those that are kept aside among them."""
        self._groups, self._last = groups, note.last if note else 0
        self.left = ""
        """The position of the last whole group that a killed writer left behind the note's length."""
        self._own = ""
        """The file's own name, until it is put in its place."""
        self._kept = self._there = self.size
        """The file's bytes up to which it is as it is to be, and those that it has: what is between was left there."""
        self._is_sound = True
        with writing(path):
            if note:
                self._file = open_file(path, os.O_RDWR)
                self._cut_torn()
                self._aside = self._spool()
            else:
                self._file, self._own = new_file(path)
                self._aside = open(self._file, "wb", closefd=False)

    def _spool(self) -> SpooledTemporaryFile:
        folder, name = os.path.split(self.path)
        return SpooledTemporaryFile(KEPT_IN_MEMORY, dir=folder or ".", prefix=f".{name}.{os.getpid()}-", suffix=".new")

    def _cut_torn(self) -> None:
        """Cuts off what is behind the note's length and isn't a whole group."""
        length = os.fstat(self._file).st_size
        for _, self._there, self.left in groups_between(self._file, self.size, length):
            pass
        self._cut(self._there, length)

    def _cut(self, end: int, length: int) -> None:
        if end < length:
            os.ftruncate(self._file, end)
            os.fsync(self._file)
            tell(f"feed: {self.path}: {length - end} bytes that a killed writer left behind byte {end} are cut off")

    def __enter__(self) -> "FeedFile":
        return self

    def __exit__(self, *_: object) -> None:
        with Held():
            for end in (lambda: self._own and os.unlink(self._own)), self._aside.close, (lambda: os.close(self._file)):
                with suppress(OSError):
                    end()

    @property
    def is_there(self) -> bool:
        """Whether the file is in its place."""
        return self._own == ""

    @property
    def told(self) -> set[str]:
        """The tables whose columns it has."""
        return self._groups.told

    def whole(self, opened: ExitStack) -> BinaryIO:
        """A file, open, that has all groups, those that are kept aside among them."""
        with writing(self.path):
            if self.is_there and self._kept < self.size:
                self._aside.rollover()
            self._aside.flush()
            there = opened.enter_context(os.fdopen(open_file(self._own or self.path, os.O_RDONLY), "rb"))
            size = os.fstat(there.fileno()).st_size
        if self.is_there and self._kept < self.size:
            return opened.enter_context(beginning(there, self._kept, self._aside))
        return there if size == self.size else opened.enter_context(beginning(there, self.size))

    @property
    def waits(self) -> bool:
        """Whether there are groups that aren't put yet, and can be."""
        return self._is_sound and (self._kept < self.size or self._own != "")

    @property
    def is_beyond(self) -> bool:
        """Whether the feed's file goes on, as the log does, behind all groups of this writer."""
        return self._kept == self.size < self._there

    def group(self, changes: Iterable[Change], position: str, time: int = 0) -> None:
        """A transaction, or where nothing changes the position alone."""
        for message in self._groups.group(changes, position, time):
            self.message(message)

    def columns(self, tables: Iterable[Table], position: str) -> None:
        """A position, and before it the columns of tables that the feed hasn't told."""
        for message in self._groups.columns(tables, position):
            self.message(message)

    def _finds(self, message: Message, size: int) -> bool:
        at = self._kept
        if at + size > self._there:
            return False
        for piece in pieces_of(message):
            if os.pread(self._file, len(piece), at) != piece:
                return False
            at += len(piece)
        return True

    def message(self, message: Message) -> None:
        """A message, behind which a group needn't end."""
        size = len(message) if isinstance(message, bytes) else sum(map(len, message))
        if self.size + size > MOST:
            raise Stop(f"a feed of more than {MOST} bytes", f"for {self.path}", "record fewer tables, or fewer in each feed")
        self._is_sound = False
        try:
            if self._kept == self.size < self._there and self._finds(message, size):
                self._kept += size
            else:
                if size >= KEPT_IN_MEMORY and isinstance(self._aside, SpooledTemporaryFile):
                    self._aside.rollover()
                for piece in pieces_of(message):
                    self._aside.write(piece)
        except OSError as fault:
            raise not_written(self.path, fault) from None
        self._is_sound = True
        self._last, self.size = self.size, self.size + size

    def put(self, note: Note | None) -> None:
        """Puts the groups, and then the note where there is one, in their places. No signal may come between."""
        if note:
            note.size, note.last = self.size, self._last
        self._is_sound = False
        if self._own:
            self._put_new(note)
        else:
            with writing(self.path):
                self._check_mine()
                self._cut(self._kept, self._there)
                self._write_behind()
            if note:
                with writing(note_path(self.path), "the feed is whole, its note is as it was"):
                    note.write(note_path(self.path))
        self._is_sound = True

    def _put_new(self, note: Note) -> None:
        """The note is whole before the feed has its name, so that `settle` can end what is killed between."""
        with writing(self.path):
            self._aside.close()
            os.fsync(self._file)
            own_note = note.new_file(note_path(self.path))
            try:
                put(self._own, self.path, self.over)
            except BaseException:
                if not is_at(self._file, self.path):
                    os.unlink(own_note)
                raise
            self._own = ""
            put(own_note, note_path(self.path), self.over)
        self._kept = self._there = self.size
        self._aside = self._spool()

    def _check_mine(self) -> None:
        if not is_at(self._file, self.path) or os.fstat(self._file).st_size != self._there:
            raise Stop("the feed was changed by another program", f"at {self.path}", f"put back the two files of one recording, or {ANEW}")

    def _write_behind(self) -> None:
        """What was kept aside. Where it can't be written the feed ends with the last group that is whole."""
        begun = at = self._kept
        self._aside.seek(0)
        try:
            while piece := self._aside.read(PIECE):
                write_at(self._file, piece, at)
                at += len(piece)
            os.fsync(self._file)
        except OSError:
            with suppress(OSError):
                length = os.fstat(self._file).st_size
                os.ftruncate(self._file, max((end for _, end, _ in groups_between(self._file, begun, length)), default=begun))
            raise
        self._kept = self._there = self.size
        self._aside.close()
        self._aside = self._spool()


def check_free(path: str, over: bool) -> None:
    """Stops where a new feed may not be put: it takes the place of nothing, or with `over` of a feed with its note."""
    note = note_path(path)
    for one in path, note:
        with writing(one):
            kind = kind_at(one)
        if kind not in ("nothing", "a file"):
            raise Stop(kind, f"at {one}", "name a file, by no link")
        if kind == "a file" and not over:
            raise Stop("a file is there", f"at {one}", "--append goes on with a feed, --replace records one anew in its place")
        if kind == "a file":
            try:
                Note.read(note)
            except Stop:
                raise Stop("a file that is no feed of record/feed", f"at {one}", f"no note is in {note}; take it away, or name another one") from None
