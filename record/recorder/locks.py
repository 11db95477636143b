"""One writer a feed. A recording that goes on for ever lends the feed's lock to a compaction that asks for it.

Who lends it and who asks for it hold a byte each of the lock's file (an open file's own lock, which no flock meets): it is gone
with the process, however that ends, and nothing is left of it.
"""
import fcntl
import os
import struct
import time
from collections.abc import Callable, Iterator
from contextlib import ExitStack, contextmanager, suppress

from .ending import Free, Held
from .files import Lock, kind_at, left_files, writing
from .note import Note, note_path, settle
from .stop import ANEW, Stop

LENT, ASKED = 0, 1
"""The bytes of the lock's file that they hold."""
PAUSE = 0.02
MOST_PAUSE = 10
"""The seconds in which a lock that was lent has to be free once nobody asks for it any more."""
_FORM = "hhqqi4x"


def _said(byte: int) -> bytes:
    return struct.pack(_FORM, fcntl.F_WRLCK, os.SEEK_SET, byte, 1, 0)


def _hold(file: int, byte: int) -> None:
    """BlockingIOError where another one holds it."""
    fcntl.fcntl(file, fcntl.F_OFD_SETLK, _said(byte))


def _is_held(file: int, byte: int) -> bool:
    """Whether another one holds it; none does where the file system has no such locks."""
    try:
        return struct.unpack(_FORM, fcntl.fcntl(file, fcntl.F_OFD_GETLK, _said(byte)))[0] != fcntl.F_UNLCK
    except OSError:
        return False


class Lent(Lock):
    """One that is given up where it `is_asked` for. `is_back` where it was lent, and is waited for."""

    def __init__(self, path: str, is_back: bool = False) -> None:
        super().__init__(path)
        self._is_back, self._last = is_back, 0.0

    def _lock(self) -> None:
        if self._is_back:
            # (before it is back, so that who asks at that moment sees that it is lent)
            self._lend()
            self._last = time.monotonic() + MOST_PAUSE
            while not self._comes_back():
                with Free():
                    time.sleep(PAUSE)
        else:
            super()._lock()
            self._lend()

    def _lend(self) -> None:
        with suppress(OSError):
            _hold(self._file, LENT)

    def _comes_back(self) -> bool:
        """Whether it is back, and taken."""
        if self.is_asked():
            self._last = time.monotonic() + MOST_PAUSE
            return False
        try:
            super()._lock()
        except BlockingIOError:
            if time.monotonic() > self._last:
                raise
            return False
        return True

    def is_asked(self) -> bool:
        return _is_held(self._file, ASKED)


class Borrowed(Lock):
    """One that is asked for, and waited for so many seconds, where who has it lends it."""

    def __init__(self, path: str, patience: float) -> None:
        super().__init__(path)
        self._patience = patience

    def _lock(self) -> None:
        try:
            super()._lock()
        except BlockingIOError:
            if not _is_held(self._file, LENT):
                raise
            _hold(self._file, ASKED)
            self._await()

    def _await(self) -> None:
        last = time.monotonic() + self._patience
        while True:
            try:
                return super()._lock()
            except BlockingIOError:
                if time.monotonic() > last:
                    raise
            with Free():
                time.sleep(PAUSE)


@contextmanager
def locked(feed: str, check: Callable[[], None], lock: Lock | None = None) -> Iterator[None]:
    """Holds a feed's lock; new files that a killed writer left are gone. Stops where `check` does, which looks what is there
    before anything is touched, and once more under the lock."""
    check()
    with Held(), ExitStack() as opened:
        opened.enter_context(lock or Lock(feed))
        # a signal may come when a file was just made, and nobody knows of it yet
        opened.callback(_settle, feed)
        with writing(feed):
            settle(feed)
        with Free():
            check()
            yield


def _settle(feed: str) -> None:
    with suppress(OSError):
        settle(feed)


def check_there(feed: str, what: str = "no feed to append to", todo: str = ANEW) -> None:
    """Stops where no feed with its note is."""
    note = note_path(feed)
    with writing(feed):
        kind = kind_at(feed)
        if kind != "a file":
            raise Stop(what, f"at {feed}", f"{kind} is there; {todo if kind == 'nothing' else 'name a file, by no link'}")
        if kind_at(note) == "nothing" and not left_files(note):
            Note.read(note)
