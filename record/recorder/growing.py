"""A feed that grows in place by what comes: whole transactions behind its end, synced, and where that end is."""
import json
import os
from collections.abc import Iterator
from contextlib import suppress
from threading import Event, Thread
from typing import BinaryIO

from .ending import Held
from .files import is_at, new_file, open_file, put, read_file, write_at, writing
from .messages import MOST_OF_FEED
from .stop import Stop

MOST_SHIFT = 63
"""By how many bits the last byte of a length may be moved."""


class Growing:
    """A feed's file, open, and where its last whole transaction ends. What is written is synced by a thread of its own, as soon
    as the disk has what came before."""

    def __init__(self, path: str, file: int, size: int) -> None:
        self.path, self.size, self._file, self._own = path, size, file, ""
        self._fault: OSError | None = None
        self._is_over, self._has_more = False, Event()
        self._thread = Thread(target=self._sync, daemon=True)
        self._thread.start()

    @classmethod
    def new(cls, path: str) -> "Growing":
        """One that isn't there yet, under a name of its own until `place`."""
        with Held(), writing(path):
            file, own = new_file(path)
            feed = cls(path, file, 0)
            feed._own = own
        return feed

    @classmethod
    def old(cls, path: str, size: int) -> "Growing":
        """One that is there; what stands behind these bytes is cut off."""
        with Held(), writing(path):
            file = open_file(path, os.O_RDWR)
            if os.fstat(file).st_size != size:
                os.ftruncate(file, size)
                os.fsync(file)
        return cls(path, file, size)

    def write(self, message: bytes) -> None:
        """Writes a message, behind which the feed may or may not end."""
        with writing(self.path):
            self._write([message])

    def place(self) -> None:
        """Syncs what is written, and puts the file in its place, where there is none."""
        with Held(), writing(self.path):
            os.fsync(self._file)
            put(self._own, self.path, over=False)
            self._own = ""

    def append(self, messages: list[bytes]) -> None:
        """Writes messages with which a feed may end. What can't be written is taken back."""
        with Held(), writing(self.path):
            if not is_at(self._file, self.path) or os.fstat(self._file).st_size != self.size:
                raise Stop("the feed was changed by another program", f"at {self.path}", "let one program write it")
            try:
                self._write(messages)
            except BaseException:
                with suppress(OSError):
                    os.ftruncate(self._file, self.size)
                raise
            self._has_more.set()

    def _write(self, messages: list[bytes]) -> None:
        if self._fault:
            raise self._fault
        end = self.size
        if end + sum(map(len, messages)) > MOST_OF_FEED:
            raise Stop(f"a feed of more than {MOST_OF_FEED} bytes", f"for {self.path}", "record fewer tables, or fewer in each feed")
        for message in messages:
            write_at(self._file, message, end)
            end += len(message)
        self.size = end

    def _sync(self) -> None:
        while not self._is_over:
            self._has_more.wait()
            self._has_more.clear()
            try:
                os.fsync(self._file)
            except OSError as fault:
                # the system tells it once, and the bytes may be lost
                self._fault = fault
                return

    def close(self) -> None:
        """Syncs what is written, and closes the file; one that isn't in its place is taken away."""
        with Held(), writing(self.path):
            self._is_over = True
            self._has_more.set()
            self._thread.join()
            os.close(self._file)
            if self._own:
                os.unlink(self._own)
            elif self._fault:
                raise self._fault


def read_messages(file: BinaryIO) -> Iterator[tuple[bytes, int]]:
    """Each message of a feed without its length, and the byte behind it. Ends before one that is cut short, and before
    zeros alone, which a file may have in place of what it lost. ValueError where no length stands."""
    end, most = 0, os.fstat(file.fileno()).st_size
    while end < most:
        start, length, shift = end, 0, 0
        while one := file.read(1):
            end += 1
            length |= (one[0] & 0x7F) << shift
            if one[0] < 0x80:
                break
            shift += 7
            if shift > MOST_SHIFT:
                raise ValueError(f"no length of a message at byte {start}")
        if not one or end + length > most or not length and _has_zeros_alone(file):
            return
        yield file.read(length), end + length
        end += length


def _has_zeros_alone(file: BinaryIO) -> bool:
    """Whether nothing else stands from here to the file's end. The place in the file stays."""
    here = file.tell()
    try:
        return not any(data.strip(b"\0") for data in iter(lambda: file.read(1 << 20), b""))
    finally:
        file.seek(here)


class Told:
    """The note beside a feed, FEED.json: of which tables it has all that VTGate sends, which a feed itself doesn't say."""

    def __init__(self, feed: str, keyspace: str, shard: str, tables: list[str]) -> None:
        self._path = f"{feed}.json"
        self._said = {"keyspace": keyspace, "shard": shard, "tables": sorted(tables)}

    def check(self) -> bool:
        """Whether the note is there. Stops where it says something else."""
        try:
            there = json.loads(read_file(self._path))
        except FileNotFoundError:
            return False
        except (OSError, ValueError, RecursionError) as fault:
            raise Stop("no note", f"in {self._path}", str(getattr(fault, "strerror", None) or fault)) from None
        if there != self._said:
            raise Stop("a note of another recording", f"in {self._path}", f"it says {json.dumps(there)}, and asked was {json.dumps(self._said)}")
        return True

    def write(self) -> None:
        with writing(self._path), Held():
            file, own = new_file(self._path)
            try:
                write_at(file, (json.dumps(self._said, indent=1) + "\n").encode(), 0)
                os.fsync(file)
                put(own, self._path, over=True)
            except BaseException:
                with suppress(OSError):
                    os.unlink(own)
                raise
            finally:
                os.close(file)
