"""What a transaction changes, in memory or in a file."""
from collections.abc import Iterator
from tempfile import TemporaryFile

from recorder.catalogue import Table
from recorder.events import Bytes
from recorder.files import writing
from recorder.groups import Change
from recorder.messages import Stored

RUN, KEPT_IN_MEMORY = 2**16, 2**22
"""The bytes behind which changes of one table are no longer put together, and those of a transaction above which they go to a file."""


class Changes:
    """What a transaction changes. Where that is much it lies in a file in this folder, which has no name."""

    __slots__ = ("_folder", "_file", "_done", "_table", "_run", "_run_size", "_size", "_aside")

    def __init__(self, folder: str) -> None:
        self._folder, self._file = folder, None
        self._done: list[Change] = []
        self._table, self._run, self._run_size, self._size, self._aside = None, [], 0, 0, 0

    def add(self, table: Table, data: bytes) -> None:
        if table is not self._table:
            if self._run:
                self.mark()
            self._table = table
        self._run.append(data)
        self._run_size += len(data)
        if self._run_size >= RUN:
            self.mark()

    def add_parts(self, table: Table, parts: list[Bytes]) -> None:
        """The same of a row change, of which no part is kept."""
        size = sum(map(len, parts))
        if size < RUN:
            return self.add(table, b"".join(parts))
        self.mark()
        with writing(self._folder):
            self._done.append(Change(table, self._stored(parts, size)))

    def mark(self) -> int:
        """How many changes there are, to which `cut` goes back."""
        if self._run:
            self._keep(self._table, self._joined())
            self._table, self._run, self._run_size = None, [], 0
        return len(self._done)

    def _joined(self) -> bytes:
        return self._run[0] if len(self._run) == 1 else b"".join(self._run)

    def _keep(self, table: Table, data: bytes) -> None:
        self._done.append(Change(table, data))
        self._size += len(data)
        if self._size > KEPT_IN_MEMORY:
            with writing(self._folder):
                self._put_aside()

    def _put_aside(self) -> None:
        """What is in memory goes to the file."""
        for at in range(self._aside, len(self._done)):
            table, data = self._done[at]
            if isinstance(data, bytes):
                self._done[at] = Change(table, self._stored([data], len(data)))
        self._aside = len(self._done)

    def _stored(self, parts: list[Bytes], size: int) -> Stored:
        if not self._file:
            self._file = TemporaryFile(dir=self._folder)
        at = self._file.seek(0, 2)
        for part in parts:
            self._file.write(part)
        return Stored(self._file, at, size)

    def cut(self, count: int) -> None:
        self.mark()
        del self._done[count:]
        self._aside = min(self._aside, count)

    @property
    def tables(self) -> set[tuple[str, str]]:
        """Those that have changes."""
        self.mark()
        return {change[0].full for change in self._done}

    def __bool__(self) -> bool:
        return bool(self._run or self._done)

    def __iter__(self) -> Iterator[Change]:
        self.mark()
        return iter(self._done)

    def close(self) -> None:
        """Lets go of all of it."""
        self._done, self._run = [], []
        if self._file:
            self._file.close()
