"""How far a job is: a line that is drawn anew on a terminal, and a line a minute in a file."""
import os
import shutil
import threading
import time
from contextlib import suppress
from typing import TextIO

from .job import Job

DRAWN, WRITTEN = 1.0, 60.0
"""The seconds between two lines on a terminal, and in a file."""
UNITS = ("bytes", "kB", "MB", "GB")


def sizes(job: Job) -> dict[str, int]:
    """By task the bytes of the feeds that it reads, and one: what a task is of all that there is to do."""
    found = {}
    for target in job.targets:
        of_streams = [_size(feed) for feed in target.feeds]
        found |= {f"{target.name} stream {stream}": 1 + size for stream, size in enumerate(of_streams)}
        found[f"{target.name} join"] = 1 + sum(of_streams)
    return found | {f"source {shard}": 1 + _size(job.feeds[shard]) for shard in ([] if job.is_partial else job.shards)}


def _size(feed: str) -> int:
    with suppress(OSError):
        return os.path.getsize(feed)
    return 0


class Progress:
    """Use it with `with`: it draws until that is left. Of a job that is quiet it says nothing."""

    def __init__(self, of_tasks: dict[str, int], out: TextIO, is_quiet: bool, pause: float | None = None) -> None:
        self._sizes, self._out, self._is_quiet, self.is_drawn = of_tasks, out, is_quiet, not is_quiet and out.isatty()
        self._pause = pause or (DRAWN if self.is_drawn else WRITTEN)
        self._begun, self._done, self._tasks, self._rows = time.monotonic(), 0, 0, 0
        self._lock, self._over = threading.Lock(), threading.Event()
        self._drawing = threading.Thread(target=self._draw, daemon=True)

    def __enter__(self) -> "Progress":
        if not self._is_quiet:
            self._drawing.start()
        return self

    def __exit__(self, *how: object) -> None:
        self._over.set()
        if not self._is_quiet:
            self._drawing.join()
            self._put("\r\x1b[K" if self.is_drawn else "")

    def ended(self, name: str, rows: int, line: str = "") -> None:
        """Counts a task that has ended, with the rows that it told; its line stands in a file."""
        with self._lock:
            self._done, self._tasks, self._rows = self._done + self._sizes[name], self._tasks + 1, self._rows + rows
            if line and not self._is_quiet and not self.is_drawn:
                self._put(f"{line}\n")

    def line(self) -> str:
        """How far all is, as of now."""
        gone, whole = time.monotonic() - self._begun, sum(self._sizes.values())
        said = [f"{100 * self._done // max(1, whole)} % of {_bytes(whole)}", f"{self._tasks} of {len(self._sizes)} tasks"]
        said += [f"{self._rows / gone:.0f} rows a second"] if self._rows and gone else []
        said += [f"{_clock(gone)} gone"] + ([f"{_clock(gone * (whole - self._done) / self._done)} to come"] if self._done else [])
        return ", ".join(said)

    def _draw(self) -> None:
        while not self._over.wait(self._pause):
            with self._lock:
                is_drawn, line = self.is_drawn, self.line()
                self._put(f"\r{line[:shutil.get_terminal_size().columns - 1]}\x1b[K" if is_drawn else f"{time.strftime('%H:%M:%S')} {line}\n")

    def _put(self, text: str) -> None:
        self._out.write(text)
        self._out.flush()


def _bytes(count: int) -> str:
    size, at = float(count), 0
    while size >= 1000 and at + 1 < len(UNITS):
        size, at = size / 1000, at + 1
    return f"{size:.0f} {UNITS[at]}" if size >= 10 or not at else f"{size:.1f} {UNITS[at]}"


def _clock(seconds: float) -> str:
    minutes, rest = divmod(round(seconds), 60)
    return f"{minutes // 60}:{minutes % 60:02}:{rest:02}" if minutes >= 60 else f"{minutes}:{rest:02}"
