"""A session as a process that is asked, and who follows it by what it tells."""
import json
import os
import re
import resource
import select
import signal
import subprocess
import time

from record.server import die_with_parent

ROOT = os.path.dirname(os.path.dirname(os.path.dirname(os.path.abspath(__file__))))
PAGE = os.path.join(ROOT, "docs/LIVE.md")
PATIENCE = int(os.environ.get("LIVE_PATIENCE", "120"))
"""The seconds that an answer may take: a machine that is busy otherwise isn't a fault."""


def longest_request() -> int:
    """The bytes that a request may have, its LF among them, as the page says it."""
    with open(PAGE, encoding="utf-8") as file:
        return int(re.search(r"A request is a line of at most ([\d,]+) bytes", file.read())[1].replace(",", ""))


def canonical(said: object) -> bytes:
    """An answer as the page wants it: one line, without blanks, members by their names."""
    return json.dumps(said, ensure_ascii=False, separators=(",", ":"), sort_keys=True).encode() + b"\n"


class Ended(Exception):
    """The session has ended, or doesn't answer."""


class Session:
    """Use it with `with`: it is killed behind that, if it hasn't ended. Answers that aren't as the page wants them are in `odd`."""

    def __init__(self, live: str, *words: str, pace: tuple[str, ...] = (), memory: int | None = None) -> None:
        def begin() -> None:
            die_with_parent()
            # (so that a limit of a file's size is an error of a write)
            signal.signal(signal.SIGXFSZ, signal.SIG_IGN)
            if memory:
                resource.setrlimit(resource.RLIMIT_AS, (memory, resource.RLIM_INFINITY))

        pipe = subprocess.PIPE
        self.process = subprocess.Popen([live, "live", *pace, *words], stdin=pipe, stdout=pipe, stderr=pipe, preexec_fn=begin)
        self.odd: list[bytes] = []
        self._come = b""

    def send(self, data: bytes) -> None:
        self.process.stdin.write(data)
        self.process.stdin.flush()

    def line(self, patience: float = PATIENCE) -> bytes:
        """The next line of its output; nothing where that has ended."""
        last, parts = time.monotonic() + patience, [self._come]
        while b"\n" not in parts[-1]:
            if not select.select([self.process.stdout], [], [], max(0.0, last - time.monotonic()))[0]:
                raise Ended(f"no answer within {patience} seconds")
            if not (piece := os.read(self.process.stdout.fileno(), 2**20)):
                self._come = b""
                return b"".join(parts)
            parts.append(piece)
        line, _, self._come = b"".join(parts).partition(b"\n")
        return line + b"\n"

    def answer(self) -> dict:
        """The next answer: `ok` or `refused`, and nothing else."""
        line = self.line()
        if not line.endswith(b"\n"):
            raise Ended(f"it ended: {line!r} {self.process.stderr.read(2000)!r}")
        said = json.loads(line)
        if not isinstance(said, dict) or len(said) != 1 or not isinstance(next(iter(said.values())), dict) or not {*said} <= {"ok", "refused"}:
            raise Ended(f"no answer: {line[:300]!r}")
        if canonical(said) != line:
            self.odd.append(line[:300])
        return said

    def ask(self, *words: str | bytes) -> dict:
        self.send(b"\t".join(word.encode() if isinstance(word, str) else word for word in words) + b"\n")
        return self.answer()

    def ok(self, *words: str | bytes) -> dict:
        """What a request is answered that isn't refused."""
        said = self.ask(*words)
        if "ok" not in said:
            raise Ended(f"{words!r:.200}: {said}")
        return said["ok"]

    def refused(self, *words: str | bytes) -> int | None:
        """The number that a request is refused for, with words beside it."""
        said = self.ask(*words).get("refused")
        return said["number"] if said and isinstance(said["words"], str) and said["words"] else None

    def end(self) -> tuple[int, bytes]:
        """The status behind `end`, and what it says otherwise."""
        if self.ok("end") != {}:
            return -1, b"an answer to `end` with members"
        return self.ended()

    def ended(self) -> tuple[int, bytes]:
        """The status with which it ends by itself, and what else it says."""
        said, told = self.process.communicate(timeout=PATIENCE)
        return self.process.returncode, said + told

    def kill(self) -> None:
        if self.process.poll() is None:
            self.process.kill()
        self.process.wait()

    def __enter__(self) -> "Session":
        return self

    def __exit__(self, *_: object) -> None:
        self.kill()
        for stream in (self.process.stdin, self.process.stdout, self.process.stderr):
            try:
                stream.close()
            except OSError:
                pass


def opening(live: str, *words: str) -> tuple[int, bytes, bytes]:
    """The status, output and error of a session whose input has ended already."""
    ran = subprocess.run([live, "live", *words], stdin=subprocess.DEVNULL, capture_output=True, timeout=PATIENCE)
    return ran.returncode, ran.stdout, ran.stderr


class Follower:
    """Who applies what `changes` tells to the rows that were told before."""

    def __init__(self) -> None:
        self.rows: dict[tuple[str, tuple[str, ...]], tuple[int, tuple[str, ...]]] = {}
        self.faults: list[str] = []

    def take(self, changes: list[dict]) -> None:
        keys = [(it["table"], tuple(it["key"])) for it in changes]
        if len(set(keys)) < len(keys):
            self.faults.append(f"a key twice: {keys}")
        for at, it in zip(keys, changes):
            if (it["row"] is None) != (it["stream"] is None):
                self.faults.append(f"a row without a stream: {it}")
            if it["row"] is None:
                self.rows.pop(at, None)
            else:
                self.rows[at] = it["stream"], tuple(it["row"])

    def of_table(self, table: str) -> dict[tuple[str, ...], tuple[int, tuple[str, ...]]]:
        return {key: there for (name, key), there in self.rows.items() if name == table}


def pages(session: Session, table: str, limit: int = 10_000) -> list[dict]:
    """All rows of a table, page by page."""
    found, words = [], []
    while True:
        said = session.ok("rows", table, str(limit), *words)
        found += said["rows"]
        if said["next"] is None:
            return found
        if not said["rows"] or len(said["rows"]) > limit:
            raise Ended(f"a page of {len(said['rows'])} rows, and {said['next']} behind it")
        words = [",".join(said["next"])]


def append(path: str, data: bytes) -> None:
    with open(path, "ab") as file:
        file.write(data)
