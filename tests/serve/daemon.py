"""serve/target as a process, and what it answers."""
import json
import os
import signal
import subprocess
import time
from collections.abc import Callable
from urllib.error import HTTPError
from urllib.parse import quote, urlencode
from urllib.request import Request, urlopen

from record.server import die_with_parent

ROOT = os.path.dirname(os.path.dirname(os.path.dirname(os.path.abspath(__file__))))
PATIENCE = int(os.environ.get("SERVE_PATIENCE", "120"))
"""The seconds that anything may take: a machine that is busy otherwise isn't a fault."""
QUICK = {**os.environ, "PYTHONDONTWRITEBYTECODE": "1"}


def awaits(what: Callable[[], object], name: str, seconds: float = PATIENCE) -> float:
    """Waits until something is so; answers the seconds. RuntimeError where it isn't to be."""
    begun = time.monotonic()
    while not what():
        if time.monotonic() - begun > seconds:
            raise RuntimeError(f"{name}: not within {seconds} seconds")
        time.sleep(0.02)
    return time.monotonic() - begun


class Answer:
    def __init__(self, status: int, headers, body: bytes) -> None:
        self.status, self.headers, self.body = status, headers, body

    def json(self) -> dict:
        return json.loads(self.body)


class Target:
    """Use it with `with`: it is killed behind that, if it hasn't ended."""

    def __init__(self, program: str, checkpoint: str, workflow: str, feeds: list[str], *words: str, told: dict[str, str] | None = None, place: str | None = None) -> None:
        self._words = [os.path.join(ROOT, "serve/target"), "--program", program, "--checkpoint", checkpoint, "--listen", "127.0.0.1:0", *words, workflow, *feeds]
        self._told, self._place = {**QUICK, **(told or {})}, place
        self.process: subprocess.Popen | None = None
        self._read: int | None = None
        self.address, self.lines, self.headers = "", "", {}

    def __enter__(self) -> "Target":
        self.begin()
        return self

    def begin(self) -> None:
        """Begins it, and waits for the line that says where it answers."""
        self.lines = ""
        read, write = os.pipe()
        self.process = subprocess.Popen(self._words, stdin=subprocess.DEVNULL, stdout=subprocess.DEVNULL, stderr=write, preexec_fn=die_with_parent, env=self._told,
                                        cwd=self._place)  # fmt: skip
        os.close(write)
        os.set_blocking(read, False)
        if self._read is not None:
            os.close(self._read)
        self._read = read
        awaits(lambda: "http://" in self.said() or self.process.poll() is not None, "an address")
        self.address = next((word for line in self.lines.splitlines()[::-1] for word in line.split() if word.startswith("http://")), "")

    def said(self) -> str:
        """All that it has said on standard error."""
        try:
            while piece := os.read(self._read, 2**16):
                self.lines += piece.decode()
        except BlockingIOError:
            pass
        return self.lines

    def get(self, path: str, headers: dict[str, str] | None = None, **query: object) -> Answer:
        words = urlencode(query, doseq=True)
        asked = Request(self.address.rstrip("/") + path + ("?" + words if words else ""), headers={**self.headers, **(headers or {})})
        try:
            with urlopen(asked, timeout=PATIENCE) as answer:
                return Answer(answer.status, answer.headers, answer.read())
        except HTTPError as fault:
            with fault:
                return Answer(fault.code, fault.headers, fault.read())

    def state(self) -> dict:
        return self.get("/state").json()

    def rows(self, table: str, **query: object) -> dict:
        return self.get("/rows/" + quote(table, safe=""), **query).json()

    def is_well(self) -> bool:
        return self.get("/healthz").status == 200

    def awaits_well(self) -> "Target":
        awaits(self.is_well, "a target that is well")
        return self

    def has_all(self) -> bool:
        """Whether all is applied that the feeds have."""
        state = self.state()
        return state["healthy"] and all(one["phase"] == "Running" and not one["behind"]["bytes"] and one["size"] == os.path.getsize(one["feed"]) for one in state["streams"])

    def has_all_rows(self, streams: int) -> bool:
        """Whether all streams have applied what they have read, and are copied."""
        said = self.state()["streams"]
        return len(said) == streams and all(one["phase"] == "Running" and one["applied"] == one["groups"] > 0 for one in said)

    def program_number(self) -> int:
        return self.state()["program"]["pid"]

    def end(self, number: int = signal.SIGTERM) -> int:
        """The status with which it ends."""
        self.process.send_signal(number)
        status = self.process.wait(timeout=PATIENCE)
        self.said()
        return status

    def kill(self) -> None:
        self.end(signal.SIGKILL)

    def __exit__(self, *_: object) -> None:
        if self.process and self.process.poll() is None:
            self.process.kill()
            self.process.wait()
