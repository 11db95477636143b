"""record/feed, and others of its kind, as a process of its own that is begun in no time: a fork of the one that has its modules already.

What is done to it stands in `prepare`, which runs in the new process: limits, and system calls that fail, or
before which it is killed.
"""
import errno
import fcntl
import importlib.machinery
import importlib.util
import json
import os
import signal
import subprocess
import sys
import tempfile
import time
from collections.abc import Callable
from contextlib import suppress
from dataclasses import dataclass, field

from .server import die_with_parent

ROOT = os.path.dirname(os.path.dirname(os.path.dirname(os.path.abspath(__file__))))
PROGRAM = ""
"""The program that reads logs for record/feed where its words name none; ./vrepl otherwise."""
PATIENCE = 600
SIGNALS = [signal.SIGINT, signal.SIGTERM, signal.SIGHUP]
CHANGING = ["open", "write", "pwrite", "fsync", "ftruncate", "rename", "link", "unlink", "fchmod", "fchown"]
"""The functions of `os` by which the recorder changes files; `flock` is one more. What a killed one leaves is told by how many it has called."""
CALLS = [*CHANGING, "close", "read", "pread", "stat", "fstat", "listdir"]
"""All by which it reaches files."""


@dataclass
class Done:
    """How a command ended: its status, or the number of the signal that ended it below zero."""

    status: int
    out: str
    err: str

    def why_not_stopped(self, text: str = "") -> str | None:
        """Nothing if it ended with status 1 and one line that has the text in it."""
        is_line = self.err.partition(": ")[0] in ("feed", "compare", "compact") and self.err.count("\n") == 1 and self.err.isprintable() is False and self.err[:-1].isprintable()
        return None if self.status == 1 and is_line and text in self.err and "itself" not in self.err else f"{self}, and not {text!r}"


class Command:
    """record/feed with these words, running; or another command of that folder."""

    def __init__(self, *words: str, prepare: Callable[[], None] = lambda: None, name: str = "feed") -> None:
        pipes = [os.pipe() for _ in range(2)]
        # one that comes before the command listens to it waits
        signal.pthread_sigmask(signal.SIG_BLOCK, SIGNALS)
        self.pid = os.fork()
        if self.pid == 0:
            status = 70
            try:
                die_with_parent()
                for at, (_, end) in enumerate(pipes, 1):
                    os.dup2(end, at)
                sys.stdout, sys.stderr = (open(at, "w", 1, encoding="utf-8", closefd=False) for at in (1, 2))
                status = _run(name, words, prepare)
                sys.stdout.flush()
            finally:
                os._exit(status)

        signal.pthread_sigmask(signal.SIG_UNBLOCK, SIGNALS)
        for _, end in pipes:
            os.close(end)
        self._pipes, self._said = [begin for begin, _ in pipes], [b"", b""]
        for begin in self._pipes:
            os.set_blocking(begin, False)

    def kill(self, number: int = signal.SIGKILL) -> None:
        os.kill(self.pid, number)

    def _hear(self) -> None:
        for at, begin in enumerate(self._pipes):
            with suppress(BlockingIOError):
                while piece := os.read(begin, 2**16):
                    self._said[at] += piece

    def has_said(self, text: str, times: int = 1) -> bool:
        """Whether it has printed this to standard error so far, and how often."""
        self._hear()
        return self._said[1].count(text.encode()) >= times

    def has_ended(self) -> bool:
        """Whether it has ended, or is stopped; `wait` still answers how."""
        flags = os.WEXITED | os.WSTOPPED | os.WNOHANG | os.WNOWAIT
        return os.waitid(os.P_PID, self.pid, flags) is not None

    def wait(self) -> Done:
        _, status = os.waitpid(self.pid, 0)
        self._hear()
        for begin in self._pipes:
            os.close(begin)
        return Done(os.waitstatus_to_exitcode(status), *(said.decode() for said in self._said))

    def awaits(self, what: Callable[[], bool], name: str) -> float:
        """Waits until something is so beside it; answers the seconds. RuntimeError where it isn't to be, or it ends before."""
        begun = time.monotonic()
        while not what():
            if self.has_ended():
                raise RuntimeError(f"{name}: {self.wait()}")
            if time.monotonic() - begun > PATIENCE:
                raise RuntimeError(f"{name}: not within {PATIENCE} seconds")
            time.sleep(0.005)
        return time.monotonic() - begun


_COMMANDS = {}


def _run(name: str, words: tuple[str, ...], prepare: Callable[[], None]) -> int:
    from recorder import ending

    module = command(name)
    way = ["--program", PROGRAM] if name == "feed" and PROGRAM and "--program" not in words else []
    sys.argv = [f"record/{name}", *way, *words]
    for number in SIGNALS:
        signal.signal(number, signal.default_int_handler)
    ending._SIGNALS = ending._Signals()

    def main() -> int:
        signal.pthread_sigmask(signal.SIG_UNBLOCK, SIGNALS)
        return module.main()

    prepare()
    return ending.run(name, main)


def command(name: str = "feed"):
    """The module that a command is. What it reads when it runs is read here, once for all."""
    if name not in _COMMANDS:
        loader = importlib.machinery.SourceFileLoader(name, os.path.join(ROOT, "record", name))
        _COMMANDS[name] = importlib.util.module_from_spec(importlib.util.spec_from_loader(name, loader))
        loader.exec_module(_COMMANDS[name])
        import argparse  # noqa: F401
        import gettext  # noqa: F401

        import recorder.behind  # noqa: F401
        import recorder.compacting  # noqa: F401
        import recorder.comparing  # noqa: F401
        import recorder.forever  # noqa: F401
        import recorder.logins  # noqa: F401
        import recorder.protos  # noqa: F401
    return _COMMANDS[name]


def run(*words: str, prepare: Callable[[], None] = lambda: None, name: str = "feed") -> Done:
    return Command(*words, prepare=prepare, name=name).wait()


@dataclass
class At:
    """Something that is done at one system call, counted from 1, of these."""

    number: int
    does: Callable[[Callable, tuple, dict], object]
    seen: int = 0
    file: int | None = None
    """Where the count is written to at each call, if it is wanted."""
    calls: list[str] = field(default_factory=lambda: CHANGING)

    def __call__(self) -> None:
        for name in self.calls:
            setattr(os, name, self._watched(getattr(os, name)))
        fcntl.flock = self._watched(fcntl.flock)

    def _watched(self, call: Callable) -> Callable:
        def watched(*words, **named):
            self.seen += 1
            if self.file is not None:
                _PWRITE(self.file, b"%8d" % self.seen, 0)
            return self.does(call, words, named) if self.seen == self.number else call(*words, **named)

        return watched


_PWRITE, _KILL, _WRITE = os.pwrite, os.kill, os.write


SPAWNED = """import os, sys
nowhere = [(os.POSIX_SPAWN_OPEN, 1, os.devnull, os.O_WRONLY, 0)]
_, status, used = os.wait4(os.posix_spawn(sys.argv[1], sys.argv[1:], os.environ, file_actions=nowhere), 0)
print(status, used.ru_maxrss * 1024, used.ru_utime + used.ru_stime)"""


def used_by(*words: str, **told: str) -> tuple[int, float]:
    """The most memory of a command in bytes, and the processor's seconds that it takes. It is begun by a process that has little
    memory itself: one is said to have had what the one had that began it. RuntimeError where it fails."""
    done = subprocess.run([sys.executable, "-S", "-c", SPAWNED, *words], capture_output=True, text=True, env=os.environ | told, timeout=PATIENCE)
    status, memory, seconds = done.stdout.split()
    if status != "0":
        raise RuntimeError(f"{words[0]}: {done.stderr}")
    return int(memory), float(seconds)


def calls_of(calls: list[str], *words: str, name: str = "feed") -> int:
    """How many of these system calls a command makes."""
    with tempfile.TemporaryFile() as file:
        done = run(*words, prepare=At(0, lambda *_: None, file=file.fileno(), calls=calls), name=name)
        if done.status:
            raise RuntimeError(f"{words}: {done}")
        file.seek(0)
        return int(file.read())


def killed(call: Callable, words: tuple, named: dict) -> None:
    """The process is killed before it; before a write's second half, where it is one."""
    if call.__name__ in ("write", "pwrite"):
        call(words[0], words[1][:len(words[1]) // 2], *words[2:], **named)
    _KILL(os.getpid(), signal.SIGKILL)


def ended(call: Callable, words: tuple, named: dict) -> object:
    """A signal comes before it."""
    _KILL(os.getpid(), signal.SIGTERM)
    return call(*words, **named)


def failing(number: int) -> Callable:
    """It answers a fault; a write does so when its half is done."""

    def fails(call: Callable, words: tuple, named: dict) -> None:
        if call.__name__ in ("write", "pwrite"):
            call(words[0], words[1][:len(words[1]) // 2], *words[2:], **named)
        raise OSError(number, os.strerror(number))

    return fails


FAULTS = {name: failing(getattr(errno, name)) for name in ("ENOSPC", "EIO")}


def spread(items: list, judge: Callable[[object], str | None]) -> list[str]:
    """Why some of the items aren't right, judged by as many processes as there are processors."""
    count, begun = max(2, os.cpu_count() or 1), []
    for at in range(count):
        begin, end = os.pipe()
        pid = os.fork()
        if pid == 0:
            why = ["the judge failed"]
            try:
                die_with_parent()
                why = [f"{item}: {found}" for item in items[at::count] if (found := judge(item))]
            except BaseException as fault:  # noqa: BLE001
                why = [f"{fault!r}"]
            finally:
                _WRITE(end, json.dumps(why)[:60000].encode())
                os._exit(0)
        os.close(end)
        begun.append((pid, begin))
    faults = []
    for pid, begin in begun:
        with open(begin, "rb") as pipe:
            said = pipe.read()
        os.waitpid(pid, 0)
        faults += json.loads(said) if said else ["a judge was killed"]
    return faults
