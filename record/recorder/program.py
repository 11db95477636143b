"""The program: where it is, and what it answers."""
import json
import os
import re
import signal
import subprocess
from collections.abc import Iterator
from contextlib import ExitStack, contextmanager
from dataclasses import dataclass
from typing import BinaryIO

from .stop import Refused

OWN = os.path.join(os.path.dirname(os.path.abspath(__file__)), "..", "..", "vrepl")
"""The one of this repository."""
LARGE_PAGES = "glibc.malloc.hugetlb=1:glibc.malloc.top_pad=16777216"
"""As ./vrepl sets it, for a program that is named (docs/OPERATE.md, 'Large pages')."""
NUMBER = re.compile(r"refused (\d+)\b")
DIFFERS = 3
"""The status of `vdiff` where the dumps differ, and of `check` where it warns of something."""


@dataclass(frozen=True)
class Program:
    path: str = OWN

    def answer(self, who: str, *words: str, files: tuple[BinaryIO, ...] = (), out: BinaryIO | None = None) -> tuple[int, str]:
        """The status, 0 or 3, and what is printed, unless that goes `out`. The words may name open files, by `name_of`. Stops
        with what it refuses."""
        numbers = tuple(file.fileno() for file in files)
        told = {"GLIBC_TUNABLES": LARGE_PAGES, **os.environ}
        try:
            done = subprocess.run([self.path, *words], stdin=subprocess.DEVNULL, stdout=out or subprocess.PIPE, stderr=subprocess.PIPE, pass_fds=numbers, env=told)
        except OSError as fault:
            raise Refused("no program", f"at {self.path}", f"{fault.strerror}; --program names another", None) from None
        if done.returncode not in (0, DIFFERS):
            told = _plain(done.stderr.decode(errors="replace")).split("\n")
            # (before it may stand how far the command was)
            at = next((at for at, line in enumerate(told) if line.startswith("refused ")), 0)
            number = NUMBER.match(told[at])
            raise Refused(who, "", "; ".join(told[at:at + 2]).rstrip("; ") or _ended(done.returncode), int(number[1]) if number else None)
        return done.returncode, "" if out else done.stdout.decode(errors="replace")


def name_of(file: BinaryIO) -> str:
    """The name by which a program that is passed an open file reads it from its beginning."""
    return f"/dev/fd/{file.fileno()}"


def _plain(told: str) -> str:
    """A refusal of JSON as the lines in its place, anything else as it is."""
    if not told.startswith("{"):
        return told
    said = json.loads(told)
    words = "".join(f" {word} {value}" for word, value in said["details"].items())
    return "\n".join([f"refused {said['refused']}{words}", *([f"place {said['place']}"] if said["place"] else [])])


def _ended(status: int) -> str:
    """How a program ended that said nothing."""
    return f"the program ended by {signal.Signals(-status).name}" if status < 0 else f"status {status}"


@contextmanager
def beginning(file: BinaryIO, size: int, behind: BinaryIO | None = None) -> Iterator[BinaryIO]:
    """A pipe that has so many bytes of an open file, from its beginning on, and all of another one behind them."""
    file.seek(0)
    with ExitStack() as begun:
        def piped(words: list[str], stdin: BinaryIO, *passed: int) -> BinaryIO:
            made = begun.enter_context(subprocess.Popen(words, stdin=stdin, stdout=subprocess.PIPE, stderr=subprocess.DEVNULL, pass_fds=passed))
            begun.callback(made.kill)
            begun.callback(made.stdout.close)
            return made.stdout

        pipe = piped(["head", "-c", str(size)], file)
        yield piped(["cat", "-", name_of(behind)], pipe, behind.fileno()) if behind else pipe
