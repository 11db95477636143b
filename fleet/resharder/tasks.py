"""What a worker does: one stream of a target, and a target's streams joined."""
import os
import re
import shutil
import subprocess
import time
from dataclasses import dataclass, field

from . import words
from .files import is_found, note_result, replaced
from .job import Job, Target
from .refusals import said_of
from .rules import source_rows
from .stop import Refused, Stop

TIED = ["setpriv", "--pdeathsig", "KILL", "--"]
"""The program ends with the process that began it: no second one beside the task's next run."""
FOUND, MOVED = "found", "moved on"


@dataclass(frozen=True)
class Done:
    """What came of a task: its seconds, and of a target what `vdiff` printed where it found a difference."""

    seconds: float
    how: str = ""
    """How a stream's checkpoint came to be, where it wasn't made from the feed's beginning."""
    tables: dict[str, int] = field(default_factory=dict)
    """By table the rows of the target, or of the source."""
    difference: str = ""


def fill(job: Job, target: Target, stream: int) -> Done:
    """Runs a stream to its feed's end, unless its checkpoint is there: from the checkpoint on that is there of less of the feed,
    else from the beginning. Refused with the program's line."""
    begun = time.monotonic()
    try:
        os.makedirs(target.folder, exist_ok=True)
        how = FOUND if is_found(job, target, stream) else ""
        if not how:
            with replaced(target.stream_file(stream)) as part:
                how = _follow(job, target, stream, part)
            note_result(job, target, stream)
    except OSError as fault:
        raise Refused(f"{fault.filename or target.folder}: {fault.strerror}") from None
    return Done(time.monotonic() - begun, how)


def _follow(job: Job, target: Target, stream: int, part: str) -> str:
    """Makes the checkpoint of a stream at its feed's end; answers how."""
    old, look = target.stream_file(stream), words.check(job, target.workflow, words.alone(target, stream))
    if os.path.exists(old):
        try:
            _run(words.follow(job, target, stream, part, old), look=look)
        except Refused as refused:
            # the program finds that it is no state of this feed under this workflow
            if not re.match(r"refused 11[678]\b", str(refused)):
                raise
            _run(words.follow(job, target, stream, part), look=look)
            return f"filled anew, since the old checkpoint is {refused}"
        return MOVED
    _run(words.follow(job, target, stream, part), look=look)
    return ""


def join(job: Job, target: Target, *_filled: Done) -> Done:
    """Joins the checkpoints of all streams, and prints the target's rows; then compares these where a dump is wanted."""
    begun = time.monotonic()
    files = [target.stream_file(stream) for stream in range(len(target.feeds))]
    try:
        with replaced(target.checkpoint) as part:
            if len(files) == 1:
                shutil.copyfile(files[0], part)
            else:
                _run(words.join(job, target, *files), part)
        with replaced(target.dump) as part:
            _run(words.dump(job, target, target.checkpoint), part, b"dump\n")
        tables = _counted(target.dump)
        told = _run(words.vdiff(job, target, target.wanted), may_be=(0, 3)) if target.wanted else ""
    except OSError as fault:
        raise Refused(f"{fault.filename or target.folder}: {fault.strerror}") from None
    return Done(time.monotonic() - begun, tables=tables, difference=told)


def count(job: Job, shard: str) -> Done:
    """Counts the rows that a source's feed leaves. Refused with the program's line."""
    begun = time.monotonic()
    try:
        tables = source_rows(job, shard)
    except Stop as stop:
        raise Refused(str(stop).removeprefix(f"source {shard}: ")) from None
    except OSError as fault:
        raise Refused(f"{fault.filename}: {fault.strerror}") from None
    return Done(time.monotonic() - begun, tables=tables)


def _counted(dump: str) -> dict[str, int]:
    """By table the rows of a dump."""
    tables, name = {}, ""
    with open(dump, "rb") as file:
        for line in file:
            if line.startswith(b"table "):
                name = line[6:-1].decode(errors="surrogateescape")
                tables[name] = 0
            else:
                tables[name] += 1
    return tables


def _run(command: list[str], out: str | None = None, stdin: bytes = b"", may_be: tuple[int, ...] = (0,), look: list[str] | None = None) -> str:
    """Runs the program, its output into a file where one is named. Answers what it printed at the status 3. Refused by
    another status, with its line, what that means, and its place if it has one (`look`)."""
    with open(out or os.devnull, "wb") as file:
        ran = subprocess.run([*TIED, *command], input=stdin, stdout=file if out else subprocess.PIPE, stderr=subprocess.PIPE, check=False, env=words.environment())
        if out:
            os.fsync(file.fileno())
    if ran.returncode not in may_be:
        raise Refused(said_of(command, ran.stderr.decode(errors="replace"), ran.returncode, look))
    return ran.stdout.decode() if ran.returncode else ""
