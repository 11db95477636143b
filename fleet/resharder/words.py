"""The command lines of the program, and what it is started with."""
import os
from collections.abc import Sequence

from .job import Job, Target

NOTHING = "/dev/null"
"""In place of the feeds that a command doesn't need: the empty position is one of every feed."""
LARGE_PAGES = "glibc.malloc.hugetlb=1:glibc.malloc.top_pad=16777216"
"""As ./vrepl sets it: programs side by side wait less for page faults."""


def environment() -> dict[str, str]:
    """With memory in the kernel's large pages, where it has them, unless the caller said otherwise (docs/OPERATE.md, 'Large pages')."""
    return {"GLIBC_TUNABLES": LARGE_PAGES, **os.environ}


def follow(job: Job, target: Target, stream: int, file: str, old: str | None = None) -> list[str]:
    """One stream of a target to its feed's end, from a checkpoint on or from the beginning; the others stay at theirs, and
    need no feed."""
    begun = ["--checkpoint", old] if old else []
    return [job.program, "follow", *_hex(job), "--only", str(stream), *begun, "--save-to", file, target.workflow, *alone(target, stream)]


def alone(target: Target, stream: int) -> list[str]:
    """A stream's feed among those that aren't read."""
    return [feed if s == stream else NOTHING for s, feed in enumerate(target.feeds)]


def check(job: Job, workflow: str, feeds: Sequence[str]) -> list[str]:
    """What is said of a workflow file and feeds, as JSON."""
    return [job.program, "check", *_hex(job), "--json", workflow, *feeds]


def tiles(job: Job, workflows: Sequence[str]) -> list[str]:
    """Whether the targets of these files have each row once."""
    return [job.program, "tiles", *workflows]


def join(job: Job, target: Target, one: str, other: str, *more: str) -> list[str]:
    """Two checkpoints of a target or more, in any order. The new one comes on standard output."""
    also = [word for file in more for word in ("--also", file)]
    return [job.program, "join", *_hex(job), *also, target.workflow, one, other, *target.feeds]


def dump(job: Job, target: Target, checkpoint: str) -> list[str]:
    """The rows of a checkpoint. The script is `dump`, on standard input."""
    return [job.program, "resume", *_hex(job), "--checkpoint", checkpoint, target.workflow, *target.feeds]


def vdiff(job: Job, target: Target, wanted: str) -> list[str]:
    return [job.program, "vdiff", target.workflow, wanted, target.dump]


def _hex(job: Job) -> list[str]:
    return ["--hex"] if job.is_hex else []
