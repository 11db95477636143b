"""Files that are replaced as a whole, and results that are found again."""
import glob
import hashlib
import json
import os
import re
import uuid
from collections.abc import Iterator
from contextlib import contextmanager, suppress

from .job import Job, Target


@contextmanager
def replaced(file: str) -> Iterator[str]:
    """A name beside the file, of this call alone. What stands there in the end takes the file's place; after a fault
    nothing does, and nothing stays."""
    part = f"{file}.{uuid.uuid4().hex}"
    try:
        yield part
        os.replace(part, file)
    finally:
        folder, name = os.path.split(part)
        # (what a `follow` that was killed left beside it)
        for left in (part, *glob.glob(os.path.join(glob.escape(folder), f".{glob.escape(name)}.*.new"))):
            with suppress(FileNotFoundError):
                os.remove(left)


def digest(*files: str) -> str:
    """SHA-256 over the files' bytes, each behind its length."""
    said = hashlib.sha256()
    for name in files:
        with open(name, "rb") as file:
            said.update(b"%d\n" % os.fstat(file.fileno()).st_size)
            while piece := file.read(1 << 20):
                said.update(piece)
    return said.hexdigest()


def _note(job: Job, target: Target, stream: int) -> dict[str, str | bool]:
    """What a stream's checkpoint is of, and its own bytes."""
    return {"hex": job.is_hex, "inputs": digest(target.workflow, target.feeds[stream]), "checkpoint": digest(target.stream_file(stream))}


def is_found(job: Job, target: Target, stream: int) -> bool:
    """Whether the stream's checkpoint stands in its file, whole, and is of this workflow and this feed."""
    file = target.stream_file(stream)
    try:
        with open(f"{file}.json", encoding="utf-8") as note:
            return json.load(note) == _note(job, target, stream)
    except (FileNotFoundError, ValueError):
        return False


def note_result(job: Job, target: Target, stream: int) -> None:
    """Says beside the stream's checkpoint what it is of, for `is_found`."""
    with replaced(f"{target.stream_file(stream)}.json") as part, open(part, "w", encoding="utf-8") as note:
        json.dump(_note(job, target, stream), note)


def clear(target: Target) -> None:
    """Takes away what tasks that were killed left beside their files."""
    for name in os.listdir(target.folder) if os.path.isdir(target.folder) else ():
        beside = re.sub(r"\.\d+-\d+\.new$", "", name).split(".checkpoint.")[-1].split(".dump.")[-1].removeprefix("json.")
        if len(beside) == 32 and set(beside) <= set("0123456789abcdef"):
            with suppress(FileNotFoundError):
                os.remove(os.path.join(target.folder, name))
