"""Whether all streams have applied a position: the question of a cut-over.

A position is what a feed has (`MySQL56/..`) or MariaDB's own (`0-7-10`); `S=` before it says that it is stream S's alone, as of
`vrepl run --until`. The log may be further than the feed's last group, by transactions of other tables: then the note beside the
feed says so, and a stream that has applied the feed up to there has reached what the note has.
"""
import os
import re

from recorder.moments import Moment
from recorder.note import Note, note_path
from recorder.stop import Stop

from .state import State, Stream

FOR_ONE = re.compile(r"(\d+)=(.*)", re.S)
LONGEST = 2**20


class BadPosition(Exception):
    """No position, or one of a stream that isn't there, in words."""


def wanted(texts: list[str], count: int) -> list[str]:
    """The position that each stream is to reach. `BadPosition` where a stream has none."""
    found: list[str | None] = [None] * count
    for text in texts:
        of_one = FOR_ONE.fullmatch(text)
        at, position = (int(of_one[1]), of_one[2]) if of_one else (None, text)
        if at is not None and at >= count:
            raise BadPosition(f"there is no stream {at}")
        if len(position) > LONGEST:
            raise BadPosition(f"a position of more than {LONGEST} bytes")
        for stream in range(count) if at is None else [at]:
            found[stream] = position
    if None in found:
        raise BadPosition(f"no position for stream {found.index(None)}: position=0-7-10 is for all, position=0=0-7-10 for stream 0")
    return [position or "" for position in found]


def reached(state: State, positions: list[str]) -> list[bool]:
    """Of each stream whether it has applied its position, and the database has it where there is one. `BadPosition` where one
    can't be read."""
    return [_is_reached(stream, applied or "", position) for stream, applied, position in zip(state.streams, state.applied_positions(), positions)]


def _is_reached(stream: Stream, applied: str, wanted_one: str) -> bool:
    try:
        if Moment.read(wanted_one, applied).is_reached(applied):
            return True
    except ValueError as fault:
        raise BadPosition(f"no position ({wanted_one[:200]}): {fault}") from None
    said, note = stream.said, _note(stream.feed.path)
    if not note or not said or applied != (said.get("position") or "") or said["applied"] < said["groups"] or said["bytes"] < note.size:
        return False
    behind = note.reached().text()
    return Moment.read(wanted_one, behind).is_reached(behind)


def _note(feed: str) -> Note | None:
    """What the recorder says of its feed, None where it says nothing."""
    if not os.path.exists(note_path(feed)):
        return None
    try:
        return Note.read(note_path(feed))
    except Stop:
        return None
