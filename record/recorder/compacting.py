"""A feed without its past: what the program's `compact` makes of it takes its place, and with it a note that is of it.

Of the groups that the note tells of the first ones are replaced; what stands behind stays byte for byte, also what a killed
writer left behind the note's length. The new note is whole beside the old one before the new feed takes its name, so
whoever has the lock next ends what a killed compaction began (`settle`).
"""
import filecmp
import json
import os
from contextlib import ExitStack, suppress
from dataclasses import dataclass, replace
from typing import BinaryIO

from .ending import Ended, Held, Last
from .files import PIECE, is_at, new_file, open_file, put, write_at, writing
from .locks import Borrowed, check_there, locked
from .note import Note, check_end, groups_between, is_of, last_message, note_path
from .program import Program, beginning, name_of
from .stop import Stop

NO_FEED = "no feed to compact"


@dataclass(frozen=True)
class Asked:
    """What is to be compacted, and how far."""

    workflow: str
    feed: str
    program: Program
    checkpoints: tuple[str, ...] = ()
    """Those that are to go on."""
    at: str = ""
    """The position up to which at most; the note's unless given."""
    drops: bool = False
    """Whether rows of tables that the workflow lacks are left out."""
    patience: float = 90
    """The seconds in which a recording that goes on for ever has to lend the feed."""


@dataclass(frozen=True)
class Compacted:
    """What came of it: the feed's bytes before and now, and the position of its first group."""

    before: int
    size: int
    position: str


def compact(asked: Asked) -> Compacted:
    """Puts a compacted feed and its note in their places. Stops, and leaves what is there as it is, where the program
    refuses to make one."""
    try:
        with locked(asked.feed, lambda: _check_there(asked), Borrowed(asked.feed, asked.patience)), ExitStack() as opened:
            return _Compaction(asked, opened).run()
    except Ended as ended:
        raise Stop(f"ended by {ended}", "", f"{asked.feed} is as it was") from None


def _check_there(asked: Asked) -> None:
    check_there(asked.feed, NO_FEED, "name a feed of record/feed")


class _Compaction:
    """A feed that is compacted, open, and its lock held. What is opened is closed with `opened`."""

    def __init__(self, asked: Asked, opened: ExitStack) -> None:
        self._asked, self._note = asked, Note.read(note_path(asked.feed))
        check_end(asked.feed, self._note)
        self._own = ""
        with Held(), writing(asked.feed):
            self._old = opened.enter_context(os.fdopen(open_file(asked.feed, os.O_RDONLY), "rb"))
            new, self._own = new_file(asked.feed)
            self._new = opened.enter_context(os.fdopen(new, "r+b"))
            opened.callback(self._take_away)
        self._there = os.fstat(self._old.fileno()).st_size
        self._whole = max((end for _, end, _ in groups_between(self._old.fileno(), self._note.size, self._there)), default=self._note.size)
        """Where the last whole group ends."""

    def _take_away(self) -> None:
        if self._own:
            with suppress(OSError):
                os.unlink(self._own)

    def run(self) -> Compacted:
        asked, file = self._asked, self._new.fileno()
        self._make()
        note = replace(self._note, size=os.fstat(file).st_size - (self._whole - self._note.size))
        note.last = last_message(file, note.size) if note.size > 0 else -1
        if not is_of(file, note):
            raise Stop("a feed that would have no group of its note's position", f"({note.position})", "--at is a position that the note has")
        with writing(asked.feed):
            self._write_rest()
            os.fsync(file)
        size = os.fstat(file).st_size
        _, _, position = next(groups_between(file, 0, size))
        if size != self._there or not filecmp.cmp(self._own, asked.feed, shallow=False):
            self._put(note)
        return Compacted(self._there, size, position)

    def _make(self) -> None:
        """Has the program write the new feed: of the whole groups, up to the note's position at most."""
        asked = self._asked
        words = ["compact", "--stream", str(_stream_of(asked.workflow, self._note.shard)), "--at", asked.at or self._note.position]
        words += [word for file in asked.checkpoints for word in ("--checkpoint", file)] + ["--drop-unknown"] * asked.drops
        if not self._note.position:
            raise Stop(NO_FEED, f"in {asked.feed}", "it has no group")
        if self._whole == self._there:
            self._answer(words, self._old)
        else:
            with beginning(self._old, self._whole) as pipe:
                self._answer(words, pipe)

    def _answer(self, words: list[str], feed: BinaryIO) -> None:
        self._asked.program.answer(self._asked.feed, *words, self._asked.workflow, name_of(feed), files=(feed,), out=self._new)

    def _write_rest(self) -> None:
        """What stands behind the last whole group."""
        self._old.seek(self._whole)
        at = os.fstat(self._new.fileno()).st_size
        while piece := self._old.read(PIECE):
            write_at(self._new.fileno(), piece, at)
            at += len(piece)

    def _put(self, note: Note) -> None:
        """Puts both in their places; a signal that comes meanwhile or later is too late."""
        feed = self._asked.feed
        with Last(), writing(feed):
            own_note = note.new_file(note_path(feed))
            if not is_at(self._old.fileno(), feed) or os.fstat(self._old.fileno()).st_size != self._there:
                os.unlink(own_note)
                raise Stop("the feed was changed by another program", f"at {feed}", "let one program write it")
            put(self._own, feed, over=True)
            self._own = ""
            put(own_note, note_path(feed), over=True)


def _stream_of(workflow: str, shard: str) -> int:
    """The stream of a workflow file whose source is a shard."""
    try:
        with open(workflow, encoding="utf-8") as file:
            shards = [stream["shard"] for stream in json.load(file)["streams"]]
    except (OSError, ValueError, KeyError, TypeError, RecursionError) as fault:
        raise Stop("no workflow file", f"at {workflow}", str(fault)) from None
    if shard not in shards:
        raise Stop(f"no stream of shard {shard}, of which the feed is,", f"in {workflow}", f"it has {', '.join(map(str, shards)) or 'none'}")
    return shards.index(shard)
