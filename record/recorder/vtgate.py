"""A recording from VTGate: what a feed has is read, the rest is asked for and written as it comes, again and again where
the stream breaks off, until a signal ends it."""
import os
import time
from collections.abc import Iterable, Iterator
from contextlib import ExitStack, closing, suppress
from dataclasses import dataclass, replace
from itertools import chain

from .ending import Ended, Free, Held, Last, say, tell
from .files import Lock, held_path, kind_at, left_files, open_file, writing
from .growing import Growing, Told, read_messages
from .gtids import GtidSet
from .messages import framed
from .protos import Response
from .stop import Stop
from .vcall import Over, Server
from .vcopy import Copy
from .vstream import Known, Reading, Transaction, read_answer, request, transactions
from .wire import EventType

FIRST_PAUSE, MOST_PAUSE = 1.0, 60.0
"""The seconds between two calls: twice as many each time, until something comes."""


@dataclass(frozen=True)
class Wanted:
    """What is to be recorded, and where to."""

    server: Server
    keyspace: str
    shard: str
    tables: list[str]
    out: str
    behind: str = ""
    append: bool = False
    from_copy: bool = False


class Recording:
    """A feed as far as it is recorded, and where VTGate is asked to go on."""

    def __init__(self, wanted: Wanted) -> None:
        self.wanted, self.behind, self.position = wanted, wanted.behind, ""
        self.reading = Reading(wanted.keyspace, wanted.shard)
        self.feed: Growing | None = None
        self._note = Told(wanted.out, wanted.keyspace, wanted.shard, wanted.tables)

    def begin(self) -> None:
        """Stops where a new feed can't begin."""
        if self.behind not in ("", "current"):
            self._asked_position()
        self._note.check()

    def go_on(self) -> None:
        """Reads the feed that is there, and cuts off what isn't whole at its end."""
        out, has_note = self.wanted.out, self._note.check()
        end, size = read_feed(out, self.reading)
        known = self.reading.kept
        if not has_note and set(known.columns) != set(self.wanted.tables):
            raise Stop("no note beside the feed", f"at {out}.json", f"only tables of which the feed has columns can go on: {', '.join(sorted(known.columns))}")
        passed = self._asked_position() if self.wanted.behind and known.position else known.reached
        if not known.reached.is_within(passed):
            raise Stop("a position without all of the feed's", f"({known.position}), given by --behind", "leave --behind out")
        self.position, self.behind = known.position, self.wanted.behind or known.position
        if not self.behind:
            raise Stop("no position", f"in {out}", "take it away and begin anew")
        self.feed = Growing.old(out, end)
        if end < size:
            tell(f"vtgate: {out}: {size - end} bytes behind {self.position or 'nothing'} were no whole transaction, and are cut off")
        if not has_note:
            self._note.write()
        if not passed.is_within(known.reached):
            self._pass(replace(known, position=self.behind, reached=passed))

    def _pass(self, known: Known) -> None:
        """Writes a group without changes, of the position that is passed to, so that the next start goes on behind it."""
        group = Response()
        shards = group.events.add(type=EventType.VGTID).vgtid.shard_gtids
        shards.add(keyspace=self.wanted.keyspace, shard=self.wanted.shard, gtid=known.position)
        with Held():
            self.feed.append([framed(group)])
            self.position = known.position
        self.reading.begin(known)

    def _asked_position(self) -> GtidSet:
        try:
            return GtidSet.read(self.wanted.behind)
        except ValueError as fault:
            raise Stop(str(fault), "given by --behind", "a GTID set is wanted") from None

    def run(self) -> None:
        """Records until a signal comes, or a stop."""
        pause = FIRST_PAUSE
        while True:
            try:
                with closing(self._stream()) as stream:
                    for transaction in stream:
                        self._add(transaction)
                        pause = FIRST_PAUSE
            except Over as over:
                where = f"behind {self.behind}" if self.behind else "amid the copy, which begins anew then"
                if not over.is_lost:
                    raise Stop("the stream ended", where.partition(",")[0], f"{over}; {'go on with --append' if self.feed else 'record again'}") from None
                self.reading.drop()
                tell(f"vtgate: the stream broke off {where}: {over}; asked again in {pause:.0f} s")
                time.sleep(pause)
                pause = min(2 * pause, MOST_PAUSE)

    def _stream(self) -> Iterator[Transaction]:
        wanted = self.wanted
        asked = request(wanted.keyspace, wanted.shard, self.behind, wanted.tables, wanted.server.heartbeat)
        with closing(wanted.server.answers(asked)) as answers:
            yield from transactions(answers if self.behind else self._copied(answers), self.reading)

    def _copied(self, answers: Iterator[bytes]) -> Iterator[bytes]:
        """Makes the feed of a copy; answers what comes behind it."""
        with Copy(held_path(self.wanted.out), self.reading, self.wanted.tables) as copy:
            while not copy.is_completed:
                rest = copy.take(next(answers))
            self._new(copy.messages(), copy.known().position)
            self.reading.begin(copy.known())
        return chain([rest], answers)

    def _add(self, transaction: Transaction) -> None:
        if not self.feed:
            if transaction.messages:
                self._new(transaction.messages, transaction.position)
            return
        with Held():
            if transaction.messages:
                self.feed.append(transaction.messages)
            if transaction.position not in ("", self.behind):
                self.position = self.behind = transaction.position

    def _new(self, messages: Iterable[bytes], position: str) -> None:
        """Makes the feed, with messages up to this position."""
        feed = Growing.new(self.wanted.out)
        try:
            for message in messages:
                feed.write(message)
            with Held():
                self._note.write()
                feed.place()
                self.feed, self.position = feed, position
                self.behind = position or self.behind
        finally:
            if self.feed is not feed:
                feed.close()


def read_feed(path: str, reading: Reading) -> tuple[int, int]:
    """Reads a feed up to its last whole transaction; answers where that ends, and the file's size. Stops at what is no feed of
    this shard."""
    end = behind = 0
    try:
        with open(open_file(path, os.O_RDONLY), "rb") as file:
            size = os.fstat(file.fileno()).st_size
            for message, behind in read_messages(file):
                answer = read_answer(message)
                if answer.ByteSize() != len(message):
                    raise ValueError("a message that isn't spelled as record/vtgate does")
                for event in answer.events:
                    # rows were looked at before they were written
                    if event.type != EventType.ROW:
                        reading.take(event)
                if not reading.is_open:
                    reading.keep()
                    end = behind
    except OSError as fault:
        raise Stop("no feed to append to", f"at {path}", str(fault.strerror)) from None
    except ValueError as fault:
        where = f"in the message of {path} that ends at byte {behind}, behind {reading.now.position or 'nothing'}"
        raise Stop(str(fault), where, f"it is no feed of {reading.keyspace}/{reading.shard} that can grow; record anew") from None
    reading.drop()
    return end, size


def record(wanted: Wanted) -> None:
    """Records until a signal ends it, and then says what the feed has."""
    wanted.server.check()
    check_there(wanted)
    with Held(), ExitStack() as opened:
        with writing(wanted.out):
            opened.enter_context(Lock(wanted.out))
            # a signal may come when a file was just made, and nobody knows of it yet
            opened.callback(_sweep, wanted.out)
            _take_away_left(wanted.out)
        with Free():
            check_there(wanted)
            _record(wanted, Recording(wanted))


def _take_away_left(out: str) -> None:
    """Takes away the new files beside a feed, whose lock is held, that aren't in their place."""
    copy = held_path(out)
    for own in (*left_files(out), *left_files(f"{out}.json"), *([copy] if kind_at(copy) == "a file" else [])):
        os.unlink(own)


def _sweep(out: str) -> None:
    with suppress(OSError):
        _take_away_left(out)


def check_there(wanted: Wanted) -> None:
    """Stops where there is no feed to go on with, or something that a new one would be written over."""
    with writing(wanted.out):
        kind = kind_at(wanted.out)
    if wanted.append and kind != "a file":
        raise Stop("no feed to append to", f"at {wanted.out}", f"{kind} is there")
    if not wanted.append and kind != "nothing":
        raise Stop(f"{kind} is there", f"at {wanted.out}", "--append goes on with a feed; a new one needs another name")


def _record(wanted: Wanted, recording: Recording) -> None:
    try:
        recording.go_on() if wanted.append else recording.begin()
        recording.run()
    except Ended as ended:
        why = str(ended)
        with Last():
            if recording.feed:
                recording.feed.close()
        if recording.feed:
            say(f"{wanted.out}: {recording.feed.size} bytes, up to {recording.position or 'nothing'}\n")
        else:
            todo = "the feed is as it was" if wanted.append else f"no whole {'copy' if wanted.from_copy else 'transaction'} came"
            raise Stop("nothing was recorded", f"before {why}", todo) from None
    except BaseException:
        if recording.feed:
            recording.feed.close()
        raise
