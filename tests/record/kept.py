"""Feeds that nobody can lose: one writer a feed, and recordings that are killed, ended or refused a system call at each
moment. What a feed had stays, and the next append makes of it, byte for byte, what it would have been."""
import fcntl
import json
import os
import random
import re
import resource
import shutil
import signal
from collections.abc import Callable, Iterator
from contextlib import contextmanager

from . import commands
from .commands import At, Command, Done

TABLES = ["kept.t", "kept.u"]


def read_file(path: str) -> bytes:
    with open(path, "rb") as file:
        return file.read()


def write_file(path: str, data: bytes) -> None:
    with open(path, "wb") as file:
        file.write(data)


def groups(feed: bytes) -> list[tuple[int, str, bytes]]:
    """Where each whole group of a feed ends, its position, and its messages; of a last one that is cut short nothing."""
    from recorder.messages import EventType, Response, frames

    found, begun = [], None
    try:
        for start, end in frames(feed):
            events = Response.FromString(feed[start:end]).events
            begun = start if begun is None else begun
            for position in [event.gtid for event in events if event.type == EventType.GTID]:
                found.append((end, position, feed[begun:end]))
                begun = None
    except ValueError:
        pass
    return found


def whole(feed: bytes) -> bytes:
    """A feed's whole groups."""
    return feed[:groups(feed)[-1][0]] if groups(feed) else b""


class Place:
    """A folder with a feed, its note and what else was left there."""

    def __init__(self, trial, name: str) -> None:
        self.folder = trial.path(name)
        os.mkdir(self.folder)
        self.feed = os.path.join(self.folder, "a.feed")
        self.words = ["--socket", trial.server.socket, "--user", "root", "--shard", "-", "--out", self.feed, *TABLES]

    def run(self, *words: str, prepare: Callable[[], None] = lambda: None) -> Done:
        return commands.run(*words, *self.words, prepare=prepare)

    def copy(self, trial, name: str) -> "Place":
        made = Place(trial, name)
        shutil.copytree(self.folder, made.folder, dirs_exist_ok=True)
        return made

    def data(self) -> bytes:
        return read_file(self.feed) if os.path.exists(self.feed) else b""

    def copies(self) -> list[str]:
        return [os.path.join(f"{self.feed}.logs", name) for name in os.listdir(f"{self.feed}.logs")]

    def left(self) -> list[str]:
        """Files that no recording leaves that ends by itself."""
        return [name for name in os.listdir(self.folder) if name not in ("a.feed", "a.feed.json", "a.feed.lock") and not name.endswith(".feed.logs")]

    def __enter__(self) -> "Place":
        return self

    def __exit__(self, *_: object) -> None:
        shutil.rmtree(self.folder)


@contextmanager
def two_states(trial) -> Iterator[tuple[Place, Place]]:
    """A feed, and the same feed behind some more transactions: two of recorded tables, and then one of another."""
    trial.server.sql("CREATE DATABASE kept; USE kept; CREATE TABLE t (id INT PRIMARY KEY, v VARCHAR(50)); CREATE TABLE u (id INT PRIMARY KEY);"
                     " CREATE TABLE other (id INT PRIMARY KEY); INSERT INTO t VALUES (1, 'a'); UPDATE t SET v='b'; ")  # fmt: skip
    with Place(trial, "first") as first:
        first.run("--from-snapshot")
        trial.server.sql("INSERT INTO kept.t VALUES (2, 'c'); INSERT INTO kept.u VALUES (1), (2); INSERT INTO kept.other VALUES (1); ")
        with first.copy(trial, "second") as second:
            done = second.run("--append")
            fine = done.status == 0 and second.data().startswith(first.data()) and len(groups(second.data())) == len(groups(first.data())) + 3
            trial.check("kept, two states", None if fine else f"{done}")
            yield first, second
    trial.server.sql("DROP DATABASE kept")


def kept(trial) -> None:
    commands.command()
    with two_states(trial) as (first, second):
        for step in synced, one_writer, left_tails, interrupted_appends, interrupted_beginnings, limited:
            step(trial, first, second)


def why_not_resumed(place: Place, first: Place, second: Place, seen: bytes) -> str | None:
    """What an interrupted append left, and what the next one makes of it."""
    data = place.data()
    if not data.startswith(first.data()) or not second.data().startswith(data):
        return f"{len(data)} bytes are left that aren't those of the feed"
    if not data.startswith(seen):
        return "groups that were there are gone"
    done = place.run("--append")
    if done.status or place.data() != second.data() or place.left():
        return f"{done}, {len(place.data())} bytes and not {len(second.data())}, {place.left()} left"
    notes = [json.loads(read_file(one.feed + ".json")) for one in (place, second)]
    return None if notes[0] == notes[1] else f"another note: {notes[0]}"


def synced(trial, first: Place, second: Place) -> None:
    """In this order: the log's copy is synced, the groups are written and synced, the note is written aside, synced, put in its place, and its folder
    synced. So no power cut leaves a note of what isn't there."""
    with first.copy(trial, "synced") as place:
        log = os.path.join(trial.server.folder, "calls")
        done = place.run("--append", prepare=Logged(log))
        calls = [tuple(line.split()) for line in read_file(log).decode().splitlines()]
        made = re.compile(re.escape(f".a.feed.json.{calls[0][0]}-") + "[0-9]+[.]new")
        named = [(call, "folder" if path == place.folder else made.sub("made", os.path.basename(path))) for _, call, path in calls]
        wanted = [("pwrite", "binlog.000001"), ("fsync", "binlog.000001"), ("pwrite", "a.feed"), ("fsync", "a.feed"), ("pwrite", "made"), ("fsync", "made"), ("rename", "made"), ("fsync", "folder")]
        trial.check("kept, synced", None if done.status == 0 and named == wanted else f"{done}, {named}")
        os.unlink(log)


class Logged:
    """Writes down which files are written, synced and renamed, one call a line: the process, the call and the file."""

    def __init__(self, path: str) -> None:
        self.path = path

    def __call__(self) -> None:
        self.file = os.open(self.path, os.O_WRONLY | os.O_CREAT | os.O_APPEND, 0o600)
        write = os.write
        for name in "pwrite", "fsync", "ftruncate", "rename":
            setattr(os, name, self._logged(getattr(os, name), write))

    def _logged(self, call: Callable, write: Callable) -> Callable:
        def logged(*words: object) -> object:
            path = os.readlink(f"/proc/self/fd/{words[0]}") if isinstance(words[0], int) else words[0]
            write(self.file, f"{os.getpid()} {call.__name__} {path}\n".encode())
            return call(*words)

        return logged


INTERRUPTIONS = {"killed": commands.killed, "ended": commands.ended, **commands.FAULTS}


def interrupted_appends(trial, first: Place, second: Place) -> None:
    """An append that is killed at each system call that changes files, ended by a signal there, or refused it; and refused
    each call that reaches files."""
    for calls, names in (commands.CHANGING, ["killed", "ended", "ENOSPC"]), (commands.CALLS, ["EIO"]):
        with first.copy(trial, "counted") as place:
            count = commands.calls_of(calls, "--append", *place.words)
        with first.copy(trial, "last") as place:
            place.run("--append", prepare=At(count, commands.killed, calls=calls))
            trial.check("kept, calls of an append", None if count > 12 and place.data() == second.data() else f"{count}")
        for name in names:
            judge = lambda number, calls=calls, name=name: why_not_kept(trial, first, second, name, At(number, INTERRUPTIONS[name], calls=calls))  # noqa: E731
            faults = commands.spread(list(range(1, count + 1)), judge)
            trial.check(f"kept, an append {name}", f"{len(faults)} of {count} calls: {faults[0]}" if faults else None)


def why_not_kept(trial, first: Place, second: Place, name: str, at: At) -> str | None:
    with first.copy(trial, f"append-{at.number}") as place:
        done = place.run("--append", prepare=at)
        seen = whole(place.data())
        if "killed" not in name and (place.left() or place.data() != seen):
            return f"{done}, {place.left()} left, or a group that isn't whole"
        return why_wrong(name, done) or why_not_resumed(place, first, second, seen)


def why_wrong(name: str, done: Done) -> str | None:
    if name.startswith("killed"):
        return None if done.status == -signal.SIGKILL else f"{done}"
    return None if done.status == 0 and not done.err else done.why_not_stopped("ended by SIGTERM" if name == "ended" else "")


def interrupted_beginnings(trial, first: Place, second: Place) -> None:
    """A recording that begins a feed, where none is and where an old one is to be replaced, interrupted in the same ways:
    the feed is the old one or the new one, with its note, and an append goes on with it."""
    with first.copy(trial, "anew") as anew:
        done = anew.run("--replace", "--from-snapshot")
        new = anew.data()
        trial.check("kept, a feed anew", None if not done.status and not new.startswith(first.data()) else f"{done}")
    for begun in ["--from-snapshot"], ["--from-snapshot", "--replace"]:
        with begun_in(trial, first, begun, "counted") as place:
            calls = commands.calls_of(commands.CHANGING, *begun, *place.words)
        for name in "killed", "ended", "ENOSPC":
            faults = commands.spread(list(range(1, calls + 1)), lambda number, name=name, begun=begun: why_lost(trial, first, second, new, begun, name, number))
            trial.check(f"kept, {' '.join(begun)} {name}", f"{len(faults)} of {calls} calls: {faults[0]}" if faults else None)


def begun_in(trial, first: Place, begun: list[str], name: str) -> Place:
    return first.copy(trial, name) if "--replace" in begun else Place(trial, name)


def why_lost(trial, first: Place, second: Place, new: bytes, begun: list[str], name: str, number: int) -> str | None:
    with begun_in(trial, first, begun, f"begun-{number}") as place:
        old = place.data()
        done = place.run(*begun, prepare=At(number, INTERRUPTIONS[name]))
        if name == "ended" and (place.left() or not old and not place.data() and set(os.listdir(place.folder)) - {"a.feed.logs"}):
            return f"{os.listdir(place.folder)} left"
        if place.data() not in (old, new):
            return f"{len(place.data())} bytes that are neither feed"
        return why_wrong(name, done) or why_not_begun(place, begun, old, new, second)


def why_not_begun(place: Place, begun: list[str], old: bytes, new: bytes, second: Place) -> str | None:
    """What an interrupted beginning left is gone on with, or begun again where nothing is."""
    was = place.data()
    done = place.run("--append" if was else begun[0])
    if done.status or place.left() or place.data() != (new if was != old or not old else second.data()):
        return f"{done}, {len(place.data())} bytes, {place.left()} left"
    return None


def left_tails(trial, first: Place, second: Place) -> None:
    """What a killed writer left behind the note's length: each beginning of the right groups, and bytes that are no groups.
    What is cut off is told."""
    old, new = first.data(), second.data()
    ends = {end for end, _, _ in groups(new)}
    cuts = sorted({*range(len(old), len(new), 11), *(end + more for end in ends for more in (-1, 0, 1) if len(old) < end + more <= len(new))})
    tails = {f"{cut} bytes": new[:cut] for cut in cuts} | {
        "zeros": old + bytes(4096), "noise": old + random.Random(1).randbytes(500), "another group": old + old[:groups(old)[0][0]],
        "a group more": new + old[:groups(old)[0][0]], "one altered byte": new[:-60] + b"?" + new[-59:]}  # fmt: skip

    def why(name: str) -> str | None:
        with first.copy(trial, f"tail {name}") as place:
            write_file(place.feed, tails[name])
            done = place.run("--append")
            is_right = new.startswith(tails[name]) and len(tails[name]) in {len(old), *ends}
            fine = done.status == 0 and place.data() == new and done.err.count("\n") == (not is_right)
            return None if fine else f"{done}, {len(place.data())} bytes"

    faults = commands.spread(list(tails), why)
    trial.check("kept, tails", f"{len(faults)} of {len(tails)}: {faults[0]}" if faults else None)


def one_writer(trial, first: Place, second: Place) -> None:
    """One that holds the lock, stopped at each system call, lets no other write; of many at once all but one are refused."""
    with first.copy(trial, "locked") as place, open(place.feed + ".lock", "rb") as lock:
        fcntl.flock(lock, fcntl.LOCK_EX)
        for words in ["--append"], ["--replace"], ["--append", "--forever"]:
            trial.check(f"kept, locked {words}", place.run(*words).why_not_stopped("another recording writes this feed at "))
        trial.check("kept, locked", None if place.data() == first.data() and not place.left() else "the feed was changed")
    with first.copy(trial, "counted") as place:
        calls = commands.calls_of(commands.CHANGING, "--append", *place.words)
    faults = commands.spread(list(range(1, calls + 1)), lambda number: why_two_wrote(trial, first, second, number))
    trial.check("kept, stopped", f"{len(faults)} of {calls} calls: {faults[0]}" if faults else None)
    for _ in range(3):
        with first.copy(trial, "many") as place:
            many = [Command("--append", *place.words) for _ in range(8)]
            ends = [one.wait() for one in many]
            wrong = [done for done in ends if done.status and done.why_not_stopped("another recording writes this feed at ")]
            fine = not wrong and any(done.status == 0 for done in ends) and place.data() == second.data() and not place.left()
            trial.check("kept, eight at once", None if fine else f"{wrong or ends}")


def stopped(call: Callable, words: tuple, named: dict) -> object:
    os.kill(os.getpid(), signal.SIGSTOP)
    return call(*words, **named)


def why_two_wrote(trial, first: Place, second: Place, number: int) -> str | None:
    """One append that is stopped at a system call while another one is tried."""
    with first.copy(trial, f"stopped-{number}") as place:
        one = Command("--append", *place.words, prepare=At(number, stopped))
        os.waitpid(one.pid, os.WUNTRACED)
        other = place.run("--append")
        one.kill(signal.SIGCONT)
        ends = one.wait(), other, place.run("--append")
        refused = [done for done in ends if done.status]
        wrong = [done for done in refused if done.why_not_stopped("another recording writes this feed at ")]
        return None if not wrong and len(refused) < 2 and place.data() == second.data() and not place.left() else f"{ends}"


def limited(trial, first: Place, second: Place) -> None:
    """Under each limit of a file's size a recording ends with one line, and nothing but whole groups is left."""

    def why(limit: int) -> str | None:
        with first.copy(trial, f"limited-{limit}") as place:
            done = place.run("--append", prepare=lambda: resource.setrlimit(resource.RLIMIT_FSIZE, (limit, limit)))
            if place.left() or place.data() != whole(place.data()) or (limit < least) != done.status:
                return f"{done}, {place.left()} left, or a group that isn't whole"
            return why_wrong("", done) or why_not_resumed(place, first, second, whole(place.data()))

    size = len(second.data())
    least = max(size, os.path.getsize(second.feed + ".json"), *map(os.path.getsize, second.copies()))
    faults = commands.spread([*range(0, 1200, 60), *range(len(first.data()), size, 11)], why)
    trial.check("kept, limits of a file", faults[0] if faults else None)
    with Place(trial, "limited") as place:
        done = place.run("--from-snapshot", prepare=lambda: resource.setrlimit(resource.RLIMIT_FSIZE, (100, 100)))
        left = os.listdir(place.folder)
        trial.check("kept, a limit of a new file", done.why_not_stopped("File too large") or (f"{left} left" if left else None))
