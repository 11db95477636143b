"""record/compact: a feed and its note cut together, killed, ended and refused a system call at each moment, beside recordings that go
on for ever and clients that write. What was recorded goes on behind the base as it went on without one."""
import fcntl
import json
import os
import random
import resource
import signal
import time

from . import commands
from .commands import At, Command, Done
from .comparing import clients, compare, counts, creation, is_same, tables_of
from .kept import INTERRUPTIONS, TABLES, Place, groups, read_file, two_states, why_wrong, write_file
from .load import SCHEMAS, SHARDS

KILLS = int(os.environ.get("COMPACT_KILLS", "14"))
NOBODY = 65534
TAKEN = "another recording writes this feed at "


def compacting(trial) -> None:
    commands.command("compact")
    with two_states(trial) as (first, second):
        case = Case(trial, first, second)
        for step in case.plainly, case.ahead, case.by_hand, case.interrupted, case.locked, case.refused, case.limited:
            step()
    lent(trial)


def compact(*words: str, **how) -> Done:
    return commands.run(*words, name="compact", **how)


class Case:
    """A feed, the same feed behind some more transactions, and what the program makes of the first."""

    def __init__(self, trial, first: Place, second: Place) -> None:
        self.trial, self.first, self.second = trial, first, second
        self.workflow = trial.workflow("compacting.json", ["-"], TABLES)
        self.base = trial.made(trial.program, "compact", self.workflow, first.feed)
        self.rest = second.data()[len(first.data()):]
        self.rows = self.run(second)

    def run(self, place: Place) -> bytes:
        return self.trial.made(self.trial.program, "run", self.workflow, place.feed)

    def compact(self, place: Place, *words: str, **how) -> Done:
        return compact("--program", self.trial.program, *words, self.workflow, place.feed, **how)

    def plainly(self) -> None:
        """The feed is what the program makes of it, the note is of it, and an append goes on behind it."""
        trial, (first, second) = self.trial, (self.first, self.second)
        with first.copy(trial, "plainly") as place:
            done, note = self.compact(place), json.loads(read_file(place.feed + ".json"))
            old, inode = json.loads(read_file(first.feed + ".json")), os.stat(place.feed).st_ino
            fine = done == Done(0, f"{place.feed}: {len(first.data())} bytes to {len(self.base)}, from {groups(self.base)[0][1][8:]} on\n", "")
            same = {**note, "size": 0, "last": 0} == {**old, "size": 0, "last": 0} and note["size"] == len(self.base)
            trial.check("compacted", None if fine and same and place.data() == self.base and not place.left() else f"{done}, {note}")
            again = self.compact(place)
            trial.check("compacted again", None if again.status == 0 and place.data() == self.base and os.stat(place.feed).st_ino == inode else f"{again}")
            done = place.run("--append")
            fine = done.status == 0 and not done.err and place.data() == self.base + self.rest and self.run(place) == self.rows
            trial.check("compacted and appended", None if fine else f"{done}, {len(place.data())} bytes")
            saved = os.path.join(place.folder, "saved")
            trial.made(trial.program, "follow", "--save-to", saved, self.workflow, first.feed)
            done = self.compact(place, "--checkpoint", saved)
            trial.check("compacted to a checkpoint", None if done.status == 0 and place.data() == self.base + self.rest else f"{done}")
            done = self.compact(place)
            fine = done.status == 0 and len(groups(place.data())) == 1 and self.run(place) == self.rows
            trial.check("compacted on", None if fine and self.compact(place, "--checkpoint", saved).why_not_stopped("refused 118") is None else f"{done}")

    def ahead(self) -> None:
        """What a killed recording left behind the note's length stays as it is."""

        def why(cut: int) -> str | None:
            with self.first.copy(self.trial, f"ahead-{cut}") as place:
                write_file(place.feed, self.first.data() + self.rest[:cut])
                done, data = self.compact(place), place.data()
                again = place.run("--append")
                fine = done.status == again.status == 0 and data == self.base + self.rest[:cut] and place.data() == self.base + self.rest and not place.left()
                return None if fine else f"{done}, {again}, {len(data)} and {len(place.data())} bytes"

        cuts = [*range(0, len(self.rest), 37), len(self.rest)]
        faults = commands.spread(cuts, why)
        self.trial.check("compacted ahead of its note", f"{len(faults)} of {len(cuts)}: {faults[0]}" if faults else None)

    def by_hand(self) -> None:
        """A feed that the program compacted alone is gone on with, if it is the note's: of its tables, up to its position."""
        for cut in 0, 5, len(self.rest):
            with self.first.copy(self.trial, "by-hand") as place:
                write_file(place.feed, self.base + self.rest[:cut])
                done = place.run("--append")
                fine = done.status == 0 and place.data() == self.base + self.rest
                self.trial.check(f"compacted by hand, {cut} bytes ahead", None if fine else f"{done}, {len(place.data())} bytes")
        all_rows = self.trial.made(self.trial.program, "compact", self.workflow, self.second.feed)
        others = {"behind its note": all_rows, "in part": self.base[:-1], "with another column": self.base.replace(b"\x0a\x02id", b"\x0a\x02ix", 1)}
        for name, data in others.items():
            with self.first.copy(self.trial, "by-hand") as place:
                write_file(place.feed, data)
                for done in place.run("--append"), self.compact(place):
                    self.trial.check(f"compacted by hand, {name}", done.why_not_stopped("a feed that isn't the one of its note in ") or ("changed" if place.data() != data else None))

    def interrupted(self) -> None:
        """Killed or ended before each system call that changes files, or refused it: the feed and its note are the old ones or the new
        ones for the next recording."""
        for calls, names in (commands.CHANGING, ["killed", "ended", "ENOSPC"]), (commands.CALLS, ["EIO"]):
            with self.first.copy(self.trial, "called") as place:
                count = commands.calls_of(calls, "--program", self.trial.program, self.workflow, place.feed, name="compact")
            for name in names:
                judge = lambda number, calls=calls, name=name: self._why_parted(name, At(number, INTERRUPTIONS[name], calls=calls))  # noqa: E731
                faults = commands.spread(list(range(1, count + 1)), judge)
                self.trial.check(f"compacted, {name}", f"{len(faults)} of {count} calls: {faults[0]}" if faults else None if count > 12 else f"{count} calls")

    def _why_parted(self, name: str, at: At) -> str | None:
        with self.first.copy(self.trial, f"parted-{at.number}") as place:
            done, data = self.compact(place, prepare=at), place.data()
            if data not in (self.first.data(), self.base):
                return f"{done}, {len(data)} bytes that are neither feed"
            if name != "killed" and place.left():
                return f"{done}, {place.left()} left"
            again = place.run("--append")
            fine = again.status == 0 and not again.err and place.data() == data + self.rest and self.run(place) == self.rows and not place.left()
            return why_wrong(name, done) or (None if fine else f"{done}, then {again}, {len(place.data())} bytes, {place.left()} left")

    def locked(self) -> None:
        """One writer a feed: a compaction is refused beside a recording, and a recording beside a compaction; a recording by --forever
        that doesn't answer is waited for as long as was asked."""
        with self.first.copy(self.trial, "locked") as place:
            with open(place.feed + ".lock", "rb") as lock:
                fcntl.flock(lock, fcntl.LOCK_EX)
                self.trial.check("compacted, locked", self.compact(place).why_not_stopped(TAKEN))
            one = Command("--program", self.trial.program, self.workflow, place.feed, name="compact", prepare=At(4, _stopped))
            os.waitpid(one.pid, os.WUNTRACED)
            ends = [place.run("--append"), place.run("--append", "--forever"), self.compact(place)]
            self.trial.check("compacted beside others", next((why for done in ends if (why := done.why_not_stopped(TAKEN))), None))
            one.kill(signal.SIGCONT)
            done = one.wait()
            self.trial.check("compacted, stopped", None if done.status == 0 and place.data() == self.base and not place.left() else f"{done}")
            one = Command("--append", "--forever", *place.words)
            one.awaits(lambda: one.has_said("going on"), "forever")
            one.kill(signal.SIGSTOP)
            begun, done = time.monotonic(), self.compact(place, "--patience", "0.3")
            self.trial.check("compacted, no answer", done.why_not_stopped(TAKEN) or (None if time.monotonic() - begun >= 0.3 else "it didn't wait"))
            waits = Command("--program", self.trial.program, self.workflow, place.feed, name="compact")
            waits.awaits(lambda: _asks(place.feed + ".lock"), "a compaction that asks")
            self.trial.check("compacted, two that ask", self.compact(place).why_not_stopped(TAKEN))
            waits.kill(signal.SIGTERM)
            self.trial.check("compacted, ended as it asks", waits.wait().why_not_stopped("ended by SIGTERM: "))
            one.kill(signal.SIGCONT)
            one.kill(signal.SIGTERM)
            done = one.wait()
            self.trial.check("compacted, the recording", None if done.status == 0 and place.data() == self.base + self.rest else f"{done}")

    def refused(self) -> None:
        """What can't be compacted has its line, and stays."""
        trial, first = self.trial, self.first
        with first.copy(trial, "refused") as place:
            link, folder, none = (os.path.join(place.folder, name) for name in ("link", "folder", "none"))
            os.symlink(place.feed, link)
            os.symlink(place.feed + ".json", link + ".json")
            os.mkdir(folder)
            other = trial.workflow("compacting-other.json", ["-80", "80-"], TABLES)
            fewer = trial.workflow("compacting-fewer.json", ["-"], TABLES[1:])
            lines = {
                "a link": ([self.workflow, link], "no feed to compact at "), "a folder": ([self.workflow, folder], "no feed to compact at "),
                "nothing": ([self.workflow, none], "nothing is there"), "no note": ([self.workflow, self.workflow], "no note in "),
                "no workflow": ([none, place.feed], "no workflow file at "), "another shard": ([other, place.feed], "no stream of shard -, of which the feed is, in "),
                "a table that lacks": ([fewer, place.feed], "refused 123"), "no such position": (["--at", "6d617269-6164-6200-8000-000000000000:1-99999", self.workflow, place.feed], "refused 118"),
                "no checkpoint": (["--checkpoint", self.workflow, self.workflow, place.feed], "refused 116"),
                "no program": (["--program", none, self.workflow, place.feed], "no program at "),
            }  # fmt: skip
            for name, (words, line) in lines.items():
                done = compact("--program", trial.program, *words)
                trial.check(f"compacted, {name}", done.why_not_stopped(line) or ("changed" if place.data() != first.data() else None))
            done = compact("--program", trial.program, "--drop-unknown", fewer, place.feed)
            trial.check("compacted, rows that are dropped", None if done.status == 0 and b"\x0a\x01t" in place.data() else f"{done}")
            for words in [], [place.feed], ["--patience", "x", self.workflow, place.feed]:
                done = compact(*words)
                trial.check(f"compacted, usage {len(words)}", None if done.status == 2 and done.err.startswith("usage: record/compact ") else f"{done}")

    def limited(self) -> None:
        """Without room for it the feed stays."""

        def why(limit: int) -> str | None:
            with self.first.copy(self.trial, f"limited-{limit}") as place:
                done = self.compact(place, prepare=lambda: resource.setrlimit(resource.RLIMIT_FSIZE, (limit, limit)))
                return done.why_not_stopped() or (f"{place.left()} left" if place.left() else "changed" if place.data() != self.first.data() else None)

        faults = commands.spread([*range(0, len(self.base), 40), len(self.base) - 1, len(self.base)], why)
        self.trial.check("compacted, limits of a file", faults[0] if faults else None)
        with self.first.copy(self.trial, "rights") as place:
            user = os.geteuid() or NOBODY
            for name in "", *os.listdir(place.folder):
                os.chown(os.path.join(place.folder, name), user, -1)
            os.chmod(self.trial.server.folder, 0o711)
            os.chmod(place.folder, 0o555)
            done = self.compact(place, prepare=lambda: os.setuid(user))
            self.trial.check("compacted without rights", done.why_not_stopped("Permission denied") or (None if place.data() == self.first.data() else "changed"))
            os.chmod(place.folder, 0o755)
            done = self.compact(place, prepare=lambda: os.setuid(user))
            fine = done.status == 0 and place.data() == self.base and os.stat(place.feed).st_uid == user and os.stat(place.feed + ".json").st_uid == user
            self.trial.check("compacted by its user", None if fine else f"{done}")
            os.chmod(self.trial.server.folder, 0o700)


def _stopped(call, words: tuple, named: dict) -> object:
    os.kill(os.getpid(), signal.SIGSTOP)
    return call(*words, **named)


def _asks(path: str) -> bool:
    """Whether a compaction asks for a feed's lock."""
    from recorder.locks import ASKED, _is_held

    with open(path, "r+b") as file:
        return _is_held(file.fileno(), ASKED)


class Reader:
    """Who reads a feed again and again: its groups grow at the end, or a base takes the place of the first of them."""

    def __init__(self, feed: str) -> None:
        self._feed, self._seen, self.bases, self.faults = feed, [], set(), []

    def look(self, at: int) -> None:
        now = [(position, message) for _, position, message in groups(read_file(self._feed))]
        self.bases.add(os.stat(self._feed).st_ino)
        if now[:len(self._seen)] != self._seen:
            behind = next((place for place, (position, _) in enumerate(self._seen, 1) if position == now[0][0]), None)
            # (the base may be of groups that came since)
            kept = self._seen[behind:] if behind is not None else []
            if behind is None and self._seen[-1][0] in [position for position, _ in now[1:]] or now[1:1 + len(kept)] != kept:
                self.faults.append(f"look {at}: {len(now)} groups from {now[0][0]} on are not the {len(self._seen)} up to {self._seen[-1][0]}")
        self._seen = now


def lent(trial) -> None:
    """Beside clients that write, and a recording by --forever, compactions are killed again and again, and the recording too; each
    transaction stays, and whoever reads along sees whole groups."""
    trial.server.sql("RESET MASTER; " + "".join(map(creation, SCHEMAS)))
    schema, shard = SCHEMAS[0], SHARDS[0]
    feed, whole_feed = trial.path("lent.feed"), trial.path("lent.whole.feed")
    words = ["--socket", trial.server.socket, "--user", "root", f"--shard={shard}", "--out", feed, *tables_of(schema)]
    workflow = trial.workflow("lent.json", [shard], tables_of(schema))
    chance, done, faults = random.Random(69), [], []
    with clients(trial.server.socket, 69):
        time.sleep(0.3)
        trial.recorded(f"--shard={shard}", "--out", feed, *tables_of(schema))
        reader, forever = Reader(feed), Command("--append", "--forever", *words)
        forever.awaits(lambda: forever.has_said("going on"), "a recording")
        begun = time.monotonic()
        done.append(compact("--program", trial.program, workflow, feed))
        takes = time.monotonic() - begun
        for at in range(KILLS):
            one = Command("--program", trial.program, workflow, feed, name="compact")
            time.sleep(chance.random() * 1.6 * takes)
            is_next = at % 5 == 4
            if is_next:
                forever.kill()
                forever.wait()
                time.sleep(chance.random() * 0.1)
            one.kill()
            done.append(one.wait())
            if is_next:
                forever = Command("--append", "--forever", *words)
                forever.awaits(lambda: forever.has_said("going on"), "a recording")
            reader.look(at)
        one = Command("--program", trial.program, workflow, feed, name="compact")
        faults += [f"{end}" for end in (*done, one.wait()) if end.status not in (0, -signal.SIGKILL)]
        forever.awaits(lambda: forever.has_said("going on"), "a recording goes on")
        _compared_beside(trial, workflow, feed, schema)
        forever.kill(signal.SIGTERM)
        end = forever.wait()
        faults += [f"{end}"] if end.status else []
    reader.look(KILLS)
    faults += reader.faults
    trial.check(f"lent, {KILLS} kills", f"{len(faults)}: {faults[0]}" if faults else None if len(reader.bases) > KILLS // 5 else f"{len(reader.bases)} bases")
    end = commands.run("--append", *words)
    trial.check("lent, appended", None if end.status == 0 else f"{end}")
    trial.recorded(f"--shard={shard}", "--out", whole_feed, *tables_of(schema))
    now, want = ([(position, message) for _, position, message in groups(read_file(one)) if b"\x08\x0c" in message] for one in (feed, whole_feed))
    fine = len(want) > 50 and [message for _, message in now[1:]] == [message for position, message in want if position not in _up_to(want, now[0][0])]
    trial.check("lent, each transaction once", None if fine else f"{len(now)} groups from {now[0][0]} on, the log has {len(want)}")
    rows = trial.made(trial.program, "run", workflow, feed)
    trial.same("lent, rows", rows, trial.made(trial.program, "run", workflow, whole_feed), 20)
    trial.same("lent, the server's rows", rows, trial.selected(workflow, schema), 20)
    trial.server.sql("".join(f"DROP DATABASE {schema}; " for schema in SCHEMAS) + "RESET MASTER")


def _up_to(found: list[tuple[str, bytes]], last: str) -> set[str]:
    """The positions of groups up to one."""
    positions = [position for position, _ in found]
    number = int(last.rpartition("-")[2])
    return {position for position in positions if int(position.rpartition("-")[2]) <= number}


def _compared_beside(trial, workflow: str, feed: str, schema: str) -> None:
    """record/compare finds no difference while the feed is compacted: it compares, or says that a compaction came between its snapshot and
    the feed. Beside none it compares."""
    seen, words = [], ["--socket", trial.server.socket, "--user", "root", "--program", trial.program, "--json", workflow, feed, schema]
    for _ in range(6):
        one = Command("--program", trial.program, workflow, feed, name="compact")
        seen.append(compare(*words))
        one.wait()
    seen = [done for done in seen if done.status != 1 or done.why_not_stopped("a feed that was compacted behind the snapshot ")]
    seen.append(compare(*words))
    wrong = [done for done in seen if done.status or not all(map(is_same, counts(done)))]
    trial.check("lent, compared", f"{wrong[0]}" if wrong else None)
