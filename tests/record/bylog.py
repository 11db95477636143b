"""Feeds that the program makes of copies of the server's log, held to those that the decoder makes of the log: the same groups, by what
`show` prints, from the whole log, behind a snapshot and grown over it; killed at each moment, without room, with copies that are
cut and servers that are killed; and each stop at what the program doesn't tell or refuses."""
import json
import os
import random
import shutil
import signal
import time

from recorder.stop import Stop

from . import commands
from .commands import At, Command, Done
from .kept import read_file
from .load import SCHEMAS, SHARDS, Load, creation, tables_of
from .living import clients
from .server import Server

KILLS = 12
NOTED = ["gtids", "snapshot", "position", "tables", "filled", "prepared", "keyspace", "turn", "past"]
"""What both notes say alike."""


class World:
    """Two feeds of the same tables: one `by` the program, and the decoder's `own`."""

    def __init__(self, trial, name: str, shard: str, *tables: str) -> None:
        self.trial, self.by = trial, trial.path(f"{name}.by.feed")
        self.own = f"{self.by}.own"
        self._words, self._tables = ["--socket", trial.server.socket, "--user", "root", f"--shard={shard}", "--keyspace", "ks"], tables
        self._shard = shard

    def words(self, *words: str) -> list[str]:
        return [*self._words, "--program", self.trial.program, *words, "--out", self.by, *self._tables]

    def decode(self, *words: str, until: str = "") -> Done:
        """Has the decoder do the same."""
        try:
            self.trial.decoded(self._shard, self.by, *words, *self._tables, until=until)
        except Stop as stop:
            return Done(1, "", f"decoder: {stop}")
        return Done(0, "", "")

    def record(self, *words: str) -> list[Done]:
        return [commands.run(*self.words(*words)), self.decode(*words)]

    def shown(self, out: str) -> bytes:
        return self.trial.made(self.trial.program, "show", "--keyspace", "ks", f"--shard={self._shard}", out)

    def changes(self, out: str) -> list[tuple[bytes, bytes]]:
        """The positions of the groups that change rows, and their rows."""
        shown = [group.partition(b"\n") for group in self.shown(out).split(b"group ")[1:]]
        return [(head.split(b" ")[1], rows) for head, _, rows in shown if rows]

    def same(self, name: str, *words: str, until: str = "") -> None:
        """Records both, and checks that one call has made of them the same groups."""
        done = [commands.run(*self.words(*words, *(["--until", until] if until else []))), self.decode(*words, until=until)]
        wrong = [one for one in done if one.status or one.err]
        shown = [self.shown(out) for out in (self.by, self.own)] if not wrong else []
        self.trial.check(f"by log, {name}", f"{wrong}" if wrong else None if shown[0] == shown[1] != b"" else "other groups")
        notes = [json.loads(read_file(f"{out}.json")) for out in (self.by, self.own)] if not wrong else [{}, {}]
        lacking = [key for key in NOTED if notes[0].get(key) != notes[1].get(key)]
        self.trial.check(f"by log, {name}, the note", f"{[(key, notes[0].get(key), notes[1].get(key)) for key in lacking]}" if lacking else None)

    def copies(self) -> list[str]:
        return sorted(os.listdir(f"{self.by}.logs"))


def logs_of(trial) -> list[str]:
    return [line.split()[0] for line in trial.server.sql("SHOW BINARY LOGS").stdout.decode().splitlines()]


def log_files_of(server) -> list[str]:
    """A server's log files, in their order."""
    names = [line.split("\t")[0] for line in server.sql("SHOW BINARY LOGS").stdout.decode().splitlines()]
    return [os.path.join(server.folder, "data", name) for name in names]


def loaded(trial) -> None:
    """Both shards of a load, from the whole log and appended to while clients write; the copies are the server's files, byte for
    byte."""
    trial.server.sql("RESET MASTER; " + creation())
    worlds = [World(trial, schema, shard, *tables_of(schema)) for schema, shard in zip(SCHEMAS, SHARDS)]
    Load(trial.server.socket, 11, clients=4, transactions=30, xa=False).wait()
    for world in worlds:
        world.same("a load")
    with Load(trial.server.socket, 12, clients=4, transactions=20, xa=False, goes_on=True) as load:
        for at in range(3):
            time.sleep(0.2)
            if at == 1:
                trial.server.sql("FLUSH BINARY LOGS")
            until = trial.server.sql("SELECT @@gtid_binlog_pos").stdout.decode().strip()
            for world in worlds:
                world.same(f"a load, append {at}", "--append", until=until)
    load.wait()
    for world in worlds:
        world.same("a load, the rest", "--append")
    [last] = worlds[0].copies()
    have, want = read_file(f"{worlds[0].by}.logs/{last}"), read_file(os.path.join(trial.server.folder, "data", last))
    trial.check("by log, copies", None if last == logs_of(trial)[-1] and have and want.startswith(have) else f"{last}, {len(have)} bytes and {len(want)}")


def rotated(trial) -> None:
    """Copies go when no log before has to be read: once each table has had rows. What was purged meanwhile isn't needed."""
    trial.server.sql("CREATE DATABASE b; RESET MASTER; CREATE TABLE b.t (id INT PRIMARY KEY, v CHAR(3)); CREATE TABLE b.u LIKE b.t; INSERT INTO b.t VALUES (1, 'a')")
    world = World(trial, "rotated", "-", "b.t", "b.u")
    world.same("a table without rows")
    trial.server.sql("FLUSH BINARY LOGS; INSERT INTO b.t VALUES (2, 'b'); FLUSH BINARY LOGS; INSERT INTO b.t VALUES (3, 'c')")
    world.same("two logs more", "--append")
    trial.check("by log, copies that stay", None if world.copies() == logs_of(trial) and len(world.copies()) == 3 else f"{world.copies()}")
    trial.server.purge(logs_of(trial)[-1])
    trial.server.sql("INSERT INTO b.u VALUES (1, 'u'); UPDATE b.t SET v='z'; DELETE FROM b.t WHERE id=2; BEGIN; INSERT INTO b.t VALUES (9, 'x'); ROLLBACK")
    world.same("behind logs that were purged", "--append")
    trial.check("by log, copies that go", None if world.copies() == logs_of(trial)[-1:] else f"{world.copies()}")
    shutil.rmtree(f"{world.by}.logs")
    trial.server.sql("INSERT INTO b.u VALUES (2, 'u')")
    world.same("without copies", "--append")
    snapshot = World(trial, "snapshot", "-", "b.t", "b.u")
    snapshot.same("a snapshot", "--from-snapshot")
    noted = json.loads(read_file(f"{snapshot.by}.json"))
    trial.check("by log, the note of a snapshot", None if noted["recorder"] == noted["gtids"] else f"{noted}")
    trial.server.sql("INSERT INTO b.u VALUES (3, 'u'); DELETE FROM b.t WHERE id=1")
    snapshot.same("behind a snapshot", "--append")
    noted = json.loads(read_file(f"{snapshot.by}.json"))
    trial.check("by log, whose word", None if noted["recorder"] and noted["recorder"] != noted["gtids"] else f"{noted}")
    amid(trial, snapshot, noted["place"]["log"], noted["place"]["offset"])


def amid(trial, world: World, log: str, end: int) -> None:
    """A copy that begins amid its log has the log's first event, a list, and the log's bytes from a place on, up to where the feed ends."""
    have, want, head = read_file(f"{world.by}.logs/{log}"), read_file(os.path.join(trial.server.folder, "data", log))[:end], 4
    for _ in range(2):
        first, head = head, head + int.from_bytes(have[head + 9:head + 13], "little")
    lacks, listed = len(want) - len(have), int.from_bytes(have[first + 13:first + 17], "little")
    fine = lacks > 0 and listed == head + lacks and have[head:] == want[head + lacks:] != b"" and have[:4] == want[:4] and have[first + 4] == 163
    trial.check("by log, a copy that begins amid its log", None if fine else f"{head}, {lacks}, {listed}, {len(have)} bytes and {len(want)}")


def interrupted(trial) -> None:
    """An append is killed, and ended, at each system call that changes files: the next one goes on, and nothing that was seen is gone."""
    trial.server.sql("INSERT INTO b.t VALUES (20, 'a'); FLUSH BINARY LOGS; INSERT INTO b.u VALUES (20, 'a'); INSERT INTO b.u VALUES (21, 'a')")
    first = World(trial, "rotated", "-", "b.t", "b.u")
    first.decode("--append")
    wanted = first.shown(first.own)

    def copy(name: str) -> World:
        world = World(trial, name, "-", "b.t", "b.u")
        for end in "", ".json":
            shutil.copy(first.by + end, world.by + end)
        shutil.copytree(f"{first.by}.logs", f"{world.by}.logs")
        return world

    counted = copy("counted")
    count = commands.calls_of(commands.CHANGING, *counted.words("--append"))

    def why(item: tuple) -> str | None:
        how, number = item
        world = copy(f"{how}-{number}")
        done = commands.run(*world.words("--append"), prepare=At(number, getattr(commands, how)))
        seen = read_file(world.by)
        again = commands.run(*world.words("--append"))
        ended = done.status == -signal.SIGKILL or how == "ended"
        cut = "cut off" in again.err
        is_right = ended and again.status == 0 and world.shown(world.by) == wanted and (cut or read_file(world.by).startswith(seen))
        return None if is_right else f"{done}, {again}"

    faults = commands.spread([(how, number) for how in ("killed", "ended") for number in range(1, count + 1)], why)
    trial.check("by log, interrupted", f"{len(faults)} of {count} calls: {faults[0]}" if faults or count < 10 else None)


def killed(trial) -> None:
    """Beside clients that write it is killed again and again, and goes on; no transaction is lost, and none is there twice."""
    schema, shard = SCHEMAS[0], SHARDS[0]
    world, chance, seen, faults = World(trial, schema, shard, *tables_of(schema)), random.Random(5), b"", []
    with clients(trial.server.socket, 41, xa=False):
        for at in range(KILLS):
            one = Command(*world.words("--append", "--forever"))
            one.awaits(lambda one=one: one.has_said("going on"), "by log")
            time.sleep(chance.random())
            one.kill(signal.SIGTERM if at % 4 == 3 else signal.SIGKILL)
            done, data = one.wait(), read_file(world.by)
            if not data.startswith(seen) or done.status != (0 if at % 4 == 3 else -signal.SIGKILL):
                faults.append(f"kill {at}: {len(data)} bytes behind {len(seen)}, {done}")
            seen = data[:json.loads(read_file(f"{world.by}.json"))["size"]]
    trial.check("by log, killed", f"{len(faults)}: {faults[0]}" if faults else None)
    done = world.record("--append")
    have, want = world.changes(world.by), world.changes(world.own)
    fine = not any(one.status for one in done) and len(want) > 100 and have == want
    trial.check("by log, each transaction once", None if fine else f"{done}, {len(have)} groups and {len(want)}")


def _thins() -> None:
    """Few transactions are marked at once."""
    from recorder import logcopies

    logcopies.MOST_MARKS = 2


def waited(trial) -> None:
    """Each transaction is in the feed when it commits, over two logs; an XA transaction is waited for; --until ends it."""
    world = World(trial, "rotated", "-", "b.t", "b.u")
    world.record("--append")
    shutil.rmtree(f"{world.by}.logs")
    one = Command(*world.words("--append", "--forever"), prepare=_thins)
    one.awaits(lambda: one.has_said("going on"), "by log")
    for number, more in enumerate(["", "FLUSH BINARY LOGS; ", ""], 100):
        size = os.path.getsize(world.by)
        trial.server.sql(f"{more}INSERT INTO b.t VALUES ({number}, 'l')")
        one.awaits(lambda size=size: os.path.getsize(world.by) > size, "a transaction")
    for line in trial.server.sql("SHOW PROCESSLIST").stdout.decode().splitlines():
        if "Binlog Dump" in line:
            trial.server.sql(f"KILL {line.split()[0]}; INSERT INTO b.t VALUES (103, 'k')")
    one.awaits(lambda: one.has_said("going on", 2) and b"x313033" in world.shown(world.by), "a connection anew")
    trial.server.sql("XA START 'x'; INSERT INTO b.u VALUES (100, 'x'); XA END 'x'; XA PREPARE 'x'")
    one.awaits(lambda: one.has_said("an XA transaction is prepared"), "an XA transaction")
    size = os.path.getsize(world.by)
    trial.check("by log, an XA transaction", commands.run(*world.words("--append")).why_not_stopped("another recording writes this feed"))
    trial.server.sql("XA COMMIT 'x'")
    one.awaits(lambda: os.path.getsize(world.by) > size, "its end")
    one.kill(signal.SIGTERM)
    done = one.wait()
    world.decode("--append")
    trial.check("by log, for ever", None if done.status == 0 and world.changes(world.by) == world.changes(world.own) else f"{done}")
    last = int(trial.server.sql("SELECT @@gtid_binlog_pos").stdout.decode().strip().rpartition("-")[2])
    one = Command(*world.words("--append", "--forever", "--until", f"0-7-{last + 2}"))
    one.awaits(lambda: one.has_said("going on"), "by log")
    trial.server.sql("INSERT INTO b.t VALUES (110, 'l'); INSERT INTO b.t VALUES (111, 'l'); INSERT INTO b.t VALUES (112, 'l')")
    done = one.wait()
    world.decode("--append", until=f"0-7-{last + 2}")
    trial.check("by log, until", None if done.status == 0 and world.changes(world.by) == world.changes(world.own) else f"{done}")


def altered(trial) -> None:
    """A table without rows is altered while its feed lives; and a compaction is lent the feed."""
    trial.server.sql("RESET MASTER; CREATE DATABASE e; CREATE TABLE e.t (id INT PRIMARY KEY); CREATE TABLE e.u (id INT PRIMARY KEY)")
    world = World(trial, "altered", "-", "e.t", "e.u")
    one = Command(*world.words("--forever"))
    one.awaits(lambda: one.has_said("going on"), "by log")
    trial.server.sql("INSERT INTO e.u VALUES (1); ALTER TABLE e.t ADD v INT; INSERT INTO e.t VALUES (1, 2); UPDATE e.u SET id=2")
    one.awaits(lambda: len(world.changes(world.by)) == 3, "a table that was altered")
    workflow = trial.workflow("altered.json", ["-"], ["e.t", "e.u"])
    done = commands.run("--program", trial.program, workflow, world.by, name="compact")
    trial.check("by log, a compaction", None if done.status == 0 and not done.err else f"{done}")
    trial.server.sql("INSERT INTO e.t VALUES (5, 6)")
    one.awaits(lambda: b"+ t\tx35\tx36\n" in world.shown(world.by), "a transaction behind a compaction")
    one.kill(signal.SIGTERM)
    done, rows = one.wait(), trial.made(trial.program, "run", workflow, world.by)
    trial.check("by log, altered", None if done.status == 0 else f"{done}")
    trial.same("by log, altered and compacted", rows, trial.selected(workflow, "e"))
    trial.server.sql("DROP DATABASE e")


def refused(trial) -> None:
    """What the program refuses stops it with the program's line; the feed has what is before, or is as it was. What a table has that
    the program's feed would lack stops it before."""
    world = World(trial, "rotated", "-", "b.t", "b.u")
    world.record("--append")
    one = Command(*world.words("--append", "--forever"))
    one.awaits(lambda: one.has_said("going on"), "by log")
    trial.server.sql("INSERT INTO b.t VALUES (200, 'r'); INSERT INTO b.t VALUES (201, 'r'); TRUNCATE b.t; INSERT INTO b.t VALUES (202, 'r')")
    done = one.wait()
    rows = world.changes(world.by)[-1][1]
    fine = done.status == 1 and "the log's copies: refused 152 file " in done.err and b"x323031" in rows
    trial.check("by log, TRUNCATE", None if fine else f"{done}, {rows}")
    data = read_file(world.by), read_file(f"{world.by}.json")
    done = commands.run(*world.words("--append"))
    fine = data == (read_file(world.by), read_file(f"{world.by}.json"))
    trial.check("by log, TRUNCATE again", done.why_not_stopped("refused 152 file ") or (None if fine else "changed"))
    other = World(trial, "other", "-", "b.ok")
    trial.server.sql("CREATE TABLE b.ok (id INT PRIMARY KEY)")
    trial.check("by log, a purged log", commands.run(*other.words()).why_not_stopped("refused 159 file "))
    done = commands.run(*world.words("--anew-behind"))
    trial.check("by log, --anew-behind", f"{done}" if done.status or done.err else None)
    workflow = trial.workflow("refused.json", ["-"], ["b.t", "b.u"])
    trial.same("by log, behind --anew-behind", trial.made(trial.program, "run", workflow, world.by), trial.selected(workflow, "b"))
    trial.server.sql("DROP DATABASE b; RESET MASTER; " + "".join(f"DROP DATABASE IF EXISTS {schema}; " for schema in SCHEMAS))


AMID_THE_LOG = [
    ("an index", "CREATE INDEX i ON o.t (v); INSERT INTO o.t VALUES (2, 2)", "refused 152 file "),
    ("a view of it", "CREATE VIEW o.w AS SELECT * FROM o.t; INSERT INTO o.t VALUES (3, 3)", "refused 152 file "),
    ("a packed log", "SET GLOBAL log_bin_compress=1; INSERT INTO o.t VALUES (4, 4)", "log_bin_compress is on: packed events aren't read; SET GLOBAL log_bin_compress=0, FLUSH BINARY LOGS, and "),
    ("a log that was packed", "SET GLOBAL log_bin_compress=1, log_bin_compress_min_len=10//USE o; CREATE TABLE p (id INT PRIMARY KEY, v TEXT); INSERT INTO p SELECT seq, REPEAT('a', 900) FROM seq_1_to_9; SET GLOBAL log_bin_compress=0", "refused 153 file "),
    ("TRUNCATE", "TRUNCATE o.t; INSERT INTO o.t VALUES (5, 5)", "refused 152 file "),
    ("statement format", "SET binlog_format=STATEMENT; INSERT INTO o.t VALUES (6, 6)", "refused 151 file "),
    ("a row image", "SET binlog_row_image=MINIMAL; UPDATE o.t SET v=1 WHERE id=6", "refused 147 file "),
]  # fmt: skip
"""What stands in the log behind a recording, by one client behind the other, and the line at which the next one stops."""
UNTOLD = [
    ("float", ["o.t", "o.f"], "column f, which is FLOAT32, in o.f: no log is read as the server prints it; make it DECIMAL"),
    ("zerofill", ["o.z"], "column id, which is ZEROFILL, in o.z: no log is read as the server prints it; make it a plain number"),
    ("name", ["o.t u"], "a table's name that isn't plain (t u) in o: "),
    ("schemas", ["o.t", "o2.s"], "tables of several schemas (o, o2): record one feed of each"),
]  # fmt: skip
"""Tables of which a log doesn't tell all, and the line."""


def stopped(trial) -> None:
    """Each stop at what the program can't tell of a server, of tables and of a log says what to do, and is one line; the feed is as it was,
    also behind a snapshot; --anew-behind goes on."""
    trial.server.sql("RESET MASTER; CREATE DATABASE o; CREATE DATABASE o2; CREATE TABLE o2.s (id INT PRIMARY KEY); CREATE TABLE o.t (id INT PRIMARY KEY, v INT);"
                     " CREATE TABLE o.f (id INT PRIMARY KEY, f FLOAT); CREATE TABLE o.z (id INT(4) ZEROFILL PRIMARY KEY); CREATE TABLE o.`t u` (id INT PRIMARY KEY);"
                     " INSERT INTO o.t VALUES (1, 1); INSERT INTO o.f VALUES (1, 1.5)")  # fmt: skip
    world, workflow = World(trial, "stopped", "-", "o.t"), trial.workflow("stopped.json", ["-"], ["o.t"])
    world.same("before stops")
    for name, text, line in AMID_THE_LOG:
        for part in text.split("//"):
            trial.server.sql(part)
        data = read_file(world.by), read_file(f"{world.by}.json")
        done = commands.run(*world.words("--append"))
        why = done.why_not_stopped(line) or (None if "--anew-behind" in done.err else f"{done}")
        trial.check(f"stopped, {name}", why or (None if data == (read_file(world.by), read_file(f"{world.by}.json")) else "changed"))
        trial.server.sql("SET GLOBAL log_bin_compress=0")
        done = commands.run(*world.words("--anew-behind"))
        trial.check(f"stopped, behind {name}", f"{done}" if done.status or done.err else None)
        trial.same(f"stopped, rows behind {name}", trial.made(trial.program, "run", workflow, world.by), trial.selected(workflow, "o"))
    for name, tables, line in UNTOLD:
        for words in (), ("--from-snapshot",):
            trial.check(f"stopped, {name} {words}", commands.run(*World(trial, f"stopped.{name}", "-", *tables).words(*words)).why_not_stopped(line))
    data = read_file(world.by), read_file(f"{world.by}.json")
    trial.server.sql("INSERT INTO o.t VALUES (7, 7)")
    nowhere = commands.run(*("/nowhere" if word == trial.program else word for word in world.words("--append")))
    trial.check("stopped, no program", nowhere.why_not_stopped("no program at /nowhere: ") or (None if data == (read_file(world.by), read_file(f"{world.by}.json")) else "changed"))
    world.trial.check("stopped, and on", None if commands.run(*world.words("--append")).status == 0 else "another status")
    trial.same("stopped, rows at last", trial.made(trial.program, "run", workflow, world.by), trial.selected(workflow, "o"))


def lives(trial) -> None:
    """An empty table of a snapshot has its first rows; an XA transaction of another table, prepared before a snapshot in an earlier log, ends
    behind it; a table more comes in; what the program refuses ends one that lives, with what is before it; a reading that takes long is a
    line."""
    trial.server.sql("CREATE TABLE o.e (id INT PRIMARY KEY); FLUSH BINARY LOGS; XA START 'o'; INSERT INTO o2.s VALUES (1); XA END 'o'; XA PREPARE 'o'")
    trial.server.sql("FLUSH BINARY LOGS")
    world = World(trial, "lives", "-", "o.t", "o.e")
    one = Command(*world.words("--from-snapshot", "--forever"))
    one.awaits(lambda: one.has_said("going on"), "lives")
    for number, text in enumerate(["XA COMMIT 'o'; INSERT INTO o.e VALUES (1)", "INSERT INTO o.t VALUES (20, 1)", "FLUSH BINARY LOGS; INSERT INTO o.t VALUES (21, 1)"], 1):
        trial.server.sql(text)
        one.awaits(lambda number=number: len(world.changes(world.by)) == number + 1, text)
    one.kill(signal.SIGTERM)
    done, noted, workflow = one.wait(), json.loads(read_file(f"{world.by}.json")), trial.workflow("lives.json", ["-"], ["o.t", "o.e"])
    trial.same("lives, rows", trial.made(trial.program, "run", workflow, world.by), trial.selected(workflow, "o"))
    trial.check("lives, the note", None if done.status == 0 and done.err.count("\n") == 1 and noted["recorder"] != noted["gtids"] else f"{done}, {noted}")
    slow = trial.path("slow")
    with open(slow, "w", encoding="utf-8") as file:
        file.write(f'#!/bin/sh\n[ "$1" = transcribe ] && sleep 6\nexec "{trial.program}" "$@"\n')
    os.chmod(slow, 0o755)
    one = Command(*(slow if word == trial.program else word for word in world.words("--append", "--forever")))
    one.awaits(lambda: one.has_said("going on"), "a program that takes long")
    trial.server.sql("INSERT INTO o.e VALUES (31)")
    one.awaits(lambda: one.has_said("seconds: a smaller max_binlog_size"), "a reading that takes long")
    one.awaits(lambda: b"+ e\tx3331\n" in world.shown(world.by), "a transaction behind it")
    one.kill(signal.SIGTERM)
    trial.check("lives, by a program that takes long", None if one.wait().status == 0 else "another status")
    trial.server.sql("CREATE TABLE o.m (id INT PRIMARY KEY); INSERT INTO o.m VALUES (1); CREATE TABLE o.n (id INT PRIMARY KEY)")
    more = World(trial, "lives", "-", "o.t", "o.e", "o.m", "o.n")
    one = Command(*more.words("--append", "--forever"))
    one.awaits(lambda: one.has_said("going on"), "tables more")
    trial.server.sql("INSERT INTO o.m VALUES (2); INSERT INTO o.n VALUES (3); ALTER TABLE o.m ADD w INT")
    done = one.wait()
    fine = done.status == 1 and "refused 152 file " in done.err.splitlines()[-1] and b"+ m\tx32" in more.shown(more.by) and b"+ n\tx33" in more.shown(more.by)
    trial.check("lives, a stop", None if fine else f"{done}")
    trial.server.sql("DROP DATABASE o; DROP DATABASE o2")


def upgraded(trial) -> None:
    """A feed that a recorder of before wrote, by its own reading, and whose note says so or doesn't: it goes on, and has all bytes that
    were there."""
    trial.server.sql("RESET MASTER; CREATE DATABASE g; CREATE TABLE g.t (id INT PRIMARY KEY); INSERT INTO g.t VALUES (1)")
    world, seen = World(trial, "upgraded", "-", "g.t"), b""
    world.decode()
    for number, old in enumerate([{"recorder": None}, {"recorder": "0-7-3"}], 2):
        for end in "", ".json":
            shutil.copy(f"{world.own}{end}", f"{world.by}{end}")
        note = json.loads(read_file(f"{world.by}.json")) | old
        with open(f"{world.by}.json", "w", encoding="utf-8") as file:
            json.dump(note, file)
        shutil.rmtree(f"{world.by}.logs", ignore_errors=True)
        seen = read_file(world.by)
        trial.server.sql(f"INSERT INTO g.t VALUES ({number})")
        done, noted = commands.run(*world.words("--append")), json.loads(read_file(f"{world.by}.json"))
        fine = done.status == 0 and not done.err and read_file(world.by).startswith(seen) and noted["recorder"] == (note["recorder"] or note["gtids"])
        trial.check(f"upgraded, {number}", None if fine else f"{done}, {noted}")
        world.decode("--append")
        trial.check(f"upgraded, {number}, groups", None if world.changes(world.by) == world.changes(world.own) else "others")
    lags(trial, world)
    trial.server.sql("DROP DATABASE g")


def lags(trial, world: World) -> None:
    """A note of before may have reached more than its feed says: transactions of other tables."""
    for end in "", ".json":
        shutil.copy(f"{world.own}{end}", f"{world.by}{end}")
    trial.server.sql("CREATE TABLE g.aside (id INT PRIMARY KEY); INSERT INTO g.aside VALUES (1)")
    log, offset, gtids = trial.server.sql("SHOW MASTER STATUS; SELECT @@gtid_binlog_pos").stdout.decode().split()
    note = json.loads(read_file(f"{world.by}.json")) | {"place": {"log": log, "offset": int(offset)}, "gtids": gtids}
    with open(f"{world.by}.json", "w", encoding="utf-8") as file:
        json.dump(note, file)
    shutil.rmtree(f"{world.by}.logs")
    trial.server.sql("INSERT INTO g.t VALUES (9)")
    done = commands.run(*world.words("--append"))
    world.decode("--append")
    trial.check("upgraded, a note that is ahead", None if done.status == 0 and not done.err and world.changes(world.by) == world.changes(world.own) else f"{done}")


def unsummed(trial) -> None:
    """A log without checksums, and transactions of several domains: copies begin amid it."""
    with Server(7, "--binlog-checksum=NONE") as server:
        aside = type(trial)(server, trial.program)
        server.sql("CREATE DATABASE n; CREATE TABLE n.t (id INT PRIMARY KEY); CREATE TABLE n.e (id INT PRIMARY KEY); INSERT INTO n.t VALUES (1); SET gtid_domain_id=4294967295; INSERT INTO n.t VALUES (2)")
        world = World(aside, "unsummed", "-", "n.t", "n.e")
        world.same("a snapshot without checksums", "--from-snapshot")
        server.sql("INSERT INTO n.t VALUES (3); SET gtid_domain_id=5, gtid_seq_no=9000000000000; INSERT INTO n.e VALUES (1); FLUSH BINARY LOGS; INSERT INTO n.t VALUES (4)")
        world.same("behind it, without checksums", "--append")
        shutil.rmtree(f"{world.by}.logs")
        server.sql("DELETE FROM n.t WHERE id=1")
        world.same("without copies and checksums", "--append")
        trial.passed, trial.failed = trial.passed + aside.passed, trial.failed + aside.failed


def bylog(trial) -> None:
    commands.command()
    for step in loaded, killed, rotated, interrupted, waited, refused, altered, stopped, lives, upgraded, unsummed:
        step(trial)
