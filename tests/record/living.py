"""Feeds that live: record/feed --forever beside clients that write, killed, ended and cut off from its server."""
import json
import os
import random
import signal
import time
from collections.abc import Iterator
from contextlib import contextmanager

from . import commands
from .commands import Command
from .ended import killed_server
from .kept import groups, read_file, whole
from .load import SCHEMAS, SHARDS, VINDEXES, Load, tables_of
from .server import Server, die_with_parent

KILLS = 60


@contextmanager
def clients(socket: str, seed: int, xa: bool = True) -> Iterator[None]:
    """Clients that write until the end of the block, in a process of their own: this one is forked meanwhile."""
    begin, end = os.pipe()
    pid = os.fork()
    if pid == 0:
        try:
            die_with_parent()
            os.close(end)
            with Load(socket, seed, clients=4, transactions=5, xa=xa, goes_on=True) as load:
                os.read(begin, 1)
            load.wait()
            os._exit(0)
        finally:
            os._exit(1)
    os.close(begin)
    try:
        yield
    finally:
        os.close(end)
        _, status = os.waitpid(pid, 0)
        if status:
            raise RuntimeError("a client failed")


def words_of(trial, schema: str, shard: str, feed: str) -> list[str]:
    return ["--socket", trial.server.socket, "--user", "root", f"--shard={shard}", "--out", feed, *tables_of(schema)]


def changes(feed: bytes) -> list[tuple[str, bytes]]:
    """The groups of a feed that change rows, with their positions."""
    return [(position, message) for _, position, message in groups(feed) if b"MySQL56" in message and len(message) > len(position) + 12]


def killed(trial) -> None:
    """Beside clients that write a recording is killed again and again; whoever reads the feed sees it grow by whole groups
    alone, none is lost, and none is there twice."""
    feed, schema, shard = trial.path("living.feed"), SCHEMAS[0], SHARDS[0]
    words, whole_feed = words_of(trial, schema, shard, feed), trial.path("living.whole.feed")
    trial.recorded("--from-snapshot", f"--shard={shard}", "--out", whole_feed, *tables_of(schema))
    chance, seen, faults, told = random.Random(7), b"", [], 0
    with clients(trial.server.socket, 31):
        done = commands.run("--from-snapshot", *words)
        trial.check("living, begun", None if done.status == 0 else f"{done}")
        for at in range(KILLS):
            one = Command("--append", "--forever", *words)
            for pause in (chance.random() * 0.2, chance.random() * 0.2):
                time.sleep(pause)
                data = read_file(feed)
                if not data.startswith(seen):
                    faults.append(f"kill {at}: what was read is gone: {len(data)} bytes behind {len(seen)}")
                seen = whole(data)
            one.kill()
            said = one.wait()
            told += "cut off" in said.err
            if said.status != -signal.SIGKILL:
                faults.append(f"kill {at}: {said}")
    data = read_file(feed)
    faults += [] if data.startswith(seen) else ["what was read is gone at last"]
    trial.check("living, killed", f"{len(faults)}: {faults[0]}" if faults else None)
    done = commands.run("--append", *words)
    trial.check("living, killed and appended", None if done.status == 0 else f"{done}")
    trial.recorded("--append", f"--shard={shard}", "--out", whole_feed, *tables_of(schema))
    have, want = [positions(one) for one in (feed, whole_feed)]
    fine = len(have) > 100 and have == want[-len(have):] and len(set(have)) == len(have)
    trial.check("living, each transaction once", None if fine else f"{len(have)} groups, {len(set(have))} positions, the log has {len(want)}")
    workflow = trial.workflow("living.json", [shard], tables_of(schema), *VINDEXES)
    trial.same("living, rows", trial.made(trial.program, "run", workflow, feed), trial.selected(workflow, schema), 50)


def positions(feed: str) -> list[str]:
    """Where in the log the groups of a feed are that change rows, those of its snapshot left out."""
    found = [position.split(",")[0] for position, _ in changes(read_file(feed))]
    return [position for position in found if not position.startswith("MySQL56/6d617269-6164-6201")]


def forever(trial) -> None:
    """Each transaction is in the feed as it commits; ended by SIGTERM and by Ctrl-C it is whole, with status 0."""
    trial.server.sql("RESET MASTER; CREATE DATABASE living; CREATE TABLE living.t (id INT PRIMARY KEY, v TEXT); CREATE TABLE living.u (id INT PRIMARY KEY); ")
    feed = trial.path("forever.feed")
    words = ["--socket", trial.server.socket, "--user", "root", "--shard", "-", "--out", feed, "living.t", "living.u"]
    one, numbers, waits, asks = Command("--forever", *words), iter(range(1000)), [], []
    one.awaits(lambda: one.has_said("going on"), "forever")
    for _ in range(5):
        size = os.path.getsize(feed)
        trial.server.sql(f"INSERT INTO living.t VALUES ({next(numbers)}, 'a'); ")
        waits.append(one.awaits(lambda size=size: os.path.getsize(feed) > size, "a transaction"))
        begun = time.monotonic()
        trial.server.sql("SELECT 1")
        asks.append(time.monotonic() - begun)
    # a machine that is busy otherwise takes longer for a question too
    trial.check("forever, at once", None if min(waits) < 1 + 9 * min(asks) else f"{waits}, where a question takes {asks}")
    trial.server.sql("ALTER TABLE living.u ADD v INT; INSERT INTO living.u VALUES (1, 2); ")
    one.awaits(lambda: b"u" in read_file(feed) and len(changes(read_file(feed))) == 6 and one.has_said("going on", 2), "a table that was altered")
    one.kill(signal.SIGTERM)
    done = one.wait()
    trial.check("forever, SIGTERM", None if done.status == 0 and done.out.startswith(feed) and done.err.count("\n") == 2 else f"{done}")
    for number in signal.SIGINT, signal.SIGTERM, signal.SIGHUP:
        one = Command("--forever", "--append", *words)
        time.sleep(random.random() * 0.1)
        one.kill(number)
        trial.server.sql(f"INSERT INTO living.t VALUES ({next(numbers)}, 'a'); ")
        done = one.wait()
        note = json.loads(read_file(feed + ".json"))
        ended = done.status == 0 or done.status == 1 and done.err == f"feed: ended by {number.name}\n"
        trial.check(f"forever, {number.name}", None if ended and note["size"] == os.path.getsize(feed) else f"{done}, {note['size']} bytes")
    ends_between(trial, words, feed, numbers)
    stops_at_ddl(trial, words, feed, numbers)


def ends_between(trial, words: list[str], feed: str, numbers: Iterator[int]) -> None:
    """A signal between the reading of a transaction and its group: the next recording has the transaction."""

    def ended_at_once() -> None:
        from recorder.position import Position

        add = Position.add

        def added(position: Position, gtid) -> None:
            add(position, gtid)
            os.kill(os.getpid(), signal.SIGTERM)

        Position.add = added

    commands.run("--append", *words)
    count = len(changes(read_file(feed)))
    one = Command("--forever", "--append", *words, prepare=ended_at_once)
    one.awaits(lambda: one.has_said("going on"), "forever")
    trial.server.sql(f"INSERT INTO living.t VALUES ({next(numbers)}, 'a'); ")
    done = one.wait()
    fine = done.status == 0 and len(changes(read_file(feed))) == count
    done = commands.run("--append", *words)
    all_positions = [position for _, position, _ in groups(read_file(feed))]
    fine = fine and done.status == 0 and len(changes(read_file(feed))) == count + 1 and len(set(all_positions)) == len(all_positions)
    trial.check("forever, between", None if fine else f"{done}, {all_positions}")


def stops_at_ddl(trial, words: list[str], feed: str, numbers: Iterator[int]) -> None:
    """A statement that no feed can say ends it with its line; the feed has all before it."""
    one = Command("--forever", "--append", *words)
    one.awaits(lambda: one.has_said("going on"), "forever")
    trial.server.sql(f"INSERT INTO living.t VALUES ({next(numbers)}, 'last'); ALTER TABLE living.t ADD w INT; ")
    done = one.wait()
    note = json.loads(read_file(feed + ".json"))
    fine = done.status == 1 and "the log's copies: refused 152 file " in done.err and note["size"] == os.path.getsize(feed) and b"last" in read_file(feed)
    trial.check("forever, DDL", None if fine else f"{done}, {note}")
    trial.server.sql("DROP DATABASE living")


def prepared(trial) -> None:
    """While an XA transaction is prepared a recording waits, however often it is killed and ended; when it commits all is in the feed."""
    trial.server.sql("CREATE DATABASE xa; CREATE TABLE xa.t (id INT PRIMARY KEY); ")
    feed = trial.path("xa.feed")
    words = ["--socket", trial.server.socket, "--user", "root", "--shard", "-", "--out", feed, "xa.t"]
    seen, count = b"", 0
    for at, text in enumerate(["XA START 'x'; INSERT INTO xa.t VALUES (0); XA END 'x'; XA PREPARE 'x'; ", "SELECT 1", "SELECT 1", "XA COMMIT 'x'; "]):
        one = Command("--forever", *(["--append"] if at else []), *words)
        one.awaits(lambda one=one: one.has_said("going on"), "forever")
        for one_client in text, f"INSERT INTO xa.t VALUES ({at + 1}); ":
            trial.server.sql(one_client)
        count += 1 + text.startswith("XA COMMIT")
        if text.startswith("XA COMMIT"):
            one.awaits(lambda count=count: len(changes(read_file(feed))) == count, "the transactions")
        elif text.startswith("XA START"):
            one.awaits(lambda one=one: one.has_said("waits: an XA transaction is prepared before "), "an XA transaction")
        else:
            time.sleep(0.7)
            trial.check(f"forever, an XA transaction, {at}, waits", None if read_file(feed) == seen else "the feed has grown")
        one.kill(signal.SIGTERM if at % 2 else signal.SIGKILL)
        done = one.wait()
        data = read_file(feed)
        wrong = done.status not in (0, -signal.SIGKILL) or not data.startswith(seen) or "cut off" in done.err
        trial.check(f"forever, an XA transaction, {at}", f"{done}" if wrong else None)
        seen = data
        if not at:
            trial.check("forever, an XA transaction by --append", commands.run("--append", *words).why_not_stopped("an XA transaction is prepared before "))
    workflow = trial.workflow("xa.json", ["-"], ["xa.t"])
    trial.same("forever, an XA transaction's rows", trial.made(trial.program, "run", workflow, feed), trial.selected(workflow, "xa"), 6)
    trial.server.sql("DROP DATABASE xa")


def told_each_minute(trial) -> None:
    """How far it is stands on standard error each minute, which is a second here, and in the note."""
    from recorder import forever as module

    def faster() -> None:
        module.MINUTE = 0.5

    trial.server.sql("CREATE DATABASE told; CREATE TABLE told.t (id INT PRIMARY KEY); CREATE TABLE told.other (id INT PRIMARY KEY); ")
    feed = trial.path("told.feed")
    words = ["--socket", trial.server.socket, "--user", "root", "--shard", "-", "--out", feed, "told.t"]
    one = Command("--forever", *words, prepare=faster)
    one.awaits(lambda: one.has_said("going on"), "forever")
    trial.server.sql("INSERT INTO told.t VALUES (1), (2); INSERT INTO told.other VALUES (1); FLUSH BINARY LOGS; ")
    end = trial.server.sql("SHOW MASTER STATUS").stdout.decode().split()
    one.awaits(lambda: one.has_said(f"at {end[0]}:") and one.has_said("1 groups since the last line") and one.has_said("at the log's end"), "how far it is")
    one.awaits(lambda: json.loads(read_file(feed + ".json"))["place"]["log"] == end[0], "the note")
    trial.check("told, a last group", None if len(groups(read_file(feed))) == 3 else f"{len(groups(read_file(feed)))} groups")
    one.kill(signal.SIGTERM)
    trial.check("told", None if one.wait().status == 0 else "another status")
    trial.server.sql("DROP DATABASE told")


def until(trial) -> None:
    """Up to each transaction of the log; where it isn't in the log yet, --forever waits for it."""
    trial.server.sql("CREATE DATABASE until; USE until; CREATE TABLE t (id INT PRIMARY KEY); CREATE TABLE other (id INT PRIMARY KEY); INSERT INTO t VALUES (1);"
                     " INSERT INTO other VALUES (1); SET gtid_domain_id=3; INSERT INTO t VALUES (2); INSERT INTO other VALUES (2);"
                     " SET gtid_domain_id=0; INSERT INTO t VALUES (3); INSERT INTO other VALUES (3); ")  # fmt: skip
    from recorder.position import Position

    last = Position.read(trial.server.sql("SELECT @@gtid_binlog_pos").stdout.decode())
    zero, three = last.last[0].sequence, last.last[3].sequence
    feed = trial.path("until.feed")
    words = ["--socket", trial.server.socket, "--user", "root", "--shard", "-", "--out", feed, "until.t"]
    whole_words = [*words[:7], trial.path("until.whole.feed"), *words[8:]]
    commands.run(*whole_words)
    all_groups = changes(read_file(whole_words[7]))
    # of both domains, in the log's order: how many rows' groups are in by then
    wanted = [(zero - 3, three - 2, 1), (zero - 2, three - 2, 1), (zero - 2, three - 1, 2), (zero - 2, three, 2), (zero - 1, three, 3), (zero, three, 3)]
    for at, (one, other, count) in enumerate(wanted):
        text = f"0-7-{one}" + (f",3-7-{other}" if other > three - 2 else "")
        done = commands.run(*(["--append"] if at else []), "--until", text, *words)
        data = read_file(feed)
        reached = groups(data)[-1][1]
        fine = done.status == 0 and changes(data) == all_groups[:count] and (f":1-{one}," in reached + "," or f"0000:{one}," in reached)
        trial.check(f"until {text}", None if fine else f"{done}, {len(changes(data))} groups, {reached}")
        if not fine:
            return
    again = commands.run("--append", "--until", reached, *words)
    trial.check("until, again", None if again.status == 0 and read_file(feed) == data else f"{again}")
    for text, line in ((f"0-7-{zero - 1}", "the position is passed already at "), (f"0-7-{zero + 1}", "the log doesn't reach the position at ")):
        trial.check(f"until {text}", commands.run("--append", "--until", text, *words).why_not_stopped(line) or ("changed" if read_file(feed) != data else None))
    trial.check("until nothing", None if commands.run("--append", "--until", "so", *words).status == 2 else "another status")
    waits = Command("--append", "--forever", "--until", f"0-7-{zero + 2}", *words)
    waits.awaits(lambda: waits.has_said("going on"), "until")
    trial.server.sql("INSERT INTO until.t VALUES (4); INSERT INTO until.other VALUES (4); INSERT INTO until.t VALUES (5); ")
    done = waits.wait()
    trial.check("until, forever", None if done.status == 0 and len(changes(read_file(feed))) == 4 else f"{done}")
    trial.server.sql("DROP DATABASE until")


def reconnects(trial) -> None:
    """A server that is killed and begun again, and connections that it ends, cost the feed nothing."""
    with Server() as server:
        killed_server(trial, server)
        server.sql("CREATE DATABASE d; CREATE TABLE d.t (id INT PRIMARY KEY); INSERT INTO d.t VALUES (0); ")
        feed = os.path.join(trial.server.folder, "reconnects.feed")
        words = ["--socket", server.socket, "--user", "root", "--shard", "-", "--out", feed, "d.t"]
        one = Command("--forever", *words)
        one.awaits(lambda: one.has_said("going on"), "forever")
        for at in range(1, 4):
            one.awaits(lambda at=at: one.has_said("going on", at) and b"Binlog Dump" in server.sql("SHOW PROCESSLIST").stdout, "forever")
            for line in server.sql("SHOW PROCESSLIST").stdout.decode().splitlines():
                if "Binlog Dump" in line:
                    server.sql(f"KILL {line.split()[0]}")
            server.sql(f"INSERT INTO d.t VALUES ({at}); ")
            one.awaits(lambda at=at: len(changes(read_file(feed))) == at + 1, "a connection anew")
        one.awaits(lambda: one.has_said("going on", 4), "forever")
        server.restart()
        server.sql("INSERT INTO d.t VALUES (4); ")
        one.awaits(lambda: len(changes(read_file(feed))) == 5, "a server anew")
        server.sql("RESET MASTER; INSERT INTO d.t VALUES (5); ")
        done = one.wait()
        lost = done.err.count("; record again in 0.5 seconds\n")
        fine = done.status == 1 and lost >= 4 and done.err.splitlines()[-1].endswith("go on with --anew-behind, or record anew with --from-snapshot") and len(changes(read_file(feed))) == 5
        trial.check("reconnects", None if fine else f"{done}")


def living(trial) -> None:
    commands.command()
    for step in forever, prepared, told_each_minute, until, reconnects, killed:
        step(trial)
