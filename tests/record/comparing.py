"""record/compare beside clients that write: sources on one server and on two, a target that an engine of this file fills, and
a replica. No round may tell a difference, and each that is made has to be told."""
import json
import os
import random
import resource
import signal
import threading
import time
from collections.abc import Iterator
from contextlib import contextmanager, suppress

import pymysql

from . import commands
from .commands import Command, Done
from .load import SCHEMAS, SHARDS
from .reach import forwarder
from .server import Server, die_with_parent

ROUNDS = 50
MADE = {
    "t": "id BIGINT PRIMARY KEY, v VARCHAR(40), n INT, d DECIMAL(9,2), f DECIMAL(20,9), s SET('a','b','c'), e TIMESTAMP(3) NULL",
    "u": "k VARBINARY(9), m SMALLINT, b BLOB, PRIMARY KEY (m, k)",
}
KEYS = {"t": ["id"], "u": ["m", "k"]}
VINDEXES = ["--vindex=t=id:reverse_bits", "--vindex=u=m:reverse_bits"]
"""Even numbers are the lower shard's."""
MOST = 600
DEADLOCK, XA_OVER, DUPLICATE = 1213, 1614, 1062


def tables_of(schema: str) -> list[str]:
    return [f"{schema}.{name}" for name in MADE]


def creation(schema: str) -> str:
    made = "".join(f"CREATE TABLE {schema}.{name} ({columns}); " for name, columns in MADE.items())
    return f"DROP DATABASE IF EXISTS {schema}; CREATE DATABASE {schema}; {made} CREATE TABLE {schema}.aside (id INT AUTO_INCREMENT PRIMARY KEY); "


@contextmanager
def clients(socket: str, seed: int) -> Iterator[None]:
    """Three clients that write some 200 transactions a second until the end of the block, in a process of their own."""
    begin, end = os.pipe()
    pid = os.fork()
    if pid == 0:
        try:
            die_with_parent()
            os.close(end)
            over, faults = threading.Event(), []
            threads = [threading.Thread(target=client, args=(socket, random.Random(seed * 10 + at), over, faults)) for at in range(3)]
            for thread in threads:
                thread.start()
            os.read(begin, 1)
            over.set()
            for thread in threads:
                thread.join()
            os._exit(1 if faults else 0)
        finally:
            os._exit(1)
    os.close(begin)
    try:
        yield
    finally:
        os.close(end)
        _, status = os.waitpid(pid, 0)
        if status:
            raise RuntimeError("a client failed")


def client(socket: str, chance: random.Random, over: threading.Event, faults: list) -> None:
    """Transactions of one shard each, plain ones and XA's, some of which are rolled back or touch no recorded table."""
    try:
        with pymysql.connect(unix_socket=socket, user="root", charset="utf8mb4") as connection, connection.cursor() as cursor:
            number = 0
            while not over.wait(chance.random() * 0.02):
                side, number = chance.randrange(2), number + 1
                xa = f"'{chance.random()}'" if chance.random() < 0.1 else ""
                try:
                    cursor.execute(f"XA START {xa}" if xa else "BEGIN")
                    for _ in range(chance.randint(1, 4)):
                        cursor.execute(*change(SCHEMAS[side], side, chance))
                    keep = chance.random() < 0.9
                    for statement in [f"XA END {xa}", f"XA PREPARE {xa}", f"XA {'COMMIT' if keep else 'ROLLBACK'} {xa}"] if xa else ["COMMIT" if keep else "ROLLBACK"]:
                        cursor.execute(statement)
                except pymysql.err.MySQLError as fault:
                    if fault.args[0] not in (DEADLOCK, XA_OVER, DUPLICATE):
                        raise
                    for statement in [f"XA END {xa}", f"XA ROLLBACK {xa}"] if xa else ["ROLLBACK"]:
                        with suppress(pymysql.err.MySQLError):
                            cursor.execute(statement)
    except Exception as fault:  # noqa: BLE001
        print(f"a client: {fault!r}", flush=True)
        faults.append(fault)


def change(schema: str, side: int, chance: random.Random) -> tuple[str, tuple]:
    """A statement that changes rows of a shard."""
    key, other = (2 * chance.randrange(MOST // 2) + side for _ in range(2))
    row = (chance.randbytes(6).hex(), chance.randrange(99), chance.random() * 999, chance.random(), chance.choice(["", "a", "a,c"]))
    ways = [
        (f"REPLACE INTO {schema}.t VALUES (%s, %s, %s, %s, %s, %s, NOW(3))", (key, *row)),
        (f"UPDATE {schema}.t SET n=n+1, v=%s WHERE id=%s", (row[0], key)),
        (f"UPDATE {schema}.t SET id=%s WHERE id=%s", (other, key)),
        (f"DELETE FROM {schema}.t WHERE id=%s", (key,)),
        (f"UPDATE {schema}.t SET f=NULL WHERE id > %s ORDER BY id LIMIT 9", (key,)),
        (f"REPLACE INTO {schema}.u VALUES (%s, %s, %s)", (chance.randbytes(chance.randrange(2)), key, chance.randbytes(9))),
        (f"DELETE FROM {schema}.u WHERE m > %s ORDER BY m, k LIMIT 2", (key,)),
        (f"INSERT INTO {schema}.aside VALUES ()", ()),
    ]  # fmt: skip
    return chance.choice(ways)


def compared(trial) -> None:
    begin(trial)
    for step in rounds, differences, beside_a_recording, beside_xa, amid_commits, two_at_once, interrupted, without_room, of_a_target, refused:
        step(trial)
    end(trial)
    of_two_servers(trial)
    of_a_replica(trial)


def compare(*words: str, **how) -> Done:
    return commands.run(*words, name="compare", **how)


def begin(trial) -> None:
    """Both shards on one server, each with a feed from a snapshot."""
    commands.command("compare")
    trial.server.sql("RESET MASTER; " + "".join(map(creation, SCHEMAS)))
    with clients(trial.server.socket, 41):
        time.sleep(1)
    trial.feeds = [trial.path(f"compared{at}.feed") for at in range(2)]
    for schema, shard, feed in zip(SCHEMAS, SHARDS, trial.feeds):
        trial.recorded("--from-snapshot", f"--shard={shard}", "--out", feed, *tables_of(schema))
    trial.here = ["--socket", trial.server.socket, "--user", "root", "--program", trial.program]
    trial.both = trial.workflow("compared.json", SHARDS, tables_of(SCHEMAS[0]), *VINDEXES)
    trial.part = trial.workflow("compared-part.json", SHARDS, tables_of(SCHEMAS[0]), *VINDEXES, "--filter=40-c0",
                                "--rule=t=select id, v, e from t where in_keyrange('40-c0')")  # fmt: skip


def end(trial) -> None:
    trial.server.sql("".join(f"DROP DATABASE {schema}; " for schema in SCHEMAS) + "RESET MASTER")


def counts(done: Done) -> list[dict]:
    """What --json says of each comparison. RuntimeError where there was none."""
    if done.status not in (0, 3) or done.err:
        raise RuntimeError(f"{done}")
    return [one["vdiff"] | {"at": [stream["position"] for stream in one["streams"]]} for one in json.loads(done.out)["comparisons"]]


def is_same(one: dict) -> bool:
    return one["processed"] == one["matching"] > 0 and not one["differences"]


def held(trial, name: str, seen: list[Done], least: int) -> None:
    """Checks that no round found a difference, and that clients wrote between as many of them at least."""
    faults = [f"round {at}: {done}" for at, done in enumerate(seen) if done.status or not all(map(is_same, counts(done)))]
    moved = 0 if faults else sum(counts(one)[0]["at"] != counts(other)[0]["at"] for one, other in zip(seen, seen[1:]))
    trial.check(f"compared {name}", faults[0] if faults else None if moved >= least else f"clients wrote between {moved} of {len(seen)} rounds")


def rounds(trial) -> None:
    """Round by round while clients write: plainly, with a checkpoint, and the rows of a target's key range."""
    saved, seen = trial.path("compared.checkpoint"), []
    ways = [[trial.both], ["--checkpoint", saved, trial.both], [trial.part]]
    with clients(trial.server.socket, 42):
        for at in range(ROUNDS):
            seen.append(compare(*trial.here, "--json", *ways[at % 3], *trial.feeds, *SCHEMAS))
    held(trial, f"{ROUNDS} rounds", seen, ROUNDS * 3 // 4)
    done = compare(*trial.here, "--checkpoint", saved, trial.both, *trial.feeds, *SCHEMAS)
    lines = [line.split(" at ")[0] for line in done.out.splitlines() if line.startswith("stream ")]
    trial.check("compared, as text", None if done.status == 0 and lines == ["stream 0 shard -80", "stream 1 shard 80-"] else f"{done}")
    wanted = trial.path("wanted.checkpoint")
    trial.made(trial.program, "follow", "--save-to", wanted, trial.both, *trial.feeds)
    with open(saved, "rb") as one, open(wanted, "rb") as other:
        trial.check("compared, the checkpoint", None if one.read() == other.read() else "another one than that of follow")


def differences(trial) -> None:
    """A write that no log has is told, of the stream in which it is alone."""
    name, saved = f"{SCHEMAS[1]}.t", ["--checkpoint", trial.path("compared.checkpoint")]
    ways = {
        "a row that changed": (f"UPDATE {name} SET v='unlogged' ORDER BY id DESC LIMIT 1", "mismatched"),
        "a row that went": (f"DELETE FROM {name} ORDER BY id LIMIT 1", "extra_target"),
        "a row that came": (f"INSERT INTO {name} (id) VALUES (100001)", "extra_source"),
    }
    for way, (statement, member) in ways.items():
        trial.server.sql(f"CREATE TABLE {SCHEMAS[1]}.kept AS SELECT * FROM {name}; SET sql_log_bin=0; {statement}")
        for words in [], saved:
            done = compare(*trial.here, *words, "--json", "--first", "3", trial.both, *trial.feeds, *SCHEMAS)
            lower, upper = counts(done)
            fine = done.status == 3 and is_same(lower) and upper[member] == 1 == len(upper["differences"]) and upper["matching"] >= upper["processed"] - 1
            trial.check(f"compared {way} {words[:1]}", None if fine else f"{done}")
        text = compare(*trial.here, "--first", "1", trial.both, *trial.feeds, *SCHEMAS)
        fine = text.status == 3 and "differs table t key" in text.out.partition("stream 1 ")[2] and text.out.count("differs ") == 1
        trial.check(f"compared {way}, as text", None if fine else f"{text}")
        trial.server.sql(f"SET sql_log_bin=0; DELETE FROM {name}; INSERT INTO {name} SELECT * FROM {SCHEMAS[1]}.kept; DROP TABLE {SCHEMAS[1]}.kept; ")
    held(trial, "without differences again", [compare(*trial.here, "--json", trial.both, *trial.feeds, *SCHEMAS)], 0)


@contextmanager
def recorders(trial) -> Iterator[list[Command]]:
    """Recordings of both feeds that go on."""
    ways = [["--append", "--forever", f"--shard={shard}", "--out", feed, *tables_of(schema)] for schema, shard, feed in zip(SCHEMAS, SHARDS, trial.feeds)]
    found = [Command("--socket", trial.server.socket, "--user", "root", *words) for words in ways]
    try:
        for one in found:
            one.awaits(lambda one=one: one.has_said("going on"), "a recording")
        yield found
    finally:
        for one in found:
            one.kill(signal.SIGTERM)
            one.wait()


def beside_a_recording(trial) -> None:
    """Feeds that another recording writes are waited for, and cut where the snapshot is."""
    seen = []
    with recorders(trial), clients(trial.server.socket, 43):
        for at in range(8):
            ways = [["--checkpoint", trial.path("compared.checkpoint"), trial.both], [trial.part]]
            seen.append(compare(*trial.here, "--json", *ways[at % 2], *trial.feeds, *SCHEMAS))
    held(trial, "beside recordings", seen, 4)
    with recorders(trial) as found:
        found[1].kill(signal.SIGSTOP)
        trial.server.sql(f"REPLACE INTO {SCHEMAS[1]}.t (id) VALUES (100003)")
        late = compare(*trial.here, "--patience", "1", trial.both, *trial.feeds, *SCHEMAS)
        found[1].kill(signal.SIGCONT)
    trial.check("compared, a recording that waits", late.why_not_stopped("a feed that isn't up to the snapshot at "))


def amid_xa(trial, name: str, *words: str) -> None:
    """An XA transaction is prepared where the snapshot stands: as long as it is there is another one taken."""
    with pymysql.connect(unix_socket=trial.server.socket, user="root", autocommit=True) as connection, connection.cursor() as cursor:
        for statement in "XA START 'held'", f"REPLACE INTO {SCHEMAS[0]}.t (id) VALUES (200)", "XA END 'held'", "XA PREPARE 'held'":
            cursor.execute(statement)
        one = Command(*words, name="compare")
        time.sleep(1)
        is_waiting = not one.has_ended()
        cursor.execute("XA COMMIT 'held'")
    done = one.wait()
    trial.check(f"compared amid an XA transaction, {name}", None if is_waiting and done.status == 0 else f"{is_waiting} {done}")


def beside_xa(trial) -> None:
    amid_xa(trial, "a source", *trial.here, trial.both, *trial.feeds, *SCHEMAS)


def amid_commits(trial) -> None:
    """XA COMMIT is in the log before its rows are seen: no snapshot is taken that stands close behind one, or amid one that stood
    prepared before."""
    from recorder import snapshot
    from recorder.server import Login, end_place

    login, looks = Login.of(trial.server.socket, "root"), []
    row = f"REPLACE INTO {SCHEMAS[0]}.t (id) VALUES (202)"
    prepared = [f"XA START 'short'; {row}; XA END 'short'; XA PREPARE 'short'", "XA COMMIT 'short'"]

    def look(committed: str) -> bool:
        """Whether a snapshot was taken at once between which and the look at the log's end that was run."""
        looks.clear()

        def looked(connection):
            looks.append(end_place(connection))
            if len(looks) == 1:
                trial.server.sql(committed)
            return looks[-1]

        snapshot.end_place = looked
        try:
            connection, place = snapshot.opened_at(login)
        finally:
            snapshot.end_place = end_place
        connection.close()
        return len(looks) == 1 and place != looks[0]

    found = [look(row), look("; ".join(prepared)), look(f"{row}; FLUSH BINARY LOGS; {row}"), look(f"FLUSH BINARY LOGS; {'; '.join(prepared)}; {row}")]
    trial.check("compared, snapshots amid commits", None if found == [True, False, True, False] else f"{found}")
    with pymysql.connect(unix_socket=trial.server.socket, user="root", autocommit=True) as connection, connection.cursor() as cursor:
        for statement in prepared[0].split("; "):
            cursor.execute(statement)
        begun = time.monotonic()
        snapshot.opened_at(login)[0].close()
        stands, late = time.monotonic() - begun, threading.Timer(snapshot.STANDS * 1.5, cursor.execute, [prepared[1]])
        late.start()
        begun = time.monotonic()
        snapshot.opened_at(login)[0].close()
        late.join()
    fine = stands > 2 * snapshot.STANDS and time.monotonic() - begun > 1.5 * snapshot.STANDS
    trial.check("compared, snapshots beside a prepared one", None if fine else f"{stands}, {time.monotonic() - begun}")


def two_at_once(trial) -> None:
    with clients(trial.server.socket, 44):
        done = [one.wait() for one in [Command(*trial.here, "--json", trial.both, *trial.feeds, *SCHEMAS, name="compare") for _ in range(3)]]
    held(trial, "three at once", done, 0)
    words = [*trial.here, "--json", "--checkpoint", trial.path("compared.checkpoint"), trial.both, *trial.feeds, *SCHEMAS]
    done = [one.wait() for one in [Command(*words, name="compare") for _ in range(3)]]
    fair = all(one.status == 0 or one.status == 1 and ("refused 1" in one.err or "moved meanwhile" in one.err) and one.err.count("\n") == 1 for one in done)
    trial.check("compared, one checkpoint by three", None if fair and any(one.status == 0 for one in done) else f"{done}")


def interrupted(trial) -> None:
    """Killed and ended at some moment: nothing is left, and the next one finds all as it was or as it is to be."""
    folder, chance, faults = trial.server.folder, random.Random(3), []
    aside = trial.path("compared-aside")
    os.mkdir(aside)

    def elsewhere() -> None:
        import tempfile

        tempfile.tempdir = aside

    words = [*trial.here, "--json", "--checkpoint", trial.path("compared.checkpoint"), trial.both, *trial.feeds, *SCHEMAS]
    with clients(trial.server.socket, 45):
        for number in [signal.SIGTERM, signal.SIGKILL, signal.SIGINT, signal.SIGKILL] * 5:
            one = Command(*words, name="compare", prepare=elsewhere)
            time.sleep(chance.random() * 0.6)
            with suppress(ProcessLookupError):
                one.kill(number)
            done = one.wait()
            # (what a killed one began may have to end, as the checkpoint's new file)
            if done.status not in (0, 1, -signal.SIGKILL) or done.status == 1 and "ended by SIG" not in done.err:
                faults.append(f"{number.name}: {done}")
            if os.listdir(aside):
                faults.append(f"{number.name}: {os.listdir(aside)} is left")
    trial.check("compared, interrupted", f"{faults}" if faults else None)
    held(trial, "behind interruptions", [compare(*words)], 0)
    left = [name for name in os.listdir(folder) if name.startswith(".compared") and ".feed." in name]
    trial.check("compared, left behind", f"{left}" if left else None)


def without_room(trial) -> None:
    """Where no room is for rows, or for the checkpoint, it stops; the checkpoint stays."""
    with open(trial.path("compared.checkpoint"), "rb") as file:
        before = file.read()
    for size in 0, 1 << 9, 1 << 12:
        done = compare(*trial.here, "--checkpoint", trial.path("compared.checkpoint"), trial.both, *trial.feeds, *SCHEMAS,
                       prepare=lambda size=size: resource.setrlimit(resource.RLIMIT_FSIZE, (size, size)))  # fmt: skip
        with open(trial.path("compared.checkpoint"), "rb") as file:
            fine = done.status == 1 and done.err.count("\n") == 1 and file.read() == before
        trial.check(f"compared, {size} bytes of room", None if fine else f"{done}")


class Engine:
    """A target that is filled from feeds, as an engine would: each group is a transaction with its position."""

    def __init__(self, trial) -> None:
        self._trial, self._over, self.fault, self._names = trial, threading.Event(), None, {}
        trial.server.sql(f"SET sql_log_bin=0; {creation('filled')} CREATE TABLE filled.positions (stream INT PRIMARY KEY, position TEXT); "
                         "INSERT INTO filled.positions VALUES (0, ''), (1, ''); ")  # fmt: skip
        self._threads = [threading.Thread(target=self._run, args=(stream,), daemon=True) for stream in range(2)]

    def __enter__(self) -> "Engine":
        for thread in self._threads:
            thread.start()
        return self

    def __exit__(self, *_: object) -> None:
        self._over.set()
        for thread in self._threads:
            thread.join()

    def _run(self, stream: int) -> None:
        try:
            with pymysql.connect(unix_socket=self._trial.server.socket, user="root", charset="utf8mb4") as connection, connection.cursor() as cursor:
                at = 0
                while not self._over.is_set():
                    with open(self._trial.feeds[stream], "rb") as file:
                        data = file.read()
                    at = self._apply(connection, cursor, data, at, stream)
                    time.sleep(0.05)
        except Exception as fault:  # noqa: BLE001
            self.fault = fault

    def _apply(self, connection, cursor, data: bytes, at: int, stream: int) -> int:
        """Applies the whole groups behind a byte; where they end."""
        from recorder.messages import EventType, Response, frames

        done = at
        with suppress(ValueError):
            for start, end in frames(data[at:]):
                for event in Response.FromString(data[at + start:at + end]).events:
                    if event.type == EventType.FIELD:
                        self._columns(event.field_event)
                    elif event.type == EventType.ROW:
                        self._change(cursor, event.row_event)
                    elif event.type == EventType.GTID:
                        cursor.execute("UPDATE filled.positions SET position=%s WHERE stream=%s", (event.gtid, stream))
                        connection.commit()
                        done = at + end
        connection.rollback()
        return done

    def _columns(self, said) -> None:
        self._names[said.table_name] = [field.name for field in said.fields]

    def _change(self, cursor, said) -> None:
        from recorder.messages import cells_of

        names, key = self._names[said.table_name], KEYS[said.table_name]
        for change in said.row_changes:
            if change.before.lengths:
                row = dict(zip(names, cells_of(change.before)))
                cursor.execute(f"DELETE FROM filled.{said.table_name} WHERE {' AND '.join(f'{name}=%s' for name in key)}", [row[name] for name in key])
            if change.after.lengths:
                cells = cells_of(change.after)
                cursor.execute(f"REPLACE INTO filled.{said.table_name} ({', '.join(names)}) VALUES ({', '.join(['%s'] * len(cells))})", cells)


def of_a_target(trial) -> None:
    """A target's tables at the positions that its own server has, while clients write, recordings go on and the target is filled."""
    seen, words = [], [*trial.here, "--target", "--positions", "SELECT position FROM filled.positions ORDER BY stream"]
    engine = Engine(trial)
    with clients(trial.server.socket, 46), recorders(trial), engine:
        time.sleep(1)
        for at in range(12):
            ways = [["--checkpoint", trial.path("target.checkpoint")], []]
            seen.append(compare(*words, "--json", *ways[at % 2], trial.both, *trial.feeds, "filled"))
    trial.check("compared, the engine", f"{engine.fault!r}" if engine.fault else None)
    held(trial, "with a target", seen, 8)
    trial.server.sql("UPDATE filled.t SET v='other' ORDER BY id DESC LIMIT 1; DELETE FROM filled.u LIMIT 1; ")
    for way in [], ["--checkpoint", trial.path("target.checkpoint")]:
        done = compare(*words, *way, "--json", trial.both, *trial.feeds, "filled")
        [one] = counts(done)
        trial.check(f"compared with another target {way[:1]}", None if done.status == 3 and one["mismatched"] == one["extra_source"] == 1 else f"{done}")
    trial.server.sql("UPDATE filled.positions SET position=REPLACE(position, ':1-', ':1-9') WHERE stream=1")
    done = compare(*words, "--patience", "0", trial.both, *trial.feeds, "filled")
    trial.check("compared, ahead of its feed", done.why_not_stopped("a feed that isn't up to the snapshot"))
    ways = {
        "no position": ("SELECT 1 FROM filled.positions WHERE stream=7", "0 positions (SELECT 1"),
        "a position that is none": ("SELECT 'elsewhere' FROM filled.positions", "no position of stream 0 (elsewhere)"),
        "no such table": ("SELECT position FROM filled.nowhere", "the server refuses a query (SELECT position FROM filled.nowhere)"),
    }
    for name, (query, line) in ways.items():
        done = compare(*trial.here, "--target", "--positions", query, trial.both, *trial.feeds, "filled")
        trial.check(f"compared, {name}", done.why_not_stopped(line))
    trial.server.sql("DROP DATABASE filled")


def refused(trial) -> None:
    """Each has its line and status 1, or is a fault of usage."""
    here, feeds, hashed = trial.here, trial.feeds, trial.path("compared-hash.json")
    with open(trial.both, encoding="utf-8") as file:
        said = json.load(file)
    said["vindexes"] = ["hash"]
    said["tables"][0]["vindex"][1] = "hash"
    said["streams"][0]["filter"]["rules"] = [{"match": "t", "filter": "-40"}]
    with open(hashed, "w", encoding="utf-8") as file:
        json.dump(said, file)
    lines = {
        "feeds in another order": ([*here, trial.both, *feeds[::-1], *SCHEMAS], f"a feed of shard 80- in {feeds[1]}: stream 0 is of shard -80"),
        "no feed": ([*here, trial.both, "/nowhere", feeds[1], *SCHEMAS], "no feed at /nowhere: No such file"),
        "no workflow": ([*here, "/nowhere", *feeds, *SCHEMAS], "no workflow file at /nowhere: "),
        "a workflow that is none": ([*here, feeds[0], *feeds, *SCHEMAS], "no workflow file at "),
        "no schema": ([*here, trial.both, *feeds, SCHEMAS[0], "nowhere"], "the rows can't be read "),
        "no server": (["--socket", "/nowhere", trial.both, *feeds, *SCHEMAS], "no connection at /nowhere"),
        "no program": ([*here, "--program", "/nowhere", trial.both, *feeds, *SCHEMAS], "no program at /nowhere: "),
        "no checkpoint": ([*here, "--checkpoint", trial.both + "x", trial.both, *feeds, *SCHEMAS], f"checkpoint {trial.both}x: refused 116"),
        "a vindex that the server can't compute": ([*here, hashed, *feeds, *SCHEMAS], "a workflow file whose rows the server can't print: the vindex hash"),
    }  # fmt: skip
    with open(trial.both + "x", "w", encoding="utf-8") as file:
        file.write("no checkpoint")
    for name, (words, line) in lines.items():
        trial.check(f"compared, {name}", compare(*words).why_not_stopped(line))
    usage = {
        "too few": [*here, trial.both, *feeds, SCHEMAS[0]], "no server": [trial.both, *feeds, *SCHEMAS],
        "positions of a source": [*here, "--positions", "SELECT 1", trial.both, *feeds, *SCHEMAS],
        "a target without positions": [*here, "--target", trial.both, *feeds, "filled"],
        "two kinds of servers": [*here, "--servers", "a,b", trial.both, *feeds, *SCHEMAS],
        "too few servers": ["--servers", "a", trial.both, *feeds, *SCHEMAS],
    }  # fmt: skip
    for name, words in usage.items():
        done = compare(*words)
        trial.check(f"compared, usage, {name}", None if done.status == 2 and done.err.startswith("usage: record/compare ") else f"{done}")


def options(trial, name: str, socket: str) -> str:
    """An option file for a server."""
    with open(trial.path(name), "w", encoding="utf-8") as file:
        file.write(f"[client]\nsocket={socket}\nuser=root\n")
    return file.name


def of_two_servers(trial) -> None:
    """Rows that go from one server to the other, and are in both or in neither of the snapshots."""
    made = "CREATE DATABASE moved; CREATE TABLE moved.t (id INT PRIMARY KEY, v TEXT); "
    trial.server.sql("RESET MASTER; " + made)
    with Server(number=8) as other:
        other.sql("RESET MASTER; " + made)
        servers = [options(trial, "one.cnf", trial.server.socket), options(trial, "other.cnf", other.socket)]
        feeds = [trial.path("moved0.feed"), trial.path("moved1.feed")]
        for file, shard, feed in zip(servers, SHARDS, feeds):
            trial.made("record/feed", "--defaults-file", file, "--program", trial.program, f"--shard={shard}", "--from-snapshot", "--out", feed, "moved.t")
        workflow = trial.workflow("moved.json", SHARDS, ["moved.t"])
        words = ["--program", trial.program, "--servers", ",".join(servers), "--json", workflow, *feeds, "moved", "moved"]
        over, seen = threading.Event(), []
        writer = threading.Thread(target=move, args=([trial.server.socket, other.socket], over))
        writer.start()
        try:
            time.sleep(0.3)
            seen += [compare(*words) for _ in range(12)]
            saved = compare("--checkpoint", trial.path("moved.checkpoint"), *words)
        finally:
            over.set()
            writer.join()
        held(trial, "on two servers", seen, 8)
        fair = saved.status == 0 or saved.why_not_stopped("refused 71 ") is None
        trial.check("compared on two servers, a checkpoint", None if fair else f"{saved}")
        other.sql("SET sql_log_bin=0; REPLACE INTO moved.t VALUES (9000, 'unlogged'); ")
        done = compare(*words)
        one, another = counts(done)
        trial.check("compared on two servers, a difference", None if done.status == 3 and is_same(one) and another["extra_source"] == 1 else f"{done}")
    trial.server.sql("DROP DATABASE moved; RESET MASTER")


def move(sockets: list[str], over: threading.Event) -> None:
    chance = random.Random(6)
    with pymysql.connect(unix_socket=sockets[0], user="root", autocommit=True) as one, pymysql.connect(unix_socket=sockets[1], user="root", autocommit=True) as other:
        cursors = [one.cursor(), other.cursor()]
        for cursor in cursors:
            cursor.execute("REPLACE INTO moved.t VALUES (1000, 'stays')")
        while not over.is_set():
            key, side = chance.randrange(40), chance.randrange(2)
            first, second = chance.sample([f"REPLACE INTO moved.t VALUES ({key}, '{chance.random()}')", f"DELETE FROM moved.t WHERE id={key}"], 2)
            cursors[side if first.startswith("R") else 1 - side].execute(first)
            cursors[side if second.startswith("R") else 1 - side].execute(second)


def of_a_replica(trial) -> None:
    """A replica's tables at the position that MariaDB's replication keeps; the feed is brought up from the source."""
    trial.server.sql("RESET MASTER; CREATE USER IF NOT EXISTS repl@'%' IDENTIFIED BY 'r'; GRANT REPLICATION SLAVE ON *.* TO repl@'%'; " + "".join(map(creation, SCHEMAS)))
    feed, source, seen = trial.path("replica.feed"), options(trial, "source.cnf", trial.server.socket), []
    with Server(number=9) as replica, forwarder(trial.server.socket) as port:
        start = f"CHANGE MASTER TO master_host='127.0.0.1', master_port={port}, master_user='repl', master_password='r', master_use_gtid=slave_pos; START SLAVE"
        replica.sql(start)
        workflow = trial.workflow("replica.json", ["-"], tables_of(SCHEMAS[0]), *VINDEXES)
        trial.recorded("--shard=-", "--out", feed, *tables_of(SCHEMAS[0]))
        words = ["--socket", replica.socket, "--user", "root", "--program", trial.program, "--target", "--servers", source]
        with clients(trial.server.socket, 47):
            time.sleep(1)
            for at in range(10):
                seen.append(compare(*words, "--json", workflow, feed, SCHEMAS[0]))
                time.sleep(0.1)
        held(trial, "with a replica", seen, 5)
        amid_xa(trial, "a replica", *words, workflow, feed, SCHEMAS[0])
        replica.sql("STOP SLAVE; " + f"DELETE FROM {SCHEMAS[0]}.t LIMIT 2; ")
        done = compare(*words, "--json", workflow, feed, SCHEMAS[0])
        trial.check("compared with another replica", None if done.status == 3 and counts(done)[0]["extra_source"] == 2 else f"{done}")
        trial.server.sql(f"REPLACE INTO {SCHEMAS[0]}.t (id) VALUES (100002), (100004)")
        trial.recorded("--from-snapshot", "--shard=-", "--out", feed, *tables_of(SCHEMAS[0]))
        done = compare(*words, workflow, feed, SCHEMAS[0])
        trial.check("compared with a replica that is behind the snapshot", done.why_not_stopped("a target that may be before the feed's snapshot"))
    trial.server.sql("".join(f"DROP DATABASE {schema}; " for schema in SCHEMAS) + "DROP USER repl@'%'; RESET MASTER")
