"""Feeds that go on where the log doesn't: --anew-behind, tables more, and another server's log."""
import json
import os
import random
import resource
import shutil
import signal
import tempfile
import threading
import time
from collections.abc import Callable, Iterator
from contextlib import contextmanager
from dataclasses import dataclass

from . import commands, lines
from .commands import At, Command, Done
from .kept import INTERRUPTIONS, groups, read_file, why_wrong, write_file
from .reach import forwarder
from .server import PATIENCE, Server

MADE = ("CREATE DATABASE anew; CREATE TABLE anew.t (id INT PRIMARY KEY, v VARCHAR(40), n INT, w VARBINARY(9));"
        " CREATE TABLE anew.u (k VARBINARY(9), m INT, v TEXT, PRIMARY KEY (m, k)); CREATE TABLE anew.other (id INT PRIMARY KEY);"
        " INSERT INTO anew.t SELECT seq, CONCAT('v', seq), seq * 3, NULLIF(CHAR(seq % 256), 'a') FROM anew.seq_1_to_300;"
        " INSERT INTO anew.u SELECT CHAR(seq % 7, seq % 256), seq DIV 7, IF(seq % 5, 'text', NULL) FROM anew.seq_1_to_40; ")  # fmt: skip
TABLES = ["anew.t", "anew.u"]
ROWS = "UPDATE anew.t SET v=CONCAT(v, 'x') WHERE id % 5 = 1; DELETE FROM anew.t WHERE id % 7 = 3; INSERT INTO anew.t (id, v) VALUES (-1, ''), (9000, NULL); "
TODO = "go on with --anew-behind, or record anew with --from-snapshot\n"
ALL = "*"


@dataclass(frozen=True)
class Case:
    """Something behind which a feed doesn't go on by the log: what is done, the line of `--append`, whether the old checkpoint goes
    on under the workflow of the tables' new columns, or with which columns of t."""

    name: str
    made: str
    line: str
    kept: str | None = ALL
    purges: bool = False


CASES = [
    Case("truncate", "TRUNCATE anew.t; INSERT INTO anew.t (id) VALUES (5), (7777); ", "the log's copies: refused 152 file "),
    Case("columns added", "ALTER TABLE anew.t ADD a INT NOT NULL DEFAULT 5, ADD b TEXT FIRST; " + ROWS, "another table, or other columns, than the feed has in anew.t", "id, v, n, w"),
    Case("columns dropped", "ALTER TABLE anew.t DROP n; " + ROWS, "another table, or other columns, than the feed has in anew.t", None),
    Case("a column altered", "ALTER TABLE anew.t MODIFY n DECIMAL(9,2); " + ROWS, "another table, or other columns, than the feed has in anew.t", None),
    Case("a column widened", "ALTER TABLE anew.t MODIFY v VARCHAR(99); " + ROWS, "the log's copies: refused 152 file "),
    Case("columns in another order", "ALTER TABLE anew.t MODIFY w VARBINARY(9) FIRST; " + ROWS, "another table, or other columns, than the feed has in anew.t", "id, v, n, w"),
    Case("a column renamed", "ALTER TABLE anew.t CHANGE n o INT; " + ROWS, "another table, or other columns, than the feed has in anew.t", None),
    Case("a table dropped and made", "DROP TABLE anew.u; CREATE TABLE anew.u (k VARBINARY(9), m INT, PRIMARY KEY (m, k)); INSERT INTO anew.u VALUES ('a', 1); ",
         "another table, or other columns, than the feed has in anew.u", None),
    Case("a log begun anew", "RESET MASTER; " + ROWS, "the log was purged or begun anew at binlog.000"),
    Case("a log begun anew with nothing in it", ROWS + "RESET MASTER; ", "the log was purged or begun anew at binlog.000"),
    Case("a log that was purged", ROWS, "the log was purged or begun anew at binlog.000", purges=True),
    Case("another domain alone", "RESET MASTER; SET gtid_domain_id=4; " + ROWS, "the log was purged or begun anew at binlog.000"),
    Case("writes without the log", "SET sql_log_bin=0; " + ROWS, ""),
    Case("nothing", "", ""),
]  # fmt: skip


class Living:
    """A feed of the tables, its checkpoint, and the server that they are of."""

    def __init__(self, trial, name: str, server: Server | None = None, words: list[str] | None = None) -> None:
        self.trial, self.server, self.name, self.more = trial, server or trial.server, name, words or []
        self.feed, self.tables = trial.path(f"anew-{name.replace(' ', '-')}.feed"), TABLES
        self.checkpoint, self._of = self.feed + ".checkpoint", None

    def words(self, *words: str) -> list[str]:
        return ["--socket", self.server.socket, "--user", "root", "--shard", "-", "--out", self.feed, *self.more, *words, *self.tables]

    def run(self, *words: str, prepare: Callable[[], None] = lambda: None) -> Done:
        return commands.run(*self.words(*words), prepare=prepare)

    def check_run(self, name: str, *words: str) -> None:
        done = self.run(*words)
        self.trial.check(f"anew, {self.name}, {name}", f"{done}" if done.status or "warning" in done.err else None)

    def workflow(self, *words: str) -> str:
        """The workflow file of the tables, which is made where they are others than before."""
        tables = json.loads(read_file(self.feed + ".json"))["tables"]
        if self._of != (words, self.tables, tables):
            said = ["--socket", self.server.socket, "--user", "root", "--keyspace", "ks", "--shards=-", *words, *self.tables]
            write_file(self.feed + ".workflow", self.trial.made("record/workflow", *said))
            self._of = words, self.tables, tables
        return self.feed + ".workflow"

    def selected(self, workflow: str) -> bytes:
        return self.server.sql(self.trial.made("record/select", workflow, "anew").decode()).stdout

    def same(self, name: str) -> None:
        """Its rows are those of the server's tables, and no change of it is untrue."""
        workflow = self.workflow()
        self.trial.same(f"anew, {self.name}, {name}", self.trial.made(self.trial.program, "run", workflow, self.feed), self.selected(workflow), 3)

    def follow(self, workflow: str) -> Done:
        """Moves the checkpoint on, or makes it."""
        old = ["--checkpoint", self.checkpoint] if os.path.exists(self.checkpoint) else []
        done = self.trial.run(self.trial.program, "follow", "--dump", *old, "--save-to", self.checkpoint, workflow, self.feed)
        return Done(done.returncode, done.stdout.decode(), done.stderr.decode())

    def gone(self) -> None:
        for more in "", ".json", ".lock", ".workflow", ".checkpoint":
            if os.path.exists(self.feed + more):
                os.unlink(self.feed + more)


def anew(trial) -> None:
    commands.command()
    for case in CASES:
        goes_on(trial, case)
    for step in other_keys, other_tables, further_tables, forever, killed, at_each_line, limited, beside_writers, failed_over:
        step(trial)


@contextmanager
def begun(trial, name: str, *words: str) -> Iterator[Living]:
    """A feed with a checkpoint of it; the tables are gone afterwards."""
    trial.server.sql(MADE)
    living = Living(trial, name, words=list(words))
    living.check_run("begun", "--from-snapshot")
    trial.server.sql("DELETE FROM anew.t WHERE id IN (11, 12); UPDATE anew.t SET n=-n WHERE id < 9; UPDATE anew.u SET m=-m WHERE m = 3; ")
    living.check_run("appended", "--append")
    living.follow(living.workflow())
    yield living
    trial.server.sql("DROP DATABASE anew")
    living.gone()


def goes_on(trial, case: Case) -> None:
    """Where --append doesn't go on, --anew-behind does; feed and checkpoint live on."""
    with begun(trial, case.name) as living:
        old, note = read_file(living.feed), json.loads(read_file(living.feed + ".json"))
        trial.server.sql(case.made)
        if case.purges:
            trial.server.sql("FLUSH BINARY LOGS")
            trial.server.purge(trial.server.sql("SHOW MASTER STATUS").stdout.decode().split()[0])
        done = living.run("--append")
        fine = done.why_not_stopped(case.line) is None and done.err.endswith(TODO) if case.line else done.status == 0 and read_file(living.feed) == old
        trial.check(f"anew, {case.name}, by --append", None if fine and read_file(living.feed) == old else f"{done}")
        living.check_run("behind", "--anew-behind")
        trial.server.sql("UPDATE anew.t SET w='new' WHERE id = 5; " if "w" in columns_of(living) else "DELETE FROM anew.t WHERE id = 5; ")
        living.check_run("appended", "--append")
        if case.kept != ALL:
            living.same("appended")
        check_true(living)
        check_groups(living, old, note, case)
        check_checkpoint(living, case)


def check_true(living: Living) -> None:
    """Each change is of a row that stands there."""
    checked = json.loads(living.trial.run(living.trial.program, "check", "--json", living.workflow(), living.feed).stdout)
    found = checked["streams"][0]["findings"]
    living.trial.check(f"anew, {living.name}, true changes", f"{len(found)}: {found[0]}" if found else None)


def columns_of(living: Living) -> list[str]:
    return [name for name, _ in json.loads(read_file(living.feed + ".json"))["tables"]["anew.t"]]


def check_groups(living: Living, old: bytes, note: dict, case: Case) -> None:
    """The old feed's bytes stay, and where columns changed its groups do; positions rise, and none is there twice."""
    data, trial = read_file(living.feed), living.trial
    was, now = ([position for _, position, _ in groups(one)] for one in (old, data))
    stays = data.startswith(old) or json.loads(read_file(living.feed + ".json"))["tables"] != note["tables"]
    shown = trial.made(trial.program, "show", living.feed).count(b"\ngroup ") + 1
    fine = stays and now[:len(was)] == was and len(set(now)) == len(now) == shown
    trial.check(f"anew, {case.name}, groups", None if fine else f"{stays}, {len(was)}, {len(now)}, {len(set(now))}, {shown}")


def check_checkpoint(living: Living, case: Case) -> None:
    """The old checkpoint goes on to the target that the feed fills, under the new workflow, with the columns that it has; else it is
    refused, and the target is filled from the feed's first group."""
    trial = living.trial
    workflow = living.workflow(*([] if case.kept in (None, ALL) else [f"--rule=t=select {case.kept} from t"]))
    done = living.follow(workflow)
    if case.kept is None:
        trial.check(f"anew, {case.name}, checkpoint", None if done.status == 1 and done.err == "refused 116\n" else f"{done}")
        os.unlink(living.checkpoint)
        done = living.follow(workflow)
    trial.same(f"anew, {case.name}, followed", (done.out + done.err).encode(), living.selected(workflow), 3)


def other_keys(trial) -> None:
    """A table with another primary key stops it, also where no note says which one it was and a column of it is new."""
    with begun(trial, "keys") as living:
        old = read_file(living.feed)
        note = json.loads(read_file(living.feed + ".json"))
        trial.server.sql("ALTER TABLE anew.t MODIFY n INT NOT NULL DEFAULT 0, DROP PRIMARY KEY, ADD PRIMARY KEY (n, id); ")
        trial.check("anew, another key", living.run("--anew-behind").why_not_stopped("another key than the feed has in anew.t (n, id, and not id)"))
        del note["keys"]
        write_file(living.feed + ".json", json.dumps(note).encode())
        trial.server.sql("ALTER TABLE anew.t MODIFY n BIGINT NOT NULL DEFAULT 0; ")
        stopped = living.run("--anew-behind").why_not_stopped("another key than the feed has in anew.t (column n)")
        trial.check("anew, another key's type", stopped or (None if read_file(living.feed) == old else "the feed was changed"))


def other_tables(trial) -> None:
    """A table of the feed has to be named; shard and keyspace are the feed's; a feed and a note have to be there."""
    with begun(trial, "tables", "--keyspace", "ks") as living:
        words = living.words("--anew-behind")
        tries = {"anew.u, which isn't named": words[:-1], "shard -80 for the feed of -": [*words, "--shard=-80"], "keyspace k for the feed of ks": [*words, "--keyspace=k"]}
        for line, said in tries.items():
            trial.check(f"anew, {line}", commands.run(*said).why_not_stopped(line))
        for more in "--append", "--from-snapshot", "--replace":
            trial.check(f"anew, with {more}", None if commands.run(*words, more).status == 2 else "another status")
        os.unlink(living.feed)
        trial.check("anew, no feed", living.run("--anew-behind").why_not_stopped("no feed to append to at "))


def further_tables(trial) -> None:
    """Tables more come in by one group at a snapshot's position, with those that were there before and behind it by the log."""
    with begun(trial, "further") as living:
        old = read_file(living.feed)
        trial.server.sql(ROWS + "CREATE TABLE anew.more (id BIGINT PRIMARY KEY, v VARCHAR(3000)); CREATE TABLE anew.empty (id INT PRIMARY KEY);"
                         " INSERT INTO anew.more SELECT seq, REPEAT('r', seq) FROM anew.seq_1_to_1600; DELETE FROM anew.more WHERE id = 7; ")  # fmt: skip
        living.tables = [*TABLES, "anew.more", "anew.empty"]
        living.check_run("tables", "--append")
        living.same("tables")
        data = read_file(living.feed)
        count = trial.made(trial.program, "show", living.feed).count(b"group ") - len(groups(old))
        # (three transactions, the position before the snapshot, its rows, and the columns of the empty table)
        fine = data.startswith(old) and count == 6 and len(data) > 1_250_000
        trial.check("anew, tables in one group", None if fine else f"{count} groups, {len(data)} bytes")
        trial.server.sql("INSERT INTO anew.empty VALUES (1); DELETE FROM anew.more WHERE id < 9; " + ROWS.replace("9000", "9001").replace("-1", "-2"))
        living.check_run("tables appended", "--append")
        living.same("tables appended")
        done = living.follow(living.workflow())
        trial.same("anew, tables, followed", (done.out + done.err).encode(), living.selected(living.workflow()), 1500)
        last = json.loads(read_file(living.feed + ".json"))["gtids"]
        trial.server.sql("CREATE TABLE anew.last (id INT PRIMARY KEY); ")
        living.tables = [*living.tables, "anew.last"]
        before = read_file(living.feed)
        stopped = living.run("--append", "--until", last).why_not_stopped("the position is before the rows of a further table (last): ")
        trial.check("anew, tables, until", stopped or (None if read_file(living.feed) == before else "the feed was changed"))
        trial.server.sql("XA START 'x'; INSERT INTO anew.last VALUES (1); XA END 'x'; XA PREPARE 'x'; ")
        trial.check("anew, tables, prepared", living.run("--append").why_not_stopped("an XA transaction is prepared before "))
        trial.server.sql("XA COMMIT 'x'; INSERT INTO anew.last VALUES (2)")
        living.check_run("tables, prepared before", "--append")
        living.same("tables, prepared before")
        trial.server.sql("CREATE TABLE anew.still (id INT PRIMARY KEY); INSERT INTO anew.still VALUES (1), (2); ")
        living.check_run("up to the log's end", "--append")
        living.tables = [*living.tables, "anew.still"]
        living.check_run("a table more at the log's end", "--append")
        living.same("a table more at the log's end")


def forever(trial) -> None:
    """From a snapshot on a feed goes on with each transaction, and connects anew behind its note."""
    with begun(trial, "forever") as living:
        trial.server.sql("TRUNCATE anew.u; ")
        one = Command(*living.words("--anew-behind", "--forever"))
        one.awaits(lambda: one.has_said("going on\n") and b"Binlog Dump" in trial.server.sql("SHOW PROCESSLIST").stdout, "forever")
        count = len(groups(read_file(living.feed)))
        for line in trial.server.sql("SHOW PROCESSLIST").stdout.decode().splitlines():
            if "Binlog Dump" in line:
                trial.server.sql(f"KILL {line.split()[0]}")
        trial.server.sql("INSERT INTO anew.t (id) VALUES (8000); INSERT INTO anew.u (k, m) VALUES ('a', 7); ")
        one.awaits(lambda: len(groups(read_file(living.feed))) == count + 2 and one.has_said("going on\n", 2), "two transactions")
        one.kill(signal.SIGTERM)
        done = one.wait()
        trial.check("anew, forever", None if done.status == 0 and done.err.count("going on\n") == 2 else f"{done}")
        living.same("rows")


def killed(trial) -> None:
    """Killed, ended or refused a system call at each one; what the feed had stays, also whole groups that a killed one left, and
    the next one brings it to the server's rows."""
    with begun(trial, "killed") as living:
        for made in "SET sql_log_bin=0; ", "TRUNCATE anew.u; ", "ALTER TABLE anew.u ADD more INT; INSERT INTO anew.u VALUES ('k', 1, 'v', 2); ":
            trial.server.sql(made + ROWS.replace("9000", f"{9000 + len(made)}").replace("-1", f"-{len(made)}"))
            count = interrupted(trial, living, ["killed", "ended", "ENOSPC"] if made.startswith("ALTER") else ["killed"])
            trial.check(f"anew, calls behind {made[:8]}", None if count > 12 else f"{count}")
            living.same("behind")


def interrupted(trial, living: Living, names: list[str]) -> int:
    """Tries copies of a feed; answers how many system calls there are."""
    old, living._of = read_file(living.feed), None
    wanted = living.selected(living.workflow())
    workflow = read_file(living.feed + ".workflow")

    def copied(name: str) -> Living:
        copy = Living(trial, f"{living.name}-{name}")
        copy.feed = os.path.join(tempfile.mkdtemp(dir=trial.server.folder), "a.feed")
        for more, data in (("", old), (".json", read_file(living.feed + ".json")), (".workflow", workflow)):
            write_file(copy.feed + more, data)
        return copy

    def why(item: tuple[int, str]) -> str | None:
        number, name = item
        copy = copied(f"{name}-{number}")
        done = copy.run("--anew-behind", prepare=InPieces(At(number, INTERRUPTIONS[name])))
        seen = read_file(copy.feed)
        left = [one for one in os.listdir(os.path.dirname(copy.feed)) if one.endswith((".new", ".copy")) and name == "ended"]
        if name != "killed" and (left or not is_whole(seen)):
            return f"{done}, {left} left, or a group that isn't whole"
        whole = seen[:groups(seen)[-1][0]]
        append = copy.run("--append") if name == "killed" else done
        if append.status > 0 and name == "killed" and not append.err.endswith((TODO, ": go on with --anew-behind\n")):
            return f"then {append}"
        again = copy.run("--anew-behind")
        data = read_file(copy.feed)
        left = [one for one in os.listdir(os.path.dirname(copy.feed)) if one.endswith((".new", ".copy"))]
        dump = trial.made(trial.program, "run", copy.feed + ".workflow", copy.feed)
        if again.status or left or dump != wanted or not data.startswith(whole) and data.startswith(old):
            return f"again {again}, {left} left, {len(dump)} bytes and not {len(wanted)}"
        shutil.rmtree(os.path.dirname(copy.feed))
        return why_wrong(name, done)

    count = commands.calls_of(commands.CHANGING, *copied("counted").words("--anew-behind"))
    torn(trial, copied, old, workflow, wanted)
    faults = commands.spread([(number, name) for name in names for number in range(1, count + 1)], why)
    trial.check(f"anew, {living.name}", f"{len(faults)} of {len(names) * count}: {faults[0]}" if faults else None)
    one, other = (Command(*living.words("--anew-behind")) for _ in range(2))
    ends = one.wait(), other.wait()
    wrong = [done for done in ends if done.status and done.why_not_stopped("another recording writes this feed at ")]
    trial.check(f"anew, {living.name}, two at a time", f"{ends}" if wrong or all(done.status for done in ends) else None)
    return count


def torn(trial, copied: Callable[[str], Living], old: bytes, workflow: bytes, wanted: bytes) -> None:
    """A writer that was killed amid a group of several messages: what is left of the group is cut off."""
    copy = copied("torn")
    copy.run("--anew-behind", prepare=InPieces(lambda: None))
    new = read_file(copy.feed)
    if not new.startswith(old):
        return
    [(_, _, group), *_] = groups(new)[len(groups(old)):]
    messages = len(list(frames_of(new[len(old):])))
    trial.check("anew, a group of several messages", None if messages > 3 and len(group) > 100 else f"{messages} messages")
    for cut in {*random.Random(2).sample(range(len(old) + 1, len(new)), 8), *(len(old) + end for end in list(frames_of(new[len(old):]))[:2])}:
        living = copied(f"torn-{cut}")
        write_file(living.feed, new[:cut])
        done = living.run("--anew-behind")
        data = read_file(living.feed)
        dump = trial.made(trial.program, "run", living.feed + ".workflow", living.feed)
        fine = done.status == 0 and dump == wanted and data.startswith(old) and is_whole(data) and done.err.count("cut off") == 1
        trial.check(f"anew, torn at {cut - len(old)}", None if fine else f"{done}, {len(data)} bytes")


def frames_of(feed: bytes) -> Iterator[int]:
    from recorder.messages import frames

    for _, end in frames(feed):
        yield end


@dataclass(frozen=True)
class InPieces:
    """Groups have a message for each change."""

    prepare: Callable[[], None]

    def __call__(self) -> None:
        from recorder import groups, snapshot

        groups.PIECE = snapshot.PIECE = 40
        self.prepare()


def is_whole(feed: bytes) -> bool:
    found = groups(feed)
    return bool(found) and found[-1][0] == len(feed)


def at_each_line(trial) -> None:
    """A signal at the lines of what makes the group: nothing is left beside the feed, which is as it was, or has the group."""
    with begun(trial, "lines") as living:
        trial.server.sql("SET sql_log_bin=0; " + ROWS)
        old, note = read_file(living.feed), read_file(living.feed + ".json")

        def run(prepare: Callable[[], None]) -> Done:
            copy = Living(trial, "line")
            with tempfile.TemporaryDirectory(dir=trial.server.folder) as folder:
                copy.feed = os.path.join(folder, "a.feed")
                write_file(copy.feed, old)
                write_file(copy.feed + ".json", note)
                done = copy.run("--anew-behind", prepare=prepare)
                done.left, done.has_group = sorted(os.listdir(folder)), len(read_file(copy.feed)) > len(old)
                done.stays = read_file(copy.feed).startswith(old)
                return done

        def judge(done: Done) -> str | None:
            is_so = done.stays and set(done.left) - {"a.feed.lock", "a.feed.logs"} == {"a.feed", "a.feed.json"} and done.has_group == (done.status == 0)
            why = done.why_not_stopped("ended by SIGTERM") if done.status else None
            return why or (None if is_so else f"{done}, {done.left}, {done.has_group}")

        trial.check("anew, ended at each line", lines.at_each(lines.OF_FEED, run, judge, 3))


def limited(trial) -> None:
    """A full disk, of the rows that are held, of the feed and of its note: one line, and the feed as it was."""
    with begun(trial, "limited") as living:
        trial.server.sql("TRUNCATE anew.t; INSERT INTO anew.t (id, v) SELECT seq, REPEAT('x', 30) FROM anew.seq_1_to_3000; ")
        old = read_file(living.feed), read_file(living.feed + ".json")
        for limit in 100, 20_000, 65_536, len(old[0]) + 1000:
            done = living.run("--anew-behind", prepare=lambda limit=limit: resource.setrlimit(resource.RLIMIT_FSIZE, (limit, limit)))
            left = [one for one in os.listdir(trial.server.folder) if "anew-limited" in one and one.endswith((".new", ".copy"))]
            same = (read_file(living.feed), read_file(living.feed + ".json")) == old
            trial.check(f"anew, limited to {limit}", done.why_not_stopped("") or (None if same and not left else f"{left} left, or the feed was changed"))
        living.check_run("behind", "--anew-behind")
        living.same("behind")


def beside_writers(trial) -> None:
    """Clients that write while a feed goes on from snapshots and takes tables more lose nothing."""
    with begun(trial, "writers", "--keyspace", "ks") as living:
        trial.server.sql("CREATE TABLE anew.more (id INT PRIMARY KEY, v TEXT); ")
        is_over, done = threading.Event(), []
        writer = threading.Thread(target=write, args=(trial.server, is_over))
        writer.start()
        try:
            for at, words in enumerate(["--anew-behind", "--append", "--anew-behind", "--append", "--append"]):
                living.tables = [*TABLES, *(["anew.more"] if at > 2 else [])]
                done.append(living.run(words))
        finally:
            is_over.set()
            writer.join()
        wrong = [one for one in done if one.status]
        trial.check("anew, beside writers", f"{wrong[0]}" if wrong else None)
        living.check_run("at last", "--append")
        workflow = living.workflow()
        trial.same("anew, writers, rows", trial.made(trial.program, "run", workflow, living.feed), living.selected(workflow), 100)
        check_true(living)
        shown = trial.run(trial.program, "show", "--keyspace", "ks", "--shard", "-", living.feed)
        other = trial.run(trial.program, "show", "--keyspace", "ks", "--shard", "80-", living.feed)
        fine = shown.returncode == 0 and other.stderr.startswith(b"refused 89")
        trial.check("anew, VGTID", None if fine else f"{shown.stderr} {other.stderr}")


def write(server: Server, is_over: threading.Event) -> None:
    r = random.Random(5)
    while not is_over.is_set():
        ids = [r.randrange(2000) for _ in range(3)]
        server.sql(f"REPLACE INTO anew.t (id, v, n) VALUES ({ids[0]}, 'w{ids[1]}', {ids[2]}); DELETE FROM anew.t WHERE id={ids[1]};"
                   f" REPLACE INTO anew.more VALUES ({ids[2]}, 'm'); BEGIN; UPDATE anew.t SET n=n+1 WHERE id > {ids[0]} LIMIT 40;"
                   f" UPDATE anew.u SET v={ids[1]} WHERE m={ids[1] % 6}; COMMIT; ")  # fmt: skip


def failed_over(trial) -> None:
    """A replica that takes the server's place: with all transactions the feed goes on by GTID, also under --forever; without the
    last ones it stops, and goes on with --anew-behind."""
    trial.server.sql("RESET MASTER; CREATE USER IF NOT EXISTS repl@'%' IDENTIFIED BY 'r'; GRANT REPLICATION SLAVE ON *.* TO repl@'%'; " + MADE)
    with Server(number=8) as replica, forwarder(trial.server.socket) as port:
        replica.sql(f"CHANGE MASTER TO master_host='127.0.0.1', master_port={port}, master_user='repl', master_password='r', master_use_gtid=slave_pos; START SLAVE")
        living = Living(trial, "failover")
        living.check_run("begun", "--from-snapshot")
        trial.server.sql("SET gtid_domain_id=5; INSERT INTO anew.t (id) VALUES (2001); SET gtid_domain_id=0; INSERT INTO anew.t (id) VALUES (2002);"
                         " INSERT INTO anew.other VALUES (1); FLUSH BINARY LOGS; " + ROWS)  # fmt: skip
        living.check_run("appended", "--append")
        position = json.loads(read_file(living.feed + ".json"))["gtids"]
        wait_for(replica, position)
        trial.server.sql("INSERT INTO anew.t (id) VALUES (2003); ")
        living.check_run("ahead", "--append")
        ahead = json.loads(read_file(living.feed + ".json"))["gtids"]
        wait_for(replica, ahead)
        replica.sql("STOP SLAVE")
        lost = {more: read_file(living.feed + more) for more in ("", ".json")}
        trial.server.sql("INSERT INTO anew.t (id) VALUES (2004); ")
        other = Living(trial, "failover-lost")
        for more, data in lost.items():
            write_file(other.feed + more, data)
        other.check_run("lost", "--append")
        has_less(trial, other, replica)
        replica.sql("INSERT INTO anew.t (id) VALUES (3000); SET gtid_domain_id=5; DELETE FROM anew.t WHERE id=2001; ")
        goes_on_there(trial, living, replica)
        had_more(trial, other, replica)
        for one in living, other:
            one.gone()
    trial.server.sql("DROP DATABASE anew; DROP USER repl@'%'; RESET MASTER")


def wait_for(replica: Server, position: str) -> None:
    begun = time.monotonic()
    while replica.sql(f"SELECT MASTER_GTID_WAIT('{position}', 5)").stdout.strip() != b"0":
        if time.monotonic() - begun > PATIENCE:
            raise RuntimeError(replica.sql("SHOW SLAVE STATUS").stdout.decode())


def goes_on_there(trial, living: Living, replica: Server) -> None:
    """By GTID, each transaction once."""
    old = read_file(living.feed)
    living.server = replica
    one = Command(*living.words("--append", "--forever"))
    one.awaits(lambda: one.has_said("going on\n"), "forever")
    replica.sql("INSERT INTO anew.t (id) VALUES (3001); ")
    one.awaits(lambda: len(groups(read_file(living.feed))) == len(groups(old)) + 3, "three transactions")
    one.kill(signal.SIGTERM)
    done = one.wait()
    fine = done.status == 0 and "is of server 7, and here is 8: going on behind 0-7-" in done.err and read_file(living.feed).startswith(old)
    trial.check("anew, failover", None if fine else f"{done}")
    living.same("there")
    replica.sql("DELETE FROM anew.t WHERE id < 4; ")
    living.check_run("there, appended", "--append")
    living.same("there, appended")


def has_less(trial, living: Living, replica: Server) -> None:
    """The feed has a transaction that the replica hasn't, and nothing is there in its place."""
    old, living.server = read_file(living.feed), replica
    done = living.run("--append")
    fine = done.status == 1 and done.err.splitlines()[-1].startswith("feed: the log of another server, which hasn't what the feed ends with (0-7-")
    trial.check("anew, failover to less", None if fine and read_file(living.feed) == old else f"{done}")


def had_more(trial, living: Living, replica: Server) -> None:
    """The feed has a transaction that the replica hasn't: its numbers go on with others there."""
    living.server = replica
    old = read_file(living.feed)
    done = living.run("--append")
    line = "feed: the log of another server, which hasn't what the feed ends with (0-7-"
    stopped = done.status == 1 and done.err.splitlines()[-1].startswith(line) and done.err.endswith(TODO)
    trial.check("anew, failover with a loss", None if stopped and read_file(living.feed) == old else f"{done}")
    living.check_run("lost, behind", "--anew-behind")
    living.same("lost, behind")
    replica.sql("DELETE FROM anew.t WHERE id < 8; ")
    living.check_run("lost, appended", "--append")
    living.same("lost, appended")
    trial.check("anew, failover with a loss, bytes", None if read_file(living.feed).startswith(old) else "the feed was changed")
