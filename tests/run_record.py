#!/usr/bin/env python3
"""Records feeds from a private MariaDB server, and holds what the program makes of them to what the server has.

usage: tests/run_record.py [PROGRAM [ROUNDS]]

PROGRAM is a built program, ./vrepl unless one is given. With ROUNDS nothing is tried but so many random tables. A server is started in a temporary folder (its own socket, no network), clients change the tables of two
source shards, and record/feed writes their feeds; beside these steps others go on over a server of their own. The dumps of merges and splits have to be what the
statements of record/select print, byte for byte; a checkpoint is resumed over a feed that --append made
longer, each stop of the recorder is shown, and the commands of docs/OPERATE.md print what it says. Where mariadb-server, python3-pymysql and python3-protobuf
of the system aren't installed nothing is tried, and the script says so and counts nothing.
The last line is 'N passed, M failed': one a check.
"""
import importlib.util
import json
import os
import shutil
import signal
import subprocess
import sys
import time
from collections.abc import Callable
from contextlib import ExitStack

ROOT = os.path.dirname(os.path.dirname(os.path.abspath(__file__)))
OWN = "/usr/bin/python3"
MODULES = ("pymysql", "google.protobuf")
RANGES = ["-40", "40-80", "80-c0", "c0-", "-1080", "33-e1"]
ROUNDS = 80
"""How many random tables are tried beside all else."""
PATIENCE = 600
"""The seconds that a command is given: it ends in two, on a machine with nothing else to do."""
sys.dont_write_bytecode = True
sys.path.append(os.path.join(ROOT, "record"))


def has_modules() -> bool:
    try:
        return all(importlib.util.find_spec(name) for name in MODULES)
    except ModuleNotFoundError:
        return False


class Trial:
    """The server, a folder for files, and the count of what was seen."""

    def __init__(self, server, program: str) -> None:
        from record import commands

        self.server, self.program, self.passed, self.failed = server, program, 0, 0
        self.begun, commands.PROGRAM = time.monotonic(), program

    def path(self, name: str) -> str:
        return os.path.join(self.server.folder, name)

    def check(self, name: str, why: str | None) -> None:
        """Counts a check: it failed if there is a reason."""
        if why:
            print(f"record {name}: {why}", flush=True)
        self.passed, self.failed = self.passed + (not why), self.failed + bool(why)

    def run(self, *words: str, stdin: str = "") -> subprocess.CompletedProcess:
        told = {**os.environ, "PYTHONDONTWRITEBYTECODE": "1"}
        return subprocess.run(words, cwd=ROOT, input=stdin.encode(), capture_output=True, timeout=PATIENCE, env=told)

    def record(self, *words: str) -> subprocess.CompletedProcess:
        """What record/feed does, in a fork of this process, which has its modules already."""
        from record import commands

        done = commands.run(*self.feed_words(*words))
        return subprocess.CompletedProcess(words, done.status, done.out.encode(), done.err.encode())

    def feed_words(self, *words: str) -> list[str]:
        """The words of record/feed; a feed that is there is made anew, unless it is gone on with."""
        anew = ["--replace"] if os.path.exists(words[words.index("--out") + 1] + ".json") and "--append" not in words else []
        return ["--socket", self.server.socket, "--user", "root", "--program", self.program, *anew, *words]

    def made(self, *words: str) -> bytes:
        """The output of a command that has to succeed. RuntimeError where it doesn't."""
        done = self.run(*words)
        if done.returncode or done.stderr:
            raise RuntimeError(f"{' '.join(words[:2])}: status {done.returncode}, {done.stderr.decode(errors='replace')[:300]}")
        return done.stdout

    def recorded(self, *words: str) -> None:
        self.made("record/feed", *self.feed_words(*words))

    def recorded_twice(self, shard: str, feed: str, *words: str) -> None:
        """Records a feed by the program, and another one, FEED.own, by the decoder: they have the same groups."""
        self.recorded(f"--shard={shard}", *([] if "--append" in words else ["--keyspace", "ks"]), "--out", feed, *words)
        self.decoded(shard, feed, *words)
        made, own = ([group for group in self.shown(shard, out).split(b"group ") if b"\n" in group] for out in (feed, f"{feed}.own"))
        at = next((at for at, (one, other) in enumerate(zip(made, own)) if one != other), min(len(made), len(own)))
        told = f"group {at + 1} of {len(made)} and {len(own)}: {made[at:at + 1]!r:.200} and not {own[at:at + 1]!r:.200}"
        self.check(f"{os.path.basename(feed)} by the program {words[:1]}", told if made != own or not made else None)

    def decoded(self, shard: str, feed: str, *words: str, keyspace: str | None = "ks", until: str = "") -> None:
        """Has the decoder make FEED.own of what a recording with these words has made FEED of, or go on with it. The rows of a snapshot
        are those of FEED."""
        from recorder.server import Login
        from record.decoder.reading import decode

        if "--from-snapshot" in words:
            for end in "", ".json":
                shutil.copy(feed + end, f"{feed}.own{end}")
        else:
            names = [tuple(word.split(".", 1)) for word in words if not word.startswith("--")]
            decode(Login.of(self.server.socket, "root"), shard, keyspace, f"{feed}.own", names, "--append" in words, until)

    def shown(self, shard: str, feed: str) -> bytes:
        return self.made(self.program, "show", "--keyspace", "ks", f"--shard={shard}", feed)

    def workflow(self, name: str, shards: list[str], tables: list[str], *words: str) -> str:
        """Writes a workflow file; answers its path."""
        said = ["--socket", self.server.socket, "--user", "root", "--keyspace", "ks", f"--shards={','.join(shards)}"]
        with open(self.path(name), "wb") as file:
            file.write(self.made("record/workflow", *said, *words, *tables))
        return file.name

    def selected(self, workflow: str, *schemas: str) -> bytes:
        """What the server's own tables print as the dump of a workflow."""
        return self.server.sql(self.made("record/select", workflow, *schemas).decode()).stdout

    def same(self, name: str, dump: bytes, wanted: bytes, least: int = 0) -> None:
        """Checks that two dumps are one, of so many lines at least."""
        have, want = dump.splitlines(), wanted.splitlines()
        at = next((at for at, (one, other) in enumerate(zip(have, want)) if one != other), min(len(have), len(want)))
        told = f"line {at + 1} of {len(have)} and {len(want)}: {have[at:at + 1]!r:.200} and not {want[at:at + 1]!r:.200}"
        self.check(name, (told if dump != wanted else None) or (f"only {len(have)} lines" if len(have) < least else None))


def read_file(path: str) -> bytes | None:
    if not os.path.exists(path):
        return None
    with open(path, "rb") as file:
        return file.read()


def stops(trial: Trial) -> None:
    """Each stop has its line and status 1, and leaves the feed and its note as they were."""
    from record import commands
    from record.stops import CASES

    commands.command()
    out = trial.path("stop.feed")
    for case in CASES:
        trial.server.sql(case.made)
        if case.purge:
            trial.server.purge(case.purge)
        before = read_file(out), read_file(out + ".json")
        done = trial.record("--shard", "-", "--out", out, *case.words, *case.tables.split())
        said = done.stderr.decode()
        left = [name for name in os.listdir(trial.server.folder) if name.endswith(".new")]
        if not case.line:
            why = said if done.returncode or said else None
        elif done.returncode != 1 or not said.startswith("feed: ") or case.line not in said or said.count("\n") != 1:
            why = f"status {done.returncode}, {said!r}"
        else:
            why = "the feed was changed" if (read_file(out), read_file(out + ".json")) != before else None
        trial.check(f"stop {case.name}", why or (f"{left} was left" if left else None))
        trial.server.sql(case.behind)
    with open(out, "ab") as file:
        file.truncate(file.tell() - 1)
    done = trial.record("--shard", "-", "--out", out, "--append", "s.t")
    trial.check("stop cut_feed", None if done.returncode == 1 and b"in " + out.encode() in done.stderr else repr(done.stderr))
    trial.server.sql("DROP DATABASE s; DROP DATABASE s2; RESET MASTER")


def random_tables(trial: Trial, rounds: int = ROUNDS) -> None:
    """Tables of random columns with random rows, from the log and from a snapshot."""
    from record.random_tables import compare

    compare(trial, 0, rounds)


def rounds_alone(trial: Trial) -> None:
    """As many random tables as the command line wants."""
    from record import transcribed as logs

    random_tables(trial, int(sys.argv[2]))
    logs.transcribed(trial, int(sys.argv[2]))


def merged_and_split(trial: Trial) -> None:
    """Both shards' feeds into one target, and into one of each key range."""
    from record.load import SCHEMAS, SHARDS, VINDEXES, Load, creation, deadlock, large_transaction, tables_of

    # (an XA transaction is prepared and ended in one file)
    trial.server.sql(creation() + "CREATE DATABASE aside; CREATE TABLE aside.t (v TEXT); SET GLOBAL max_binlog_size=1073741824")
    load = Load(trial.server.socket, 1, clients=6, transactions=200, xa=True)
    trial.server.sql("INSERT INTO aside.t VALUES ('not recorded'); CREATE TABLE aside.t2 AS SELECT * FROM aside.t; DROP TABLE aside.t; ")
    done = load.wait()
    done["deadlock"] += deadlock(trial.server.socket)
    large_transaction(trial.server.socket)
    missing = {"commit", "rollback", "xa", "deadlock", "_again", "_move", "_replace", "_upsert", "_undone", "_many"} - (+done).keys()
    trial.check("load", f"no {missing}" if missing else None)
    feeds = [trial.path(f"{schema}.feed") for schema in SCHEMAS]
    for schema, shard, feed in zip(SCHEMAS, SHARDS, feeds):
        trial.recorded_twice(shard, feed, *tables_of(schema))
    trial.server.sql("SET GLOBAL max_binlog_size=262144; FLUSH BINARY LOGS")
    whole = trial.workflow("whole.json", SHARDS, tables_of(SCHEMAS[0]), *VINDEXES)
    wanted = trial.selected(whole, *SCHEMAS)
    trial.same("merged", trial.made(trial.program, "run", whole, *feeds), wanted, 100)
    trial.same("merged, one stream behind the other", trial.made(trial.program, "run", "--alone", "--rows", "7", whole, *feeds), wanted)
    for at, place in enumerate(RANGES):
        part = trial.workflow(f"part{at}.json", SHARDS, tables_of(SCHEMAS[0]), *VINDEXES, f"--filter={place}")
        trial.same(f"split {place}", trial.made(trial.program, "run", part, *feeds), trial.selected(part, *SCHEMAS), 10)
    by_rule = trial.workflow("rule.json", SHARDS, tables_of(SCHEMAS[0]), *VINDEXES,
                             "--rule=blobs=select * from blobs where in_keyrange(k, 'binary_md5', '70-')", "--rule=pairs=80-")  # fmt: skip
    trial.same("split by rules", trial.made(trial.program, "run", by_rule, *feeds), trial.selected(by_rule, *SCHEMAS), 10)
    library_reads(trial, feeds[0], SHARDS[0])


def by_hash(trial: Trial) -> None:
    """A reshard of a keyspace by a vindex that the server can't compute."""
    from record import hashed

    hashed.resharded(trial)


def library_reads(trial: Trial, feed: str, shard: str) -> None:
    """Google's library reads the feed's messages as groups in the order of `show`, each with its FIELDs first."""
    from recorder.messages import EventType, Response, frames

    data, told, groups, faults = read_file(feed), set(), [], 0
    kinds: list[int] = []
    for start, end in frames(data):
        events = Response.FromString(data[start:end]).events
        # (a group of more than a megabyte is in several messages)
        kinds += [event.type for event in events]
        if EventType.VGTID in kinds:
            faults += kinds[:1] not in ([EventType.BEGIN], [EventType.VGTID]) or kinds.count(EventType.VGTID) != 1
            kinds = []
        groups += [event.vgtid.shard_gtids[0].gtid.removeprefix("MySQL56/") for event in events if event.type == EventType.VGTID]
        for event in events:
            if event.type == EventType.FIELD:
                faults += event.field_event.table_name in told
                told.add(event.field_event.table_name)
            faults += event.type == EventType.ROW and event.row_event.table_name not in told
    shown = [line.split()[2].decode() for line in trial.shown(shard, feed).splitlines() if line.startswith(b"group ")]
    trial.check("messages", None if not faults and not kinds and groups == shown else f"{faults} faults, {len(groups)} groups and {len(shown)} shown")


def kinds(trial: Trial) -> None:
    """Columns of every other type, as the decoder reads them, with the log packed and not; record/feed stops at them."""
    trial.server.sql("CREATE DATABASE k; CREATE TABLE k.t (id BIGINT PRIMARY KEY, d DECIMAL(10,3), e DECIMAL(65,30), f FLOAT, g DOUBLE, h DOUBLE(9,2),"
                     " dt DATETIME(3), d0 DATETIME, ts TIMESTAMP(6) NULL, tm TIME(1), da DATE, y YEAR, en ENUM('x','y''z','ä'), se SET('p','q','r'),"
                     " b BIT(10), p POINT, z INT(6) UNSIGNED ZEROFILL, v INT AS (id + 1) VIRTUAL, w INT AS (id + 2) STORED, l CHAR(9) CHARACTER SET latin1); ")  # fmt: skip
    rows = [
        "(1, -12.5, 1e-30, 1.5, 1e20, 1.005, '2020-01-02 03:04:05.678', '1999-12-31 23:59:59', '2020-01-02 03:04:05.6', '-10:11:12.1', '2024-02-29',"
        " 2001, 'y''z', 'p,r', b'1010101010', POINT(1, 2), 42, 'ä ')",
        "(-2, 0, -99999999999999999999999999999999999.999, -0.1, -1e-15, -0.5, '0001-01-01', '9999-12-31 23:59:59', '1970-01-01 00:00:01', '838:59:59',"
        " '0001-01-01', 1901, 'ä', '', b'1', NULL, 4294967295, '')",
        "(3, 9999999.999, 0, 16777216, 123456789012345678, 1234567.89, '2000-02-29 12:00:00.001', NULL, NULL, '-00:00:00.5', '9999-12-31', 2155, 'x', 'q',"
        " b'0', NULL, 0, NULL)",
    ]  # fmt: skip
    names = "id, d, e, f, g, h, dt, d0, ts, tm, da, y, en, se, b, p, z, l"
    texts = ["1e15", "1e16", "123456789012345", "1234567890123456", "1e-5", "0.1", "1e38", "3.4e-38", "1e-16", "33.3", "0.30000000000000004", "1e7"]
    floats = ", ".join(f"({at}, {text}, {text})" for at, text in enumerate(texts, 100))
    trial.server.sql(f"SET time_zone='+00:00'; INSERT INTO k.t ({names}) VALUES {rows[0]}, {rows[1]}; INSERT INTO k.t (id, f, g) VALUES {floats};"
                     f" SET GLOBAL log_bin_compress=1, log_bin_compress_min_len=10; INSERT INTO k.t ({names}) VALUES {rows[2]};"
                     " UPDATE k.t SET tm='12:34:56.7', f=-f WHERE id > 0; DELETE FROM k.t WHERE id=105; SET GLOBAL log_bin_compress=0; ")  # fmt: skip
    workflow = trial.workflow("kinds.json", ["-"], ["k.t"])
    wanted = trial.selected(workflow, "k")
    trial.decoded("-", trial.path("kinds.feed"), "k.t")
    trial.same("types", trial.made(trial.program, "run", workflow, trial.path("kinds.feed.own")), wanted, 15)
    done = trial.record("--shard", "-", "--out", trial.path("kinds.feed"), "--from-snapshot", "k.t")
    said = b"feed: column f, which is FLOAT32, in k.t: no log is read as the server prints it; make it DECIMAL, and record again, or leave the table out\n"
    trial.check("types, a stop", None if (done.returncode, done.stderr) == (1, said) else f"{done}")


def told_kinds(trial: Trial) -> None:
    """Columns of every type that the program tells, from the log and from a snapshot."""
    trial.server.sql("CREATE DATABASE k; CREATE TABLE k.p (id BIGINT PRIMARY KEY, d DECIMAL(10,3), e DECIMAL(65,30), dt DATETIME(3), d0 DATETIME,"
                     " ts TIMESTAMP(6) NULL, tm TIME(1), da DATE, y YEAR, en ENUM('x','y''z','ä'), se SET('p','q','r'), b BIT(10), u INT(6) UNSIGNED,"
                     " v INT AS (id + 1) VIRTUAL, w INT AS (id + 2) STORED, l CHAR(9) CHARACTER SET latin1, n BINARY(4), t MEDIUMTEXT, o LONGBLOB); ")  # fmt: skip
    rows = [
        "(1, -12.5, 1e-30, '2020-01-02 03:04:05.678', '1999-12-31 23:59:59', '2020-01-02 03:04:05.6', '-10:11:12.1', '2024-02-29', 2001, 'y''z', 'p,r',"
        " b'1010101010', 42, 'ä ', 'ab', 'ä', X'00FF')",
        "(-2, 0, -99999999999999999999999999999999999.999, '0001-01-01', '9999-12-31 23:59:59', '1970-01-01 00:00:01', '838:59:59', '0001-01-01', 1901, 'ä', '',"
        " b'1', 4294967295, '', '', '', '')",
        "(3, 9999999.999, 0, '2000-02-29 12:00:00.001', NULL, NULL, '-00:00:00.5', '9999-12-31', 2155, 'x', 'q', b'0', 0, NULL, NULL, NULL, NULL)",
    ]  # fmt: skip
    names = "id, d, e, dt, d0, ts, tm, da, y, en, se, b, u, l, n, t, o"
    trial.server.sql(f"SET time_zone='+00:00'; INSERT INTO k.p ({names}) VALUES {rows[0]}, {rows[1]}; INSERT INTO k.p ({names}) VALUES {rows[2]};"
                     " UPDATE k.p SET tm='12:34:56.7', d=-d WHERE id > 0; DELETE FROM k.p WHERE id=-2; ")  # fmt: skip
    workflow, feed = trial.workflow("kinds.told.json", ["-"], ["k.p"]), trial.path("kinds.told.feed")
    wanted = trial.selected(workflow, "k")
    for words in (), ("--from-snapshot",):
        trial.recorded_twice("-", feed, *words, "k.p")
        trial.same(f"types by the program {words}", trial.made(trial.program, "run", workflow, feed), wanted, 3)
    trial.server.sql("DROP DATABASE k")


def portions(trial: Trial) -> None:
    """A snapshot of more rows than a group has, and nothing of the table in the log behind it."""
    trial.server.sql("CREATE DATABASE p; USE p; CREATE TABLE p.t (id INT PRIMARY KEY, v INT); INSERT INTO p.t SELECT seq * 7, seq FROM seq_1_to_2500; ")
    workflow, feed = trial.workflow("portions.json", ["-"], ["p.t"]), trial.path("portions.feed")
    trial.recorded_twice("-", feed, "--from-snapshot", "p.t")
    trial.same("portions of a snapshot", trial.made(trial.program, "run", workflow, feed), trial.selected(workflow, "p"), 2501)
    trial.check("groups of a snapshot", None if groups_of(trial, feed, "-") == 4 else f"{groups_of(trial, feed, '-')}")


def groups_of(trial: Trial, feed: str, shard: str) -> int:
    return trial.shown(shard, feed).count(b"\ngroup ") + 1


def apply(stream: int, first: int, last: int) -> str:
    return "".join(f"offer {stream} {number}\nadvance {stream}\n" for number in range(first, last + 1))


def grown(trial: Trial) -> None:
    """A checkpoint amidst copying, then more writes; a snapshot amidst these; both feeds appended to."""
    from record.load import SCHEMAS, SHARDS, VINDEXES, Load, tables_of

    feeds, whole = [trial.path(f"{schema}.feed") for schema in SCHEMAS], trial.path("whole.json")
    ends = [groups_of(trial, feed, shard) for feed, shard in zip(feeds, SHARDS)]
    script = apply(0, 1, ends[0] // 2) + f"open 0 {ends[0] // 2}\ncopy 0 1\n" + apply(1, 1, ends[1]) + f"open 1 {ends[1]}\ncopy 1 1000000\n"
    saved = trial.run(trial.program, "save", whole, *feeds, stdin=script)
    with open(trial.path("saved.checkpoint"), "wb") as file:
        file.write(saved.stdout)
    with Load(trial.server.socket, 2, clients=4, transactions=120, xa=False, goes_on=True) as load:
        trial.recorded("--shard", "-80", "--keyspace", "ks", "--out", trial.path("snap.feed"), "--from-snapshot", *tables_of(SCHEMAS[0]))
        taken = json.loads(read_file(trial.path("snap.feed.json")))["gtids"]
    load.wait()
    for schema, shard, feed in zip([*SCHEMAS, SCHEMAS[0]], [*SHARDS, "-80"], [*feeds, trial.path("snap.feed")]):
        old = read_file(feed)
        if feed in feeds:
            trial.recorded_twice(shard, feed, "--append", *tables_of(schema))
        else:
            trial.recorded("--shard", shard, "--out", feed, "--append", *tables_of(schema))
        trial.check(f"append to {os.path.basename(feed)}", None if len(read_file(feed)) > len(old) and read_file(feed).startswith(old) else "not longer")
    trial.check("snapshot amidst writes", None if taken != json.loads(read_file(trial.path("snap.feed.json")))["gtids"] else "no writes behind it")
    wanted = trial.selected(whole, *SCHEMAS)
    trial.same("merged, appended", trial.made(trial.program, "run", whole, *feeds), wanted, 100)
    both = [trial.path("snap.feed"), feeds[1]]
    trial.same("merged, a snapshot and what is behind it", trial.made(trial.program, "run", whole, *both), wanted)
    now = [groups_of(trial, feed, shard) for feed, shard in zip(feeds, SHARDS)]
    script = apply(0, ends[0] // 2 + 1, now[0]) + apply(1, ends[1] + 1, now[1])
    script += "".join(f"open {stream} {now[stream]}\ncopy {stream} 1000000\n" * count for stream, count in ((0, 4), (1, 3))) + "dump\n"
    resumed = trial.run(trial.program, "resume", "--checkpoint", trial.path("saved.checkpoint"), whole, *feeds, stdin=script)
    replies, _, dump = resumed.stdout.partition(b"table ")
    trial.check("steps behind the checkpoint", resumed.stderr.decode() or (f"{replies.count(b'refused')} refused" if b"refused" in replies else None))
    trial.same("resumed over the appended feeds", b"table " + dump, wanted)


def statements(trial: Trial) -> None:
    """What a statement's text says that it does, and to which tables, as the decoder reads it."""
    from record.decoder.statements import read_statement
    from record.statements import HARMLESS, OTHERS, TEXTS

    texts = [*TEXTS, *((text, "NOTHING", []) for text in HARMLESS)]
    for text, does, names in texts:
        read = read_statement(text, "d")
        found = read.does.name, [".".join(name) for name in read.names]
        trial.check(f"statement {text!r}", None if found == (does, names) else f"{found}")
    for text in OTHERS:
        read = read_statement(f"ALTER TABLE t {text}", "s")
        trial.check(f"other alteration {text!r}", None if read.does.name == "LAYOUT" and ("s", "t") in read.names else f"{read}")


def prepared(trial: Trial) -> None:
    """What the log says of XA transactions that are prepared at its places."""
    from record.prepared import at_places

    at_places(trial)


def harmless(trial: Trial) -> None:
    """DDL that leaves a recorded table as it is, each behind rows and before others: the decoder goes on, and record/feed stops."""
    from record.statements import HARMLESS, amid_rows

    amid_rows(trial.server, HARMLESS)
    logs = [line.split()[0].decode() for line in trial.server.sql("SHOW BINARY LOGS").stdout.splitlines()]
    logged = "".join(trial.server.sql(f"SHOW BINLOG EVENTS IN '{log}'").stdout.decode() for log in logs)
    lacking = [text for text in HARMLESS if text not in logged]
    trial.check("statements in the log", f"not {lacking}" if lacking else None)
    workflow, feed = trial.workflow("harmless.json", ["-"], ["s.t"]), trial.path("harmless.feed")
    trial.decoded("-", feed, "s.t")
    dump = trial.made(trial.program, "run", workflow, f"{feed}.own")
    trial.same(f"rows amidst {len(HARMLESS)} statements", dump, trial.selected(workflow, "s"), len(HARMLESS))
    trial.server.sql("DROP DATABASE s; RESET MASTER; CREATE DATABASE s; CREATE TABLE s.t (id INT PRIMARY KEY, v VARCHAR(10), w TEXT, n INT); INSERT INTO s.t (id) VALUES (1)")
    trial.recorded("--shard", "-", "--keyspace", "ks", "--out", feed, "s.t")
    for text in HARMLESS[0], "ALTER TABLE t COMMENT='c'", "OPTIMIZE TABLE t":
        trial.server.sql(f"USE s; {text}; INSERT INTO s.t (id) SELECT MAX(id) + 1 FROM s.t")
        done = trial.record("--shard", "-", "--out", feed, "--append", "s.t")
        is_refused = done.returncode == 1 and b"refused 152 file " in done.stderr and done.stderr.endswith(b"go on with --anew-behind, or record anew with --from-snapshot\n")
        is_passed = done.returncode == 0 and text.startswith("OPTIMIZE")
        trial.check(f"harmless, {text}", None if is_refused or is_passed else f"{done}")
        trial.made("record/feed", "--socket", trial.server.socket, "--user=root", "--program", trial.program, "--shard=-", "--anew-behind", "--out", feed, "s.t")
    workflow = trial.workflow("harmless.json", ["-"], ["s.t"])
    trial.same("rows behind statements", trial.made(trial.program, "run", workflow, feed), trial.selected(workflow, "s"), 4)
    trial.server.sql("DROP DATABASE s; RESET MASTER")


def late(trial: Trial) -> None:
    """What is committed when the recorder has just looked where the log ends is the next recording's, and each note is of one moment."""
    from recorder import recording
    from recorder.program import Program
    from recorder.server import Login, end_place, gtids_at

    login, feed, numbers = Login.of(trial.server.socket, "root"), trial.path("late.feed"), iter(range(1000))

    def insert() -> str:
        return f"INSERT INTO l.t VALUES ({next(numbers)}, 'a'); "

    def record(name: str, committed: str, **how: bool) -> None:
        """Records, with a client that runs statements between the look at the log's end and the reading."""
        ends = []

        def looked(connection):
            ends.append(end_place(connection))
            trial.server.sql(committed)
            return ends[0]

        recording.end_place = looked
        try:
            note = recording.record(recording.Wanted(login, "-", feed, [("l", "t")], program=Program(trial.program), **how))
        finally:
            recording.end_place = end_place
        with login.connect() as connection:
            wanted = ends[0], gtids_at(connection, ends[0])
        trial.check(f"late {name}", None if (note.place, note.gtids) == wanted else f"{note.gtids} at {note.place}, and not {wanted[1]} at {wanted[0]}")

    trial.server.sql("CREATE DATABASE l; CREATE TABLE l.t (id INT PRIMARY KEY, v CHAR(3)); " + insert())
    record("behind a snapshot", insert(), from_snapshot=True)
    record("behind what a snapshot left", insert(), append=True)
    ways = {"rows": insert, "DDL": lambda: f"CREATE TABLE l.t{next(numbers)} (id INT); ", "another log": lambda: insert() + "FLUSH BINARY LOGS; " + insert()}
    for name, made in ways.items():
        trial.recorded("--shard", "-", "--out", feed, "--append", "l.t")
        record(f"{name}, with nothing left to read", made(), append=True)
        record(f"{name}, with a transaction left to read", made(), append=True)
    trial.recorded("--shard", "-", "--out", feed, "--append", "l.t")
    workflow = trial.workflow("late.json", ["-"], ["l.t"])
    trial.same("late, all of it", trial.made(trial.program, "run", workflow, feed), trial.selected(workflow, "l"), 10)


def reached(trial: Trial) -> None:
    """Servers by the network, by TLS and by a file of options, and tables that are left out."""
    from record import reach

    for step in reach.in_the_clear, reach.by_tls, reach.left_out:
        step(trial)


def workflows(trial: Trial) -> None:
    """What is told where a workflow begins, a reshard's files, and what VTGate prints surely."""
    from record import workflows

    for step in workflows.untold, workflows.targets, workflows.sure:
        step(trial)


def operated(trial: Trial) -> None:
    """What docs/OPERATE.md says."""
    from record import operate

    for step in operate.restored, operate.page:
        step(trial)


def kept(trial: Trial) -> None:
    """Feeds that are written by two, interrupted at each system call, and given what no recording can go on with."""
    from record import ended, kept

    kept.kept(trial)
    ended.ended(trial)


def living(trial: Trial) -> None:
    """Feeds that go on with each transaction."""
    from record import living

    living.living(trial)


def anew(trial: Trial) -> None:
    """Feeds that go on where the log doesn't."""
    from record import anew

    anew.anew(trial)


def large(trial: Trial) -> None:
    """Large transactions, and positions of a keyspace and a shard."""
    from record import large

    large.large(trial)


def compared(trial: Trial) -> None:
    """Rows held to rows while clients write."""
    from record import comparing

    comparing.compared(trial)


def compacted(trial: Trial) -> None:
    """Feeds that are cut with their notes."""
    from record import compacting

    compacting.compacting(trial)


def repaired(trial: Trial) -> None:
    """The statements by which a target's rows are to be the source's."""
    from record import repairs

    repairs.repairs(trial)


def paged(trial: Trial) -> None:
    """The page of differences."""
    from record import pages

    pages.pages(trial)


def transcribed(trial: Trial) -> None:
    """Feeds of the server's log files, without a connection."""
    from record import transcribed as logs

    logs.transcribed(trial)


def by_log(trial: Trial) -> None:
    """Feeds that the program makes of copies of the server's log."""
    from record import bylog, soaked, transacted

    bylog.bylog(trial)
    for step in soaked.soaked, transacted.transacted, transacted.sealed:
        step(trial)


def from_vtgate(trial: Trial) -> None:
    """Feeds from what VTGate sends, by its changes and by a copy, over a stand-in for it."""
    from record.vtgate_trials import vtgate

    vtgate(trial)


STEPS: list[list[Callable[[Trial], None]]] = [
    [statements, stops, prepared, reached, harmless, random_tables, merged_and_split, by_hash, told_kinds, portions, grown, kinds, late, workflows, from_vtgate,
     operated, living],
    [kept, anew, large, compared, compacted, repaired, paged],
    [transcribed, by_log],
]  # fmt: skip
"""Side by side, each over a server of its own: a step may need what one before it has made."""


def tried(steps: list[Callable[[Trial], None]], program: str) -> tuple[int, int]:
    """How many checks of some steps passed, and how many failed."""
    from record.server import Server

    with Server() as server:
        trial = Trial(server, program)
        for step in steps:
            try:
                step(trial)
            except Exception as fault:  # noqa: BLE001
                trial.check(step.__name__, f"{type(fault).__name__}: {str(fault)[:600]}")
            if os.environ.get("RECORD_TIMES"):
                print(f"{step.__name__}: {time.monotonic() - trial.begun:.0f} s", flush=True)
        return trial.passed, trial.failed


class Aside:
    """Steps that are tried in a process of their own. Use it with `with`: that ends it, if it goes on."""

    def __init__(self, steps: list[Callable[[Trial], None]], program: str) -> None:
        from record.server import die_with_parent

        self._begin, end = os.pipe()
        self._pid = os.fork()
        if self._pid == 0:
            try:
                die_with_parent()
                os.write(end, "{} {}".format(*tried(steps, program)).encode())
            except Exception as fault:  # noqa: BLE001
                print(f"record: {fault!r}", flush=True)
            finally:
                os._exit(0)
        os.close(end)

    def __enter__(self) -> "Aside":
        return self

    def counts(self) -> tuple[int, int]:
        """How many checks passed, and how many failed, when all were tried."""
        with open(self._begin, "rb", closefd=False) as pipe:
            said = pipe.read().split()
        return (int(said[0]), int(said[1])) if said else (0, 1)

    def __exit__(self, *_: object) -> None:
        os.kill(self._pid, signal.SIGTERM)
        os.waitpid(self._pid, 0)
        os.close(self._begin)


def main() -> int:
    if sys.argv[1:2] == ["--help"]:
        print(__doc__)
        return 0
    if not has_modules() and os.access(OWN, os.X_OK) and not os.environ.get("OWN_PYTHON"):
        os.execve(OWN, [OWN, os.path.abspath(__file__), *sys.argv[1:]], {**os.environ, "OWN_PYTHON": "1"})
    from record.server import is_installed

    if not has_modules() or not is_installed():
        print("mariadbd, mariadb-install-db, mariadb, python3-pymysql and python3-protobuf are not all installed: nothing was recorded\n0 passed, 0 failed")
        return 0
    for number in (signal.SIGTERM, signal.SIGHUP):
        signal.signal(number, lambda *_: sys.exit(1))
    # a shell without job control has what runs aside ignore it, and so would the recorders that are sent it
    signal.signal(signal.SIGINT, signal.default_int_handler)
    program = os.path.abspath(sys.argv[1] if len(sys.argv) > 1 else os.path.join(ROOT, "vrepl"))
    first, *others = [[rounds_alone]] if len(sys.argv) > 2 else STEPS
    with ExitStack() as opened:
        begun = [opened.enter_context(Aside(steps, program)) for steps in others]
        counts = [tried(first, program), *(one.counts() for one in begun)]
    passed, failed = map(sum, zip(*counts))
    print(f"{passed} passed, {failed} failed")
    return 1 if failed else 0


if __name__ == "__main__":
    sys.exit(main())
