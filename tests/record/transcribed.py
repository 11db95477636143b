"""The server's log files, of which `vrepl transcribe` makes a feed: by `run` it has the rows of the recorder's feed, and of the
server, on random tables of the types that are read, in one file and in several, while the server writes the last one."""
import os
import random
from contextlib import closing

import pymysql

from .random_tables import MODES, SCHEMA, Column, Maker

ROUNDS, BATCH = 60, 12
"""How many tables, and how many one feed has."""
EACH = 100
"""How many columns a table has of those of each collation."""


class ReadMaker(Maker):
    """The same without the types that `transcribe` refuses, without labels where the log doesn't tell them, and without ZEROFILL
    and YEAR(2), which no log tells."""

    labels = True

    def column(self) -> Column:
        makers = [self.integer, self.decimal, self.bit, self.year, self.date, self.date, self.time, self.characters, self.characters, self.binary]
        return self.r.choice(makers + [self.labelled] * (2 * self.labels))()

    def statements(self) -> list[str]:
        """Those of a table without a generated column, and without widths that no log tells."""
        while True:
            made = super().statements()
            if not any(word in made[0] for word in (" AS (LENGTH(", " ZEROFILL", "YEAR(2)")):
                return made


def _make(trial, connection, number: int, labels: bool, r: random.Random) -> None:
    """Makes a table on the server, with its rows in transactions of several statements, some of which are taken back."""
    maker = ReadMaker(number)
    maker.labels = labels
    made, *rows = maker.statements()
    with closing(connection.cursor()) as cursor:
        for statement in (MODES, made):
            cursor.execute(statement)
        while rows:
            part, rows = rows[:3], rows[3:]
            for statement in ("BEGIN", *part, *(["SAVEPOINT a", *part[:1], "ROLLBACK TO a"] if r.random() < 0.2 else [])):
                cursor.execute(statement)
            cursor.execute(r.choice(["COMMIT", "COMMIT", "COMMIT", "ROLLBACK"]))
            if r.random() < 0.05:
                cursor.execute("FLUSH BINARY LOGS")


def log_files(trial) -> list[str]:
    """The server's log files, in their order."""
    names = trial.server.sql("SHOW BINARY LOGS").stdout.decode().split("\n")
    return [os.path.join(trial.server.folder, "data", name.split("\t")[0]) for name in names if name.startswith("binlog.")]


def _end(shown: bytes) -> bytes:
    """The position of the last group."""
    return [line.split(b" ")[2] for line in shown.split(b"\n") if line.startswith(b"group ")][-1]


def collated(trial) -> None:
    """A column of SET with an empty label in each of the server's collations: its labels are joined as the server does."""
    trial.server.sql(f"CREATE DATABASE {SCHEMA}; RESET MASTER; SET GLOBAL binlog_row_metadata=FULL")
    found = trial.server.sql("SELECT full_collation_name FROM information_schema.collation_character_set_applicability WHERE id > 0").stdout.decode().split()
    parts = [found[begin : begin + EACH] for begin in range(0, len(found), EACH)]
    for number, part in enumerate(parts):
        columns = ", ".join([f"c{at} SET('', 'a', 'b') COLLATE {collation}" for at, collation in enumerate(part)])
        rows = ", ".join([f"({bits}{f', {bits}' * len(part)})" for bits in range(8)])
        trial.server.sql(f"CREATE TABLE {SCHEMA}.t{number} (id INT PRIMARY KEY, {columns}); INSERT INTO {SCHEMA}.t{number} VALUES {rows}")
    workflow, made = trial.workflow("collated.json", ["-"], [f"{SCHEMA}.t{number}" for number in range(len(parts))]), trial.path("collated.feed")
    trial.made(trial.program, "transcribe", "--save-to", made, "--shard", "-", "--schema", SCHEMA, workflow, *log_files(trial))
    trial.same(f"SETs of {len(found)} collations", trial.made(trial.program, "run", workflow, made), trial.selected(workflow, SCHEMA), 8 * len(parts))
    trial.server.sql(f"DROP DATABASE {SCHEMA}; RESET MASTER")


XA_FILES = [
    "CREATE TABLE {0}.t (id INT PRIMARY KEY, v VARCHAR(9)); INSERT INTO {0}.t VALUES (1, 'a'), (2, 'b'); "
    "XA START 'x'; INSERT INTO {0}.t VALUES (3, 'x'); DELETE FROM {0}.t WHERE id = 1; XA END 'x'; XA PREPARE 'x'",
    "INSERT INTO {0}.t VALUES (4, 'c'); XA START 'y','b',7; INSERT INTO {0}.t VALUES (5, 'y'); XA END 'y','b',7; XA PREPARE 'y','b',7",
    "XA START 'z'; INSERT INTO {0}.t VALUES (6, 'z'); XA END 'z'; XA COMMIT 'z' ONE PHASE; INSERT INTO {0}.t VALUES (7, 'd')",
    "XA ROLLBACK 'y','b',7; INSERT INTO {0}.t VALUES (8, 'e')",
    "XA COMMIT 'x'; UPDATE {0}.t SET v = 'f' WHERE id = 2",
]
"""Statements of which each begins a file of the log: XA transactions are prepared in one and end in a later one."""


def over_files(trial) -> None:
    """An XA transaction that is prepared in one file of the log and ends in another; before its end the logs are refused."""
    trial.server.sql(f"CREATE DATABASE {SCHEMA}; RESET MASTER")
    workflow, words = None, ("--shard", "-", "--schema", SCHEMA)
    for number, statements in enumerate(XA_FILES):
        trial.server.sql(("FLUSH BINARY LOGS; " if number else "") + statements.format(SCHEMA))
        workflow = workflow or trial.workflow("xa.json", ["-"], [f"{SCHEMA}.t"])
        logs = log_files(trial)
        done = trial.run(trial.program, "transcribe", *words, workflow, *logs)
        line = f"refused 156 file {logs[-1]} byte {os.path.getsize(logs[-1])}\n".encode()
        is_last = number == len(XA_FILES) - 1
        trial.check(f"XA over {number + 1} files", None if is_last or (done.returncode, done.stdout, done.stderr) == (1, b"", line) else repr(done))
    feed, made = trial.path("xa.feed"), trial.path("xa_made.feed")
    trial.recorded("--shard", "-", "--keyspace", "ks", "--out", feed, f"{SCHEMA}.t")
    trial.decoded("-", feed, f"{SCHEMA}.t")
    trial.made(trial.program, "transcribe", "--save-to", made, *words, workflow, *logs)
    shown = [trial.made(trial.program, "show", "--keyspace", "ks", "--shard", "-", of) for of in (feed, f"{feed}.own", made)]
    trial.check("XA over files, as recorded", None if shown[0] == shown[1] == shown[2] else repr(shown))
    trial.same("XA over files, as the server has", trial.made(trial.program, "run", workflow, made), trial.selected(workflow, SCHEMA), 6)
    trial.server.sql(f"DROP DATABASE {SCHEMA}; RESET MASTER")


def transcribed(trial, rounds: int = ROUNDS) -> None:
    """Five checks a batch, one of all collations, and seven of XA transactions."""
    for begin in range(0, rounds, BATCH):
        r = random.Random(f"transcribed {begin}")
        labels = begin // BATCH % 2 == 0
        metadata = "FULL" if labels else r.choice(["MINIMAL", "NO_LOG"])
        trial.server.sql(f"CREATE DATABASE {SCHEMA}; RESET MASTER; SET GLOBAL binlog_row_metadata={metadata}, log_bin_compress=0")
        with closing(pymysql.connect(unix_socket=trial.server.socket, user="root", charset="utf8mb4", autocommit=True)) as connection:
            for number in range(begin, begin + BATCH):
                _make(trial, connection, number, labels, r)
        tables = [f"{SCHEMA}.t{number}" for number in range(begin, begin + BATCH)]
        workflow, feed = trial.workflow("transcribed.json", ["-"], tables), trial.path("transcribed.feed")
        trial.recorded("--shard", "-", "--keyspace", "ks", "--out", feed, *tables)
        trial.decoded("-", feed, *tables)
        logs, made, snapshot = log_files(trial), trial.path("made.feed"), trial.path("transcribed.snapshot.feed")
        told = trial.made(trial.program, "transcribe", "--save-to", made, "--shard", "-", "--schema", SCHEMA, workflow, *logs)
        trial.check(f"transcribed {begin} tells nothing", repr(told) if told else None)
        rows = trial.made(trial.program, "run", workflow, made)
        trial.same(f"transcribed {begin} as recorded, of {len(logs)} files", rows, trial.made(trial.program, "run", workflow, feed), BATCH)
        trial.same(f"transcribed {begin} as the server has", rows, trial.selected(workflow, SCHEMA), BATCH)
        shown = [trial.made(trial.program, "show", "--keyspace", "ks", "--shard", "-", of) for of in (feed, f"{feed}.own")]
        trial.check(f"transcribed {begin} by the decoder", None if shown[0] == shown[1] else "other groups than the decoder's")
        trial.recorded("--shard", "-", "--keyspace", "ks", "--from-snapshot", "--out", snapshot, *tables)
        trial.same(f"transcribed {begin}, a snapshot", trial.made(trial.program, "run", workflow, snapshot), rows, BATCH)
        ends = {_end(trial.made(trial.program, "show", "--keyspace", "ks", "--shard", "-", of)) for of in (feed, made)}
        trial.check(f"transcribed {begin} up to the same position", repr(ends) if len(ends) > 1 else None)
        trial.server.sql(f"DROP DATABASE {SCHEMA}; RESET MASTER; SET GLOBAL binlog_row_metadata=FULL, log_bin_compress=0")
    collated(trial)
    over_files(trial)
