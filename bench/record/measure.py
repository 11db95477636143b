#!/usr/bin/python3
"""What record/feed takes of the processor and of memory, beside mariadb-binlog -vv over the same log.

usage: bench/record/measure.py [--program VREPL] [--binlog PROGRAM] [--rows N] [--rounds N] [SHAPE ..]

A private server writes a log of each shape; then both read it, each N rounds, in turns. Printed of each shape: the log's bytes,
the processor's seconds of both (the least of the rounds, those of the system among them), their ratio, megabytes of log a second,
and the most memory that record/feed had. The last lines are what one more transaction costs: an append to a feed of that size.
"""
import argparse
import os
import shutil
import sys
import tempfile

ROOT = os.path.dirname(os.path.dirname(os.path.dirname(os.path.abspath(__file__))))
sys.dont_write_bytecode = True
sys.path[:0] = [os.path.join(ROOT, "tests"), os.path.join(ROOT, "record")]

from record.commands import used_by  # noqa: E402
from record.server import Server  # noqa: E402

PYCACHE = tempfile.mkdtemp(prefix="vrepl-record-")
NARROW = "id INT PRIMARY KEY, v VARCHAR(20), n INT"
WIDE = ("id BIGINT PRIMARY KEY, a INT, b VARCHAR(60), c DATETIME, d DECIMAL(12,2), e TINYINT, f VARCHAR(255), g BIGINT, h DATE, i CHAR(10), j DECIMAL(20,9), k TIMESTAMP(3),"
        " l ENUM('one','two','three'), m TEXT")  # fmt: skip
WIDE_ROW = ("seq, seq % 1000, CONCAT('name of ', seq), '2024-02-03 04:05:06', seq / 7, seq % 100, REPEAT('f', seq % 80), seq * 1000003, '2024-02-03', 'ten', seq / 3,"
            " '2024-02-03 04:05:06.789', ELT(1 + seq % 3, 'one', 'two', 'three'), REPEAT('m', seq % 200)")  # fmt: skip
SHAPES = {
    "narrow, 1 row a transaction": (NARROW, "seq, CONCAT('value ', seq), seq * 3", 1, 0.2),
    "narrow, 1000 rows": (NARROW, "seq, CONCAT('value ', seq), seq * 3", 1000, 1),
    "wide, 100 rows": (WIDE, WIDE_ROW, 100, 0.4),
    "blobs of 10 KB": ("id INT PRIMARY KEY, v LONGBLOB", "seq, REPEAT('b', 10000)", 10, 0.02),
    "updates, 1000 rows": (NARROW, "seq, CONCAT('value ', seq), seq * 3", 1000, 0.5),
    "one transaction": (NARROW, "seq, CONCAT('value ', seq), seq * 3", 10**9, 1),
}


def fill(server: Server, columns: str, row: str, together: int, count: int, updates: bool) -> None:
    """The rows of one table, so many in each transaction."""
    server.sql(f"CREATE DATABASE b; CREATE TABLE b.t ({columns}); ")
    texts = []
    for first in range(1, count + 1, together):
        last = min(count, first + together - 1)
        texts.append(f"INSERT INTO b.t SELECT {row} FROM b.seq_{first}_to_{last};")
        if updates:
            texts.append(f"UPDATE b.t SET n=n+1, v=CONCAT('other ', id) WHERE id BETWEEN {first} AND {last};")
    server.sql("\n".join(texts))


def taken(words: list[str]) -> tuple[float, int]:
    """The processor's seconds that a command takes, and its most memory in bytes."""
    # Python keeps what it has made of the modules, as it does where nothing is said
    memory, seconds = used_by(*words, PYTHONDONTWRITEBYTECODE="", PYTHONPYCACHEPREFIX=PYCACHE)
    return seconds, memory


def measure(name: str, program: str, binlog: str, rows: int, rounds: int) -> None:
    columns, row, together, part = SHAPES[name]
    with Server() as server:
        server.sql("SET GLOBAL max_binlog_size=1073741824")
        fill(server, columns, row, together, int(rows * part), name.startswith("updates"))
        logs = [line.split() for line in server.sql("SHOW BINARY LOGS").stdout.decode().splitlines()]
        size, feed = sum(int(line[1]) for line in logs), os.path.join(server.folder, "b.feed")
        record = [os.path.join(ROOT, "record/feed"), "--program", program, "--socket", server.socket, "--user", "root", "--shard", "-", "--out", feed]
        files = [os.path.join(server.folder, "data", line[0]) for line in logs]
        ours, theirs, most = [], [], 0
        for _ in range(rounds):
            theirs.append(taken([binlog, "--no-defaults", "-vv", *files])[0])
            seconds, memory = taken([*record, "--replace", "b.t"] if ours else [*record, "b.t"])
            ours.append(seconds)
            most = max(most, memory)
        print(f"{name:28} {size / 1e6:7.1f} MB  binlog -vv {min(theirs):6.2f} s  record/feed {min(ours):6.2f} s  {min(ours) / min(theirs):5.2f} times"
              f"  {size / 1e6 / min(ours):6.1f} MB/s  {most / 1e6:6.0f} MB of memory", flush=True)  # fmt: skip
        server.sql("DELETE FROM b.t WHERE id=1")
        seconds, memory = taken([*record, "--append", "b.t"])
        print(f"{'':28} a feed of {os.path.getsize(feed) / 1e6:.1f} MB: an append of one row {seconds:.2f} s, {memory / 1e6:.0f} MB of memory", flush=True)


def main() -> None:
    parser = argparse.ArgumentParser(description=__doc__, formatter_class=argparse.RawDescriptionHelpFormatter)
    parser.add_argument("--program", default=os.path.join(ROOT, "vrepl"), metavar="VREPL")
    parser.add_argument("--binlog", default="mariadb-binlog")
    parser.add_argument("--rows", type=int, default=300_000)
    parser.add_argument("--rounds", type=int, default=3)
    parser.add_argument("shapes", nargs="*", choices=[*SHAPES, []], default=[])
    said = parser.parse_args()
    said.binlog = shutil.which(said.binlog) or parser.error(f"no program {said.binlog}")
    for name in said.shapes or SHAPES:
        measure(name, os.path.abspath(said.program), said.binlog, said.rows, said.rounds)
    shutil.rmtree(PYCACHE)


if __name__ == "__main__":
    main()
