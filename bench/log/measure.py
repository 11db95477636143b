#!/usr/bin/python3
"""What `vrepl transcribe` takes of the processor and of memory, beside mariadb-binlog and record/feed over the same logs.

usage: bench/log/measure.py [--program VREPL] [--binlog PROGRAM] [--mb N] [--rounds N] [PART ..]

The parts are

    shapes         logs of six shapes, some N megabytes each (24), in two files: the whole feed, and what is behind the feed of the first
                   file (`--after`), beside mariadb-binlog -v and -vv, and record/feed, which reads the log from its server
    transactions   the most memory with `--save-to` for logs of 1, 10 and 100 MB: in one transaction, in small ones, and these in files
                   of a megabyte
    seconds        where they go, sampled by `perf record -e cpu-clock` over half of each of these logs: the functions that take most, without
                   those that they call
    instructions   of the same commands over logs of 2 MB, counted by `valgrind --tool=callgrind`, a byte of the log, Python's start among
                   them; of `transcribe` over the first one those of each crate, and of the functions that take most

and without one all of them. Seconds are the processor's, those of the system among them, the least of N rounds (2) in which the commands
come in turns; memory is the most of all rounds. A megabyte has 10^6 bytes, and those of a second are the log's. A private server in a
temporary folder writes the logs; what the commands print goes nowhere. What is printed here is in lines for README.md beside this,
which takes a table by `bench/log/measure.py instructions | scripts/figures put 'log instructions'`. Counts have no noise and need no
idle machine, but a server that is at hand.
"""
import argparse
import hashlib
import os
import re
import shutil
import signal
import subprocess
import sys
import tempfile
from collections import Counter
from collections.abc import Iterator
from dataclasses import dataclass

ROOT = os.path.dirname(os.path.dirname(os.path.dirname(os.path.abspath(__file__))))
sys.dont_write_bytecode = True
sys.path[:0] = [os.path.join(ROOT, "tests"), os.path.join(ROOT, "record")]

from record.commands import used_by  # noqa: E402
from record.server import Server  # noqa: E402
from serve.sources import OWN, workflow  # noqa: E402

SHORT, SHORT_ROW = "id INT PRIMARY KEY, v VARCHAR(20), n INT", "{id}, CONCAT('value ', {id}), {id} * 3"
MIDDLE, MIDDLE_ROW = "id INT PRIMARY KEY, v VARCHAR(300), n INT", "{id}, REPEAT('v', 200), {id} * 3"
WIDE = ("id BIGINT PRIMARY KEY, a INT, b VARCHAR(60), c DATETIME, d DECIMAL(12,2), e TINYINT, f VARCHAR(255), g BIGINT, h DATE, i CHAR(10), j TIME(3), k TIMESTAMP(3),"
        " l ENUM('one','two','three'), m TEXT")  # fmt: skip
WIDE_ROW = ("{id}, {id} % 1000, CONCAT('name of ', {id}), '2024-02-03 04:05:06', {id} / 7, {id} % 100, REPEAT('f', {id} % 80), {id} * 1000003, '2024-02-03', 'ten',"
            " '01:02:03.456', '2024-02-03 04:05:06.789', ELT(1 + {id} % 3, 'one', 'two', 'three'), REPEAT('m', {id} % 200)")  # fmt: skip
WHOLE_FILE, SMALL_FILE = 2**30, 2**20
"""The bytes above which a log file ends: in the server's own setting, and the megabyte of `transactions`."""
GOAL = 120
"""The megabytes of log a second that are wanted."""
COUNTED = 2
"""The megabytes of a log whose instructions are counted."""


@dataclass(frozen=True)
class Shape:
    """Rows, so many a transaction, each of some bytes in the log, of so many tables of the workflow; or but one transaction of
    `part` of them, where the others are of a table that it doesn't have."""

    columns: str
    row: str
    together: int
    size: float
    tables: int = 1
    part: int = 1
    updates: bool = False
    """Whether each transaction of inserts has one behind it that changes the rows."""


SHAPES = {
    "short rows, 100 a transaction": Shape(SHORT, SHORT_ROW, 100, 24.6),
    "short rows, one a transaction": Shape(SHORT, SHORT_ROW, 1, 277),
    "wide rows, 100 a transaction": Shape(WIDE, WIDE_ROW, 100, 226),
    "1,000 short rows, which are then changed": Shape(SHORT, SHORT_ROW, 1000, 63, updates=True),
    "10 short rows of one of 64 tables": Shape(SHORT, SHORT_ROW, 10, 50, tables=64),
    "9 of 10 transactions of another table": Shape(SHORT, SHORT_ROW, 100, 24.6, part=10),
}


def line(*cells: object) -> None:
    print("| " + " | ".join(map(str, cells)) + " |", flush=True)


def head(columns: str) -> None:
    print(f"\n{columns}\n|" + "---|" * (columns.count("|") - 1), flush=True)


class Source:
    """A server's tables of a shape, and its logs, in which nothing is before them."""

    def __init__(self, server: Server, shape: Shape, file_size: int = WHOLE_FILE) -> None:
        self._server, self._shape, self.rows = server, shape, 0
        made = "".join(f"CREATE TABLE b.t{number} ({shape.columns});" for number in range(shape.tables))
        server.sql(f"DROP DATABASE IF EXISTS b; DROP DATABASE IF EXISTS o; SET GLOBAL max_binlog_size={file_size}; RESET MASTER;"
                   f"CREATE DATABASE b; {made} CREATE DATABASE o; CREATE TABLE o.t ({shape.columns});")  # fmt: skip
        self.tables = [f"b.t{number}" for number in range(shape.tables)]
        self.recorded = self.path("recorded.feed")
        self.plan = workflow(server, self.path("workflow.json"), "b", ["-"], self.tables)

    def path(self, name: str) -> str:
        return os.path.join(self._server.folder, name)

    def _statements(self, end: int) -> Iterator[str]:
        shape = self._shape
        for first in range(self.rows + 1, end + 1, shape.together):
            last, number = min(end, first + shape.together - 1), first // shape.together
            table = f"b.t{number % shape.tables}" if number % shape.part == 0 else "o.t"
            if shape.together == 1:
                yield f"INSERT INTO {table} VALUES ({shape.row.format(id=first)});"
            else:
                yield f"INSERT INTO {table} SELECT {shape.row.format(id='seq')} FROM b.seq_{first}_to_{last};"
            if shape.updates:
                yield f"UPDATE {table} SET n=n+1, v=CONCAT('other ', id) WHERE id BETWEEN {first} AND {last};"

    def fill(self, size: float) -> None:
        """Rows of so many bytes more in the log."""
        end = self.rows + round(size / self._shape.size)
        self._server.sql("\n".join(self._statements(end)))
        self.rows = end

    def next_file(self) -> None:
        self._server.sql("FLUSH BINARY LOGS")

    def logs(self) -> list[str]:
        names = self._server.sql("SHOW BINARY LOGS").stdout.decode().splitlines()
        return [os.path.join(self._server.folder, "data", name.split("\t")[0]) for name in names]

    def transcribe(self, program: str, *words: str, logs: list[str] | None = None) -> list[str]:
        return [program, "transcribe", "--shard", "-", *words, self.plan, *(logs or self.logs())]

    def record(self, program: str) -> list[str]:
        replace = ["--replace"] if os.path.exists(self.recorded) else []
        words = ["--socket", self._server.socket, "--user", "root", "--shard", "-", *replace, "--out", self.recorded]
        return [OWN, os.path.join(ROOT, "record/feed"), "--program", program, *words, *self.tables]


def size_of(files: list[str]) -> float:
    """Their megabytes."""
    return sum(map(os.path.getsize, files)) / 1e6


def dumped(program: str, plan: str, *feeds: str) -> str:
    """The rows of a feed, which is of these files behind one another, as a hash."""
    with tempfile.NamedTemporaryFile(dir=os.path.dirname(plan)) as feed:
        for one in feeds:
            with open(one, "rb") as file:
                shutil.copyfileobj(file, feed)
        feed.flush()
        with subprocess.Popen([program, "run", plan, feed.name], stdout=subprocess.PIPE) as process:
            found = hashlib.file_digest(process.stdout, "sha256").hexdigest()
    if process.returncode:
        raise RuntimeError(f"run of {feeds}: status {process.returncode}")
    return found


def filled(server: Server, shape: Shape, size: float, program: str) -> tuple[Source, str]:
    """A source of so many megabytes of log in two files, and the feed of the first one."""
    source = Source(server, shape)
    source.fill(size * 5e5)
    source.next_file()
    source.fill(size * 5e5)
    front = source.path("front.feed")
    used_by(*source.transcribe(program, "--save-to", front, logs=source.logs()[:1]))
    return source, front


def commands(source: Source, front: str, said: argparse.Namespace) -> list[list[str]]:
    """What is measured beside one another: those of the tables' last five columns; without words where the program isn't there."""
    printing = [[said.binlog, "--no-defaults", how, *source.logs()] if said.binlog else [] for how in ("-v", "-vv")]
    return [source.transcribe(said.program), source.transcribe(said.program, "--after", front), *printing, source.record(said.program)]


def shapes(server: Server, said: argparse.Namespace) -> None:
    """With a check that the feed, the one that was gone on with, and record/feed's have the same rows."""
    head("| Log | MB | The feed's MB | Rows | transcribe | --after | binlog -v | binlog -vv | record/feed |")
    missed = []
    for name, shape in SHAPES.items():
        source, front = filled(server, shape, said.mb, said.program)
        logs, (whole, more) = source.logs(), (source.path(f"{one}.feed") for one in ("whole", "more"))
        used_by(*source.transcribe(said.program, "--save-to", whole))
        used_by(*source.transcribe(said.program, "--after", front, "--save-to", more))
        rounds = [[used_by(*words) if words else (0, 0.0) for words in commands(source, front, said)] for _ in range(said.rounds)]
        if len({dumped(said.program, source.plan, *feeds) for feeds in ((whole,), (front, more), (source.recorded,))}) > 1:
            raise RuntimeError(f"{name}: the feeds have other rows")
        size, cells = size_of(logs), []
        for used in zip(*rounds):
            seconds, memory = min(one[1] for one in used), max(one[0] for one in used)
            cells.append(f"{seconds:.2f} s, {size / seconds:.0f} MB/s, {memory / 1e6:.0f} MB" if seconds else "")
        if size < GOAL * min(used[0][1] for used in rounds):
            missed.append(name)
        line(name, f"{size:.1f}", f"{size_of([whole]):.1f}", f"{source.rows:,}", *cells)
    print(f"\n{GOAL} MB of log a second: " + (f"missed by {'; '.join(missed)}" if missed else "met by all"))


def transactions(server: Server, said: argparse.Namespace) -> None:
    head("| MB of log | One transaction | Of 100 rows each | These in files of a megabyte | binlog -vv of the one transaction |")
    for size in (1, 10, 100):
        cells = []
        for together, file_size in ((10**9, WHOLE_FILE), (100, WHOLE_FILE), (100, SMALL_FILE)):
            source = Source(server, Shape(MIDDLE, MIDDLE_ROW, together, 214), file_size)
            source.fill(size * 1e6)
            cells.append(f"{used_by(*source.transcribe(said.program, '--save-to', source.path('told.feed')))[0] / 1e6:.0f} MB")
            if together > 100:
                printed = f"{used_by(said.binlog, '--no-defaults', '-vv', *source.logs())[0] / 1e6:.0f} MB" if said.binlog else ""
        line(size, *cells, printed)


def counted(words: list[str], told: str) -> int:
    """The instructions that a command takes."""
    subprocess.run(["valgrind", "-q", "--tool=callgrind", f"--callgrind-out-file={told}", *words], stdout=subprocess.DEVNULL, check=True)
    with open(told, encoding="utf-8") as file:
        return int(re.search(r"^totals: (\d+)", file.read(), re.MULTILINE)[1])


def by_function(told: str) -> Counter:
    """Those in each function, without those that it calls."""
    text = subprocess.run(["callgrind_annotate", "--threshold=100", told], stdout=subprocess.PIPE, text=True, check=True).stdout
    counts = Counter()
    for count, name in re.findall(r"^ *([\d,]+) \([ \d.]+%\)  (.+?)(?: \[[^\]]*\])?$", text, re.MULTILINE):
        if name != "PROGRAM TOTALS":
            # a generic one has a mark for its types behind it
            counts[re.sub(r"^\?+:|::<.*", "", name)] += int(count.replace(",", ""))
    return counts


def kind_of(name: str) -> str:
    """The crate of a function, or what it does of the C library."""
    if re.search(r"malloc/|rattle_(?:re|de)?alloc", name):
        return "malloc, realloc, free"
    if "/string/" in name:
        return "memcpy, memset"
    return name.partition("::")[0] if "::" in name else "the rest"


def instructions(server: Server, said: argparse.Namespace) -> None:
    head("| Log | MB | transcribe, a row | transcribe | --after | binlog -v | binlog -vv | record/feed |")
    first = None
    for name, shape in SHAPES.items():
        source, front = filled(server, shape, COUNTED, said.program)
        counts = [counted(words, source.path(f"callgrind{at}")) if words else 0 for at, words in enumerate(commands(source, front, said))]
        first = first or (by_function(source.path("callgrind0")), source.rows)
        size = size_of(source.logs())
        line(name, f"{size:.1f}", f"{counts[0] / source.rows:,.0f}", *(f"{count / size / 1e6:,.1f}" if count else "" for count in counts))
    counts, rows = first
    kinds = Counter()
    for function, count in counts.items():
        kinds[kind_of(function)] += count
    functions = Counter({name if "::" in name else name.rpartition(":")[2]: count for name, count in counts.items()})
    for columns, parts in (("| Crate | Instructions a row | Of all |", kinds), ("| Function | Instructions a row | Of all |", functions)):
        head(columns)
        for name, count in parts.most_common(12):
            line(name, f"{count / rows:.0f}", f"{100 * count / counts.total():.1f} %")


def sampled(words: list[str], told: str) -> Counter:
    """By function the percents of a command's time in it, without what it calls; the system's together."""
    subprocess.run(["perf", "record", "-q", "-e", "cpu-clock", "-F", "5000", "-o", told, "--", *words], stdout=subprocess.DEVNULL, check=True)
    text = subprocess.run(["perf", "report", "-i", told, "--no-children", "--stdio", "-s", "symbol"], stdout=subprocess.PIPE, stderr=subprocess.DEVNULL, text=True, check=True).stdout
    shares = Counter()
    for share, place, name in re.findall(r"^ +([\d.]+)% +\[(.)\] (\S+)", text, re.MULTILINE):
        shares["the system" if place == "k" else name] += float(share)
    return shares


def seconds(server: Server, said: argparse.Namespace) -> None:
    head("| Log | Of the seconds |")
    for name, shape in SHAPES.items():
        source = Source(server, shape)
        source.fill(said.mb * 5e5)
        line(name, ", ".join(f"{one} {share:.0f} %" for one, share in sampled(source.transcribe(said.program), source.path("perf")).most_common(6)))


PARTS = {"shapes": shapes, "seconds": seconds, "transactions": transactions, "instructions": instructions}
TOOLS = {"seconds": "perf", "instructions": "valgrind"}


def main() -> int:
    parser = argparse.ArgumentParser(prog="bench/log/measure.py", description=__doc__, formatter_class=argparse.RawDescriptionHelpFormatter)
    parser.add_argument("--program", default=os.path.join(ROOT, "vrepl"), metavar="VREPL")
    parser.add_argument("--binlog", default="mariadb-binlog", metavar="PROGRAM")
    parser.add_argument("--mb", type=float, default=24)
    parser.add_argument("--rounds", type=int, default=2)
    parser.add_argument("parts", nargs="*", metavar="PART")
    said = parser.parse_intermixed_args()
    if unknown := [name for name in said.parts if name not in PARTS]:
        parser.error(f"no part {unknown[0]}: one of {', '.join(PARTS)}")
    said.program = shutil.which(os.path.abspath(said.program)) or parser.error(f"no program at {said.program}")
    said.binlog = shutil.which(said.binlog) or print(f"no program {said.binlog}: left out", file=sys.stderr)
    for number in (signal.SIGTERM, signal.SIGHUP):
        signal.signal(number, lambda *_: sys.exit(1))
    with Server() as server:
        for name in said.parts or PARTS:
            if name in TOOLS and not shutil.which(TOOLS[name]):
                print(f"no program {TOOLS[name]}: {name} is left out", file=sys.stderr)
            else:
                PARTS[name](server, said)
    return 0


if __name__ == "__main__":
    sys.exit(main())
