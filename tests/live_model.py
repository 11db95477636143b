#!/usr/bin/env python3
"""A stand-in for `vrepl live`: the session of docs/LIVE.md over standard input and output, by the plain model in tests/model.

usage: tests/live_model.py live [--alone] [--rows N] [--ahead N] [--chunks N] [--checkpoint FILE] [--save-to FILE] WORKFLOW FEED..

It reads feeds, filters and checkpoints as tests/model does, and keeps rows in dicts, so that a group costs what it touches
and no more. It is for tests alone, of serve/ and of what a session is to answer (tests/run_live.py): nothing of it is proved, and a
feed of many megabytes takes it minutes. It has no threads: --alone changes nothing.
"""
import argparse
import bisect
import fcntl
import itertools
import json
import os
import re
import stat
import sys

sys.dont_write_bytecode = True
sys.path.insert(0, os.path.dirname(os.path.abspath(__file__)))
from model import Refused, checkpoint, refusal, wire  # noqa: E402
from model.board import Stream as Course  # noqa: E402
from model.board import key_text  # noqa: E402
from model.feed import Feed, print_position  # noqa: E402
from model.workflow import Workflow  # noqa: E402

LONGEST_REQUEST, MOST_AT_ONCE, MOST_ROWS = 65_536, 2**26, 10_000
PACE = {"rows": 1000, "ahead": 100, "chunks": 4}
"""How `run` copies: rows a step, groups that are read ahead, and steps under one snapshot."""
MOST_PACE = 1_000_000
CELL = re.compile(rb"x(?:[0-9a-fA-F]{2})*")
WORDS = {
    124: "a line that is no request", 125: "no such table", 126: "no key of this table",
    127: "a feed's file is another one, or shorter than what was taken of it",
}  # fmt: skip
PASSING = (71, 72, 131)
"""The refusals of a stream that are tried again at the next `more`."""


NAMED = [
    rb" group (?P<group>\d+) table (?P<table>.*) cause (?P<cause>\d+)", rb"(?: stream (?P<stream>\d+))? table (?P<table>.*) key (?P<key>\S*)(?: owner (?P<owner>\d+))?",
    rb" file (?P<file>.*)", rb" cause (?P<cause>\d+)(?: type (?P<type>\d+))?", rb" group (?P<group>\d+)", rb" stream (?P<stream>\d+)",
]  # fmt: skip
"""What stands behind a number in its line."""


def told(fault):
    """A refusal as an object: its number and words, and the details of its line by their names."""
    number, behind = re.fullmatch(rb"refused (\d+)(.*)\n", fault.line, re.S).groups()
    number = int(number)
    found = next((it.groupdict() for form in NAMED if (it := re.fullmatch(form, behind, re.S))), {})
    found = {name: it for name, it in found.items() if it is not None and name not in ("file", "stream")}
    details = {name: it.decode() if name in ("table", "key") else int(it) for name, it in found.items()}
    if "key" in details:
        details["key"] = details["key"].split(",")
    return {"number": number, "words": refusal.meanings().get(number) or WORDS[number]} | details


class Live(Feed):
    """A feed whose file grows: what came is read on from the last byte that was taken, and taken up to the last message behind which no
    transaction is open."""

    def __init__(self, path, workflow, shard):
        super().__init__(b"", workflow.keyspace, shard, workflow.columns)
        self.path, self.seen_at = path, None
        self.size = self.taken = self.count = 0
        """Bytes that were seen, those up to which groups are taken, and how many groups these are."""

    def state(self):
        """What is known where no transaction is open."""
        return len(self.groups), dict(self.columns), dict(self.told), self.seen

    def go_back(self, state):
        count, self.columns, self.told, self.seen = state
        del self.groups[count:]
        self.open, self.position, self.changes, self.differs = False, None, [], False

    def grow(self):
        """Reads on; answers how many more bytes are taken. Where what came has a fault nothing of it is taken."""
        before, state = self.taken, self.state()
        try:
            data = self.come()
            size, state = self.read_on(data, state)
        finally:
            self.go_back(state)
        self.taken, self.count = before + size, len(self.groups)
        return size

    def come(self):
        """The bytes behind those that are taken."""
        try:
            file = os.open(self.path, os.O_RDONLY)
        except OSError:
            raise Refused(131, b" file " + os.fsencode(self.path)) from None
        try:
            there = os.fstat(file)
            if not stat.S_ISREG(there.st_mode):
                raise OSError
            if self.seen_at not in (None, (there.st_dev, there.st_ino)) or there.st_size < self.taken:
                raise Refused(127)
            most = MOST_AT_ONCE + self.size - self.taken if self.seen_at else there.st_size
            data = os.pread(file, most, self.taken)
            self.seen_at, self.size = (there.st_dev, there.st_ino), self.taken + len(data)
            return data
        except OSError:
            raise Refused(131, b" file " + os.fsencode(self.path)) from None
        finally:
            os.close(file)

    def read_on(self, data, state):
        """How many of these bytes are taken, and what is known there."""
        at = taken = 0
        while at < len(data):
            size, after = wire.varint(data, at, len(data))
            if size is None and after == 2:
                raise Refused(81)
            if size is None or size > len(data) - after:
                break
            self.message(data, (after, after + size))
            at = after + size
            if self.differs:
                raise Refused(85)
            if not self.open:
                taken, state = at, self.state()
        return taken, state


class Board:
    """The streams with their rows: `passed` what passes of the applied groups, by table and key, `there` what the marks let in, with its stream.
    `pace` is how they are copied: rows a step, groups that are read ahead, and steps under one snapshot."""

    def __init__(self, workflow, feeds, pace):
        self.workflow, self.feeds, (self.chunk, self.ahead, self.chunks) = workflow, feeds, pace
        self.streams = [Course(len(workflow.tables)) for _ in feeds]
        self.places = {table.name: at for at, table in enumerate(workflow.tables)}
        self.passed = [[{} for _ in workflow.tables] for _ in feeds]
        self.there = [{} for _ in workflow.tables]
        self.touched, self.sorted, self.refused = set(), {}, [None] * len(feeds)

    # What the model's checkpoint asks.

    def rows_of(self, s):
        return {(t, key): row for t, rows in enumerate(self.there) for key, (owner, row) in rows.items() if owner == s}

    def position(self, s):
        n = self.streams[s].applied
        return self.feeds[s].groups[n - 1][0] if n else {}

    # Steps.

    def touches(self, s, n):
        """What a group leaves at each key that it touches: a row of kept columns, or nothing. Refused 90."""
        found = {}
        for name, *rows in self.feeds[s].groups[n - 1][1]:
            table = self.places[name]
            plan = self.workflow.tables[table]
            for row, is_after in zip(rows, (False, True)):
                if row is None:
                    continue
                key = plan.key_of(row)
                passes = self.workflow.passes(s, table, row) if is_after and not isinstance(key, int) else False
                for it in (key, passes):
                    if isinstance(it, int) and not isinstance(it, bool):
                        raise Refused(90, b" group %d table %s cause %d" % (n, name, it))
                found[table, key] = plan.picked(row) if is_after and passes else None
        return found

    def is_inside(self, s, table, key):
        mark = self.streams[s].marks[table]
        return mark == "done" or mark != "waits" and key <= mark

    def put(self, s, changes):
        """Gives keys their rows. Refused 71, with nothing changed, where another stream's row stands."""
        for (table, key), row in sorted(changes.items(), key=lambda it: it[0]):
            owner = self.there[table].get(key, (s,))[0]
            if row is not None and owner != s:
                name = self.workflow.tables[table].name
                raise Refused(71, b" table %s key %s owner %d" % (name, key_text(key), owner))
        for (table, key), row in changes.items():
            if row is not None:
                self.there[table][key] = s, row
            elif self.there[table].get(key, (None,))[0] == s:
                del self.there[table][key]
            else:
                continue
            self.touched.add((table, key))
            self.sorted.pop(table, None)

    def advance(self, s):
        it, feed = self.streams[s], self.feeds[s]
        changes = self.touches(s, it.applied + 1)
        self.put(s, {at: row for at, row in changes.items() if self.is_inside(s, *at)})
        for (table, key), row in changes.items():
            if row is None:
                self.passed[s][table].pop(key, None)
            else:
                self.passed[s][table][key] = row
        it.applied += 1
        # (what was applied isn't asked again)
        feed.groups[it.applied - 1] = feed.groups[it.applied - 1][0], None

    def copy(self, s):
        it = self.streams[s]
        at = it.done()
        mark = it.marks[at]
        due = sorted(key for key in self.passed[s][at] if mark == "waits" or key > mark)
        self.put(s, {(at, key): self.passed[s][at][key] for key in due[:self.chunk]})
        it.marks[at] = "done" if len(due) <= self.chunk else due[self.chunk - 1]
        it.snapshot = None if it.marks[at] == "done" else it.snapshot

    def step(self, s):
        """Takes the next step of `run`: None where there is nothing to do, else whether it is one that counts."""
        it, end = self.streams[s], self.feeds[s].count
        phase = it.phase()
        if phase == "Running":
            if it.applied == end:
                return None
            it.read = max(it.read, it.applied + 1)
            self.advance(s)
        elif phase == "CatchUp":
            it.read = max(it.read, min(it.read + self.ahead, end))
            it.snapshot, it.copies = it.read, 0
            return False
        elif phase == "FastForward":
            self.advance(s)
        else:
            self.copy(s)
            it.copies = getattr(it, "copies", 0) + 1
            if it.snapshot is not None and it.copies == self.chunks:
                it.snapshot = None
        return True

    def begin(self):
        """Comes to the feeds' ends. Refused as `run`."""
        for s in range(len(self.feeds)):
            while self.step(s) is not None:
                pass

    def more(self, most):
        """The bytes that were taken. What stops a stream is kept with it."""
        before = [feed.taken for feed in self.feeds]
        for s, feed in enumerate(self.feeds):
            if self.refused[s] and self.refused[s]["number"] not in PASSING:
                continue
            self.refused[s] = None
            try:
                feed.grow()
            except Refused as fault:
                self.stop(s, fault)
            except MemoryError:
                self.stop(s, Refused(72))
            try:
                # (what was taken before a fault is applied before it)
                left = most
                while (left is None or left) and (counts := self.step(s)) is not None:
                    left = left and left - counts
            except Refused as fault:
                self.stop(s, fault)
        return sum(feed.taken for feed in self.feeds) - sum(before)

    def stop(self, s, fault):
        if not self.refused[s] or self.refused[s]["number"] in PASSING:
            self.refused[s] = told(fault)

    # What is told.

    def name(self, table):
        return self.workflow.tables[table].name.decode()

    def stream(self, s):
        it, feed = self.streams[s], self.feeds[s]
        copied = [
            {"key": cells(mark) if isinstance(mark, tuple) else None, "table": self.name(t), "what": {"waits": "waiting", "done": "done"}.get(mark, "upto") if isinstance(mark, str) else "upto"}
            for t, mark in enumerate(it.marks)
        ]
        at = print_position(self.position(s)).decode()
        return {
            "applied": it.applied, "bytes": feed.taken, "copied": copied, "groups": feed.count, "phase": it.phase(), "position": f"MySQL56/{at}" if at else None,
            "read": it.read, "refused": self.refused[s], "stream": s, "tail": feed.size - feed.taken,
        }  # fmt: skip

    def told_streams(self):
        return [self.stream(s) for s in range(len(self.streams))]

    def row(self, table, key):
        """The stream and the cells of the row at a key, or two nulls."""
        owner, row = self.there[table].get(key, (None, None))
        return {"row": None if row is None else row_cells(row), "stream": owner}

    def keys(self, table):
        if table not in self.sorted:
            self.sorted[table] = sorted(self.there[table])
        return self.sorted[table]


def cells(key):
    return ["x" + (b"%d" % part if isinstance(part, int) else part).hex() for part in key]


def row_cells(row):
    return ["N" if it is None else "x" + it.hex() for it in row]


class SaveFile:
    """The file that checkpoints take the place of (docs/FORMATS.md, 'The file of `--save-to`'), whose lock is held from the first one on."""

    def __init__(self, name, inputs):
        self.name, self.said, self.held = os.path.realpath(name), name, None
        try:
            self.seen = self.look()
            if self.seen is None and os.path.islink(name):
                raise Usage("the file of --save-to is a link to nothing")
            if self.seen and not stat.S_ISREG(os.stat(self.name).st_mode):
                raise Usage("the file of --save-to is there and no regular file")
        except OSError:
            raise self.refused(132) from None
        if self.seen and any(os.path.exists(it) and os.path.samefile(it, self.name) for it in inputs):
            raise Usage("the file of --save-to is an input")

    def look(self):
        try:
            found = os.stat(self.name)
        except FileNotFoundError:
            return None
        return found.st_dev, found.st_ino, found.st_size, found.st_ctime_ns

    def refused(self, number):
        return Refused(number, b" file " + os.fsencode(self.said))

    def put(self, data):
        folder, base = os.path.split(self.name)
        names = (os.path.join(folder, f".{base}.{os.getpid()}-{n}.new") for n in itertools.count())
        own = next(it for it in names if not os.path.lexists(it))
        try:
            file = open(own, "xb")
            fcntl.flock(file, fcntl.LOCK_EX)
            file.write(data)
            file.flush()
            os.fsync(file.fileno())
            if self.seen:
                os.fchmod(file.fileno(), stat.S_IMODE(os.stat(self.name).st_mode))
            self.take()
            if self.seen:
                os.rename(own, self.name)
            else:
                os.link(own, self.name)
                os.unlink(own)
            self.held, self.seen = file, self.look()
        except OSError as fault:
            if os.path.lexists(own):
                os.unlink(own)
            raise self.refused(129 if isinstance(fault, (FileExistsError, BlockingIOError)) else 132) from None

    def take(self):
        """Has the lock of the file that is there, which is the one that this saw last."""
        if self.seen and not self.held:
            self.held = open(self.name, "rb")
            try:
                fcntl.flock(self.held, fcntl.LOCK_EX | fcntl.LOCK_NB)
            except OSError:
                self.held = None
                raise
        if self.look() != self.seen:
            raise FileExistsError


class Usage(Exception):
    """A fault of usage."""


class Session:
    def __init__(self, workflow, feeds, name, save_to, pace):
        self.save_to = save_to and SaveFile(save_to, [workflow, *feeds])
        data = name and open_file(name)
        said = open_file(workflow)
        for it in feeds:
            open_file(it)
        self.workflow = Workflow(said)
        if len(feeds) != len(self.workflow.shards):
            raise Refused(119)
        self.board = Board(self.workflow, [Live(path, self.workflow, shard) for path, shard in zip(feeds, self.workflow.shards)], pace)
        for feed in self.board.feeds:
            feed.grow()
        if name:
            self.resume(data)
        self.board.begin()

    def resume(self, data):
        """The board of a checkpoint, with the faults of the model's `resume`."""
        try:
            parts = checkpoint.read(data, self.workflow)
        except checkpoint.Bad:
            raise Refused(116) from None
        board = self.board
        for s, (position, marks, _) in enumerate(parts):
            positions = [{}] + [it[0] for it in board.feeds[s].groups[: board.feeds[s].count]]
            if position not in positions:
                raise Refused(118, b" stream %d" % s)
            board.streams[s].marks = marks
            for _ in range(positions.index(position)):
                board.streams[s].read += 1
                board.advance(s)
            # a group that was copied behind its key has no part in `advance`: the marks are the checkpoint's from the first group on
        for s, (_, _, rows) in enumerate(parts):
            there = board.rows_of(s)
            for at in sorted({*rows, *there}):
                if at not in rows or at not in there or rows[at] != there[at]:
                    raise Refused(117, b" stream %d%s" % (s, checkpoint.place_of(self.workflow, at)))

    def table(self, name):
        places = {table.name: at for at, table in enumerate(self.workflow.tables)}
        if name not in places:
            raise Refused(125)
        return places[name]

    def key(self, table, text):
        parts = text.split(b",")
        said = [bytes.fromhex(it[1:].decode()) if CELL.fullmatch(it) else None for it in parts]
        plan = self.workflow.tables[table]
        found = plan.key_in(said) if len(said) == len(plan.key) else None
        if not isinstance(found, tuple):
            raise Refused(126)
        return found

    def answer(self, line):
        """The answer to a request, or None behind the last one."""
        if len(line) > LONGEST_REQUEST:
            raise Refused(124)
        word, *rest = line.removesuffix(b"\n").split(b"\t")
        board = self.board
        if word == b"more" and len(rest) <= 1:
            taken = board.more(number(rest[0], 1, 2**32 - 1) if rest else None)
            return {"bytes": taken, "changes": len(board.touched), "streams": board.told_streams()}
        if (word, rest) == (b"state", []):
            return {"streams": board.told_streams()}
        if (word, rest) == (b"told", []):
            count = len(board.touched)
            board.touched.clear()
            return {"changes": count, "streams": board.told_streams()}
        if (word, rest) == (b"changes", []):
            found = [{"key": cells(key)} | board.row(table, key) | {"table": board.name(table)} for table, key in sorted(board.touched)]
            said = {"changes": found, "streams": board.told_streams()}
            one_line(said)
            board.touched.clear()
            return said
        if word == b"rows" and 1 <= len(rest) <= 3:
            return self.rows(*rest)
        if word == b"row" and len(rest) == 2:
            table = self.table(rest[0])
            return board.row(table, self.key(table, rest[1]))
        if (word, rest) == (b"counts", []):
            return {"tables": [{"rows": self.counts(t), "table": board.name(t)} for t in range(len(board.there))]}
        if (word, rest) == (b"save", []):
            return {"bytes": self.save()}
        if (word, rest) == (b"end", []):
            return None
        raise Refused(124)

    def counts(self, table):
        found = [0] * len(self.board.streams)
        for owner, _ in self.board.there[table].values():
            found[owner] += 1
        return found

    def rows(self, name, limit=b"100", first=None):
        table, most = self.table(name), number(limit, 1, MOST_ROWS)
        keys = self.board.keys(table)
        at = bisect.bisect_left(keys, self.key(table, first)) if first is not None else 0
        found = [{"key": cells(key)} | self.board.row(table, key) for key in keys[at:at + most]]
        return {"next": cells(keys[at + most]) if at + most < len(keys) else None, "rows": found}

    def save(self):
        if self.save_to is None:
            raise Refused(124)
        data = checkpoint.save(self.board)
        self.save_to.put(data)
        return len(data)


def number(text, least, most):
    if not text.isdigit() or not least <= int(text) <= most:
        raise Refused(124)
    return int(text)


def open_file(name):
    try:
        with open(name, "rb") as file:
            return file.read()
    except OSError:
        raise Refused(131, b" file " + name.encode()) from None


def of_pace(text):
    if not text.isdigit() or not 1 <= int(text) <= MOST_PACE:
        raise argparse.ArgumentTypeError(f"a number of 1 to {MOST_PACE}")
    return int(text)


def main():
    parser = argparse.ArgumentParser(prog="live_model.py")
    parser.add_argument("command", choices=["live"])
    parser.add_argument("--alone", action="store_true")
    for name, usual in PACE.items():
        parser.add_argument(f"--{name}", type=of_pace, default=usual)
    parser.add_argument("--checkpoint")
    parser.add_argument("--save-to")
    parser.add_argument("workflow")
    parser.add_argument("feeds", nargs="+")
    try:
        "".join(sys.argv).encode()
    except UnicodeEncodeError:
        sys.stderr.write("error: a word of the command line is not UTF-8\n")
        return 2
    said = parser.parse_args()
    try:
        session = Session(said.workflow, said.feeds, said.checkpoint, said.save_to, (said.rows, said.ahead, said.chunks))
    except Usage as fault:
        parser.error(str(fault))
    except Refused as fault:
        sys.stderr.buffer.write(fault.line)
        return 1
    while True:
        try:
            line = sys.stdin.buffer.readline()
        except OSError:
            sys.stderr.write("refused 131 file -\n")
            return 1
        if not line:
            return 0
        try:
            sys.stdout.buffer.write(answered(session, line))
            sys.stdout.buffer.flush()
        except OSError:
            sys.stderr.write("refused 132 file -\n")
            os.close(sys.stdout.fileno())
            return 1
        if line.removesuffix(b"\n") == b"end":
            return 0


def answered(session, line):
    """The line that a request is answered by."""
    try:
        try:
            return one_line({"ok": session.answer(line) or {}})
        except Refused as fault:
            return one_line({"refused": told(fault)})
    except MemoryError:
        return one_line({"refused": told(Refused(72))})


def one_line(said):
    return json.dumps(said, ensure_ascii=False, separators=(",", ":"), sort_keys=True).encode() + b"\n"


if __name__ == "__main__":
    sys.exit(main())
