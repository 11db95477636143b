"""A board: where each stream stands, and its rows by looking back at the list of changes."""
import re

from . import Refused, cell
from .feed import print_position

NUMBER = re.compile(rb"[0-9]+")
WORDS = {b"offer": 2, b"advance": 1, b"open": 2, b"copy": 2, b"close": 1, b"restart": 1, b"state": 1, b"dump": 0}


def read_script(data):
    """The steps of a script, each as its words."""
    lines = data.split(b"\n")
    steps = []
    for at, line in enumerate(lines[: len(lines) - (lines[-1] == b"")], 1):
        line = line.removesuffix(b"\r")
        if not line or line.startswith(b"#"):
            continue
        word, *said = [it for it in re.split(rb"[ \t]+", line) if it] or [b""]
        numbers = [int(it) for it in said if NUMBER.fullmatch(it) and int(it) < 2**32]
        if WORDS.get(word) != len(said) or len(numbers) != len(said):
            raise Refused(120, b" line %d" % at)
        steps.append((word.decode(), *numbers))
    return steps


def key_text(parts):
    return b",".join(cell(b"%d" % it if isinstance(it, int) else it) for it in parts)


class Stream:
    """Where a stream stands: a mark is 'waits', 'done' or the parts of a key."""

    def __init__(self, tables):
        self.read = self.applied = 0
        self.snapshot, self.marks = None, ["waits"] * tables

    def done(self):
        return self.marks.count("done")

    def phase(self):
        if self.done() == len(self.marks):
            return "Running"
        if self.snapshot is None:
            return "CatchUp"
        return "Copy" if self.snapshot == self.applied else "FastForward"


class Board:
    def __init__(self, workflow, feeds):
        self.workflow, self.feeds = workflow, feeds
        self.streams = [Stream(len(workflow.tables)) for _ in workflow.shards]
        self.places = {table.name: i for i, table in enumerate(workflow.tables)}
        self.touched = {}

    def touches(self, s, n):
        """What group n touches, in order: (table, key, row or nothing, whether it passes)."""
        if (s, n) not in self.touched:
            self.touched[s, n] = list(self.touch(s, n))
        return self.touched[s, n]

    def touch(self, s, n):
        for name, *rows in self.feeds[s].groups[n - 1][1]:
            table = self.places[name]
            for row, is_after in zip(rows, (False, True)):
                if row is None:
                    continue
                key = self.workflow.tables[table].key_of(row)
                passes = self.workflow.passes(s, table, row) if is_after and not isinstance(key, int) else False
                for it in (key, passes):
                    if isinstance(it, int) and not isinstance(it, bool):
                        raise Refused(90, b" group %d table %s cause %d" % (n, name, it))
                yield table, key, row if is_after else None, passes

    def passed(self, s, n):
        """The rows of the first n groups that pass: of each key, what its last touch left."""
        touches = [it for i in range(1, n + 1) for it in self.touches(s, i)]
        found = {}
        for table, key in {it[:2] for it in touches}:
            *_, row, passes = [it for it in touches if it[:2] == (table, key)][-1]
            if row is not None and passes:
                found[table, key] = row
        return found

    def cut(self, s, n, marks):
        """The kept columns of the rows that pass, at the keys up to which the marks say that all is copied."""

        def is_inside(table, key):
            mark = marks[table]
            return mark == "done" or mark != "waits" and key <= mark

        tables = self.workflow.tables
        return {it: tables[it[0]].picked(row) for it, row in self.passed(s, n).items() if is_inside(*it)}

    def rows_of(self, s):
        it = self.streams[s]
        return self.cut(s, it.applied, it.marks)

    def rows(self):
        return {key: row for s in range(len(self.streams)) for key, row in self.rows_of(s).items()}

    def refuse_foreign(self, s, rows):
        """Refuses the least key of the stream's new rows at which another stream's row stands."""
        others = {key: i for i in range(len(self.streams)) if i != s for key in self.rows_of(i)}
        for table, key in sorted({*others} & {*rows}):
            name = self.workflow.tables[table].name
            raise Refused(71, b" table %s key %s owner %d" % (name, key_text(key), others[table, key]))

    def step(self, word, *numbers):
        """The reply to a step."""
        if word == "dump":
            return self.dump()
        if numbers[0] >= len(self.streams):
            raise Refused(115)
        return getattr(self, word)(*numbers)

    def reply(self, step):
        try:
            return self.step(*step)
        except Refused as refused:
            return refused.line

    def offer(self, s, n):
        it, groups = self.streams[s], self.feeds[s].groups
        if not 1 <= n <= len(groups):
            raise Refused(91, b" groups %d" % len(groups))
        self.touches(s, n)
        if n > it.read + 1:
            raise Refused(101, b" expected %d" % (it.read + 1))
        if n <= it.read:
            return b"repeat %d\n" % n
        it.read = n
        return b"read %d\n" % n

    def advance(self, s):
        it = self.streams[s]
        if it.snapshot == it.applied:
            raise Refused(103)
        if it.applied == it.read:
            raise Refused(102)
        self.refuse_foreign(s, self.cut(s, it.applied + 1, it.marks))
        it.applied += 1
        return b"applied %d\n" % it.applied

    def open(self, s, m):
        it = self.streams[s]
        for number, holds in ((104, it.phase() == "Running"), (105, it.snapshot is not None), (106, m < it.applied), (107, m > it.read)):
            if holds:
                raise Refused(number)
        it.snapshot = m
        return b"snapshot %d\n" % m

    def copy(self, s, count):
        it = self.streams[s]
        if it.snapshot is None:
            raise Refused(108)
        if it.snapshot != it.applied:
            raise Refused(109)
        at = it.done()
        mark, marks = it.marks[at], list(it.marks)
        due = sorted(key for table, key in self.passed(s, it.applied) if table == at and (mark == "waits" or key > mark))
        is_done = len(due) <= count
        marks[at] = "done" if is_done else due[count - 1] if count else mark
        self.refuse_foreign(s, self.cut(s, it.applied, marks))
        it.marks = marks
        it.snapshot = None if is_done else it.snapshot
        return b"copied %d%s\n" % (min(count, len(due)), b" done" if is_done else b"")

    def close(self, s):
        if self.streams[s].snapshot is None:
            raise Refused(108)
        self.streams[s].snapshot = None
        return b"closed\n"

    def restart(self, s):
        it = self.streams[s]
        it.read, it.snapshot = it.applied, None
        return b"restarted %d\n" % it.applied

    def position(self, s):
        n = self.streams[s].applied
        return self.feeds[s].groups[n - 1][0] if n else {}

    def state(self, s):
        it = self.streams[s]
        snapshot = "none" if it.snapshot is None else it.snapshot
        said = f"state {s} {it.phase()} read {it.read} applied {it.applied} snapshot {snapshot} done {it.done()} of {len(it.marks)} at "
        return said.encode() + (print_position(self.position(s)) or b"-") + b"\n"

    def dump(self):
        return dump(self.workflow, self.rows())

    def fill(self, s, rows, ahead, chunks):
        """What `run` does with one stream by itself, up to its feed's end."""
        it, end = self.streams[s], len(self.feeds[s].groups)
        while (phase := it.phase()) != "Running" or it.applied < end:
            if phase == "CatchUp":
                for n in range(it.read + 1, min(it.read + ahead, end) + 1):
                    self.offer(s, n)
                self.open(s, it.read)
            elif phase == "FastForward":
                self.advance(s)
            elif phase == "Copy":
                for _ in range(chunks):
                    if it.snapshot is not None:
                        self.copy(s, rows)
                if it.snapshot is not None:
                    self.close(s)
            else:
                if it.read == it.applied:
                    self.offer(s, it.read + 1)
                self.advance(s)


def dump(workflow, rows):
    out = []
    for i, table in enumerate(workflow.tables):
        out.append(b"table " + table.name + b"\n")
        out += [b"\t".join(map(cell, rows[key])) + b"\n" for key in sorted(rows) if key[0] == i]
    return b"".join(out)
