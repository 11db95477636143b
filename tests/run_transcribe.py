#!/usr/bin/env python3
"""Makes feeds of logs that are made at random, and compares them with what the transactions in them are.

usage: tests/run_transcribe.py PROGRAM [--seconds N] [--seed N]
       tests/run_transcribe.py PROGRAM --seed N --case N

Of each case (tests/model/binlog.py): `vrepl transcribe` writes the feed of the workflow's tables, byte for byte, on standard
output and with --save-to into a file; the transactions are plain ones, rolled back, with savepoints, of other engines, XA, and
statements, over one to three files; an XA transaction may end in a later file than that in which it is prepared. Cut anywhere,
the last file is refused 141, 156 or as no log, by its name and a byte that is there; one that a server still writes gives the
beginning of the feed. With a bit turned a file with checks is refused at the event that has the bit, or the feed is the same, or
shorter where its server still writes the file. Files in another order are refused 159, or the feed's first one is missing;
a workflow with another type or another number of columns is refused where the table has rows, by its name, at the byte of a
transaction. Behind the feed of the logs up to a transaction, for each of them, `--after` writes the rest of the whole feed's
messages, of all logs or of those from that one's file on; behind the whole feed it writes nothing; where a table that is made in
an earlier file has its first rows behind that feed, the later logs alone are refused 159. Logs that begin behind the feed's end
are refused 159, and a feed of another shard or with other columns 89 and 85. A log that is gone, or a folder, is 131 by its name;
of a run that is refused nothing is left where --save-to names a file, and that is as it was. Where a growth of memory is refused, three
of each case, it is 72. One case's last file is cut at every byte, and every bit of one of its events is turned. The last line is
'N passed, M failed'.
"""
import argparse
import bisect
import json
import os
import random
import re
import subprocess
import sys
import tempfile
import time
from concurrent.futures import ThreadPoolExecutor

sys.path.append(os.path.join(os.path.dirname(os.path.abspath(__file__)), "..", "record"))

import preloaded
from model.binlog import ALONE, DDL, History, Log
from recorder import wire

ROOM = tempfile.TemporaryDirectory(prefix="vrepl-transcribe-")
PATIENCE = 600
GROWTHS = 3
"""How many growths of a case are refused."""
SMALL = 2000
"""The bytes of a file that is cut at each."""
COMMIT = b"\x0a\x02\x08\x03"
LINE = re.compile(rb"refused (\d+) file (log\.\d) byte (\d+)(?: table (\w+))?\n")


class Fault(Exception):
    """What a case has that it shouldn't."""


class Place:
    """A folder in which the program runs."""

    def __init__(self, program: str, folder: str) -> None:
        self.program, self.folder = os.path.abspath(program), folder

    def put(self, name: str, data: bytes) -> str:
        with open(os.path.join(self.folder, name), "wb") as file:
            file.write(data)
        return name

    def run(self, *words: str, told: dict | None = None) -> tuple[int, bytes, bytes]:
        ran = subprocess.run([self.program, *words], cwd=self.folder, capture_output=True, timeout=PATIENCE, env=os.environ | (told or {}))
        return ran.returncode, ran.stdout, ran.stderr


def wants(told: bool, what: object) -> None:
    if not told:
        raise Fault(what)


def joined(front: bytes, more: bytes) -> bytes:
    """A feed with further messages, without the message of a position alone that stood at its end before them."""
    messages = list(messages_of(front))
    if more and messages and not messages[-1].endswith(COMMIT):
        front = front[: len(front) - len(wire.varint(len(messages[-1]))) - len(messages[-1])]
    return front + more


def messages_of(feed: bytes):
    place = 0
    while place < len(feed):
        size, shift = 0, 0
        while True:
            byte = feed[place]
            size, shift, place = size | (byte & 127) << shift, shift + 7, place + 1
            if byte < 128:
                break
        yield feed[place : place + size]
        place += size


class Trial:
    """One case."""

    def __init__(self, place: Place, r: random.Random) -> None:
        self.place, self.r, self.history = place, r, History(r, wire)
        place.put("workflow", json.dumps(self.history.workflow()).encode())
        self.names = [place.put(f"log.{number}", bytes(log.data)) for number, log in enumerate(self.history.logs)]

    def made(self, names: list[str], workflow: str = "workflow", words: tuple = (), told: dict | None = None) -> tuple[int, bytes, bytes]:
        schema = [f"--schema={self.history.schema}"] if self.history.schema else []
        return self.place.run("transcribe", *words, f"--shard={self.history.shard}", *schema, workflow, *names, told=told)

    def line(self, ran: tuple[int, bytes, bytes], numbers: set[int], name: str) -> re.Match:
        """The line of a refusal with one of these numbers, of this file."""
        status, out, err = ran
        line = LINE.fullmatch(err)
        wants(status == 1 and not out and line and int(line[1]) in numbers and line[2].decode() == name, ran)
        return line

    def plain(self) -> None:
        wants(self.made(self.names) == (0, self.history.feed, b""), (self.made(self.names), self.history.feed))
        wants(self.made(self.names, words=("--save-to=feed",)) == (0, b"", b""), "--save-to")
        with open(os.path.join(self.place.folder, "feed"), "rb") as file:
            wants(file.read() == self.history.feed, "the file")

    def begins(self, feed: bytes) -> bool:
        """Whether a feed has the first messages of the whole one, and then perhaps a position."""
        front, commit, _ = feed.rpartition(b"\x0a\x02\x08\x03")
        return self.history.feed.startswith(front + commit)

    def cut(self, size: int | None = None) -> None:
        log = self.history.logs[-1]
        size = self.r.randrange(len(log.data)) if size is None else size
        name = self.place.put(self.names[-1], bytes(log.data[:size]))
        ran = self.made(self.names)
        if ran[0] == 0:
            wants(self.begins(ran[1]), ("cut", size, ran))
        else:
            line = self.line(ran, {140, 141, 144, 156, 159}, name)
            wants(int(line[3]) <= size, ("a byte behind the end", size, ran))
        self.place.put(name, bytes(log.data))

    def turned(self, at: tuple[int, int] | None = None) -> None:
        """A bit is turned: of any file, or of the last one at a byte and a bit of it."""
        number = self.r.randrange(len(self.history.logs)) if at is None else len(self.history.logs) - 1
        log = self.history.logs[number]
        data = bytearray(log.data)
        byte, bit = at or (self.r.randrange(len(data)), self.r.randrange(8))
        data[byte] ^= 1 << bit
        self.place.put(self.names[number], bytes(data))
        ran = self.made(self.names)
        self.place.put(self.names[number], bytes(log.data))
        if not log.checked and byte >= log.places[1]:
            return
        if ran[0] == 0:
            wants(ran[1] == self.history.feed or log.in_use and self.begins(ran[1]), ("turned", number, byte, ran))
            return
        line = LINE.fullmatch(ran[2])
        wants(ran[0] == 1 and not ran[1] and line, ("turned", number, byte, ran))
        begin = log.places[bisect.bisect_right(log.places, byte) - 1] if byte >= 4 else 0
        if byte >= 4 and byte != log.places[0] + 17:
            wants(line[2].decode() == self.names[number] and int(line[3]) == begin, ("turned", number, byte, begin, ran))

    def growths(self) -> None:
        """Some of the growths are refused, each alone or with all later ones: 72, or the feed."""
        counted = os.path.join(self.place.folder, "growths")
        library = {"LD_PRELOAD": preloaded.library(ROOM.name, "refuse_growth")}
        whole = self.made(self.names, told=library | {"GROWTHS": counted})
        wants(whole == (0, self.history.feed, b""), ("beside a library", whole))
        with open(counted, "rb") as file:
            count = int(file.read())
        for at in self.r.sample(range(1, count + 1), min(GROWTHS, count)):
            ran = self.made(self.names, told=library | {"REFUSE_GROWTH": f"{at}{self.r.choice(['', '+'])}"})
            wants(ran in ((1, b"", b"refused 72\n"), whole), ("growth", at, count, ran))

    def reversed(self) -> None:
        if len(self.names) > 1:
            self.line(self.made(self.names[::-1]), {159}, self.names[-1])
        self.line(self.made([self.names[0], self.names[0]]), {159, 156}, self.names[0])

    def altered(self) -> None:
        """Another type, or a column more."""
        said = self.history.workflow()
        table = self.r.choice(said["tables"])
        more = self.r.random() < 0.5
        if more:
            table["columns"].append(["more", "INT64"])
        else:
            table["columns"][0][1] = "UINT8"
        self.place.put("altered", json.dumps(said).encode())
        ran = self.made(self.names, "altered")
        if table["name"] not in self.history.fields:
            wants(ran == (0, self.history.feed, b""), ("altered", ran))
            return
        status, out, err = ran
        line = LINE.fullmatch(err)
        wants(status == 1 and not out and line and int(line[1]) == (148 if more else 149) and line[4].decode() == table["name"], ("altered", ran))
        wants((int(line[2][4:]), int(line[3])) in self.history.starts, ("no transaction's beginning", ran, self.history.starts))

    def selected(self) -> None:
        """A table that is made of what a statement selects has rows that no event has."""
        log, table = Log({}, self.history.checked), self.r.choice(self.history.tables)
        log.gtid(0, 1, ALONE | DDL)
        begin, make = log.places[-1], self.r.choice([b"CREATE TABLE ", b"create or replace table ", b"CREATE  TABLE IF NOT EXISTS "])
        log.query(make + table.name + b" (id bigint primary key) " + self.r.choice([b"SELECT", b"as select"]) + b" 7 AS id", self.history.schema_there)
        name = self.place.put("log.9", bytes(log.data))
        line = self.line(self.made([name]), {152}, name)
        wants(int(line[3]) == begin and line[4] == table.name, ("selected", line))

    def after(self, feed: bytes, names: list[str], workflow: str = "workflow", words: tuple = ()) -> tuple[int, bytes, bytes]:
        self.place.put("had", feed)
        ran = self.made(names, workflow, ("--after=had", *words))
        with open(os.path.join(self.place.folder, "had"), "rb") as file:
            wants(file.read() == feed, "the feed that was there")
        return ran

    def parts(self) -> None:
        """The parts of the feed are the whole, cut at each transaction."""
        whole, last = self.history.feed, len(self.names) - 1
        wants(self.after(whole, self.names) == (0, b"", b""), "behind the whole")
        wants(self.after(b"", self.names) == (0, whole, b""), "behind nothing")
        for file, byte in self.history.starts + [(last, len(self.history.logs[last].data))]:
            part = [*self.names[:file], self.place.put("part", bytes(self.history.logs[file].data[:byte]))]
            status, front, line = self.made(part)
            if status:
                # an XA transaction is left prepared there
                wants(line == b"refused 156 file part byte %d\n" % byte and not front, ("part", file, byte, line))
                continue
            ran = self.after(front, self.names)
            wants(ran[0] == 0 and not ran[2] and joined(front, ran[1]) == whole, ("after", file, byte, front, ran, whole))
            if file:
                later = self.after(front, self.names[file:])
                refused = later[0] == 1 and not later[1] and (b"refused 159 file " in later[2] or b"refused 156 file " in later[2])
                wants(later == ran or refused, ("after, later logs", file, byte, front, later, ran))
            self.place.put("more", ran[1])
            wants(self.after(front, self.names, words=("--save-to=more",)) == (0, b"", b""), "--after and --save-to")
            wants(self.after(front, self.names, words=("--save-to=had",))[0] == 2, "--save-to the feed itself")

    def gaps(self) -> None:
        """Logs that begin behind the feed's end, and a feed of something else."""
        if len(self.names) > 1 and any(file == 0 for file, _ in self.history.starts):
            self.line_after(self.after(b"", self.names[1:]), 159, self.names[1])
        if self.history.feed:
            self.place.put("workflow2", json.dumps(self.history.workflow() | {"streams": [{"shard": "c0-", "filter": {"rules": [{"match": "/.*", "filter": ""}]}}]}).encode())
            self.place.put("had", self.history.feed)
            schema = [f"--schema={self.history.schema}"] if self.history.schema else []
            ran = self.place.run("transcribe", "--after=had", "--shard=c0-", *schema, "workflow2", *self.names)
            wants(ran[0] == 1 and not ran[1] and ran[2].startswith(b"refused 89"), ("another shard", ran))
            said = self.history.workflow()
            for table in said["tables"]:
                table["columns"].append(["more", "INT64"])
            self.place.put("wider", json.dumps(said).encode())
            ran = self.after(self.history.feed, self.names, "wider")
            wants(ran[0] == 1 and not ran[1] and ran[2].startswith(b"refused 85") or not self.history.fields, ("other columns", ran))

    def line_after(self, ran: tuple[int, bytes, bytes], number: int, name: str) -> None:
        self.line(ran, {number}, name)

    def unread(self) -> None:
        """A log that is gone, or a folder, behind sound ones, and one that is told twice: nothing is left of what was written."""
        self.place.put("kept", b"as it was")
        before = set(os.listdir(self.place.folder))
        for words in ((), ("--save-to=kept",), ("--save-to=new",)):
            for missing in ("gone", "."):
                ran = self.made([*self.names, missing], words=words)
                wants(ran == (1, b"", b"refused 131 file %s\n" % missing.encode()), ("unread", missing, words, ran))
            self.line(self.made([*self.names, self.names[0]], words=words), {159, 156}, self.names[0])
        with open(os.path.join(self.place.folder, "kept"), "rb") as file:
            wants(file.read() == b"as it was", "the file of --save-to")
        wants(set(os.listdir(self.place.folder)) == before, ("left", set(os.listdir(self.place.folder)) - before))

    def all(self) -> None:
        self.plain()
        self.unread()
        self.parts()
        self.gaps()
        for _ in range(4):
            self.cut()
            self.turned()
        self.reversed()
        self.altered()
        self.selected()
        self.growths()


def one(program: str, seed: int, case: int) -> str | None:
    with tempfile.TemporaryDirectory(prefix="vrepl-transcribe-") as folder:
        try:
            Trial(Place(program, folder), random.Random(f"{seed} {case}")).all()
        except Fault as fault:
            return f"--seed {seed} --case {case}: {fault}"
    return None


def swept(program: str, seed: int) -> tuple[str | None, int]:
    """The last file of a case of two files or more is cut at every byte, and every bit of an event is turned, whatever it is; answers
    how often."""
    case = next(case for case in range(1 << 20) if _is_small(History(random.Random(f"{seed} {case}"), wire)))
    said, count = f"--seed {seed} --case {case}", max(2, os.cpu_count() or 1)
    log = History(random.Random(f"{seed} {case}"), wire).logs[-1]
    begin = random.Random(f"{seed} event").randrange(len(log.places))
    end = [*log.places, len(log.data)][begin + 1]
    items = [(size,) for size in range(len(log.data))] + [(byte, bit) for byte in range(log.places[begin], end) for bit in range(8)]

    def part(at: int) -> str | None:
        with tempfile.TemporaryDirectory(prefix="vrepl-transcribe-") as folder:
            trial = Trial(Place(program, folder), random.Random(f"{seed} {case}"))
            try:
                for item in items[at::count]:
                    trial.cut(*item) if len(item) == 1 else trial.turned(item)
            except Fault as fault:
                return f"{said}, swept: {fault}"
        return None

    with ThreadPoolExecutor(count) as pool:
        return next(filter(None, pool.map(part, range(count))), None), len(items)


def _is_small(history: History) -> bool:
    return len(history.logs) > 1 and history.logs[-1].checked and len(history.logs[-1].places) > 6 and len(history.logs[-1].data) < SMALL


def main() -> int:
    parser = argparse.ArgumentParser()
    parser.add_argument("program")
    parser.add_argument("--seconds", type=float, default=10)
    parser.add_argument("--seed", type=int, default=random.randrange(1 << 30))
    parser.add_argument("--case", type=int)
    said = parser.parse_args()
    end, faults, case = time.monotonic() + said.seconds, [], 0
    if said.case is not None:
        faults, case = [one(said.program, said.seed, said.case)], 1
    else:
        while time.monotonic() < end and len(faults) < 3:
            faults.append(one(said.program, said.seed, case))
            faults, case = [fault for fault in faults if fault], case + 1
    sweep, count = (None, 0) if said.case is not None else swept(said.program, said.seed)
    faults = [fault for fault in [*faults, sweep] if fault]
    for fault in faults:
        print(fault)
    print(f"{case} cases, {count} cuts and bits of one, seed {said.seed}")
    print(f"{0 if faults else 1} passed, {1 if faults else 0} failed")
    return 1 if faults else 0


if __name__ == "__main__":
    sys.exit(main())
