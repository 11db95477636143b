"""Who applies what `changes` tells has the rows of the positions that are told: over workflows and feeds at random, in all their spellings."""
import os
import random
import subprocess

from model import Refused
from model.board import Board, cell, dump
from model.feed import Feed, print_position
from model.random_case import UUIDS, Feeds
from model.workflow import Workflow

from .asking import Follower, Session, append, opening

CASES = int(os.environ.get("LIVE_CASES", "40"))
SEED = int(os.environ.get("LIVE_SEED", "71"))


class Case(Feeds):
    """A workflow that isn't refused, and of each stream a feed that isn't. A key may be of two streams."""

    def __init__(self, r: random.Random) -> None:
        self.r, self.faulty, self.read = r, False, None
        while self.read is None:
            self.said = self.workflow()
            try:
                self.read = Workflow(self.said)
            except Refused:
                continue
        self.uuids = [r.sample(UUIDS, r.randrange(1, 3)) for _ in self.read.shards]
        self.feeds = [self.whole(s, shard) for s, shard in enumerate(self.read.shards)]

    def whole(self, s: int, shard: bytes) -> bytes:
        while True:
            data = self.feed(s, shard)
            try:
                Feed(data, self.read.keyspace, shard, self.read.columns)
                return data
            except Refused:
                pass


class Following:
    """A session over a case's feeds, as far as these have come, and who follows it."""

    def __init__(self, trial, number: int) -> None:
        self.r = random.Random(f"{SEED} {number}")
        self.case, self.wrong, self.follower, self.counts = Case(self.r), [], Follower(), {}
        self.read = self.case.read
        self.words = [trial.put("changes.json", self.case.said), *(trial.put(f"changes.{s}", b"") for s in range(len(self.case.feeds)))]
        self.board = Board(self.read, [Feed(data, self.read.keyspace, shard, self.read.columns) for data, shard in zip(self.case.feeds, self.read.shards)])
        self.come = [0] * len(self.case.feeds)
        if self.r.random() < 0.7:
            for s in range(len(self.come)):
                self.grow(s)

    def grow(self, s: int, whole: bool = False) -> None:
        """A feed comes on by some bytes."""
        data, at = self.case.feeds[s], self.come[s]
        self.come[s] = len(data) if whole else min(len(data), at + self.r.randrange(len(data) // 2 + 2))
        append(self.words[1 + s], data[at:self.come[s]])

    def pace(self) -> list[str]:
        r = self.r
        return r.choice(([], [f"--rows={r.randrange(1, 4)}", f"--ahead={r.randrange(1, 4)}", f"--chunks={r.randrange(1, 3)}"])) + r.choice(([], ["--alone"]))

    def tried(self, live: str) -> list[dict]:
        """Grows, asks and follows to the feeds' ends; how the streams stand there."""
        r, pace = self.r, self.pace()
        if (ran := opening(live, *pace, *self.words))[0]:
            # (a run of what has come is refused, and so is the session: it begins with nothing)
            self.hold(not ran[2].startswith((b"refused 71 ", b"refused 90 ")), "an opening", ran)
            self.come = [0] * len(self.come)
            for path in self.words[1:]:
                os.truncate(path, 0)
        with Session(live, *pace, *self.words) as session:
            # (it is opened over what has come so far)
            session.ok("state")
            for turn in range(30):
                for s in range(len(self.come)):
                    if r.random() < 0.6:
                        self.grow(s, whole=turn > 6)
                said = session.ok("more", *r.choice(([], ["1"], [str(r.randrange(1, 5))])))
                if r.random() < 0.5:
                    self.take(session)
                if turn > 7 and all(self.is_done(it) for it in said["streams"]) and self.come == list(map(len, self.case.feeds)):
                    break
            streams = self.take(session)
            self.hold(not all(map(self.is_done, streams)), "not at its end", streams)
            self.hold(session.end() != (0, b"") or session.odd or self.follower.faults, "its end", session.odd[:1], self.follower.faults[:1])
        return streams

    def is_done(self, stream: dict) -> bool:
        return bool(stream["refused"]) or stream["phase"] == "Running" and stream["applied"] == stream["groups"] and stream["bytes"] == len(self.case.feeds[stream["stream"]])

    def hold(self, is_wrong: object, *what: object) -> None:
        if is_wrong:
            self.wrong.append(what)

    def take(self, session: Session) -> list[dict]:
        """Takes the changes, and holds the rows then to those of the streams that stand as told."""
        said = session.ok("changes")
        streams = said["streams"]
        self.follower.take(said["changes"])
        order = {table.name.decode(): at for at, table in enumerate(self.read.tables)}
        keys = [(order[it["table"]], self.key(order[it["table"]], it["key"])) for it in said["changes"]]
        self.hold(keys != sorted(set(keys)), "changes don't rise", said["changes"])
        for it, stream in zip(streams, self.board.streams):
            stream.applied, stream.read, stream.marks = it["applied"], it["read"], [self.mark(t, one) for t, one in enumerate(it["copied"])]
            position = print_position(self.board.position(it["stream"])).decode()
            self.hold(it["position"] != (f"MySQL56/{position}" if position else None), "the position", it, position)
            self.hold(it["refused"] and it["refused"]["number"] not in (71, 90), "refused", it)
            whole = Feed(self.case.feeds[it["stream"]][:it["bytes"]], self.read.keyspace, self.read.shards[it["stream"]], self.read.columns)
            self.hold(len(whole.groups) != it["groups"], "groups in the bytes that were taken", it, len(whole.groups))
            self.hold(not it["refused"] and it["bytes"] + it["tail"] != self.come[it["stream"]], "the bytes that came", it, self.come)
            self.hold(it["phase"] == "Running" and stream.done() < len(stream.marks) or it["phase"] not in ("CatchUp", "FastForward", "Copy", "Running"), "the phase", it)
        want = {}
        for s in range(len(self.board.streams)):
            for (t, key), row in self.board.rows_of(s).items():
                want[self.read.tables[t].name.decode(), tuple(self.cells(key))] = s, tuple(cell(it).decode() for it in row)
        self.hold(want != self.follower.rows, "rows", streams, want, self.follower.rows)
        tables = [table.name.decode() for table in self.read.tables]
        counts = [{"rows": [sum(name == table and there[0] == s for (name, _), there in want.items()) for s in range(len(streams))], "table": table} for table in tables]
        self.hold((found := session.ok("counts")["tables"]) != counts, "counts", found, counts)
        return streams

    def cells(self, key: tuple) -> list[str]:
        return [cell(b"%d" % it if isinstance(it, int) else it).decode() for it in key]

    def key(self, t: int, cells: list[str]) -> tuple:
        return self.read.tables[t].key_in([bytes.fromhex(it[1:]) for it in cells])

    def mark(self, t: int, said: dict) -> object:
        self.hold(said["table"] != self.read.tables[t].name.decode() or (said["key"] is None) == (said["what"] == "upto"), "copied", said)
        return {"waiting": "waits", "done": "done"}.get(said["what"]) or self.key(t, said["key"])

    def dumped(self) -> bytes:
        """The rows that are followed, as a dump."""
        rows = {}
        for t, table in enumerate(self.read.tables):
            for key, (_, row) in self.follower.of_table(table.name.decode()).items():
                rows[t, self.key(t, key)] = [None if it == "N" else bytes.fromhex(it[1:]) for it in row]
        return dump(self.read, rows)


def tried(trial) -> None:
    faults, whole, compared, refusals, told = [], 0, 0, 0, 0
    for number in range(CASES):
        following = Following(trial, number)
        streams = following.tried(trial.live)
        refusals += sum(bool(it["refused"]) for it in streams)
        told += len(following.follower.rows)
        if trial.program and not any(it["refused"] for it in streams):
            until = [word for it in streams for word in ("--until", f"{it['stream']}={it['position'] or ''}")]
            ran = subprocess.run([trial.program, "run", *until, *following.words], capture_output=True)
            compared += 1
            following.hold((ran.returncode, ran.stdout) != (0, following.dumped()), "run --until", ran, following.dumped())
        whole += not following.wrong
        faults += [(number, *following.wrong[0])] if following.wrong else []
    trial.check(f"{CASES} random cases: rows are those of the positions that are told", whole == CASES, faults[:2])
    trial.note(f"{told} rows at the ends, {refusals} streams refused, {compared} cases compared with `run --until`")
