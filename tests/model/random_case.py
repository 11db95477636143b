"""A case at random: a command's words, its files and its standard input."""
from . import Refused, checkpoint
from .board import Board, dump
from .feed import Feed, print_position
from .random_feed import UUIDS, Feeds
from .wire import varint
from .workflow import Workflow

CHECKPOINTS = ("checkpoint", "one", "other", "third")


class Bent(Board):
    """A board whose checkpoint says something else in a place, a row, a mark or a position, or stands elsewhere."""

    def __init__(self, case, board):
        super().__init__(board.workflow, board.feeds)
        self.case, self.bend = case, case.r.randrange(5)
        self.streams = case.again(board).streams
        if self.bend == 0:
            marks = case.r.choice(self.streams).marks
            marks[case.r.randrange(len(marks))] = case.r.choice(["waits", "done", marks[0]])
        if self.bend == 1:
            case.r.shuffle(case.r.choice(self.streams).marks)
        for it, feed in zip(self.streams, self.feeds) if self.bend == 4 else ():
            it.applied = case.r.randrange(len(feed.groups) + 1)
            it.marks = case.r.choice([it.marks, ["done"] * len(it.marks)])

    def cut(self, s, n, marks):
        try:
            return super().cut(s, n, marks)
        except TypeError:
            # A mark of another table, whose key has other types: no key lies below it.
            return {}

    def rows_of(self, s):
        r, rows = self.case.r, super().rows_of(s)
        if self.bend == 2 and self.case.chance(0.7):
            table = r.randrange(len(self.workflow.tables))
            row = self.case.row(self.workflow.tables[table])
            key = self.workflow.tables[table].key_of(row)
            rows |= {(table, key): self.workflow.tables[table].picked(row)} if isinstance(key, tuple) else {}
            if rows and self.case.chance(0.5):
                del rows[r.choice(list(rows))]
        return rows

    def position(self, s):
        groups = self.feeds[s].groups
        if self.bend == 3 and groups:
            return self.case.r.choice([*(it for it, _ in groups), {UUIDS[0]: [(1, 9)]}])
        return super().position(s)


class Case(Feeds):
    def __init__(self, r):
        self.r = r
        self.files, self.stdin = {}, b""
        kind = r.choices(["show", "step", "save", "resume", "join", "run", "vdiff", "check"], [3, 6, 2, 4, 4, 3, 2, 3])[0]
        self.is_hex = kind != "vdiff" and r.random() < 0.1
        self.is_whole = r.random() < 0.6
        self.faulty = r.choice([0, 0, 0, 1])
        self.bent = {"resume": 0.4, "join": 0.1}.get(kind, 0)
        self.said = self.workflow()
        try:
            self.read = Workflow(self.said)
        except Refused:
            self.read = None
        shards = self.read.shards if self.read else [b"-80"]
        self.uuids = [[r.choice(UUIDS)] + r.sample(UUIDS, r.randrange(2)) for _ in shards]
        self.feeds = [self.feed(s, shard) for s, shard in enumerate(shards)]
        getattr(self, kind)()
        if not self.is_whole:
            self.damage()
        if self.is_hex:
            self.as_hex()

    # commands

    def options(self):
        return ["--hex"] if self.is_hex else []

    def named_feeds(self):
        self.files |= {"workflow": self.said} | {f"feed{s}": it for s, it in enumerate(self.feeds)}
        names = [f"feed{s}" for s in range(len(self.feeds))]
        if self.is_faulty(0.03):
            names = names[1:] or names * 2
        return ["workflow", *names]

    def show(self):
        self.files["feed"] = self.feeds[0]
        keyspace, shard = (self.keyspace, (self.read.shards if self.read else [b""])[0]) if self.chance(0.8) else (b"", b"")
        words = [f"--keyspace={keyspace.decode()}"] * bool(keyspace) + [f"--shard={shard.decode()}"] * bool(shard)
        self.words = ["show", *self.options(), *["--json"] * self.chance(0.4), *words, "feed"]

    def step(self):
        self.words = ["step", *self.options(), *self.named_feeds()]
        self.stdin = self.script(self.board())

    def check(self):
        self.words = ["check", *self.options(), *["--json"] * self.chance(0.3), *["--strict"] * self.chance(0.3), *self.named_feeds()]

    def save(self):
        self.words = ["save", *self.options(), *["--strict"] * self.chance(0.3), *self.named_feeds()]
        self.stdin = self.script(self.board())

    def resume(self):
        board = self.board()
        self.script(board)
        self.files["checkpoint"] = self.checkpoint_of(board)
        self.words = ["resume", *self.options(), "--checkpoint=checkpoint", *self.named_feeds()]
        self.stdin = self.script(board and self.again(board))

    def join(self):
        """Two targets of one workflow that were filled apart, or of which the second one went on where the first stands; at
        times one of them again, or a third one."""
        boards = self.board(), self.board()
        if boards[0]:
            boards = self.r.choice([self.scripted_apart, self.scripted_on, self.filled_apart, self.copied_apart])(*boards)
        for name, board in zip(self.r.sample(["one", "other"], 2), boards):
            self.files[name] = self.checkpoint_of(board)
        workflow, *feeds = self.named_feeds()
        names = ["one", "other"] if self.chance(0.95) else ["one", "one"]
        also = []
        if self.r.random() < 0.3:
            third = self.board()
            self.script(third)
            self.files["third"] = self.checkpoint_of(third)
            also = [f"--also={it}" for it in self.r.choices(["one", "other", "third"], k=self.r.randrange(1, 4))]
        self.words = ["join", *self.options(), *also, workflow, *names, *feeds]

    def scripted_apart(self, *boards):
        for board in boards:
            self.script(board)
        return boards

    def scripted_on(self, board, _):
        self.script(board)
        other = self.again(board)
        self.script(other)
        return board, other

    def filled_apart(self, *boards):
        """Each stream is run on one of the boards, as far as it goes there."""
        for s in range(len(boards[0].streams)):
            try:
                self.r.choice(boards).fill(s, 1000, 100, 4)
            except Refused:
                pass
        return boards

    def copied_apart(self, *boards):
        """All groups of each stream are applied on each board, and some tables copied and a part of the next one."""
        for board in boards:
            for s, feed in enumerate(board.feeds):
                last = len(feed.groups)
                steps = [("offer", s, n) for n in range(1, last + 1)] + [("advance", s)] * last
                steps += [("open", s, last), ("copy", s, 9)] * self.r.choice([0, 0, 0, 1]) + [("open", s, last)]
                for it in steps:
                    board.reply(it)
                rows = len(board.passed(s, board.streams[s].applied)) if board.streams[s].applied else 0
                board.reply(("copy", s, self.r.randrange(rows + 1)))
        return boards

    def checkpoint_of(self, board):
        """What a board saves in either version, maybe without its last tables, or one that is bent; such a case isn't damaged further."""
        is_bent = self.chance(self.bent)
        version = self.r.choice([1, 2, 2])
        count = self.r.randrange(1, len(board.workflow.tables) + 1) if board and version == 2 and self.chance(0.3) else None
        try:
            said = checkpoint.save(Bent(self, board) if is_bent else board, version, count) if board else checkpoint.MAGIC[version]
        except Refused:
            said = checkpoint.save(board, version, count)
        self.is_whole |= is_bent
        return self.respelled_checkpoint(said) if self.chance(0.5) else said

    def respelled_checkpoint(self, data):
        at, out = 8, [data[:8]]
        while at < len(data):
            size, at = varint(data, at, len(data))
            part = self.respelled(data[at : at + size], "stream")
            out += [self.spelled_varint(len(part)), part]
            at += size
        return b"".join(out)

    def run(self):
        r = self.r
        words = ["--alone"] if self.chance(0.5) else []
        for name in ("rows", "ahead", "chunks"):
            words += [f"--{name}={r.choice([1, 1, 2, 3, 1000000])}"] if self.chance(0.5) else []
        words += [self.until() for _ in range(r.choice([0, 0, 1, 1, 2, 3]))]
        self.words = ["run", *self.options(), *words, *self.named_feeds()]

    def until(self):
        """A position of one of the feeds, or another one, for a stream or for each."""
        board = self.board()
        texts = [print_position(it).decode() for feed in (board.feeds if board else []) for it, _ in feed.groups]
        other = ["", f"{UUIDS[0].decode()}:1-{self.r.randrange(1, 9)}", f"{UUIDS[1].decode()}:2", "x"]
        text = self.r.choice(texts * 3 + other)
        stream = self.r.choice(["", f"{self.r.randrange(len(self.feeds) + self.chance(0.1))}="])
        return f"--until={stream}{text}"

    def vdiff(self):
        tables = self.read.tables if self.read else []
        one = {(t, table.key_of(row)): row for t, table in enumerate(tables) for row in (self.row(table) for _ in range(self.r.randrange(5)))}
        one = {key: row for key, row in one.items() if isinstance(key[1], tuple)}
        other = {key: row for key, row in one.items() if not self.chance(0.2)}
        for t, table in enumerate(tables):
            for row in [self.row(table)] * self.chance(0.5):
                other |= {(t, table.key_of(row)): row} if isinstance(table.key_of(row), tuple) else {}
        for name, rows in (("source", one), ("target", other)):
            kept = {key: tables[key[0]].picked(row) for key, row in rows.items()}
            self.files[name] = dump(self.read, kept) if self.read else b"table t\n"
        self.files["workflow"] = self.said
        names = ["source", "target"]
        if self.chance(0.2):
            at = self.r.randrange(2)
            self.stdin, names[at] = self.files.pop(names[at]), "-"
            if at == 0 and self.chance(0.2):
                self.files["-"], names[1] = self.files.pop("target"), "-"
        self.words = ["vdiff", *self.shown(), "workflow", *names]

    def shown(self):
        words = [it for it in ("--tables", "--json") if self.chance(0.3)]
        return words + [f"--first={self.r.choice([1, 2, 3, 1000000])}"] * self.chance(0.4)

    def board(self):
        """A board of the model to make steps on, if the files have no fault."""
        try:
            feeds = [Feed(it, self.read.keyspace, shard, self.read.columns) for it, shard in zip(self.feeds, self.read.shards)] if self.read else None
        except Refused:
            feeds = None
        return Board(self.read, feeds) if feeds else None

    def again(self, board):
        other = Board(board.workflow, board.feeds)
        for it, was in zip(other.streams, board.streams):
            it.read, it.applied, it.marks = was.applied, was.applied, list(was.marks)
        return other

    def script(self, board):
        r = self.r
        lines = []
        for _ in range(r.choices([0, 3, 8, 16, 30], [1, 2, 6, 6, 2])[0]):
            words = self.likely_step(board) if board and self.chance(0.8) else self.any_step(board)
            if board and words[0] != "dump":
                board.reply(tuple(words))
            said = r.choice([" ", " ", " ", "\t", "  "]).join(map(str, words))
            if self.is_faulty(0.02):
                said = self.scratched(said, " \t\r\v\0#é0-+")
            if self.chance(0.02):
                said = r.choice([" " + said, said + "\t", said + "\r", "# " + said, "", "\r", said.replace(" ", " 0")])
            lines.append(said)
        lines += [f"state {s}" for s in range(len(board.streams))] if board and self.chance(0.5) else []
        lines += ["dump"] if self.chance(0.7) else []
        return ("\n".join(lines) + r.choice(["\n", "\n", ""])).encode()

    def any_step(self, board):
        r = self.r
        word = r.choice(["offer", "advance", "open", "copy", "close", "restart", "state", "dump"])
        s = r.randrange(len(board.streams) if board else 2) if not self.chance(0.03) else r.choice([64, 255, 256, 4294967295])
        number = r.choice([0, 1, 2, 3, 4, 4294967295])
        return {"offer": [word, s, number], "open": [word, s, number], "copy": [word, s, number], "dump": [word]}.get(word, [word, s])

    def likely_step(self, board):
        r = self.r
        s = r.randrange(len(board.streams))
        it = board.streams[s]
        phase = it.phase()
        if it.read < len(board.feeds[s].groups) and self.chance(0.35):
            return ["offer", s, it.read + 1]
        if phase == "CatchUp" and self.chance(0.5):
            return ["open", s, r.randint(it.applied, it.read)]
        if phase == "Copy":
            return ["copy", s, r.choice([0, 1, 1, 2, 9])] if self.chance(0.8) else ["close", s]
        return ["advance", s]

    # damage

    def damage(self):
        """Breaks some bytes of one file or of the script."""
        names = [*self.files, *["stdin"] * bool(self.stdin)]
        name = self.r.choice(names + [it for it in names if it.startswith("feed")] * 2 + [it for it in names if it in CHECKPOINTS] * 30)
        data = bytearray(self.stdin if name == "stdin" else self.files[name])
        for _ in range(self.r.choices([1, 2, 4], [6, 2, 1])[0]):
            self.break_once(data)
        if name == "stdin":
            self.stdin = bytes(data)
        else:
            self.files[name] = bytes(data)

    def break_once(self, data):
        r = self.r
        at = r.randrange(len(data) + 1)
        kind = r.randrange(7)
        if kind == 0:
            del data[at:]
        elif kind == 6:
            data += data[:1] if self.chance(0.5) else bytes([r.choice([0, 10, 32, 255])])
        elif kind == 1:
            data[at:at] = bytes([r.randrange(256)])
        elif kind == 2:
            del data[at : at + r.randrange(1, 9)]
        elif kind == 3:
            data[at:at] = data[at : at + r.randrange(1, 40)]
        elif at < len(data):
            data[at] = r.choice([0, 255, (data[at] + 1) % 256, (data[at] - 1) % 256, data[at] ^ 1 << r.randrange(8), r.randrange(256)])

    def as_hex(self):
        for name in [it for it in self.files if it.startswith("feed")]:
            text = self.files[name].hex(self.r.choice([" ", "\n"])) if self.chance(0.5) else self.files[name].hex()
            if self.chance(0.05):
                text = text[: self.r.randrange(len(text) + 1)] + self.r.choice(["g", "0", "A", " ", "\x0b"])
            self.files[name] = (text.upper() if self.chance(0.3) else text).encode()
