"""A VTGate of one keyspace that tests hold in their hands: what it sends, when it breaks off, and who is let in."""
import random
import time
from collections.abc import Callable, Iterator

from recorder.messages import EventType, Request, Response

from .vtgate import serve
from .vtgate_copy import Change, Keyspace, event
from .vtgate_load import KEYS, edges, filled

PATIENCE = 600


class Gate:
    """Answers as VTGate does: a copy where no position is asked, else what follows it, and then signs of life until the
    call is over. `breaks` is called before each answer, and may abort the call."""

    def __init__(self, seed: int, size: int = 3, credentials=None) -> None:
        self.random = random.Random(seed)
        self.source: Keyspace = filled(self.random, True)
        self.size = size
        self.history: list[tuple[str, list[Response]]] = []
        """Each transaction behind the copy, by its position."""
        self.asked: list[Request] = []
        self.logins: list[dict] = []
        self.breaks: Callable[[object], None] = lambda call: None
        self.beats = True
        self.count = self.beaten = 0
        """The answers that were sent, and the signs of life among them."""
        self.server, self.address = serve(self.answered, credentials)

    def __enter__(self) -> "Gate":
        return self

    def __exit__(self, *_: object) -> None:
        self.server.stop(None)

    def answered(self, asked: Request, call) -> Iterator[Response]:
        self.asked.append(asked)
        self.logins.append(dict(call.invocation_metadata()))
        behind = asked.vgtid.shard_gtids[0].gtid
        for answer in self.sent(behind, asked.flags.heartbeat_interval, call):
            self.breaks(call)
            yield answer
            self.count += 1
            self.beaten += answer.events[0].type == EventType.HEARTBEAT

    def sent(self, behind: str, heartbeat: int, call) -> Iterator[Response]:
        if not behind:
            self.source.begun, self.source.mark, self.history = {}, None, []
            for answer in self.source.copy(self.size, edges(self.random)):
                behind = self.source.gtid
                yield answer
        elif behind == "current":
            behind = self.source.gtid
            yield from self.source.transaction([])
        at = next((at for at, (gtid, _) in enumerate(self.history, 1) if gtid == behind), 0)
        told, beat = set(), time.monotonic()
        while call.is_active():
            for _, answers in self.history[at:]:
                at += 1
                yield from self.told(answers, told)
            if self.beats and time.monotonic() - beat > heartbeat:
                beat = time.monotonic()
                yield event(EventType.HEARTBEAT)
            time.sleep(0.02)

    def told(self, answers: list[Response], told: set[str]) -> Iterator[Response]:
        """A transaction in a call that has told the columns of some tables."""
        for answer in answers:
            sent = Response()
            for one in answer.events:
                table = one.row_event.table_name.removeprefix(f"{self.source.keyspace}.")
                if one.type == EventType.ROW and table not in told:
                    told.add(table)
                    sent.MergeFrom(self.source.field(table))
                sent.events.append(one)
            yield sent

    def commit(self, changes: list[Change]) -> None:
        """A transaction behind the copy."""
        self.source.begun = dict.fromkeys(self.source.tables)
        self.source.told = set(self.source.tables)
        self.put(list(self.source.transaction(self.source.change(changes))))

    def put(self, answers: list[Response]) -> None:
        self.history.append((self.source.gtid, answers))

    def write(self, count: int) -> None:
        """Some changes behind the copy."""
        from .vtgate_load import KINDS, changed

        for _ in range(count):
            name = self.random.choice(sorted(KEYS))
            for transaction in changed(self.random, self.source, name, None, self.random.choice(KINDS), True):
                self.commit(transaction)

    def workflow(self) -> dict:
        tables = [{"name": name, "columns": table.columns, "key": [table.columns[at][0] for at in table.key]} for name, table in self.source.tables.items()]
        return {"keyspace": "ks", "tables": tables, "streams": [{"shard": "-", "filter": {"rules": [{"match": "/.*", "filter": ""}]}}]}
