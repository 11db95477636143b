"""A keyspace that is changed while VTGate copies it, and what VTGate sends of that, as Vitess's uvstreamer and its
VStream manager do: tables by their names, chunks by their keys; between them whatever was changed of the tables
that are copied or being copied, and nothing of the others; LASTPK as a position that says how far each table is;
an empty table's BEGIN twice; COPY_COMPLETED once for the shard and once for all."""
from collections.abc import Callable, Iterable, Iterator
from dataclasses import dataclass, field

from recorder.messages import EventType, Response, Row, set_row

from .vtgate import groups_of, gtid_of, position

UUID = "3e11fa47-71ca-11e1-9e33-c80aa9429562"
NUMBERS = {257, 259, 261, 263, 265, 770, 772, 774, 776, 778}
NOT_NULL, PRIMARY_KEY = 1, 2
Change = tuple[str, Row | None, Row | None]
"""A table, and its row before and after."""


@dataclass
class Table:
    columns: list[tuple[str, int]]
    key: list[int]
    rows: dict[tuple, Row] = field(default_factory=dict)

    def key_of(self, row: Row) -> tuple:
        return tuple(int(row[at]) if self.columns[at][1] in NUMBERS else row[at] for at in self.key)


class Keyspace:
    """Tables as they are, and how each transaction of theirs is said."""

    def __init__(self, keyspace: str, shard: str, tables: dict[str, Table], has_flags: bool = True) -> None:
        self.keyspace, self.shard, self.tables, self.has_flags = keyspace, shard, tables, has_flags
        self.number = 0
        self.gtid = f"MySQL56/{UUID}:1"
        self.begun: dict[str, bytes | None] = {}
        """The tables whose copy has begun, and how far each is that isn't done."""
        self.told: set[str] = set()
        self.mark: tuple | None = None
        """The last key that was copied of the table that is being copied."""

    def change(self, changes: Iterable[Change], gtid: str = "") -> list[Change]:
        """Commits a transaction; answers what of it VTGate sends, which is nothing of a table whose copy hasn't begun."""
        self.number += 1
        self.gtid = gtid or f"MySQL56/{UUID}:1-{self.number + 1}"
        sent = []
        for name, before, after in changes:
            table = self.tables[name]
            if before is not None:
                assert table.rows.pop(table.key_of(before)) == before
            if after is not None:
                assert table.key_of(after) not in table.rows
                table.rows[table.key_of(after)] = after
            if name in self.begun:
                sent.append((name, before, after))
        return sent

    def position(self) -> Response:
        """The position with how far tables are that are being copied."""
        answer = position(self.keyspace, self.shard, self.gtid)
        for name, last in self.begun.items():
            if last:
                answer.events[0].vgtid.shard_gtids[0].table_p_ks.add(table_name=name).lastpk.MergeFromString(last)
        return answer

    def field(self, name: str) -> Response:
        answer = Response()
        told = answer.events.add(type=EventType.FIELD, keyspace=self.keyspace, shard=self.shard).field_event
        told.table_name, told.enum_set_string_values = f"{self.keyspace}.{name}", True
        for at, (column, kind) in enumerate(self.tables[name].columns):
            flags = NOT_NULL | PRIMARY_KEY if at in self.tables[name].key else 0
            told.fields.add(name=column, type=kind, flags=flags if self.has_flags else 0)
        return answer

    def rows(self, name: str, changes: list[tuple[Row | None, Row | None]]) -> Response:
        answer = Response()
        rows = answer.events.add(type=EventType.ROW, keyspace=self.keyspace, shard=self.shard).row_event
        rows.table_name = f"{self.keyspace}.{name}"
        for before, after in changes:
            one = rows.row_changes.add()
            for message, row in (one.before, before), (one.after, after):
                if row is not None:
                    set_row(message, row)
        return answer

    def transaction(self, changes: list[Change]) -> Iterator[Response]:
        """A transaction behind the copies of some tables, as VTGate sends it."""
        if not changes:
            yield merged(self.position(), event(EventType.OTHER))
            return
        yield event(EventType.BEGIN)
        for name, before, after in changes:
            told = [] if name in self.told else [self.field(name)]
            self.told.add(name)
            yield merged(*told, self.rows(name, [(before, after)]))
        yield merged(self.position(), event(EventType.COMMIT))

    def copy(self, size: int, between: Callable[["Keyspace", str], Iterator[Response]]) -> Iterator[Response]:
        """The copy in chunks of so many rows, with what `between` sends before each, and its end."""
        for name in sorted(self.tables):
            yield from between(self, name)
            self.begun[name], self.mark = None, None
            yield merged(event(EventType.BEGIN), self.field(name))
            yield self.position()
            is_open = True
            while chunk := self.chunk(name, size):
                if not is_open:
                    yield event(EventType.BEGIN)
                self.mark, is_open = chunk[-1], False
                self.begun[name] = self.lastpk(name, self.tables[name].rows[self.mark])
                yield merged(self.rows(name, [(None, self.tables[name].rows[key]) for key in chunk]), self.position(), event(EventType.COMMIT))
                self.told = set()
                yield from between(self, name)
            self.begun[name] = self.mark = None
            yield merged(event(EventType.BEGIN), self.position(), event(EventType.COMMIT))
        self.told = set()
        completed = Response()
        completed.events.add(type=EventType.COPY_COMPLETED, keyspace=self.keyspace, shard=self.shard)
        completed.events.add(type=EventType.COPY_COMPLETED)
        yield completed

    def chunk(self, name: str, size: int) -> list[tuple]:
        return sorted(key for key in self.tables[name].rows if self.mark is None or key > self.mark)[:size]

    def lastpk(self, name: str, row: Row) -> bytes:
        table, answer = self.tables[name], Response()
        result = answer.events.add().last_p_k_event.table_last_p_k.lastpk
        for at in table.key:
            result.fields.add(name=table.columns[at][0], type=table.columns[at][1])
        set_row(result.rows.add(), tuple(row[at] for at in table.key))
        return result.SerializeToString()

    def dump(self, tables: list[str]) -> bytes:
        """The tables as the program prints them."""
        lines = []
        for name in tables:
            lines.append(f"table {name}")
            table = self.tables[name]
            lines += ["\t".join("N" if cell is None else f"x{cell.hex()}" for cell in table.rows[key]) for key in sorted(table.rows)]
        return "".join(f"{line}\n" for line in lines).encode()


def event(kind: int) -> Response:
    answer = Response()
    answer.events.add(type=kind)
    return answer


def merged(*answers: Response) -> Response:
    whole = Response()
    for answer in answers:
        whole.MergeFrom(answer)
    return whole


def changes_of(group: Response) -> list[Change]:
    changes = []
    for one in group.events:
        for change in one.row_event.row_changes:
            rows = [row_of(change.before) if change.HasField("before") else None, row_of(change.after) if change.HasField("after") else None]
            changes.append((one.row_event.table_name, *rows))
    return changes


def row_of(message) -> Row:
    cells, at = [], 0
    for length in message.lengths:
        cells.append(None if length < 0 else message.values[at:at + length])
        at += max(length, 0)
    return tuple(cells)


def of_feed(feed: bytes, keyspace: str, shard: str, keys: dict[str, list[str]], size: int = 3, step: int = 1) -> Iterator[Response]:
    """The copy of a feed's tables as of a third of its groups, `step` of the others before each chunk, and the rest behind it."""
    groups, tables = groups_of(feed), {}
    for told in (one.field_event for group in groups for one in group.events if one.type == EventType.FIELD):
        columns = [(column.name, column.type) for column in told.fields]
        tables[told.table_name] = Table(columns, [[name for name, _ in columns].index(name) for name in keys[told.table_name]])
    source = Keyspace(keyspace, shard, tables)
    for group in groups[:len(groups) // 3]:
        source.change(changes_of(group), gtid_of(group))
    left = iter(groups[len(groups) // 3:])

    def send(count: int) -> Iterator[Response]:
        for _, group in zip(range(count), left):
            yield from source.transaction(source.change(changes_of(group), gtid_of(group)))

    yield from source.copy(size, lambda *_: send(step))
    yield from send(len(groups))
