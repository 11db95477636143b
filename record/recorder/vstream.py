"""What VTGate's VStream sends of one shard, as a feed.

An answer of vtgate.proto has its events where a message of a feed has them, so it is one as it stands. What
a feed couldn't say, and what the program would refuse of the whole feed later, is stopped at before it is
written (docs/FORMATS.md, 'Feed').
"""
import warnings
from collections.abc import Iterable, Iterator, Mapping
from dataclasses import dataclass, field, replace

from google.protobuf.message import DecodeError

from .gtids import GtidSet
from .kinds import Kind
from .messages import MOST_OF_FEED, MOST_OF_ROW, framed
from .protos import Request, Response
from .stop import Stop
from .wire import EventType, varint

# what it is of is another size then, and that is looked at
warnings.filterwarnings("ignore", "Unexpected end-group tag")

PRIMARY = 1
READ = set(EventType) - {EventType.DDL, EventType.LASTPK, EventType.COPY_COMPLETED}
"""The types of events that may stand in a feed. DDL is one that the program ignores, and that may have changed rows."""
LABELLED = (Kind.ENUM, Kind.SET)
"""The types whose values are sent as texts or as numbers, which a FIELD says."""
MOST_COLUMNS = 256
MOST_OF_STATEMENT = 200


def request(keyspace: str, shard: str, position: str, tables: Iterable[str], heartbeat: int = 0) -> Request:
    """Asks for the transactions of one shard behind a position, or for a copy and what follows it where that is empty: all
    rows and columns of these tables, to a resharding at most, and a sign of life in each so many seconds."""
    asked = Request(tablet_type=PRIMARY)
    asked.vgtid.shard_gtids.add(keyspace=keyspace, shard=shard, gtid=position)
    for table in tables:
        asked.filter.rules.add(match=table, filter=f"select * from `{table.replace('`', '``')}`")
    asked.flags.stop_on_reshard = True
    asked.flags.heartbeat_interval = heartbeat
    return asked


Columns = list[tuple[str, int, bool]]
"""The name and type number of each column, and whether its values are texts in place of numbers."""


@dataclass(frozen=True)
class Known:
    """What of a feed's past the lawfulness of what follows depends on."""

    position: str = ""
    """That of the last group, as it was sent."""
    reached: GtidSet = field(default_factory=GtidSet)
    columns: Mapping[str, Columns] = field(default_factory=dict)


class Reading:
    """A feed's events, one behind another. ValueError, in words, at the first with which the feed would be refused."""

    def __init__(self, keyspace: str, shard: str) -> None:
        self.keyspace, self.shard = keyspace, shard
        self.now = self.kept = Known()
        """What is known behind the last event, and behind the last one that the feed's file has."""
        self.is_open = False
        self._here: str | None = None

    def begin(self, known: Known) -> None:
        """Begins behind what is known."""
        self.now = self.kept = known

    def is_whole(self) -> bool:
        """Whether a group may end here. A position outside a transaction may be that of a DDL, which stands behind it."""
        return not self.is_open and self._here is None

    def keep(self) -> None:
        self.now = self._settled()
        self.kept, self._here = self.now, None

    def drop(self) -> None:
        """Forgets what wasn't kept."""
        self.now, self.is_open, self._here = self.kept, False, None

    def take(self, event) -> None:
        kind = event.type
        if kind == EventType.ROW:
            self._take_rows(event.row_event)
        elif kind in (EventType.VGTID, EventType.GTID):
            if not self.is_open:
                self.now = self._settled()
            self._here = self.position_of(event)
        elif kind == EventType.BEGIN:
            if self.is_open:
                raise ValueError("a BEGIN amid a transaction")
            self.now = self._settled()
            self.is_open, self._here = True, None
        elif kind == EventType.FIELD:
            self.now = replace(self.now, columns=with_columns(self.now.columns, self.plain(event.field_event.table_name), event.field_event))
        elif kind not in READ:
            raise ValueError(unread(event))
        elif kind == EventType.COMMIT or not self.is_open:
            if self.is_open and self._here is None:
                raise ValueError("a COMMIT without a VGTID")
            self.now = self._settled()
            self.is_open, self._here = False, None
        elif kind == EventType.ROLLBACK:
            self.is_open, self._here = False, None

    def _settled(self) -> Known:
        """What is known when the position that was met is a group's."""
        if self._here is None:
            return self.now
        position = GtidSet.read(self._here)
        if position.is_within(self.now.reached):
            return self.now
        if not self.now.reached.is_within(position):
            raise ValueError(f"a position without all of {self.now.position}")
        return replace(self.now, position=self._here, reached=position)

    def position_of(self, event, copying: bool = False) -> str:
        """The position that an event says, which is one of this shard and can be read; amid a copy it also says how far that is."""
        position = event.gtid
        if event.type == EventType.VGTID:
            shards = event.vgtid.shard_gtids
            if [(one.keyspace, one.shard) for one in shards] != [(self.keyspace, self.shard)]:
                raise ValueError(f"a position of {' and '.join(f'{one.keyspace}/{one.shard}' for one in shards) or 'no shard'}")
            if shards[0].table_p_ks and not copying:
                raise ValueError("a position amidst copying")
            position = shards[0].gtid
        GtidSet.read(position)
        return position

    def _take_rows(self, rows) -> None:
        table = self.plain(rows.table_name)
        if not self.is_open:
            raise ValueError(f"a row of {table} outside a transaction")
        check_rows(rows, table, self.now.columns)

    def plain(self, table: str) -> str:
        """A table's name without the keyspace."""
        return table.removeprefix(f"{self.keyspace}.") if self.keyspace else table


def unread(event) -> str:
    """An event of a type that can't stand in a feed."""
    return f"an event of type {event.type}" + (f" ({event.statement[:MOST_OF_STATEMENT]})" if event.statement else "")


def with_columns(columns: Mapping[str, Columns], table: str, said) -> Mapping[str, Columns]:
    """The columns of all tables with those that a FIELD says, which are those that it said before."""
    found = [(one.name, one.type, one.type in LABELLED and said.enum_set_string_values) for one in said.fields]
    if columns.get(table, found) != found:
        raise ValueError(f"other columns of {table} than before")
    return {**columns, table: found}


def check_rows(rows, table: str, columns: Mapping[str, Columns]) -> None:
    """ValueError at a row of a table that the program would refuse, or that isn't whole."""
    if table not in columns:
        raise ValueError(f"a row of {table} before its columns")
    count = len(columns[table])
    for change in rows.row_changes:
        size = _checked(change.before, table, count) if change.HasField("before") else 0
        size += _checked(change.after, table, count) if change.HasField("after") else 0
        if change.ByteSize() != size:
            raise ValueError(f"a row image of {table} that isn't whole")


def _checked(row, table: str, count: int) -> int:
    """The bytes that a row of so many columns takes in a change."""
    size, lengths = row.ByteSize(), row.lengths
    if size > MOST_OF_ROW:
        raise ValueError(f"a row of more than {MOST_OF_ROW} bytes of {table}")
    if len(lengths) != count or count > MOST_COLUMNS:
        raise ValueError(f"a row of {len(lengths)} columns of {table}, which has {count}, and may have {MOST_COLUMNS}")
    if sum([length for length in lengths if length > 0]) > len(row.values):
        raise ValueError(f"a row of {table} whose values are cut short")
    return size + 1 + (1 if size < 0x80 else len(varint(size)))


@dataclass(frozen=True)
class Transaction:
    """Messages of a feed with which it may end: one transaction, or more where an answer has more, or none but a sign of life."""

    messages: list[bytes]
    position: str


def transactions(answers: Iterable[bytes], reading: Reading) -> Iterator[Transaction]:
    """Whole transactions, as a feed has them. Stops at what a feed can't say, behind the last whole one before it."""
    held: list[bytes] = []
    size = 0
    for data in answers:
        try:
            answer = read_answer(data)
        except ValueError as fault:
            raise Stop(str(fault), f"behind {reading.kept.position or 'nothing'}", "is it VTGate that answers?") from None
        if answer.events and all(event.type == EventType.HEARTBEAT for event in answer.events):
            yield Transaction([], reading.kept.position)
            continue
        whole, stop = _taken(answer.events, reading)
        if whole:
            held.append(_part(answer, data, 0, whole))
            yield Transaction(held, reading.kept.position)
            held, size = [], 0
        if stop:
            raise stop
        size += len(data)
        if size > MOST_OF_FEED:
            raise Stop(f"a transaction of more than {MOST_OF_FEED} bytes", f"behind {reading.kept.position or 'nothing'}", "record fewer tables")
        if whole < len(answer.events):
            held.append(_part(answer, data, whole, len(answer.events)))


def read_answer(data: bytes):
    try:
        return Response.FromString(data)
    except DecodeError:
        raise ValueError("an answer that is no VStreamResponse") from None


def _taken(events, reading: Reading) -> tuple[int, Stop | None]:
    """Reads an answer's events; answers how many of them stand before the last place where a group may end, and what was met."""
    whole = 0
    for count, event in enumerate(events, 1):
        try:
            reading.take(event)
        except ValueError as fault:
            return whole, stopped(str(fault), event, reading)
        if reading.is_whole():
            whole = count
            reading.keep()
    return whole, None


def stopped(why: str, event, reading: Reading) -> Stop:
    """Why a recording ends at an event. A DDL's position stands before it."""
    said = reading._here or reading.now.position
    if event.type == EventType.VGTID and len(event.vgtid.shard_gtids):
        said = ",".join(one.gtid for one in event.vgtid.shard_gtids)
    return Stop(why, f"at {said}" if said else "at the beginning", "docs/OPERATE.md says how to go on")


def _part(answer, data: bytes, start: int, end: int) -> bytes:
    """Some events of an answer as a message. One that has them all stays as it came, unless its fields are spelled otherwise than the library does."""
    if end - start < len(answer.events):
        return framed(Response(events=answer.events[start:end]))
    return varint(len(data)) + data if answer.ByteSize() == len(data) else framed(answer)
