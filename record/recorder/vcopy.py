"""The rows of a keyspace by VStream's own copy, as the first group of a feed.

VTGate copies table by table in chunks, each as of some position, and between them sends what was changed of
the tables that are copied or being copied: of these also what lies behind the chunks that came, so that a
change may be of a row that isn't here yet. Each says a row by its key, and of two the later one counts. When
the copy is completed all tables are as of one position. Until then the rows are held in a file, by table and key.
"""
from collections.abc import Iterator, Mapping

from .gtids import GtidSet
from .held import HeldRows, key_bytes
from .kinds import KEYS
from .messages import cells_of, framed
from .protos import Response
from .stop import Stop
from .vstream import LABELLED, Columns, Known, Reading, check_rows, read_answer, unread, with_columns
from .wire import EventType

PRIMARY_KEY = 2
"""The bit of a Field's flags that a column of the primary key has (PRI_KEY_FLAG of query.proto)."""
PASSED = {EventType.BEGIN, EventType.COMMIT, EventType.ROLLBACK, EventType.OTHER, EventType.HEARTBEAT, EventType.VERSION,
          EventType.SAVEPOINT, EventType.LASTPK}  # fmt: skip
"""The types of events that say nothing of a row or a position. Transactions needn't be whole before a copy is completed."""
PIECE = 1 << 20
"""The bytes of rows behind which a message of the first group ends."""


class Copy:
    """A copy as far as it came. Use it with `with`: the file that holds its rows is gone afterwards."""

    def __init__(self, path: str, reading: Reading, tables: list[str]) -> None:
        self._rows, self._reading, self._tables = HeldRows(path, "the copied rows"), reading, tables
        self._columns: Mapping[str, Columns] = {}
        self._fields: dict[str, object] = {}
        self._told: dict[str, list[str]] = {}
        self._keys: dict[str, list[tuple[int, int]]] = {}
        self._position, self._reached = "", GtidSet()
        self.is_completed = False

    def __enter__(self) -> "Copy":
        self._rows.__enter__()
        return self

    def __exit__(self, *how: object) -> None:
        self._rows.__exit__(*how)

    def take(self, data: bytes) -> bytes:
        """Takes an answer up to the copy's end; answers what of it is behind that. Stops at what a feed couldn't say."""
        try:
            answer = read_answer(data)
            for event in answer.events:
                if event.type in (EventType.VGTID, EventType.LASTPK):
                    self._learn(event)
            for count, event in enumerate(answer.events, 1):
                self._take(event)
                if self.is_completed:
                    self._check_whole()
                    # once for the shard, and once for all that was asked for
                    return Response(events=[event for event in answer.events[count:] if event.type != EventType.COPY_COMPLETED]).SerializeToString()
        except ValueError as fault:
            raise Stop(str(fault), f"amid the copy, at {self._position or 'its beginning'}", "docs/OPERATE.md says how to go on") from None
        return b""

    def _learn(self, event) -> None:
        """The names of a table's key, which stand with how far the table is copied, behind rows of it."""
        for one in (*(pk for shard in event.vgtid.shard_gtids for pk in shard.table_p_ks), event.last_p_k_event.table_last_p_k):
            if one.lastpk.fields:
                self._told[self._reading.plain(one.table_name)] = [column.name for column in one.lastpk.fields]

    def _take(self, event) -> None:
        kind = event.type
        if kind == EventType.ROW:
            self._take_rows(event.row_event)
        elif kind == EventType.FIELD:
            self._take_columns(event)
        elif kind in (EventType.VGTID, EventType.GTID):
            self._position = self._reading.position_of(event, copying=True)
            reached = GtidSet.read(self._position)
            if not self._reached.is_within(reached):
                raise ValueError("a position without all of those before it")
            self._reached = reached
        elif kind == EventType.COPY_COMPLETED:
            self.is_completed = True
        elif kind not in PASSED:
            raise ValueError(unread(event))

    def _take_columns(self, event) -> None:
        said = event.field_event
        table = self._reading.plain(said.table_name)
        if table not in self._tables:
            raise ValueError(f"columns of {table}, which wasn't asked for")
        self._columns = with_columns(self._columns, table, said)
        if not said.enum_set_string_values and any(field.type in LABELLED for field in said.fields):
            raise ValueError(f"ENUM and SET of {table}, which this VTGate sends as texts in a copy and as numbers behind it")
        self._fields[table] = event

    def _take_rows(self, rows) -> None:
        table = self._reading.plain(rows.table_name)
        check_rows(rows, table, self._columns)
        place, key = self._tables.index(table), self._key(table)
        count = max(at for at, _ in key) + 1
        for change in rows.row_changes:
            if change.HasField("before"):
                self._rows.put((place, key_bytes(cells_of(change.before, count), key, table)), None)
            if change.HasField("after"):
                self._rows.put((place, key_bytes(cells_of(change.after, count), key, table)), change.after.SerializeToString(deterministic=True))

    def _key(self, table: str) -> list[tuple[int, int]]:
        """The columns of a table's key, each with its type. ValueError where none is told, or one that no workflow can have."""
        if table not in self._keys:
            fields = self._fields[table].field_event.fields
            key = [at for at, field in enumerate(fields) if field.flags & PRIMARY_KEY]
            if not any(field.flags for field in fields):
                # all columns are told where there is no key
                told = self._told.get(table, [])
                key = [at for at, field in enumerate(fields) if field.name in told and len(told) < len(fields)]
            if not key:
                raise ValueError(f"rows of {table}, of which no primary key is told")
            for at in key:
                if fields[at].type not in KEYS:
                    raise ValueError(f"a key of {table} by {fields[at].name}, of type {fields[at].type}, which no workflow can have")
            self._keys[table] = [(at, fields[at].type) for at in key]
        return self._keys[table]

    def _check_whole(self) -> None:
        missing = [table for table in self._tables if table not in self._columns]
        if missing:
            raise ValueError(f"no columns of {', '.join(missing)}")
        if not self._position:
            raise ValueError("no position")

    def known(self) -> Known:
        return Known(self._position, self._reached, self._columns)

    def messages(self) -> Iterator[bytes]:
        """The rows as one transaction of a feed, table by table, by their keys."""
        answer, size = Response(), 0
        answer.events.add(type=EventType.BEGIN)
        for place, table in enumerate(self._tables):
            answer.events.append(self._fields[table])
            rows = None
            for row in self._rows.rows(place):
                if rows is None:
                    rows = answer.events.add(type=EventType.ROW).row_event
                    rows.table_name = self._fields[table].field_event.table_name
                rows.row_changes.add().after.MergeFromString(row)
                size += len(row)
                if size >= PIECE:
                    yield framed(answer)
                    answer, size, rows = Response(), 0, None
        shards = answer.events.add(type=EventType.VGTID).vgtid.shard_gtids
        shards.add(keyspace=self._reading.keyspace, shard=self._reading.shard, gtid=self._position)
        answer.events.add(type=EventType.COMMIT)
        yield framed(answer)
