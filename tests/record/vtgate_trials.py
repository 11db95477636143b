"""What record/vtgate makes of VTGate's answers: the rows that the source has, by its changes and by a copy, and stops where a feed couldn't say them."""
import errno
import importlib.util
import json
import os
from collections.abc import Iterator
from itertools import chain
from random import Random

from recorder import growing, held, vcopy, vstream
from recorder.messages import EventType, Response, frames
from recorder.stop import Stop
from recorder.vcopy import Copy
from recorder.vstream import Reading, transactions

from .load import SCHEMAS, SHARDS, TABLES, VINDEXES, tables_of
from .vtgate import BEGINNING, answers, groups_of, position
from .vtgate_copy import Keyspace, Table, event, merged, of_feed
from .vtgate_law import large, law, linear
from .vtgate_load import KEYS, edges, filled

ROUNDS = 24
BEHIND = "MySQL56/3e11fa47-71ca-11e1-9e33-c80aa9429562:1-"


def vtgate(trial) -> None:
    for step in recorded, stopped, copied, not_copied, law, large, linear, limits:
        step(trial)
    if importlib.util.find_spec("grpc"):
        # read here, since they need the library; forks come first, before that has threads
        from .lines import call_at_each_line, vtgate_at_each_line
        from .vtgate_calls import calls

        for step in vtgate_at_each_line, call_at_each_line, calls:
            step(trial)
    else:
        print("python3-grpcio isn't installed: no stream was asked for, broken off or refused")


def limits(trial) -> None:
    """At the most bytes of a feed, at a disk that can't sync and under a hand that changes the file it stops, and what was written stays."""
    path, most, sync = trial.path("limits.feed"), growing.MOST_OF_FEED, os.fsync
    feed = growing.Growing.new(path)
    feed.write(b"first ")
    feed.place()
    feed.append([b"sec", b"ond"])
    growing.MOST_OF_FEED = 14
    why = why_no_stop(lambda: feed.append([b"12", b"345"]), "a feed of more than 14 bytes")
    trial.check("vtgate feed of the most bytes", why or why_no_stop(lambda: feed.append([b"34"]), ""))
    growing.MOST_OF_FEED = most
    feed.close()
    feed = growing.Growing.old(path, 12)
    with open(path, "ab") as other:
        other.write(b"x")
    trial.check("vtgate feed of another hand", why_no_stop(lambda: feed.append([b"y"]), "the feed was changed by another program"))
    trial.check("vtgate feed as it was", None if read_file(path) == b"first secondx" else repr(read_file(path)))
    feed.close()
    feed = growing.Growing.old(path, 12)
    try:
        os.fsync = failing
        feed.append([b"z"])
        trial.check("vtgate feed not synced", why_no_stop(feed.close, f"no file can be written at {path}: Input/output error"))
    finally:
        os.fsync = sync
    vstream.MOST_OF_FEED = 100
    line = until_stop([event(EventType.BEGIN), *[position("ks", "-", BEGINNING)] * 9])
    is_so = line[0] == [] and line[1].startswith("a transaction of more than 100 bytes")
    trial.check("vtgate transaction of the most bytes", None if is_so else f"{line}")
    vstream.MOST_OF_FEED = most


def failing(_) -> None:
    raise OSError(errno.EIO, os.strerror(errno.EIO))


def why_no_stop(done, line: str) -> str | None:
    try:
        done()
    except Stop as stop:
        return None if line and str(stop).startswith(line) else str(stop)
    return f"no {line}" if line else None


def sent(answered) -> Iterator[bytes]:
    return (answer.SerializeToString() for answer in answered)


def read_file(path: str) -> bytes:
    with open(path, "rb") as file:
        return file.read()


def write_feed(path: str, *streams) -> None:
    """Writes the transactions of streams, one behind the other, each read by a reading of its own."""
    with open(path, "wb") as file:
        for stream, reading in streams:
            for transaction in transactions(stream, reading):
                file.writelines(transaction.messages)


def write_copy(path: str, stream: Iterator[bytes], reading: Reading, tables: list[str]) -> None:
    """Writes what a copy makes, and what comes behind it."""
    with open(path, "wb") as file:
        with Copy(f"{path}.copy", reading, tables) as copy:
            rest = b""
            while not copy.is_completed:
                rest = copy.take(next(stream))
            file.writelines(copy.messages())
            reading.begin(copy.known())
        for transaction in transactions(chain([rest], stream), reading):
            file.writelines(transaction.messages)


def recorded(trial) -> None:
    """What VTGate sends of both shards of the server's load, in two pieces that are joined, and by a copy amid the load."""
    joined, copies = [], []
    keys = {table.name: primary_key(table.made) for table in TABLES}
    for schema, shard in zip(SCHEMAS, SHARDS):
        feed = read_file(trial.path(f"{schema}.feed.own"))
        several = len(list(frames(feed))) - len(groups_of(feed))
        trial.check(f"groups of several messages in {schema}", None if several or schema != SCHEMAS[0] else "none")
        middle = [one.position for one in transactions(sent(answers(feed, "ks", shard)), Reading("ks", shard))]
        middle = middle[len(middle) // 2]
        first = [answer for answer in answers(feed, "ks", shard)]
        second = sent(answers(feed, "ks", shard, middle))
        ends = next(at for at, answer in enumerate(first, 1) if middle in str(answer))
        joined.append(trial.path(f"{schema}.joined.feed"))
        write_feed(joined[-1], (sent(first[:ends]), Reading("ks", shard)), (second, Reading("ks", shard)))
        copies.append(trial.path(f"{schema}.copied.feed"))
        write_copy(copies[-1], sent(of_feed(feed, "ks", shard, keys, size=5)), Reading("ks", shard), sorted(keys))
    workflow = trial.workflow("vtgate.json", SHARDS, tables_of(SCHEMAS[0]), *VINDEXES)
    for name, feeds in ("recorded from VTGate", joined), ("copied from VTGate", copies):
        trial.same(name, trial.made(trial.program, "run", workflow, *feeds), trial.selected(workflow, *SCHEMAS), 100)


def primary_key(made: str) -> list[str]:
    """The columns of a table's key, by the statement that makes it."""
    head, _, tail = made.partition("PRIMARY KEY")
    return [name.strip() for name in tail.strip().strip("()").split(",")] if tail.strip().startswith("(") else [head.split(",")[-1].split()[0]]


def stopped(trial) -> None:
    for name, fault, line in faults():
        trial.check(f"vtgate stops at {name}", why_not_stopped(fault, line))
    apart = [position("ks", "-", BEGINNING), event(EventType.OTHER), position("ks", "-", BEGINNING + "-2"), event(EventType.DDL)]
    written, line = until_stop(apart)
    trial.check("vtgate keeps back a position", None if written == [BEGINNING] and f"at {BEGINNING}-2: " in line else f"{written}, {line}")
    whole = merged(event(EventType.BEGIN), position("ks", "-", BEGINNING), event(EventType.COMMIT), event(EventType.BEGIN), event(EventType.DDL))
    written, line = until_stop([whole])
    trial.check("vtgate writes what is whole", None if written == [BEGINNING] and "type 5" in line else f"{written}, {line}")


def faults() -> Iterator[tuple[str, Response, str]]:
    """What stops a recording of the shard ks/- amid a transaction, by its name, with what the line has to say."""
    for kind in (0, *range(6, 11), 16, 18, 20, 21, 99):
        yield f"type {kind}", event(kind), f"an event of type {kind} at {BEGINNING}: "
    ddl = position("ks", "-", BEGINNING + "-9")
    ddl.events.add(type=EventType.DDL, statement="truncate table t")
    yield "DDL", ddl, f"an event of type 5 (truncate table t) at {BEGINNING}-9: "
    yield "another shard", position("ks", "-80", BEGINNING), "a position of ks/-80 at "
    yield "another keyspace", position("other", "-", BEGINNING), "a position of other/- at "
    resharded = position("ks", "-80", BEGINNING)
    resharded.events[0].vgtid.shard_gtids.add(keyspace="ks", shard="80-")
    yield "two shards", resharded, "a position of ks/-80 and ks/80- at "
    copying = position("ks", "-", BEGINNING)
    copying.events[0].vgtid.shard_gtids[0].table_p_ks.add()
    yield "copying", copying, "a position amidst copying at "
    told = event(EventType.FIELD)
    told.events[0].field_event.table_name = "ks.t"
    for field in ("data_columns", "json_partial_values"):
        partial = event(EventType.ROW)
        partial.events[0].row_event.table_name = "ks.t"
        getattr(partial.events[0].row_event.row_changes.add(), field).SetInParent()
        yield field, merged(told, partial), "a row image of t that isn't whole"
    yield "a tagged GTID", position("ks", "-", f"{BEHIND[:-3]}:tag:1"), "a position with 'tag' in place of numbers"
    yield "a position of MariaDB", position("ks", "-", "MariaDB/0-1-2"), "a position of flavour MariaDB"
    other = event(EventType.FIELD)
    other.events[0].field_event.table_name = "t"
    other.events[0].field_event.fields.add(name="id", type=265)
    yield "other columns", merged(told, other), "other columns of t than before"
    yield "a position that goes back", merged(position("ks", "-", f"{BEHIND}7"), event(EventType.COMMIT)), f"a position without all of {BEGINNING} at "


def until_stop(answered: list[Response]) -> tuple[list[str], str]:
    """The positions of what is written, and the line of the stop."""
    written = []
    try:
        for transaction in transactions(sent(answered), Reading("ks", "-")):
            written.append(transaction.position)
    except Stop as stop:
        return written, str(stop)
    return written, "it goes on"


def why_not_stopped(fault: Response, line: str) -> str | None:
    """A transaction before it is written, what has begun isn't, and the line says why."""
    written, said = until_stop([merged(position("ks", "-", BEGINNING), event(EventType.OTHER)), event(EventType.BEGIN), fault])
    return None if said.startswith(line) and written == [BEGINNING] else f"{said}, behind {written}"


def copied(trial) -> None:
    """Copies in chunks of all sizes, with changes of all kinds between them, before and behind each key; rows go to the file and
    into messages one by one, some at a time, or all at once."""
    sizes = held.PENDING, vcopy.PIECE
    for seed in range(ROUNDS):
        random = Random(seed)
        source = filled(random, has_flags=seed % 3 > 0)
        names, between, path = list(source.tables), edges(random), trial.path("copied.feed")
        held.PENDING, vcopy.PIECE = (random.choice([0, 400, most]) for most in sizes)
        whole = (source.copy(random.choice([1, 2, 3, 50]), between), *(between(source, name) for name in sorted(KEYS)))
        write_copy(path, sent(chain(*whole)), Reading("ks", "-"), names)
        with open(trial.path("copied.json"), "w", encoding="utf-8") as file:
            json.dump(workflow_of(source), file)
        done = trial.run(trial.program, "run", file.name, path)
        trial.same(f"vtgate copy, seed {seed}", done.stdout + done.stderr, source.dump(names), 20)
    held.PENDING, vcopy.PIECE = sizes


def workflow_of(source: Keyspace) -> dict:
    tables = [{"name": name, "columns": table.columns, "key": [table.columns[at][0] for at in table.key]} for name, table in source.tables.items()]
    return {"keyspace": source.keyspace, "tables": tables, "streams": [{"shard": source.shard, "filter": {"rules": [{"match": "/.*", "filter": ""}]}}]}


def not_copied(trial) -> None:
    """What a copy stops at."""
    for name, table, row, change, line in odd_copies():
        source = Keyspace("ks", "-", {"t": table})
        source.change([("t", None, row)])
        said = copy_until_stop(trial, change(list(source.copy(2, lambda *_: iter([])))), ["t"])
        trial.check(f"vtgate copies no {name}", None if said.startswith(line) else said)
    source = Keyspace("ks", "-", {"t": Table([("id", 265)], [0])})
    said = copy_until_stop(trial, list(source.copy(2, lambda *_: iter([]))), ["t", "u", "v"])
    trial.check("vtgate copies no table that isn't there", None if said.startswith("no columns of u, v amid the copy, at MySQL56/") else said)


def odd_copies() -> Iterator[tuple]:
    """A table and a row of it, what is done to the answers, and what the line begins with."""

    def as_it_is(all_of: list[Response]) -> list[Response]:
        return all_of

    def without_texts(all_of: list[Response]) -> list[Response]:
        for answer in all_of:
            for one in answer.events:
                one.field_event.enum_set_string_values = False
        return all_of

    def with_ddl(all_of: list[Response]) -> list[Response]:
        return [*all_of[:2], event(EventType.DDL), *all_of[2:]]

    def back(all_of: list[Response]) -> list[Response]:
        return [position("ks", "-", f"{BEHIND}900"), *all_of]

    yield "table without a key", Table([("id", 265)], []), (b"1",), as_it_is, "rows of t, of which no primary key is told amid the copy"
    yield "key that is a DATE", Table([("d", 2062), ("v", 6165)], [0]), (b"2020-01-01", b""), as_it_is, "a key of t by d, of type 2062"
    yield "key that is NULL", Table([("id", 6165), ("v", 6165)], [0]), (None, b""), as_it_is, "NULL in a key of t"
    yield "ENUM as number", Table([("id", 265), ("e", 2074)], [0]), (b"1", b"x"), without_texts, "ENUM and SET of t, which"
    yield "DDL", Table([("id", 265)], [0]), (b"1",), with_ddl, "an event of type 5 amid the copy, at MySQL56/"
    yield "position that goes back", Table([("id", 265)], [0]), (b"1",), back, "a position without all of those before it amid the copy"


def copy_until_stop(trial, answered: list[Response], tables: list[str]) -> str:
    try:
        write_copy(trial.path("odd.feed"), sent(answered), Reading("ks", "-"), tables)
    except Stop as stop:
        return str(stop)
    return "it goes on"
