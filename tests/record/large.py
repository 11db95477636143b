"""Large transactions and events, and how their rows are read and kept."""
import os
import random
import struct
from itertools import chain

from recorder.catalogue import Printing, Table
from recorder.groups import Change
from recorder.kinds import Kind
from recorder.messages import row_bytes
from recorder.wire import change_bytes

from . import commands
from .decoder import changes as kept
from .decoder.cells import INTEGERS, LogType, counted_size
from .decoder.changes import Changes
from .decoder.rowcode import AFTER, BEFORE, Rows

ROOT = commands.ROOT
TEXTS = (Kind.VARCHAR, Kind.VARBINARY, Kind.BLOB)
MOST_MORE = 4
"""By how many times its bytes a large transaction may take more memory than one of a row: the program holds the log, and what it makes of it."""
COLUMNS = [
    (LogType(3, b""), Printing(Kind.INT32)), (LogType(15, b"\x14\0"), Printing(Kind.VARCHAR)), (LogType(1, b""), Printing(Kind.UINT8)),
    (LogType(9, b""), Printing(Kind.INT24)), (LogType(15, b"\x14\x04"), Printing(Kind.VARBINARY)), (LogType(252, b"\3"), Printing(Kind.BLOB)),
    (LogType(8, b""), Printing(Kind.UINT64)), (LogType(10, b""), Printing(Kind.DATE)), (LogType(1, b""), Printing(Kind.INT8)),
]  # fmt: skip


def large(trial) -> None:
    commands.command()
    for step in kept_aside, read_by_code, much, memory_of_event, large_rows, long_event, vgtids:
        step(trial)


def kept_aside(trial) -> None:
    """Changes that are added, and cut off again, are the same in memory and in a file."""
    sizes, faults = (kept.RUN, kept.KEPT_IN_MEMORY), []
    tables = [Table("s", name, (), ()) for name in "ab"]
    for seed in range(200):
        r = random.Random(seed)
        kept.RUN, kept.KEPT_IN_MEMORY = r.choice([1, 20, 10**6]), r.choice([0, 50, 10**6])
        changes, wanted, marks = Changes(trial.server.folder), [], []
        for _ in range(r.randrange(30)):
            if r.random() < 0.1:
                marks.append((changes.mark(), len(wanted)))
            elif marks and r.random() < 0.1:
                count, length = marks.pop(r.randrange(len(marks)))
                changes.cut(count)
                del wanted[length:]
                marks = [mark for mark in marks if mark[0] <= count]
            else:
                table, data = r.choice(tables), r.randbytes(r.randrange(1, 30))
                if r.random() < 0.5:
                    changes.add(table, data)
                else:
                    changes.add_parts(table, [data[:5], memoryview(data)[5:]])
                wanted.append((table, data))
        found = [[(table, data if isinstance(data, bytes) else b"".join(data.pieces())) for table, data in changes] for _ in range(2)]
        same = all(joined(one) == joined(Change(*change) for change in wanted) for one in found)
        if not same or bool(changes) != bool(wanted) or changes.tables != {table.full for table, _ in wanted}:
            faults.append(seed)
        changes.close()
    kept.RUN, kept.KEPT_IN_MEMORY = sizes
    trial.check("large, kept aside", f"seeds {faults}" if faults else None)


def joined(changes) -> list[list]:
    """Changes of one table that stand behind each other as one."""
    found = []
    for table, data in changes:
        if found and found[-1][0] is table:
            found[-1][1] += data
        else:
            found.append([table, data])
    return found


def stored(r: random.Random) -> tuple[bytes, list[bytes | None]]:
    """A row as the log has it, and what the server prints of it."""
    text = r.randbytes(r.choice([0, 3, 20, 100]))
    cells = [(struct.pack("<i", -5), b"-5"), (bytes([len(text)]) + text, text), (b"\xff", b"255"), (b"\xfe\xff\xff", b"-2"),
             (struct.pack("<H", len(text)) + text, text), (len(text * 90).to_bytes(3, "little") + text * 90, text * 90),
             (b"\xff" * 8, b"18446744073709551615"), ((2024 << 9 | 2 << 5 | 29).to_bytes(3, "little"), b"2024-02-29"), (b"\x80", b"-128")]  # fmt: skip
    nulls = r.choice([0, 0, r.getrandbits(9)])
    data = (nulls | 0xFE00).to_bytes(2, "little") + b"".join(one for at, (one, _) in enumerate(cells) if not nulls >> at & 1)
    return data, [None if nulls >> at & 1 else said for at, (_, said) in enumerate(cells)]


def read_by_code(trial) -> None:
    """Rows are what the readers of their columns read, wherever they stand; one that is cut short is a fault. Changes are those of
    the rows one by one, of each kind and of few columns and many."""
    rows, r, faults = Rows(COLUMNS), random.Random(3), []
    for at in range(400):
        data, cells = stored(r)
        before, behind = (r.randbytes(r.randrange(9)) for _ in range(2))
        for what in bytes, memoryview:
            if rows.image(what(before + data + behind), len(before)) != (row_bytes(tuple(cells)), len(before) + len(data)):
                faults.append(f"row {at}")
        for cut in {r.randrange(len(data)), len(data) - 1}:
            # (an event without a row is one)
            for read in [rows.image, rows.changes(AFTER)][:1 + (cut > 0)]:
                try:
                    found = read(data[:cut], 0)
                    faults.append(f"row {at}, cut at {cut}: {found!r:.80}")
                except (IndexError, struct.error):
                    pass
    trial.check("large, rows by code", f"{len(faults)}: {faults[0]}" if faults else None)
    trial.check("large, changes by code", why_other_changes(random.Random(4)))


def why_other_changes(r: random.Random) -> str | None:
    """Why the row changes of some events aren't those of their rows."""
    for count in (1, 2, 3, 9, 20, 40, 70):
        columns = [COLUMNS[r.randrange(len(COLUMNS))] for _ in range(count)]
        rows = Rows(columns)
        for at in range(60):
            longest = r.choice([0, 3, 20, 61, 130, 9000])
            stands, cells = zip(*(row_of(r, columns, longest) for _ in range(2 * r.randrange(1, 5))))
            data, messages = b"xyz" + b"".join(stands), [row_bytes(one) for one in cells]
            for signs in ways(AFTER), ways(BEFORE), ways(BEFORE, AFTER):
                if len(signs) == 2:
                    wanted = b"".join(change_bytes(*pair) for pair in zip(messages[::2], messages[1::2]))
                else:
                    wanted = b"".join(change_bytes(*((one, None) if signs == (BEFORE,) else (None, one))) for one in messages)
                found = [rows.changes(*signs)(data, 3), b"".join(chain.from_iterable(rows.one_by_one(signs, memoryview(data), 3)))]
                if found != [wanted, wanted]:
                    return f"{count} columns, event {at}, images {signs}: {found[0]!r:.200} and not {wanted!r:.200}"
    return None


def ways(*signs: int) -> tuple[int, ...]:
    return signs


def row_of(r: random.Random, columns: list, longest: int) -> tuple[bytes, tuple[bytes | None, ...]]:
    """A row of some of these columns as the log has it, and what the server prints of it."""
    has_nulls, nulls, stands, cells = r.random() < 0.3, 0, [], []
    for at, column in enumerate(columns):
        if has_nulls and r.random() < 0.3:
            nulls |= 1 << at
            cells.append(None)
            continue
        kind = column[1].kind
        if kind in TEXTS:
            most = 20 if column[0].meta == b"\x14\0" else 1000 if kind == Kind.VARBINARY else 70000
            text = r.randbytes(r.randrange(min(longest, most) + 1))
            size = counted_size(*column)
            stands.append(len(text).to_bytes(size, "little") + text)
            cells.append(text)
        elif kind == Kind.DATE:
            stands.append((2024 << 9 | 2 << 5 | 29).to_bytes(3, "little"))
            cells.append(b"2024-02-29")
        else:
            size, signed, _ = INTEGERS[column[0].number]
            number = r.choice([0, r.randrange(1 << 8 * size - 1), (1 << 8 * size - 1) - 1])
            number = -number if kind == signed and r.random() < 0.5 else number
            stands.append(number.to_bytes(size, "little", signed=kind == signed))
            cells.append(b"%d" % number)
    return nulls.to_bytes((len(columns) + 7) // 8, "little") + b"".join(stands), tuple(cells)


def memory_of(trial, *words: str) -> int:
    """The most memory of a recording, in bytes."""
    return commands.used_by(os.path.join(ROOT, "record/feed"), *trial.feed_words(*words), PYTHONDONTWRITEBYTECODE="1")[0]


def much(trial) -> None:
    """A transaction of 35 MB in 220,000 rows takes no more memory than a small one and some of its bytes."""
    trial.server.sql("RESET MASTER; CREATE DATABASE large; CREATE TABLE large.t (id INT PRIMARY KEY, v VARCHAR(200)); INSERT INTO large.t VALUES (0, 'a'); ")
    feed = trial.path("large.feed")
    least = memory_of(trial, "--shard", "-", "--out", feed, "large.t")
    trial.server.sql("INSERT INTO large.t SELECT seq, REPEAT('b', 120 + seq % 80) FROM large.seq_1_to_220000; ")
    size = os.path.getsize(feed)
    most = memory_of(trial, "--shard", "-", "--append", "--out", feed, "large.t")
    grown = os.path.getsize(feed) - size
    trial.check("large, memory", None if grown > 34_000_000 and most < least + MOST_MORE * grown else f"{most} bytes of memory and not {least}, {grown} bytes")
    trial.check("large, one group", None if trial.made(trial.program, "show", feed).count(b"group ") == 2 else "not two groups")
    workflow = trial.workflow("large.json", ["-"], ["large.t"])
    trial.same("large, rows", trial.made(trial.program, "run", workflow, feed), trial.selected(workflow, "large"), 220_000)


def memory_of_event(trial) -> None:
    """An event of one large row takes some times its bytes, and the append behind it what the feed and the copies have, twice."""
    trial.server.sql("SET GLOBAL max_allowed_packet=1073741824, max_binlog_size=1073741824; CREATE TABLE large.m (id INT PRIMARY KEY, v LONGBLOB);"
                     " INSERT INTO large.m VALUES (1, 'a'); ")  # fmt: skip
    feed = trial.path("large-row.feed")
    least = memory_of(trial, "--shard", "-", "--out", feed, "large.m")
    ways = {"an insert": ("INSERT INTO large.m VALUES (2, REPEAT('b', 15000000))", 15), "an update": ("UPDATE large.m SET v=REPEAT('c', 15000001) WHERE id=2", 30)}
    for way, (statement, size) in ways.items():
        trial.server.sql(statement)
        taken = memory_of(trial, "--shard", "-", "--append", "--out", feed, "large.m") - least
        trial.check(f"large, memory of {way}", None if taken < 7_000_000 * size else f"{taken} bytes more for an event of {size} MB")
        trial.server.sql(f"INSERT INTO large.m VALUES ({size}, 'd')")
        taken = memory_of(trial, "--shard", "-", "--append", "--out", feed, "large.m") - least
        there = os.path.getsize(feed) + sum(os.path.getsize(os.path.join(f"{feed}.logs", name)) for name in os.listdir(f"{feed}.logs"))
        trial.check(f"large, memory behind {way}", None if taken < 4_000_000 + 2 * there else f"{taken} bytes more")
    workflow = trial.workflow("large-row.json", ["-"], ["large.m"])
    trial.same("large, one row", trial.made(trial.program, "run", workflow, feed), b"table m\nx31\tx61\nx32\tx" + b"63" * 15_000_001 + b"\nx3135\tx64\nx3330\tx64\n", 5)
    trial.server.sql("DROP TABLE large.m; SET GLOBAL max_allowed_packet=16777216, max_binlog_size=262144; RESET MASTER")
    os.unlink(feed)


def large_rows(trial) -> None:
    """Rows of a megabyte and more with columns of all kinds beside, by a key that is looked at and by one that isn't, packed and not, as the
    decoder reads them; and those that the program reads, by it and from a snapshot."""
    columns = ("b BINARY(6), d DECIMAL(9,2), e ENUM('x','y'), t BIT(9), f DOUBLE, g FLOAT(7,3), dt DATETIME(3), ts TIMESTAMP(6) NULL, da DATE, tm TIME(2), y YEAR,"
               " v LONGBLOB, w LONGTEXT CHARACTER SET latin1, s SET('p','q'), n INT(9) ZEROFILL")  # fmt: skip
    row = "'ab', -1.5, 'y', b'101', 1e-9, 2.5, '2024-02-29 01:02:03.004', '1970-01-01 00:00:01', '2024-02-29', '-1:02:03.5', 2001, REPEAT('v', {0}), REPEAT('w', 2000000 - {0}), 'p,q', 7"
    trial.server.sql("SET GLOBAL max_binlog_size=1073741824, log_bin_compress_min_len=10; CREATE TABLE large.p (k VARCHAR(9) COLLATE utf8mb4_bin PRIMARY KEY, "
                     f"{columns}); CREATE TABLE large.q (k INT PRIMARY KEY, {columns}); ")  # fmt: skip
    for packed in 0, 1:
        trial.server.sql(f"SET GLOBAL log_bin_compress={packed}; ")
        for name in "pq":
            keys = [10 * packed + at for at in range(4)]
            rows = ", ".join(f"({key}, {row.format(size)})" for key, size in zip(keys, (0, 1_300_000, 2_000_000, 10)))
            trial.server.sql(f"SET time_zone='+00:00'; INSERT INTO large.{name} VALUES {rows}; UPDATE large.{name} SET w=NULL, n=n+1 WHERE k={keys[1]};"
                             f" UPDATE large.{name} SET b=NULL, v=REPEAT('z', 1200000), w=REVERSE(w) WHERE k IN ({keys[0]}, {keys[2]}); DELETE FROM large.{name} WHERE k={keys[3]}; ")  # fmt: skip
    trial.server.sql("SET GLOBAL log_bin_compress=0")
    feed, workflow = trial.path("large-rows.feed"), trial.workflow("large-rows.json", ["-"], ["large.p", "large.q"])
    wanted = trial.selected(workflow, "large")
    trial.decoded("-", feed, "large.p", "large.q")
    trial.same("large, rows of all kinds", trial.made(trial.program, "run", workflow, f"{feed}.own"), wanted, 14)
    trial.server.sql("RESET MASTER")
    for name in "pq":
        trial.server.sql(f"CREATE TABLE large.{name}2 LIKE large.{name}; ALTER TABLE large.{name}2 DROP f, DROP g, MODIFY n INT; INSERT INTO large.{name}2"
                         f" SELECT k, b, d, e, t, dt, ts, da, tm, y, v, w, s, n FROM large.{name}; UPDATE large.{name}2 SET v=REVERSE(w), b='cd' WHERE k IN (0, 11); ")  # fmt: skip
    workflow = trial.workflow("large-rows.json", ["-"], ["large.p2", "large.q2"])
    wanted = trial.selected(workflow, "large")
    for words in (), ("--from-snapshot",):
        trial.recorded("--shard", "-", "--out", feed, *words, "large.p2", "large.q2")
        trial.same(f"large, rows {words}", trial.made(trial.program, "run", workflow, feed), wanted, 8)
    trial.server.sql("DROP TABLE large.p, large.q, large.p2, large.q2; SET GLOBAL max_binlog_size=262144; RESET MASTER")
    os.unlink(feed)


def long_event(trial) -> None:
    """An event that comes in more than one packet."""
    trial.server.sql("SET GLOBAL max_binlog_size=1073741824; CREATE TABLE large.l (id INT PRIMARY KEY, v LONGBLOB); INSERT INTO large.l VALUES (1, REPEAT('a', 9000000)), (2, 'b');"
                     " UPDATE large.l SET v=REPEAT('c', 9000001); ")  # fmt: skip
    feed = trial.path("large-event.feed")
    trial.recorded("--shard", "-", "--out", feed, "large.l")
    workflow, value = trial.workflow("large-event.json", ["-"], ["large.l"]), b"x" + b"63" * 9_000_001
    wanted = b"table l\nx31\t" + value + b"\nx32\t" + value + b"\n"
    trial.same("large, an event of two packets", trial.made(trial.program, "run", workflow, feed), wanted, 3)
    trial.server.sql("INSERT INTO large.l VALUES (3, 'd'); ")
    done = trial.record("--shard", "-", "--append", "--out", feed, "large.l")
    fine = done.returncode == 1 and b"where it wasn't, an event there is larger than max_allowed_packet: SET GLOBAL max_allowed_packet=" in done.stderr
    trial.check("large, an event that the server doesn't read", None if fine else f"{done}")
    trial.server.sql("SET GLOBAL max_allowed_packet=1073741824")
    trial.recorded("--shard", "-", "--append", "--out", feed, "large.l")
    trial.same("large, behind an event", trial.made(trial.program, "run", workflow, feed), wanted + b"x33\tx64\n", 4)
    trial.server.sql("SET GLOBAL max_allowed_packet=16777216, max_binlog_size=262144")
    trial.server.sql("DROP DATABASE large; RESET MASTER")
    for name in "large.feed", "large-event.feed":
        os.unlink(trial.path(name))


def vgtids(trial) -> None:
    """Positions of a keyspace and a shard: feeds in another order are refused; a feed goes on with the events that it has."""
    schemas, shards = ["v_lower", "v_upper"], ["-80", "80-"]
    for at, schema in enumerate(schemas):
        trial.server.sql(f"CREATE DATABASE {schema}; CREATE TABLE {schema}.t (id INT PRIMARY KEY, v INT); INSERT INTO {schema}.t VALUES ({at}, 1); ")
    feeds = [trial.path(f"{schema}.feed") for schema in schemas]
    for schema, shard, feed in zip(schemas, shards, feeds):
        trial.recorded(f"--shard={shard}", "--keyspace", "ks", "--from-snapshot", "--out", feed, f"{schema}.t")
        trial.server.sql(f"INSERT INTO {schema}.t SELECT id + 10, 2 FROM {schema}.t; ")
    trial.recorded("--shard=-80", "--append", "--out", feeds[0], "v_lower.t")
    trial.recorded("--shard=80-", "--keyspace", "ks", "--append", "--out", feeds[1], "v_upper.t")
    workflow = trial.workflow("vgtids.json", shards, ["v_lower.t"], "--vindex=t=id:reverse_bits")
    trial.same("vgtids", trial.made(trial.program, "run", workflow, *feeds), trial.selected(workflow, *schemas), 5)
    other = trial.run(trial.program, "run", workflow, *reversed(feeds))
    trial.check("vgtids in another order", None if other.returncode == 1 and other.stderr.startswith(b"refused 89") else f"{other}")
    old = trial.path("v_old.feed")
    trial.recorded("--shard=-80", "--from-snapshot", "--out", old, "v_lower.t")
    trial.server.sql("DELETE FROM v_lower.t WHERE id = 10; ")
    trial.recorded("--shard=-80", "--keyspace", "ks", "--append", "--out", old, "v_lower.t")
    trial.same("vgtids, an old feed", trial.made(trial.program, "run", workflow, old, feeds[1]), trial.selected(workflow, *schemas), 4)
    trial.server.sql("CREATE TABLE v_lower.`ks.t` (id INT PRIMARY KEY)")
    done = trial.record("--shard=-80", "--keyspace", "ks", "--out", trial.path("v_no.feed"), "v_lower.ks.t")
    fine = done.returncode == 1 and b"a table whose name begins with the keyspace and a dot, ks.t, in v_lower" in done.stderr
    trial.check("vgtids, a table that is taken for another", None if fine else f"{done}")
    trial.server.sql("DROP DATABASE v_lower; DROP DATABASE v_upper; RESET MASTER")
