"""A target that goes into a database: tables that are made and that are there, rows that are held, and rows that the server refuses."""
import os
import shutil
import signal
import subprocess
import time

from model import making
from record.server import Server, is_installed

from .daemon import QUICK, ROOT, Target, awaits
from .ends import poor
from .stores import Store
from .writer import SCHEMA, Writer, workflow

PLAIN = [b"id", b"v"]


def has_written(target: Target) -> bool:
    """Whether the database has all that the feeds have."""
    state = target.state()
    ends = [one["position"] for one in state["streams"]]
    return target.has_all() and state["into"]["positions"] == ends and all(ends)


def with_server(step):
    """A step over a server of its own, where one is installed."""

    def tried_with(trial) -> None:
        if not is_installed():
            return trial.leave_out(step.__name__, "mariadb-server")
        with Server(31) as server:
            step(trial, server)

    return tried_with


@with_server
def tried(trial, server) -> None:
    """Into tables that are made, into tables that are there, and what the session has."""
    writer = Writer(trial, "into", 1)
    writer.grow(60)
    for name, schema, where in (("made", "", ""), ("there", SCHEMA, "40-c0")):
        server.sql(f"CREATE DATABASE {name}; USE {name}; {schema}")
        store = Store(trial, server, name, trial.put(f"into.{name}.json", workflow(where)))
        with Target(trial.live, trial.path(f"{name}.checkpoint"), store.workflow, writer.feeds, "--into", store.url, "--groups", "7") as target:
            awaits(lambda target=target: has_written(target), "all rows")
            trial.check(f"into tables, {name}", (why := store.why_not_exact(writer.whole())) is None, why)
            writer.grow(20)
            awaits(lambda target=target: has_written(target), "all rows")
            trial.check(f"and what follows, {name}", (why := store.why_not_exact(writer.whole())) is None, why)
            into = target.state()["into"]
            trial.check(f"a transaction has no more than one `more`, {name}", into["transactions"] > 20 // 7, into)
            text = target.get("/metrics").body.decode()
            trial.check(f"metrics of it, {name}", f"vrepl_into_transactions_total {float(into['transactions'])}" in text and "vrepl_into_stopped 0.0" in text, text)
            trial.check(f"it ends, {name}", target.end() == 0 and ("is made in" in target.lines) == (name == "made"), target.lines)
        with Target(trial.live, trial.path(f"{name}.checkpoint"), store.workflow, writer.feeds, "--into", store.url) as target:
            awaits(lambda target=target: has_written(target), "all rows")
            trial.check(f"begun anew where nothing changed, {name}", not target.state()["into"]["held"] and "held" not in target.said(), target.said())
            said = server.sql("SELECT COUNT(*), SUM(command='Sleep') FROM information_schema.processlist WHERE db='%s'" % name).stdout.split()
            trial.check(f"one connection, {name}", said[0] == b"1", said)
    columns = server.sql("SELECT column_type FROM information_schema.columns WHERE table_schema='made' AND table_name='u' ORDER BY ordinal_position").stdout.decode().split("\n")
    trial.check("tables are made of the workflow's types", columns[:3] == ["varbinary(3056)", "int(10) unsigned", "longblob"], columns)
    settings(trial, server)


def settings(trial, server) -> None:
    """Unique values that rows swap, references, columns that the server computes, and values that would be SQL."""
    server.sql("CREATE DATABASE odd; USE odd; CREATE TABLE other (id BIGINT PRIMARY KEY); CREATE TABLE t (id BIGINT, v VARCHAR(200), w INT AS (id + 1) STORED, PRIMARY KEY (id),"
               " UNIQUE (v), FOREIGN KEY (id) REFERENCES other (id)); CREATE TABLE gone (id INT); INSERT INTO gone VALUES (1); ")  # fmt: skip
    columns = [(b"id", 265), (b"v", 6165), (b"w", 263)]
    said = {"name": "t", "columns": [["id", "INT64"], ["v", "VARCHAR"], ["w", "INT32"]], "key": ["id"]}
    from json import dumps

    name = trial.put("odd.json", dumps({"keyspace": "", "tables": [said], "streams": [{"shard": "-", "filter": {"rules": [{"match": "/.*"}]}}]}).encode())

    def row(number: int, text: bytes) -> tuple:
        return b"%d" % number, text, b"%d" % (number + 1)

    hostile = b"'); DROP TABLE gone; -- \\"
    groups = [
        making.added(row(1, b"a"), row(2, b"b"), row(3, hostile)), [(row(1, b"a"), row(1, b"c")), (row(2, b"b"), row(2, b"a")), (row(1, b"c"), row(1, b"b"))],
        [(row(3, hostile), (b"4", b"%s %(x)s", b"5"))],
    ]  # fmt: skip
    feed = trial.put("odd.feed", b"".join(making.group(making.U + (b":1" if at == 1 else b":1-%d" % at), one, columns=columns) for at, one in enumerate(groups, 1)))
    store = Store(trial, server, "odd", name)
    with Target(trial.live, trial.path("odd.checkpoint"), name, [feed], "--into", store.url, "--groups", "1") as target:
        awaits(lambda: has_written(target), "all rows")
        trial.check("unique values that rows swap, and what the server computes", store.sql("SELECT * FROM t ORDER BY id").split("\n")[:3] == ["1\tb\t2", "2\ta\t3", "4\t%s %(x)s\t5"], store.sql("SELECT * FROM t"))
        trial.check("values are no SQL", store.sql("SELECT COUNT(*) FROM gone") == "1\n")
        # a number that is none: the server is to say so, of a value that is one literal
        bad = (b"9", b"x", b"1), (10, 'y', 2"), (b"7", b"z" * 300, b"8")
        more(feed, 4, bad[1])
        awaits(lambda: target.state()["into"]["trouble"], "a row that is refused")
        said = target.state()["into"]["trouble"]
        trial.check("a row that is refused has its table, key and the server's words", said == "the server refuses a row of table t at key 7: Data too long for column 'v' at row 1", said)
        behind = target.state()["streams"][0]["behind"]
        trial.check("the lag is the database's", behind["groups"] == 1 and behind["bytes"] > 300 and behind["seconds"] > 0, behind)
        trial.check("and isn't well", target.get("/healthz").status == 503 and "vrepl_into_stopped 1.0" in target.get("/metrics").body.decode(), target.state())
        trial.check("nothing of its transaction is there", store.sql("SELECT MAX(id) FROM t") == "4\n" and store.held()[0] == [f"MySQL56/{making.U.decode()}:1-3"], store.held())
        trial.check("a position that the database lacks isn't reached", target.get("/reached", position=f"{making.U.decode()}:1-4", timeout=0).status == 504)
        store.sql("ALTER TABLE t MODIFY v VARCHAR(400)")
        awaits(target.is_well, "the row that fits")
        trial.check("once it fits it goes on", store.sql("SELECT LENGTH(v) FROM t WHERE id=7") == "300\n" and target.said().count("the server refuses a row") == 1, target.lines)
        trial.check("and is reached", target.get("/reached", position=f"{making.U.decode()}:1-4", timeout=5).status == 200)
        more(feed, 5, (b"8", b"eight", bad[0][2]))
        awaits(lambda: has_written(target), "a computed column that isn't written")
        trial.check("digits that are none are no SQL", store.sql("SELECT id FROM t ORDER BY id") == "1\n2\n4\n7\n8\n", store.sql("SELECT id FROM t ORDER BY id"))
        more(feed, 6, *((b"%d" % number, b"n%d" % number if number != 77 else b"eight", b"0") for number in range(20, 120)))
        awaits(lambda: "at key 77: Duplicate entry 'eight'" in (target.state()["into"]["trouble"] or ""), "one of many rows")
        trial.check("one row of many is found", store.sql("SELECT COUNT(*) FROM t") == "5\n", store.sql("SELECT COUNT(*) FROM t"))
        store.sql("ALTER TABLE t DROP KEY v")
        awaits(target.is_well, "rows that fit")
        store.sql("ALTER TABLE t MODIFY v LONGTEXT")
        server.sql("SET GLOBAL max_allowed_packet=1048576")
        target.end()
    with Target(trial.live, trial.path("odd.checkpoint"), name, [feed], "--into", store.url) as target:
        target.awaits_well()
        more(feed, 7, (b"200", b"w" * 700_000, b"0"))
        awaits(lambda: target.state()["into"]["trouble"], "a row that is too large")
        said = target.state()["into"]["trouble"]
        trial.check("a row that no statement may have", said.startswith("the server refuses a row of table t at key 200: 14000") and "max_allowed_packet is 1048576" in said, said)
        server.sql("SET GLOBAL max_allowed_packet=16777216")
        awaits(lambda: has_written(target), "a row that fits")
        trial.check("until it may", store.sql("SELECT LENGTH(v) FROM t WHERE id=200") == "700000\n")
        target.end()
    padded(trial, server)


def more(feed: str, number: int, *rows: tuple) -> None:
    """A group more of the odd table."""
    with open(feed, "ab") as file:
        file.write(making.group(making.U + b":1-%d" % number, making.added(*rows), columns=[(b"id", 265), (b"v", 6165), (b"w", 263)]))


def padded(trial, server) -> None:
    """A key whose blank at the end the table's collation doesn't see."""
    said = making.ONE.replace(b'["id", "INT64"]', b'["id", "VARCHAR"]').replace(b'"numeric"', b'"binary"')
    name, columns = trial.put("padded.json", said), [(b"id", 6165), (b"v", 6165)]
    feed = trial.put("padded.feed", making.group(making.U + b":1", making.added((b"tea", b"a")), columns=columns))
    server.sql("CREATE DATABASE padded; USE padded; CREATE TABLE t (id VARCHAR(20) CHARACTER SET utf8mb4 COLLATE utf8mb4_bin PRIMARY KEY, v TEXT)")
    store = Store(trial, server, "padded", name)
    with Target(trial.live, trial.path("padded.checkpoint"), name, [feed], "--into", store.url) as target:
        awaits(lambda: has_written(target), "all rows")
        with open(feed, "ab") as file:
            file.write(making.group(making.U + b":1-2", making.added((b"tea ", b"b")), columns=columns))
        awaits(lambda: target.state()["into"]["trouble"], "a key with a blank")
        said = target.state()["into"]["trouble"]
        trial.check("a key that the collation doesn't tell apart", said.startswith("a key that ends with a blank in table t, key tea : utf8mb4_bin") and store.sql("SELECT v FROM t") == "a\n", said)
        target.end()


@with_server
def held(trial, server) -> None:
    """Databases that stand behind the checkpoint or ahead of it, and rows that others changed."""
    writer = Writer(trial, "held", 2)
    writer.grow(50)
    server.sql("CREATE DATABASE held; CREATE DATABASE other")
    store = Store(trial, server, "held", trial.put("held.json", workflow("-80")))
    checkpoint, early, words = trial.path("held.checkpoint"), trial.path("held.early"), ("--into", store.url)

    def ran(name: str, line: str, least: int, then=lambda target: None) -> None:
        with Target(trial.live, checkpoint, store.workflow, writer.feeds, *words) as target:
            then(target)
            awaits(lambda: has_written(target), "all rows")
            into, lines = target.state()["into"], target.said()
            trial.check(f"held: {name}", line in lines and lines.count("rows were held") == 1 and into["mended"] >= least and into["held"] > 50, (into, lines))
            trial.check(f"held: {name}, exact", (why := store.why_not_exact(writer.whole())) is None, why)
            trial.check(f"held: {name}, ends", target.end() == 0)

    with Target(trial.live, checkpoint, store.workflow, writer.feeds, *words) as target:
        awaits(lambda: has_written(target), "all rows")
        target.end()
    shutil.copy(checkpoint, early)
    server.sql("CREATE TABLE other.t AS SELECT * FROM held.t; CREATE TABLE other.u AS SELECT * FROM held.u; CREATE TABLE other.s AS SELECT * FROM held.vrepl_streams")
    sizes = [os.path.getsize(feed) for feed in writer.feeds]
    writer.grow(40)
    with Target(trial.live, checkpoint, store.workflow, writer.feeds, *words) as target:
        awaits(lambda: has_written(target), "all rows")
        target.end()
    shutil.copy(early, checkpoint)
    ends = []
    for feed, size in zip(writer.feeds, sizes):
        with open(feed, "r+b") as file:
            file.seek(size)
            ends.append(file.read())
            file.truncate(size)

    def come(target: Target) -> None:
        awaits(lambda: "is ahead of the feeds" in target.said() and not target.is_well(), "a database that is ahead")
        for feed, end in zip(writer.feeds, ends):
            with open(feed, "ab") as file:
                file.write(end)

    ran("a database ahead of the checkpoint and the feeds", "was ahead of what is applied here", 0, come)
    store.sql("DELETE FROM t; INSERT INTO t SELECT * FROM other.t; DELETE FROM u; INSERT INTO u SELECT * FROM other.u; REPLACE INTO vrepl_streams SELECT * FROM other.s")
    ran("a database behind the checkpoint", "was behind what is applied here", 10)
    store.sql("REPLACE INTO vrepl_streams SELECT * FROM other.s; UPDATE t SET n=1 WHERE id % 3 = 0; DELETE FROM u LIMIT 5; INSERT INTO t VALUES (-5, 'x', 1), (1000000, 'y', 2)")
    ran("rows that others changed", "was behind what is applied here", 8)
    store.sql("DELETE FROM vrepl_streams; DELETE FROM vrepl_copies")
    words = (*words, "--adopt")
    ran("rows without positions", "had no positions", 0)
    server.sql("CREATE DATABASE poor")
    thin = Store(trial, server, "poor", store.workflow)
    with Target(poor(trial), trial.path("poor.into"), store.workflow, writer.feeds, "--into", thin.url, "--groups", "15") as target:
        awaits(lambda: has_written(target), "all rows")
        writer.grow(15)
        awaits(lambda: has_written(target), "all rows")
        trial.check("held: a program without memory for `changes`", (why := thin.why_not_exact(writer.whole())) is None and target.end() == 0, (why, target.lines))
    lost(trial, server, store, writer)


def lost(trial, server, store: Store, writer: Writer) -> None:
    """Connections that are ended, a server that is killed, a database that another one moves, and two that write one."""
    with Target(trial.live, trial.path("held.checkpoint"), store.workflow, writer.feeds, "--into", store.url) as target, writer:
        target.awaits_well()
        for _ in range(6):
            number = server.sql(f"SELECT id FROM information_schema.processlist WHERE db='{store.schema}'").stdout.decode().strip()
            if number:
                server.sql(f"KILL {number}", check=False)
            before = target.state()["into"]["transactions"]
            awaits(lambda before=before: target.is_well() and target.state()["into"]["transactions"] > before, "a connection anew")
            trial.check("connection ended", (why := store.why_not_exact(writer.whole())) is None, why)
        server.restart()
        before = target.state()["into"]["transactions"]
        awaits(lambda: target.is_well() and target.state()["into"]["transactions"] > before, "a server anew")
        trial.check("a server that is killed", (why := store.why_not_exact(writer.whole())) is None, why)
        store.sql("UPDATE vrepl_streams SET position='MySQL56/3e11fa47-71ca-11e1-9e33-c80aa9429562:1' WHERE stream=0; DELETE FROM t WHERE id % 2 = 0")
        awaits(lambda: "positions that another one wrote" in target.said() and target.is_well(), "rows that are held")
        awaits(lambda: store.why_not_exact(writer.whole()) is None, "exact rows")
        trial.check("positions that another one wrote", "rows were held to those here" in target.said(), target.lines)
        with Target(trial.live, trial.path("held.second"), store.workflow, writer.feeds, "--into", store.url) as other:
            awaits(lambda: "another serve/target that writes" in other.said(), "a second one that waits")
            trial.check("a second one waits", not other.is_well() and target.is_well(), other.lines)
            target.end()
            awaits(other.is_well, "the second one")
            awaits(lambda: store.why_not_exact(writer.whole()) is None, "exact rows")
            trial.check("and goes on once the first one has ended", other.is_well() and other.end() == 0, other.lines)
    store.sql("UPDATE vrepl_streams SET position='so' WHERE stream=1")
    with Target(trial.live, trial.path("held.checkpoint"), store.workflow, writer.feeds, "--into", store.url) as target:
        awaits(lambda: "no position of a stream" in target.said(), "a position that is none")
        trial.check("a position that is none is told", not target.is_well() and target.process.poll() is None, target.lines)
        store.sql("UPDATE vrepl_streams SET position='' WHERE stream=1")
        awaits(lambda: has_written(target), "all rows")
        trial.check("and put right", (why := store.why_not_exact(writer.whole())) is None, why)
        os.kill(server.number(), signal.SIGSTOP)
        writer.grow(3)
        time.sleep(0.5)
        target.process.send_signal(signal.SIGTERM)
        time.sleep(0.5)
        is_waited_for, begun = target.process.poll() is None, time.monotonic()
        status = target.end()
        os.kill(server.number(), signal.SIGCONT)
        trial.check("a server that stands still is waited for until the second signal", is_waited_for and status in (0, 1) and time.monotonic() - begun < 30, (status, target.lines))


@with_server
def refused(trial, server) -> None:
    """Databases and tables that can't be a target's: one line, and status 1."""
    text = "id BIGINT, v LONGTEXT"
    cases = {
        "no database": ("", "no database"),
        "rows without positions": (f"CREATE TABLE t ({text}, PRIMARY KEY (id)); INSERT INTO t VALUES (1, 'a')", "rows in table t"),
        "another primary key": (f"CREATE TABLE t ({text}, PRIMARY KEY (id, v(10)))", "another primary key (id, v(10))"),
        "no primary key": (f"CREATE TABLE t ({text})", "another primary key (none)"),
        "no column": ("CREATE TABLE t (id BIGINT PRIMARY KEY)", "no column v"),
        "another engine": (f"CREATE TABLE t ({text}, PRIMARY KEY (id)) ENGINE=MyISAM", "the engine MyISAM"),
        "other streams": ("CREATE TABLE vrepl_streams (workflow VARCHAR(255), stream INT, shard VARCHAR(255), position LONGTEXT, applied BIGINT UNSIGNED, phase VARCHAR(20), written TIMESTAMP(6),"
                          " PRIMARY KEY (workflow, stream)); INSERT INTO vrepl_streams VALUES ('refused', 0, 'c0-', '', 0, '', NOW(6))", "other streams"),
    }  # fmt: skip
    name, feed = trial.put("refused.json", making.ONE), trial.put("refused.feed", making.ONE_ROW)

    def ran(title: str, line: str, schema: str, *words: str) -> None:
        done = subprocess.run([os.path.join(ROOT, "serve/target"), "--program", trial.live, "--listen", "127.0.0.1:0", "--checkpoint", trial.path("refused.checkpoint"),
                               *(words or ("--into", f"mysql:///{schema}?socket={server.socket}&user=root", name, feed))], capture_output=True, text=True, env=QUICK, timeout=120)  # fmt: skip
        lines = [one for one in done.stderr.splitlines() if "http://" not in one and "is made in" not in one]
        trial.check(f"refused: {title}", done.returncode == 1 and len(lines) == 1 and line in lines[0], (done.returncode, done.stderr))

    for at, (title, (made, line)) in enumerate(cases.items()):
        if made:
            server.sql(f"CREATE DATABASE r{at}; USE r{at}; {made}")
        ran(title, line, f"r{at}")
    server.sql("CREATE DATABASE kinds")
    for kind, word, made, line in ((18, "DECIMAL", "", "is DECIMAL, of which a workflow doesn't say enough"), (2064, "DATETIME", "", "is DATETIME"), (6165, "", "ci", "the collation utf8mb4_general_ci")):
        said = making.ONE.replace(b'["id", "INT64"], ["v", "VARCHAR"]', b'["id", "VARCHAR"], ["v", %d]' % kind).replace(b'"numeric"', b'"binary"')
        kinds = trial.put("kinds.json", said)
        if made:
            server.sql("USE kinds; CREATE TABLE t (id VARCHAR(20) COLLATE utf8mb4_general_ci PRIMARY KEY, v LONGTEXT)")
        ran(f"a column {word or 'whose keys are told apart otherwise'}", line, "kinds", "--into", f"mysql:///kinds?socket={server.socket}&user=root", kinds, trial.put("empty.feed", b""))
    with Target(trial.live, trial.path("refused.checkpoint"), name, [feed], "--into", "mysql://root@127.0.0.1:9/s") as target:
        awaits(lambda: "no connection at 127.0.0.1:9" in target.said(), "no server")
        trial.check("a server that isn't there is waited for", not target.is_well() and target.end(signal.SIGTERM) == 0, target.lines)
