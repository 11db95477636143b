"""Every way in which a server's transactions change rows, as the program reads it of the log's copies: the rows are the server's own,
and the groups the recorder's, in one log and over several, behind a crash of the server; and a log that is encrypted or packed."""
import os

from . import commands
from .bylog import World, log_files_of
from .server import Server

PLUGINS = "/usr/lib/mysql/plugin", "/usr/lib64/mysql/plugin", "/usr/lib/x86_64-linux-gnu/mariadb/plugin"

MADE = """CREATE DATABASE x; USE x; CREATE TABLE t (id INT PRIMARY KEY, v VARCHAR(20), n INT, UNIQUE KEY u (n)); CREATE TABLE u (id INT PRIMARY KEY, v VARCHAR(20));
CREATE TABLE child (id INT PRIMARY KEY, t INT, FOREIGN KEY (t) REFERENCES t (id)); CREATE TABLE told (id INT AUTO_INCREMENT PRIMARY KEY, what VARCHAR(20));
CREATE TABLE isam (id INT PRIMARY KEY) ENGINE=MyISAM; CREATE TABLE aside (id INT PRIMARY KEY);
CREATE TRIGGER after_t AFTER INSERT ON t FOR EACH ROW INSERT INTO told (what) VALUES (NEW.v);
CREATE TRIGGER before_u BEFORE UPDATE ON u FOR EACH ROW SET NEW.v = CONCAT(NEW.v, '!');
CREATE PROCEDURE many() BEGIN DECLARE at INT DEFAULT 0; WHILE at < 5 DO INSERT INTO u VALUES (500 + at, 'many'); SET at = at + 1; END WHILE; END"""
TABLES = ["x.t", "x.u", "x.child", "x.told"]
TRANSACTIONS = {
    "statements": "INSERT INTO x.t VALUES (1, 'a', 1), (2, 'b', 2), (3, 'c', 3); UPDATE x.t SET v='z' WHERE id=2; DELETE FROM x.t WHERE id=3; INSERT INTO x.u VALUES (1, 'u')",
    "a rollback": "BEGIN; INSERT INTO x.t VALUES (9, 'no', 9); UPDATE x.u SET v='no'; ROLLBACK",
    "savepoints": "BEGIN; INSERT INTO x.t VALUES (10, 'a', 10); SAVEPOINT a; INSERT INTO x.t VALUES (11, 'no', 11); SAVEPOINT b; UPDATE x.t SET v='no' WHERE id=10;"
                  " ROLLBACK TO b; INSERT INTO x.t VALUES (12, 'no', 12); ROLLBACK TO a; INSERT INTO x.t VALUES (13, 'c', 13); RELEASE SAVEPOINT a; COMMIT",
    "savepoints of the same name": "BEGIN; SAVEPOINT s; INSERT INTO x.u VALUES (20, 'a'); SAVEPOINT S; INSERT INTO x.u VALUES (21, 'no'); ROLLBACK TO s; COMMIT",
    "another engine beside": "BEGIN; INSERT INTO x.t VALUES (30, 'a', 30); SAVEPOINT a; INSERT INTO x.isam VALUES (1); INSERT INTO x.t VALUES (31, 'no', 31); ROLLBACK TO a; COMMIT",
    "another engine, taken back": "BEGIN; INSERT INTO x.t VALUES (32, 'no', 32); INSERT INTO x.isam VALUES (2); UPDATE x.t SET v='no' WHERE id=1; ROLLBACK",
    "another engine first": "BEGIN; INSERT INTO x.isam VALUES (3); INSERT INTO x.t VALUES (33, 'a', 33); COMMIT; INSERT INTO x.isam VALUES (4)",
    "a statement that fails": "INSERT IGNORE INTO x.t VALUES (40, 'a', 40), (1, 'no', 41), (42, 'b', 42); REPLACE INTO x.t VALUES (1, 'r', 1), (43, 's', 2)",
    "upserts": "INSERT INTO x.t VALUES (1, 'no', 1), (50, 'a', 50) ON DUPLICATE KEY UPDATE v='up'; INSERT INTO x.t VALUES (51, 'a', 51) RETURNING id",
    "several tables": "INSERT INTO x.u SELECT id + 1000, v FROM x.t; UPDATE x.t JOIN x.u ON x.u.id = x.t.id + 1000 SET x.t.v='both', x.u.v='both' WHERE x.t.id < 20;"
                      " DELETE x.t, x.u FROM x.t JOIN x.u ON x.u.id = x.t.id + 1000 WHERE x.t.id = 10",
    "keys that move": "UPDATE x.u SET id = id + 5000 ORDER BY id DESC; UPDATE x.u SET id = id - 5000 ORDER BY id; UPDATE x.t SET n = -n",
    "foreign keys": "INSERT INTO x.child VALUES (1, 1), (2, NULL); UPDATE x.child SET t=13 WHERE id=2; SET foreign_key_checks=0; INSERT INTO x.child VALUES (3, 999)",
    "a procedure": "CALL x.many()",
    "without autocommit": "SET autocommit=0; INSERT INTO x.u VALUES (60, 'a'); INSERT INTO x.u VALUES (61, 'b'); COMMIT; INSERT INTO x.u VALUES (62, 'no'); ROLLBACK",
    "temporary tables": "CREATE TEMPORARY TABLE x.tmp (id INT); INSERT INTO x.tmp VALUES (70); INSERT INTO x.u SELECT id, 'tmp' FROM x.tmp; DROP TEMPORARY TABLE x.tmp",
    "other tables": "INSERT INTO x.aside VALUES (1); BEGIN; INSERT INTO x.aside VALUES (2); INSERT INTO x.u VALUES (71, 'a'); COMMIT",
    "other tables made": "CREATE TABLE x.made AS SELECT 1 AS id; CREATE OR REPLACE TABLE x.made AS SELECT 2 AS id; DROP TABLE x.made",
    "another domain": "SET gtid_domain_id=5; INSERT INTO x.u VALUES (72, 'd'); SET gtid_domain_id=0; INSERT INTO x.u VALUES (73, 'd')",
    "XA, committed": "XA START 'a','b',7; INSERT INTO x.t VALUES (80, 'xa', 80); XA END 'a','b',7; XA PREPARE 'a','b',7; XA COMMIT 'a','b',7",
    "XA, taken back": "XA START 'a'; INSERT INTO x.t VALUES (81, 'no', 81); XA END 'a'; XA PREPARE 'a'; XA ROLLBACK 'a'",
    "XA in one phase": "XA START 'a'; INSERT INTO x.t VALUES (82, 'xa', 82); XA END 'a'; XA COMMIT 'a' ONE PHASE",
    "XA of nothing": "XA START 'a'; SELECT 1; XA END 'a'; XA PREPARE 'a'; XA COMMIT 'a'",
    "XA with savepoints": "XA START 'a'; INSERT INTO x.t VALUES (83, 'xa', 83); SAVEPOINT s; INSERT INTO x.t VALUES (84, 'no', 84); ROLLBACK TO s; XA END 'a'; XA PREPARE 'a'; XA COMMIT 'a'",
    "a file": "LOAD DATA INFILE '{file}' INTO TABLE x.u FIELDS TERMINATED BY ','; LOAD DATA INFILE '{file}' REPLACE INTO TABLE x.u FIELDS TERMINATED BY ','",
    "many rows": "INSERT INTO x.u SELECT seq + 10000, REPEAT('m', 20) FROM x.seq_1_to_3000; DELETE FROM x.u WHERE id > 12000; UPDATE x.u SET v='n' WHERE id > 11000",
}  # fmt: skip


def _rows(trial, world: World, name: str) -> None:
    workflow = trial.workflow("transacted.json", ["-"], TABLES)
    trial.same(f"transactions, {name}", trial.made(trial.program, "run", workflow, world.by), trial.selected(workflow, "x"), 5)


def _load(trial) -> dict[str, str]:
    file = trial.path("load.csv")
    with open(file, "w", encoding="utf-8") as rows:
        rows.write("".join(f"{number},from a file\n" for number in range(200, 230)))
    os.chmod(file, 0o644)
    return {name: text.replace("{file}", file) for name, text in TRANSACTIONS.items()}


def transacted(trial) -> None:
    """One append a few, and all of it at once; the last ones behind a crash of the server, and in logs that end in between."""
    with Server(7, "--innodb-flush-log-at-trx-commit=1", "--sync-binlog=1") as server:
        aside = type(trial)(server, trial.program)
        _made(server)
        texts, world = _load(aside), World(aside, "transacted", "-", *TABLES)
        for at, (name, text) in enumerate(texts.items()):
            server.sql(f"USE x; {text}")
            if at == len(texts) // 2:
                server.restart()
            elif at % 6 == 5:
                server.sql("FLUSH BINARY LOGS")
            if at % 3 < 2:
                continue
            world.same(f"transactions, up to {name}", *(["--append"] if at > 2 else []))
            aside.check(f"transactions, {name}: no rows to come", None if b"x6e6f\n" not in world.shown(world.by).replace(b"\t", b"\n") else "a row that was taken back")
        world.same("transactions, the rest", "--append")
        _rows(aside, world, "a few at once")
        whole = World(aside, "transacted.whole", "-", *TABLES)
        whole.same("transactions, all at once")
        aside.check("transactions, whole and in parts", None if whole.changes(whole.by) == world.changes(world.by) else "others")
        trial.passed, trial.failed = trial.passed + aside.passed, trial.failed + aside.failed


def _made(server) -> None:
    """(the procedure and the triggers want another delimiter)"""
    server.sql("RESET MASTER; " + MADE.partition("CREATE PROCEDURE")[0] + "DELIMITER //\nCREATE PROCEDURE" + MADE.partition("CREATE PROCEDURE")[2] + " //\nDELIMITER ;\n")


def sealed(trial) -> None:
    """Logs that a server encrypts, whose files the program refuses, and what its connection sends of them."""
    if not any(os.path.exists(os.path.join(folder, "file_key_management.so")) for folder in PLUGINS):
        print("file_key_management.so isn't installed: no log was encrypted")
        return
    keys = trial.path("keys")
    with open(keys, "w", encoding="utf-8") as file:
        file.write("1;" + "0123456789abcdef" * 2 + "\n")
    os.chmod(keys, 0o644)
    with Server(7, "--plugin-load-add=file_key_management", f"--file-key-management-filename={keys}", "--encrypt-binlog=1") as server:
        aside = type(trial)(server, trial.program)
        server.sql("RESET MASTER; CREATE DATABASE x; CREATE TABLE x.t (id INT PRIMARY KEY, v INT); INSERT INTO x.t VALUES (1, 1), (2, 2); UPDATE x.t SET v=3")
        workflow, world = aside.workflow("sealed.json", ["-"], ["x.t"]), World(aside, "sealed", "-", "x.t")
        done = aside.run(trial.program, "transcribe", "--shard", "-", "--schema", "x", workflow, *log_files_of(server))
        trial.check("an encrypted log's files", None if done.returncode == 1 and done.stderr.startswith(b"refused 153 file ") else f"{done}")
        done = commands.run(*world.words())
        world.decode()
        fine = done.status == 0 and world.changes(world.by) == world.changes(world.own) != []
        trial.check("an encrypted log by a connection", None if fine else f"{done}")
