"""A server that is reached by the network, in the clear and by TLS, and by a file of options; and tables that are left out."""
import os
import shutil
import socket
import subprocess
import threading
from contextlib import closing, contextmanager, suppress

from . import server as private

MADE = ("CREATE DATABASE far; CREATE TABLE far.t (id INT PRIMARY KEY, v LONGTEXT); INSERT INTO far.t VALUES (1, 'a'), (2, REPEAT('b', 3000000));"
        " GRANT REPLICATION SLAVE, BINLOG MONITOR ON *.* TO far@'%' IDENTIFIED BY 'it''s \"#\"'; GRANT SELECT ON far.* TO far@'%'; ")  # fmt: skip
PASSWORD = 'it\'s "#"'
TABLE = "far.t"


@contextmanager
def forwarder(path: str):
    """The port of the loopback at which a server's socket is reached: a server in the network without TLS."""
    with closing(socket.create_server(("127.0.0.1", 0))) as listening:

        def pass_on(source: socket.socket, drain: socket.socket) -> None:
            with suppress(OSError):
                while data := source.recv(1 << 16):
                    drain.sendall(data)
                drain.shutdown(socket.SHUT_WR)

        def accept() -> None:
            while True:
                try:
                    client, _ = listening.accept()
                except OSError:
                    return
                there = socket.socket(socket.AF_UNIX)
                there.connect(path)
                for one, other in ((client, there), (there, client)):
                    threading.Thread(target=pass_on, args=(one, other), daemon=True).start()

        threading.Thread(target=accept, daemon=True).start()
        try:
            yield listening.getsockname()[1]
        finally:
            # without it the next client is still accepted
            listening.shutdown(socket.SHUT_RDWR)


def _free_port() -> int:
    with closing(socket.create_server(("127.0.0.1", 0))) as listening:
        return listening.getsockname()[1]


def _certificates(folder: str) -> None:
    """A certificate for the address of the loopback, which signs itself, and another one that signs nothing here."""
    for name in "ca", "other":
        subprocess.run(["openssl", "req", "-x509", "-newkey", "rsa:2048", "-nodes", "-days", "2", "-subj", f"/CN={name}", "-addext",
                        "subjectAltName=IP:127.0.0.1", "-keyout", f"{folder}/{name}.key", "-out", f"{folder}/{name}.pem"],
                       check=True, capture_output=True, timeout=private.PATIENCE)  # fmt: skip
        os.chmod(f"{folder}/{name}.key", 0o644)


def _said(trial, *words: str, password: str = "") -> tuple[int, str]:
    told = {**os.environ, "PYTHONDONTWRITEBYTECODE": "1", "MYSQL_PWD": password}
    done = subprocess.run(words, cwd=os.path.dirname(os.path.dirname(os.path.dirname(os.path.abspath(__file__)))), capture_output=True, env=told,
                          timeout=private.PATIENCE)  # fmt: skip
    return done.returncode, done.stderr.decode()


def _records(trial, name: str, words: list[str], wanted: bytes, password: str = "") -> None:
    """Checks that a feed is recorded, that of the socket, and a workflow written."""
    feed = trial.path(f"far.{name.replace(' ', '-')}.feed")
    status, told = _said(trial, "record/feed", *words, "--program", trial.program, "--shard=-", "--out", feed, TABLE, password=password)
    why = f"{status} {told!r}"
    if not status and not told:
        with open(feed, "rb") as file:
            why = None if file.read() == wanted else "another feed"
    trial.check(f"reached by {name}", why)
    status, told = _said(trial, "record/workflow", *words, "--keyspace=ks", "--shards=-", TABLE, password=password)
    trial.check(f"reached by {name}, for a workflow", f"{status} {told!r}" if status or told else None)


def _stops(trial, name: str, words: list[str], line: str, password: str = PASSWORD) -> None:
    for program, more in ("feed", ["--program", trial.program, "--shard=-", "--out", trial.path("far.none.feed")]), ("workflow", ["--keyspace=ks", "--shards=-"]):
        status, told = _said(trial, f"record/{program}", *words, *more, TABLE, password=password)
        why = None if status == 1 and told.startswith(f"{program}: {line}") and told.count("\n") == 1 else f"{status} {told!r}"
        trial.check(f"record/{program} with {name}", why)


def _is_usage(trial, name: str, words: list[str], line: str) -> None:
    for program, more in ("feed", ["--program", trial.program, "--shard=-", "--out", trial.path("far.none.feed")]), ("workflow", ["--keyspace=ks", "--shards=-"]):
        status, told = _said(trial, f"record/{program}", *words, *more, TABLE)
        trial.check(f"record/{program} with {name}", None if status == 2 and told.endswith(f"error: {line}\n") else f"{status} {told!r}")


def _options(trial, text: str) -> list[str]:
    with open(trial.path("far.cnf"), "w", encoding="utf-8") as file:
        file.write(text)
    return ["--defaults-file", file.name]


def _feed_of(trial, path: str, name: str) -> bytes:
    feed = trial.path(f"{name}.far.feed")
    status, told = _said(trial, "record/feed", "--socket", path, "--user=root", "--program", trial.program, "--shard=-", "--out", feed, TABLE)
    if status:
        raise RuntimeError(told)
    with open(feed, "rb") as file:
        return file.read()


def in_the_clear(trial) -> None:
    trial.server.sql("RESET MASTER; " + MADE)
    wanted = _feed_of(trial, trial.server.socket, "clear")
    with forwarder(trial.server.socket) as port:
        here = ["--host=127.0.0.1", f"--port={port}"]
        _records(trial, "a host and a port", [*here, "--user=far"], wanted, PASSWORD)
        _records(trial, "options", _options(trial, f"[client]\nhost = 127.0.0.1\nport={port}\n# no\nuser='far'\npassword=\"{PASSWORD}\"\nloose\n"), wanted)
        _records(trial, "a socket of options", _options(trial, f"[mysqld]\nsocket=/nowhere\n[client]\nsocket={trial.server.socket}\n[client-mariadb]\nuser=root"),
                 wanted)  # fmt: skip
        _records(trial, "options behind words", [*_options(trial, "[client]\nsocket=/nowhere\nuser=nobody\nport=1\n"), *here, "--user=far"], wanted, PASSWORD)
        _stops(trial, "another password", [*here, "--user=far"], f"no connection at 127.0.0.1:{port}: Access denied", "no")
        certificate = _options(trial, "none")[1]
        _stops(trial, "certificates that aren't", [*here, "--user=far", f"--ssl-ca={certificate}"], f"no certificates in {certificate}: ")
        _is_usage(trial, "a socket and a host", ["--socket", trial.server.socket, *here], "--host, --port and --ssl-ca are in place of --socket")
    _stops(trial, "a socket without a name", ["--socket="], "no connection at '': ")
    _stops(trial, "nobody there", [*here, "--user=far"], f"no connection at 127.0.0.1:{port}: ")
    _is_usage(trial, "no server", ["--user=far"], "name the server by --socket or --host, or in --defaults-file")
    empty = _options(trial, "[mysqld]\nsocket=/nowhere\n")
    _stops(trial, "no server in its options", empty, f"no server in {empty[1]}: name it there, or by --socket or --host")
    _stops(trial, "no options", ["--defaults-file=/nowhere"], "no option file at /nowhere: No such file")
    _stops(trial, "options that aren't", _options(trial, "user=far\n"), f"no option file in {trial.path('far.cnf')}: ")
    _stops(trial, "options elsewhere", _options(trial, "!include /etc/my.cnf\n"), "another file that is included by ")
    _stops(trial, "a port that is none", _options(trial, "[client]\nhost=127.0.0.1\nport=x\n"), "port x in ")
    _stops(trial, "no certificates", ["--host=127.0.0.1", "--ssl-ca=/nowhere"], "no certificates in /nowhere: ")
    trial.server.sql("DROP DATABASE far; DROP USER far@'%'; RESET MASTER")


def by_tls(trial) -> None:
    if not shutil.which("openssl"):
        print("openssl isn't installed: TLS wasn't tried")
        return
    folder, port, settings = trial.path("network_tls"), _free_port(), private.SETTINGS
    os.mkdir(folder)
    _certificates(folder)
    files = [f"--ssl-cert={folder}/ca.pem", f"--ssl-key={folder}/ca.key", f"--port={port}", "--bind-address=127.0.0.1"]
    private.SETTINGS = [one for one in settings if one != "--skip-networking"] + files
    try:
        with private.Server() as far:
            far.sql(MADE + "ALTER USER far@'%' REQUIRE SSL; ")
            wanted = _feed_of(trial, far.socket, "tls")
            here = ["--host=127.0.0.1", f"--port={port}", "--user=far"]
            _records(trial, "TLS", [*here, f"--ssl-ca={folder}/ca.pem"], wanted, PASSWORD)
            options = f"[client]\nhost=127.0.0.1\nport={port}\nuser=far\npassword={PASSWORD}\nssl_ca={folder}/ca.pem\n"
            _records(trial, "TLS of options", _options(trial, options), wanted)
            _stops(trial, "nothing encrypted", here, f"no connection at 127.0.0.1:{port}: Access denied")
            _stops(trial, "certificates of another", [*here, f"--ssl-ca={folder}/other.pem"], f"no connection at 127.0.0.1:{port}: ")
            there = ["--host=localhost", f"--port={port}", "--user=far", f"--ssl-ca={folder}/ca.pem"]
            _stops(trial, "a host of another name", there, f"no connection at localhost:{port}: ")
        with forwarder(trial.server.socket) as port:
            there = ["--host=127.0.0.1", f"--port={port}", "--user=root", f"--ssl-ca={folder}/ca.pem"]
            _stops(trial, "TLS where there is none", there, f"no TLS at 127.0.0.1:{port}: the server has none; ", "")
    finally:
        private.SETTINGS = settings


def left_out(trial) -> None:
    """A key of another order stops, with all that have one; with --skip the others are recorded."""
    trial.server.sql("RESET MASTER; CREATE DATABASE far; CREATE TABLE far.a (k VARCHAR(9) COLLATE utf8mb4_general_ci PRIMARY KEY); "
                     "CREATE TABLE far.t LIKE far.a; CREATE TABLE far.b (id INT PRIMARY KEY); "
                     "INSERT INTO far.a VALUES ('x'); INSERT INTO far.b VALUES (7)")  # fmt: skip
    how, all_of = ["--socket", trial.server.socket, "--user=root"], ["far.a", "far.b", "far.t"]
    order = "key column k of collation utf8mb4_general_ci, whose equality or order isn't that of bytes, in far.{}"
    todo = "make it utf8mb4_nopad_bin or VARBINARY, and record anew with --from-snapshot, or leave the table out (--skip)"
    stop = f"{order.format('a')}: {todo}; so are keys of far.t\n"
    told = "".join(f"{{0}}: warning: far.{name} is left out: {order.format(name)}\n" for name in "at")
    for program, more in ("feed", ["--program", trial.program, "--shard=-", "--out", trial.path("left.feed")]), ("workflow", ["--keyspace=ks", "--shards=-", "--rule=a=select * from a"]):
        words = [f"record/{program}", *how, *more]
        trial.check(f"record/{program} names the keys", None if (said := _said(trial, *words, *all_of)) == (1, f"{program}: {stop}") else f"{said}")
        trial.check(f"record/{program} skips", None if (said := _said(trial, *words, "--skip", *all_of)) == (0, told.format(program)) else f"{said}")
        said = _said(trial, *words, "--skip", "far.a", "far.t")
        trial.check(f"record/{program} skips not all", None if said[0] == 1 and said[1].startswith(f"{program}: no table is left: far.a ") else f"{said}")
    trial.server.sql("INSERT INTO far.a VALUES ('y'); INSERT INTO far.b VALUES (8)")
    said = _said(trial, "record/feed", *how, "--program", trial.program, "--shard=-", "--out", trial.path("left.feed"), "--append", "--skip", *all_of)
    trial.check("record/feed goes on skipping", None if said == (0, told.format("feed")) else f"{said}")
    workflow = trial.path("left.json")
    with open(workflow, "wb") as file:
        file.write(trial.run("record/workflow", *how, "--keyspace=ks", "--shards=-", "--skip", *all_of).stdout)
    trial.same("tables that aren't left out", trial.made(trial.program, "run", workflow, trial.path("left.feed")), trial.selected(workflow, "far"), 3)
    trial.server.sql("DROP DATABASE far; RESET MASTER")
