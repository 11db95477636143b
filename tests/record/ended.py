"""How record/feed ends where something is wrong with what it was given, or goes wrong: one line that is true, status 1,
and nothing that is left behind."""
import json
import os
import random
import signal
import socket
import subprocess
import threading
import time
from collections.abc import Callable, Iterator
from contextlib import contextmanager

from . import commands
from .commands import PATIENCE, ROOT, Command
from .kept import Place, read_file, write_file
from .server import Server


def ended(trial) -> None:
    commands.command()
    trial.server.sql("RESET MASTER; CREATE DATABASE kept; CREATE TABLE kept.t (id INT PRIMARY KEY, v TEXT); CREATE TABLE kept.u (id INT PRIMARY KEY); ")
    with Place(trial, "small") as small:
        small.run()
        moved_for_a_small = moved_for_an_append(trial, small)
    trial.server.sql("INSERT INTO kept.t SELECT seq, REPEAT('a', 2000) FROM kept.seq_3_to_3002; ")
    with Place(trial, "ended") as place:
        place.run()
        moved, size = moved_for_an_append(trial, place), os.path.getsize(place.feed) + sum(os.path.getsize(path) for path in place.copies())
        # (the program reads the feed, and the copies that stay, from the beginning)
        fine = 500 < moved_for_a_small and moved < moved_for_a_small + 2**14 + size
        trial.check("ended, the cost of an append", None if fine else f"{moved_for_a_small}, and {moved} where there are {size} bytes")
        for step in odd_places, odd_notes, odd_words, odd_servers, odd_outputs, lost_connections, interrupted:
            step(trial, place)
    trial.server.sql("DROP DATABASE kept")


def moved_for_an_append(trial, place: Place) -> int:
    """How many bytes the second append of one row reads and writes, of the feed or not. (The first one reads the last group
    that was there, of any size.)"""
    counted = trial.path("counted")

    def moved() -> int:
        return sum(int(line.split()[1]) for line in read_file("/proc/self/io").decode().splitlines() if line.startswith(("rchar", "wchar")))

    def count() -> None:
        from recorder.feedfile import FeedFile

        end, begun = FeedFile.__exit__, moved()

        def ends(feed: FeedFile, *how: object) -> None:
            end(feed, *how)
            write_file(counted, str(moved() - begun).encode())

        FeedFile.__exit__ = ends

    for _ in range(2):
        trial.server.sql("INSERT INTO kept.t SELECT COALESCE(MAX(id), 0) + 1, 'a' FROM kept.t; ")
        done = place.run("--append", prepare=count)
        trial.check("ended, an append of one row", None if done.status == 0 else f"{done}")
    return int(read_file(counted))


def check_stopped(trial, name: str, place: Place, words: list[str], text: str, prepare: Callable[[], None] = lambda: None) -> None:
    """It stops with this in its line; the folder is as it was."""
    before = state(place.folder)
    done = commands.run(*words, prepare=prepare)
    after = state(place.folder)
    changed = [one for one in before.keys() | after.keys() if before.get(one) != after.get(one)]
    trial.check(f"ended, {name}", done.why_not_stopped(text) or (f"{changed} changed" if changed else None))


def state(folder: str) -> dict[str, tuple]:
    """What each name of a folder is."""
    found = {one: os.lstat(os.path.join(folder, one)) for one in os.listdir(folder)}
    return {one: (at.st_mode, at.st_ino, at.st_size, at.st_mtime_ns) for one, at in found.items()}


def with_out(place: Place, out: str) -> list[str]:
    return [*place.words[:7], out, *place.words[8:]]


def odd_places(trial, place: Place) -> None:
    """Files that aren't to be written, or can't be."""
    aside = os.path.join(place.folder, "aside")
    os.mkdir(aside)
    write_file(os.path.join(aside, "plain"), b"not to be lost")
    write_file(os.path.join(aside, "shop.json"), b'{"keyspace": "shop"}')
    os.symlink("../a.feed", os.path.join(aside, "link"))
    os.symlink("../a.feed.json", os.path.join(aside, "link.json"))
    os.symlink("nowhere", os.path.join(aside, "dangling"))
    os.mkfifo(os.path.join(aside, "pipe"))
    inside = Place.__new__(Place)
    inside.folder = aside
    for out, words, text in [
        (place.feed, [], "a file is there at "), (place.feed, ["--forever"], "a file is there at "), (f"{aside}/plain", [], "a file is there at "),
        (f"{aside}/plain", ["--replace"], "a file that is no feed of record/feed at "), (f"{aside}/plain", ["--append"], "no note in "),
        (f"{aside}/shop", [], "a file is there at "), (f"{aside}/shop", ["--replace"], "a file that is no feed of record/feed at "),
        (f"{aside}/link", ["--replace"], "a link at "), (f"{aside}/link", ["--append"], "a link is there; "), (f"{aside}/dangling", [], "a link at "),
        (f"{aside}/pipe", ["--replace"], "a folder or device at "), (f"{aside}/pipe", ["--append"], "a folder or device is there; "),
        (aside, [], "a folder or device at "), ("/dev/null", ["--replace"], "a folder or device at "), ("/dev/full", [], "a folder or device at "),
        (f"{aside}/none", ["--append"], "no feed to append to at "), (f"{aside}/none/a.feed", [], "no file can be written at "),
        (f"{aside}/plain/a.feed", [], "no file can be written at "), (f"{aside}/{'a' * 300}", [], "no file can be written at "),
        (f"{aside}/none/a.feed", ["--append"], "nothing is there; "), ("/proc/a.feed", [], "no file can be written at "),
        (f"{aside}/\n\x1b[2J", ["--append"], "no feed to append to at "), (f"{aside}/\udcff", ["--append"], "no feed to append to at "),
    ]:  # fmt: skip
        check_stopped(trial, f"{os.path.basename(out)[:20]!r} {words}", inside, [*words, *with_out(place, out)], text)
    if os.geteuid():
        os.chmod(aside, 0o555)
        check_stopped(trial, "a folder without rights", inside, with_out(place, f"{aside}/a.feed"), "Permission denied")
        os.chmod(aside, 0o755)
        os.chmod(place.feed, 0o444)
        check_stopped(trial, "a feed without rights", place, ["--append", *place.words], "Permission denied")
        os.chmod(place.feed, 0o644)
    for name in os.listdir(aside):
        os.unlink(os.path.join(aside, name))
    os.rmdir(aside)


def odd_notes(trial, place: Place) -> None:
    """Notes that are none, feeds that aren't theirs."""
    note, feed = read_file(place.feed + ".json"), read_file(place.feed)
    data = json.loads(note)
    notes = {
        "empty": b"", "bytes": bytes(range(256)), "a list": b"[]", "deep": b"[" * 100000, "null": b"null", "a number": b"1e400",
        **{f"without {name}": json.dumps({**{one: data[one] for one in data if one != name}, "more": 1}).encode() for name in data},
        **{f"{name} {value!r}": json.dumps({**data, name: value}).encode() for name in data for value in (None, {}, "x", 1.5, True, [1])
           if type(value) is not type(data[name]) and (name, value) not in (("begun", None), ("server_id", None), ("keyspace", "x"), ("recorder", None))},
    }  # fmt: skip
    for name, text in notes.items():
        write_file(place.feed + ".json", text)
        check_stopped(trial, f"note {name}", place, ["--append", *place.words], "no note in ")
    for name, value in {"size": len(feed) - 1, "last": data["last"] + 1, "position": "MySQL56/x:1"}.items():
        write_file(place.feed + ".json", json.dumps({**data, name: value}).encode())
        check_stopped(trial, f"another {name}", place, ["--append", *place.words], "a feed that isn't the one of its note in ")
    write_file(place.feed + ".json", note)
    for name, other in {"a cut feed": feed[:-1], "an empty feed": b"", "another end": feed[:-3] + b"abc"}.items():
        write_file(place.feed, other)
        check_stopped(trial, name, place, ["--append", *place.words], "a feed that isn't the one of its note in ")
    write_file(place.feed, feed)
    old = {name: value for name, value in data.items() if name not in ("last", "server_id", "keyspace", "turn", "past", "keys", "recorder")}
    write_file(place.feed + ".json", json.dumps(old).encode())
    done = commands.run("--append", *place.words)
    now = json.loads(read_file(place.feed + ".json"))
    trial.check("ended, a note of old", None if done.status == 0 and read_file(place.feed) == feed and now["last"] == data["last"] else f"{done}, {now}")


def odd_words(trial, place: Place) -> None:
    """Tables and users that no server knows."""
    words = with_out(place, os.path.join(place.folder, "new.feed"))
    for other in [*words, "kept.\udcff"], [*words[:5], "\udcff", *words[6:]]:
        done = commands.run(*other)
        trial.check("ended, no text", None if done.status == 2 and "is no text" in done.err else f"{done}")
    for table, text in ("kept.t\n\x1b[2J", "no such table as kept.t??[2J: "), ("ä.ö", "no such table as ä.ö: "):
        check_stopped(trial, repr(table), place, [*words, table], text)
    check_stopped(trial, "no user", place, [*words[:3], "nobody else", *words[4:]], "no connection at ")
    check_stopped(trial, "a user of no text", place, [*words[:3], "\udcff", *words[4:]], "no connection at ")
    check_stopped(trial, "a long user", place, [*words[:3], "a" * 100000, *words[4:]], "no connection at ")
    check_stopped(trial, "a password of no text", place, words, "no connection at ", lambda: os.environ.update(MYSQL_PWD="\udcff"))


@contextmanager
def answering(path: str, text: bytes) -> Iterator[None]:
    """A socket at which something else than a server answers."""
    with socket.socket(socket.AF_UNIX) as listening:
        listening.bind(path)
        listening.listen()

        def answer() -> None:
            for _ in range(4):
                try:
                    one, _ = listening.accept()
                except OSError:
                    return
                with one:
                    one.sendall(text)

        thread = threading.Thread(target=answer, daemon=True)
        thread.start()
        try:
            yield
        finally:
            listening.shutdown(socket.SHUT_RDWR)
            thread.join(PATIENCE)
    os.unlink(path)


def odd_servers(trial, place: Place) -> None:
    """Sockets behind which no server is."""
    words = with_out(place, os.path.join(place.folder, "new.feed"))
    for name in "/dev/null", place.folder, "/nowhere", place.feed, "a" * 200:
        check_stopped(trial, f"socket {name[:20]}", place, [words[0], name, *words[2:]], "no connection at ")
    other = os.path.join(trial.server.folder, "o")
    for text in b"", b"HTTP/1.1 400 Bad Request\r\n\r\n", b"\x01\0\0\0\x0a", b"\x4a\0\0\0\x0a5.5\0" + bytes(70), b"\x04\0\0\0\xff\x15\x04no", bytes(range(256)) * 9:
        with answering(other, text):
            check_stopped(trial, f"answer {text[:12]!r}", place, [words[0], other, *words[2:]], "no connection at ")


def odd_outputs(trial, place: Place) -> None:
    """Standard output and error that can't be written, or are closed, in a process of Python's own."""
    begun = [os.path.join(ROOT, "record/feed"), "--program", trial.program, *place.words]
    told = {**os.environ, "PYTHONDONTWRITEBYTECODE": "1"}
    for name, redirected, status, text in [
        ("a full output", ">/dev/full", 1, b"feed: standard output can't be written: No space left on device\n"),
        ("no reader", "| true", 1, b"feed: standard output can't be written: Broken pipe\n"),
        ("no output", ">&-", 0, b""), ("no error", "2>&-", 0, b""), ("nothing open", "<&- >&- 2>&-", 0, b""), ("a full error", "2>/dev/full", 0, b""),
    ]:  # fmt: skip
        # (a reader that is gone before the line is printed)
        script = f'set -o pipefail; {{ "$@"; }} {redirected}' if "|" not in redirected else 'set -o pipefail; { sleep 0.3; "$@"; } | true'
        done = subprocess.run(["bash", "-c", script, "bash", begun[0], "--append", *begun[1:]], capture_output=True, env=told, timeout=PATIENCE)
        trial.check(f"ended, {name}", None if (done.returncode, done.stderr) == (status, text) else f"{done}")
    for words in (["--help"], ["--nothing"], []):
        done = subprocess.run(["bash", "-c", 'set -o pipefail; { sleep 0.2; "$@"; } 2>&1 | true', "bash", begun[0], *words], capture_output=True, env=told, timeout=PATIENCE)
        trial.check(f"ended, no reader of {words}", None if done.returncode in (1, 2) and not done.stderr else f"{done}")
    workflow = trial.workflow("ended.json", ["-"], ["kept.t"])
    dump = trial.path("ended.dump")
    write_file(dump, b"table t\n" + b"x31\tx61\n" * 50000)
    for name, of in {"select": [workflow, "kept"], "insert": [workflow, "kept"], "workflow": [*place.words[:4], "--keyspace", "ks", "--shards=-", "kept.t"]}.items():
        for redirected, why in (">/dev/full", b"No space left on device"), ("| true", b"Broken pipe"):
            script = f'set -o pipefail; {{ sleep 0.3; "$@" < {dump}; }} {redirected}'
            done = subprocess.run(["bash", "-c", script, "bash", os.path.join(ROOT, "record", name), *of], capture_output=True, env=told, timeout=PATIENCE)
            fine = (done.returncode, done.stderr) == (1, f"{name}: standard output can't be written: ".encode() + why + b"\n")
            trial.check(f"ended, {name} {redirected}", None if fine else f"{done}")
    lacking = subprocess.run([begun[0], "--append", *begun[1:]], capture_output=True, timeout=PATIENCE, env={**told, "PYTHONPATH": lacking_modules(trial)})
    trial.check("ended, no module", None if lacking.returncode == 1 and lacking.stderr.startswith(b"feed: Python has no module pymysql: ") else f"{lacking}")


def lacking_modules(trial) -> str:
    """A folder from which Python finds that a module isn't there."""
    folder = trial.path("lacking")
    os.makedirs(folder, exist_ok=True)
    write_file(os.path.join(folder, "pymysql.py"), b"raise ModuleNotFoundError(\"No module named 'pymysql'\", name='pymysql')\n")
    return folder


class ReadStopped:
    """Stops the process before one of its readings from the server, for a while in which its connections are ended."""

    def __init__(self, number: int, does: Callable[[], None]) -> None:
        self.number, self.does, self.seen = number, does, 0

    def __call__(self) -> None:
        from pymysql.connections import Connection
        from recorder import server

        read, received = Connection._read_bytes, server._Reading._received

        def counted(connection: Connection, size: int) -> bytes:
            self._meet()
            return read(connection, size)

        def counted_log(*how: object) -> bytes:
            self._meet()
            return received(*how)

        # a log's events come by smaller pieces than it would have them
        Connection._read_bytes, server._Reading._received, server.CHUNK = counted, counted_log, 2**12

    def _meet(self) -> None:
        self.seen += 1
        if self.seen == self.number:
            self.does()


def stop_itself() -> None:
    os.kill(os.getpid(), signal.SIGSTOP)


def lost_connections(trial, place: Place) -> None:
    """The server ends all connections at one reading after the other: of the catalogue, of a snapshot, of the log."""
    words = {"--append": place.words, "--from-snapshot": with_out(place, os.path.join(place.folder, "new.feed"))}
    trial.server.sql("INSERT INTO kept.t SELECT seq + 10000, REPEAT('b', 2000) FROM kept.seq_1_to_3000; ")
    numbers = [1, 2, 3, 5, 8, 13, 21, 34, 55, 80, 110, 140, 170, 200, 240, 300, 400, 700, 1500, 3000]
    before, faults, lost = read_file(place.feed), [], 0
    for how, all_words in words.items():
        for number in numbers:
            one = Command(how, *all_words, prepare=ReadStopped(number, stop_itself))
            _, status = os.waitpid(one.pid, os.WUNTRACED)
            if not os.WIFSTOPPED(status):
                before = read_file(place.feed)
                break
            for line in trial.server.sql("SHOW PROCESSLIST").stdout.decode().splitlines():
                if "SHOW PROCESSLIST" not in line:
                    trial.server.sql(f"KILL {line.split()[0]}", check=False)
            one.kill(signal.SIGCONT)
            done = one.wait()
            lost += done.status
            why = done.why_not_stopped("record again") if done.status else None
            why = why or (f"{place.left()} left" if place.left() else "the feed was changed" if done.status and read_file(place.feed) != before else None)
            faults += [f"{how}, reading {number}: {why}"] if why else []
            before = read_file(place.feed)
            if os.path.exists(all_words[7]) and how != "--append":
                for name in "new.feed", "new.feed.json", "new.feed.lock":
                    os.unlink(os.path.join(place.folder, name))
    trial.check("ended, lost connections", f"{len(faults)}: {faults[0]}" if faults else None if lost > 15 else f"only {lost}")


def meets_signals(process: int) -> bool:
    """Whether a recorder has begun: before that Python itself meets SIGINT, and nobody SIGTERM."""
    try:
        with open(f"/proc/{process}/status", encoding="ascii") as status:
            caught = next(int(line.split()[1], 16) for line in status if line.startswith("SigCgt:"))
    except (OSError, StopIteration):
        return False
    return bool(caught >> signal.SIGTERM - 1 & 1)


class InCallback:
    """SIGTERM comes in a callback of Python's own, which drops what is raised there."""

    def __del__(self) -> None:
        os.kill(os.getpid(), signal.SIGTERM)
        time.sleep(0)


def interrupted(trial, place: Place) -> None:
    """Ctrl-C at any time: in a process of Python's own, and at one reading from the server after the other."""
    words = with_out(place, os.path.join(place.folder, "new.feed"))
    chance, faults = random.Random(3), []
    for number in (1, 4, 9, 20, 40, 80, 120, 160, 200, 300, 500, 1000):
        for name in signal.SIGINT, signal.SIGTERM:
            done = commands.run("--from-snapshot", *words, prepare=ReadStopped(number, lambda name=name: os.kill(os.getpid(), name)))
            why = done.why_not_stopped(f"ended by {name.name}: no feed was made") or (f"{place.left()} left" if place.left() else None)
            faults += [f"{name.name} at reading {number}: {why}"] if why else []
        done = commands.run("--from-snapshot", *words, prepare=ReadStopped(number, InCallback))
        why = done.why_not_stopped("ended by SIGTERM: no feed was made") or (f"{place.left()} left" if place.left() else None)
        faults += [f"in a callback at reading {number}: {why}"] if why else []
    for _ in range(12):
        with subprocess.Popen([os.path.join(ROOT, "record/feed"), "--program", trial.program, "--from-snapshot", *words], stdout=subprocess.PIPE, stderr=subprocess.PIPE,
                              env={**os.environ, "PYTHONDONTWRITEBYTECODE": "1"}) as one:  # fmt: skip
            while one.poll() is None and not meets_signals(one.pid):
                time.sleep(0.002)
            try:
                one.wait(0.4 * chance.random())
            except subprocess.TimeoutExpired:
                one.send_signal(signal.SIGINT)
            said = one.communicate(timeout=PATIENCE)[1]
            fine = one.returncode == 1 and said.startswith(b"feed: ended by SIGINT") and said.count(b"\n") == 1 or not said and one.returncode == 0
            faults += [] if fine and (not place.left() or one.returncode == 0) else [f"{one.returncode}, {said}, {place.left()}"]
            for name in place.left():
                os.unlink(os.path.join(place.folder, name))
    trial.check("ended, interrupted", f"{len(faults)}: {faults[0]}" if faults else None)


def killed_server(trial, server: Server) -> None:
    """A server that is killed amid a recording."""
    server.sql("SET GLOBAL innodb_flush_log_at_trx_commit=1; CREATE DATABASE k; CREATE TABLE k.t (id INT PRIMARY KEY, v TEXT);"
               " INSERT INTO k.t SELECT seq, REPEAT('a', 2000) FROM k.seq_1_to_3000; ")  # fmt: skip
    out = trial.path("server.feed")
    words = ["--socket", server.socket, "--user", "root", "--shard", "-", "--out", out, "k.t"]
    for number in 150, 4000:
        one = Command("--from-snapshot", *words, prepare=ReadStopped(number, stop_itself))
        os.waitpid(one.pid, os.WUNTRACED)
        server.restart()
        one.kill(signal.SIGCONT)
        trial.check(f"ended, a killed server at reading {number}", one.wait().why_not_stopped("record again") or ("a feed is there" if os.path.exists(out) else None))
    server.sql("DROP DATABASE k; RESET MASTER")
