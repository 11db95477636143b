#!/usr/bin/python3
"""What a living target takes: changes a second, time from a commit to the page, and memory over an hour.

usage: bench/live/measure.py [--program LIVE] [--seconds N] [--rate N] [PART ..]

LIVE is what runs for `vrepl live`, the program of this repository unless one is named. The parts are

    alone     a feed's changes through LIVE by itself: all at once, and a hundred groups a request
    chain     through a server's log, record/feed --forever, serve/target and a second server, as fast as four clients write
    latency   from a commit at the source to the event of /events, to the page in a headless Chromium, and to the target's server
    memory    the memory of serve/target and of LIVE at --rate changes a second (100) for --seconds (3600), each ten seconds

and without one all but `memory`, with 20 seconds each. Private servers in temporary folders are used. What is printed is in lines for
README.md beside this.
"""
import argparse
import asyncio
import json
import os
import shutil
import signal
import statistics
import subprocess
import sys
import tempfile
import threading
import time
from contextlib import ExitStack

ROOT = os.path.dirname(os.path.dirname(os.path.dirname(os.path.abspath(__file__))))
sys.dont_write_bytecode = True
sys.path[:0] = [os.path.join(ROOT, "tests"), os.path.join(ROOT, "record")]

import pymysql  # noqa: E402
from record.server import Server  # noqa: E402
from serve.browser import Browser, command  # noqa: E402
from serve.daemon import Target  # noqa: E402
from serve.sources import Recorder, workflow  # noqa: E402
from serve.writer import Shard  # noqa: E402
from serve.writer import workflow as plan_of_two  # noqa: E402

TABLE = "CREATE TABLE t (id BIGINT PRIMARY KEY, v VARCHAR(60), n INT)"
CLIENTS, ROWS = 4, 5
"""How many clients write, and how many rows each of their transactions has."""


class Folder:
    """A place for files, as the tests' Trial is one."""

    def __init__(self, path: str) -> None:
        self._path = path

    def path(self, *name: str) -> str:
        return os.path.join(self._path, *name)

    def put(self, name: str, data: bytes) -> str:
        with open(self.path(name), "wb") as file:
            file.write(data)
        return self.path(name)


def line(*cells: object) -> None:
    print("| " + " | ".join(map(str, cells)) + " |", flush=True)


def resident(pid: int) -> float:
    """The megabytes of a process."""
    with open(f"/proc/{pid}/status", encoding="ascii") as file:
        return next(int(one.split()[1]) for one in file if one.startswith("VmRSS:")) / 1024


def alone(folder: Folder, live: str, _: argparse.Namespace) -> None:
    """Groups of some three changes, of two streams."""
    shards = [Shard(number, 1) for number in (0, 1)]
    groups = [[shard.group(6) for _ in range(5000)] for shard in shards]
    count, size = sum(map(len, groups)), sum(len(one) for own in groups for one in own)
    for name, together in (("all at once", 5000), ("100 a request", 100)):
        feeds = [folder.put(f"alone.{at}.feed", b"") for at in (0, 1)]
        words = [live, "live", folder.put("alone.json", plan_of_two()), *feeds]
        with subprocess.Popen(words, stdin=subprocess.PIPE, stdout=subprocess.PIPE) as process:

            def ask(text: str, process=process) -> dict:
                process.stdin.write(text.encode() + b"\n")
                process.stdin.flush()
                return json.loads(process.stdout.readline())["ok"]

            ask("more")
            ask("changes")
            changes, seconds = 0, 0.0
            for first in range(0, 5000, together):
                for own, feed in zip(groups, feeds):
                    with open(feed, "ab") as file:
                        file.write(b"".join(own[first:first + together]))
                begun = time.monotonic()
                ask("more")
                changes += len(ask("changes")["changes"])
                seconds += time.monotonic() - begun
            memory = resident(process.pid)
            ask("end")
        line("alone, " + name, f"{count} groups, {size / 1e6:.1f} MB", f"{seconds:.2f} s", f"{count / seconds:.0f} groups a second", f"{changes} rows told", f"{memory:.0f} MB")


class Chained:
    """A source, its recording, a target, and the server that it goes into. Use it with `with`."""

    def __init__(self, folder: Folder, live: str, name: str) -> None:
        self._folder, self._live, self._name = folder, live, name

    def __enter__(self) -> "Chained":
        self._opened = ExitStack().__enter__()
        try:
            self.source, self.server = (self._opened.enter_context(Server(number)) for number in (71, 72))
            for one in (self.source, self.server):
                one.sql(f"CREATE DATABASE b CHARACTER SET utf8mb4; USE b; {TABLE}")
            feed = self._folder.path(f"{self._name}.feed")
            self.recorder = self._opened.enter_context(Recorder(self.source, feed, "-", "b.t", program=self._live))
            plan = workflow(self.source, self._folder.path(f"{self._name}.json"), "b", ["-"], ["b.t"])
            url = f"mysql://root@/b?socket={self.server.socket}"
            self.target = self._opened.enter_context(Target(self._live, self._folder.path(f"{self._name}.checkpoint"), plan, [feed], "--into", url))
            self.target.awaits_well()
        except BaseException:
            self.__exit__()
            raise
        return self

    def __exit__(self, *_: object) -> None:
        self._opened.close()

    def connect(self, server) -> pymysql.Connection:
        return pymysql.connect(unix_socket=server.socket, user="root", database="b", autocommit=True)

    def reached(self) -> float:
        """The seconds until the target's server has what the source has now."""
        position = self.source.sql("SELECT @@gtid_binlog_pos").stdout.decode().strip()
        begun = time.monotonic()
        while (status := self.target.get("/reached", position=position, timeout=30).status) != 200:
            if status != 504:
                raise RuntimeError(f"/reached: {status}")
        return time.monotonic() - begun


def chain(folder: Folder, live: str, said: argparse.Namespace) -> None:
    with Chained(folder, live, "chain") as chained:
        over, counts = threading.Event(), [0] * CLIENTS

        def write(at: int) -> None:
            with chained.connect(chained.source) as connection, connection.cursor() as cursor:
                while not over.is_set():
                    first = counts[at]
                    rows = ", ".join(f"({(first + more) * CLIENTS + at}, 'value {first + more}', {more})" for more in range(ROWS))
                    cursor.execute(f"INSERT INTO t VALUES {rows}")
                    counts[at] += ROWS

        clients = [threading.Thread(target=write, args=(at,)) for at in range(CLIENTS)]
        begun = time.monotonic()
        for client in clients:
            client.start()
        time.sleep(said.seconds)
        over.set()
        for client in clients:
            client.join()
        written = time.monotonic() - begun
        late = chained.reached()
        count = int(chained.server.sql("SELECT COUNT(*) FROM b.t").stdout)
        if count != sum(counts):
            raise RuntimeError(f"{count} rows of {sum(counts)}")
        line("chain", f"{count} rows, {ROWS} a transaction", f"{written:.1f} s of writing, {late:.1f} s until all is there", f"{count / written:.0f} rows a second written",
             f"{count / (written + late):.0f} rows a second through all")  # fmt: skip


def latency(folder: Folder, live: str, _: argparse.Namespace) -> None:
    with Chained(folder, live, "latency") as chained:
        line("latency", "from the commit to", "median", "of ten the ninth", "the longest")
        found = {"the target's server": by_server(chained), "the event of /events": by_event(chained)}
        if command():
            found["the page"] = asyncio.run(by_page(chained))
        for name, seconds in found.items():
            seconds.sort()
            line("latency", name, *(f"{one:.3f} s" for one in (statistics.median(seconds), seconds[len(seconds) * 9 // 10], seconds[-1])))


def commits(chained: Chained, first: int, count: int):
    """One row after another, each with the moment of its commit; some time is between them."""
    with chained.connect(chained.source) as connection, connection.cursor() as cursor:
        for number in range(first, first + count):
            time.sleep(0.13 + number % 7 / 50)
            cursor.execute("INSERT INTO t VALUES (%s, %s, 1)", (number, f"row {number}"))
            yield number, time.monotonic()


def by_server(chained: Chained) -> list[float]:
    found = []
    with chained.connect(chained.server) as connection, connection.cursor() as cursor:
        for number, begun in commits(chained, 1_000_000, 40):
            while not cursor.execute("SELECT 1 FROM t WHERE id=%s", number):
                time.sleep(0.002)
            found.append(time.monotonic() - begun)
    return found


def by_event(chained: Chained) -> list[float]:
    from urllib.request import urlopen

    found = []
    with urlopen(chained.target.address + "events", timeout=60) as events:

        def applied() -> int:
            while not (said := events.readline()).startswith(b"data: "):
                pass
            return json.loads(said[6:])["streams"][0]["applied"]

        before = applied()
        for _, begun in commits(chained, 2_000_000, 40):
            while (now := applied()) <= before:
                pass
            found.append(time.monotonic() - begun)
            before = now
    return found


async def by_page(chained: Chained) -> list[float]:
    found = []
    async with Browser() as browser:
        await browser.be(1400, 900, "light")
        await browser.open(chained.target.address)
        await browser.awaits("document.querySelector('#keys input') && !isAsking")
        await browser.value("document.querySelector('#keys input').value = '3000000'; document.querySelector('#find button').click()")
        making = commits(chained, 3_000_000, 20)
        while (one := await asyncio.to_thread(next, making, None)) is not None:
            number, begun = one
            await browser.awaits(f"document.querySelector('#rows').innerText.includes('row {number}')")
            found.append(time.monotonic() - begun)
    return found


def memory(folder: Folder, live: str, said: argparse.Namespace) -> None:
    """Rows are put, changed and taken away, of some 10,000 keys, so that what grows isn't the rows."""
    with Chained(folder, live, "memory") as chained, chained.connect(chained.source) as connection, connection.cursor() as cursor:
        line("memory", "minutes", "changes", "serve/target", "the program", "the feed")
        begun, count, told = time.monotonic(), 0, 0.0
        while (now := time.monotonic() - begun) < said.seconds:
            if now >= told:
                state = chained.target.state()
                numbers = chained.target.process.pid, state["program"]["pid"]
                line("memory", f"{now / 60:.1f}", count, *(f"{resident(number):.1f} MB" for number in numbers), f"{state['streams'][0]['size'] / 1e6:.1f} MB")
                told += 10
            if (early := count / said.rate - now) > 0:
                time.sleep(min(early, 0.5))
                continue
            key = count * 7919 % 10_007
            cursor.execute("DELETE FROM t WHERE id=%s" if count % 5 == 4 else "REPLACE INTO t VALUES (%s, REPEAT('v', 20), 1)", key)
            count += 1
        chained.reached()


PARTS = {"alone": alone, "chain": chain, "latency": latency, "memory": memory}


def main() -> int:
    parser = argparse.ArgumentParser(prog="bench/live/measure.py", description=__doc__, formatter_class=argparse.RawDescriptionHelpFormatter)
    parser.add_argument("--program", default=os.path.join(ROOT, "vrepl"), metavar="LIVE")
    parser.add_argument("--seconds", type=float)
    parser.add_argument("--rate", type=float, default=100)
    parser.add_argument("parts", nargs="*", metavar="PART")
    said = parser.parse_intermixed_args()
    if unknown := [name for name in said.parts if name not in PARTS]:
        parser.error(f"no part {unknown[0]}: one of {', '.join(PARTS)}")
    if not os.access(said.program, os.X_OK) or os.path.isdir(said.program):
        parser.error(f"no program at {said.program}")
    for number in (signal.SIGTERM, signal.SIGHUP):
        signal.signal(number, lambda *_: sys.exit(1))
    path = tempfile.mkdtemp(prefix="vrepl-live-")
    try:
        for name in said.parts or [name for name in PARTS if name != "memory"]:
            PARTS[name](Folder(path), os.path.abspath(said.program), argparse.Namespace(rate=said.rate, seconds=said.seconds or (3600 if name == "memory" else 20)))
    finally:
        shutil.rmtree(path, ignore_errors=True)
    return 0


if __name__ == "__main__":
    sys.exit(main())
