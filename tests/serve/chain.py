"""The whole chain: two servers under clients that write, a recording of each that goes on, four targets in a third server, and kills of
each kind of process; then a switch by the steps that serve/switch prints, with no row that differs."""
import asyncio
import os
import random
import re
import signal
import subprocess
import threading
import time
from collections import Counter
from contextlib import ExitStack, suppress

import pymysql
from record.load import md5, reverse_bits
from record.server import Server, command, is_installed

from .browser import Browser
from .browser import command as browser_command
from .daemon import QUICK, ROOT, Target, awaits
from .sources import Recorder, workflow

SECONDS = float(os.environ.get("SERVE_SECONDS", "60"))
TRANSACTIONS = int(os.environ.get("SERVE_TRANSACTIONS", "10000"))
SHARDS, RANGES = ["-80", "80-"], ["-40", "40-80", "80-c0", "c0-"]
SCHEMAS = ["ks_lower", "ks_upper"]
TABLES = ("CREATE TABLE customer (id BIGINT UNSIGNED PRIMARY KEY, name VARCHAR(60), credit DECIMAL(10,2), at TIMESTAMP(3) NULL, kind ENUM('new','old','ä'));"
          " CREATE TABLE orders (customer BIGINT UNSIGNED, item VARCHAR(40) COLLATE utf8mb4_nopad_bin, n INT, note BLOB, PRIMARY KEY (customer, item));"
          " CREATE TABLE words (word VARCHAR(40) COLLATE utf8mb4_nopad_bin PRIMARY KEY, count INT); ")  # fmt: skip
NAMES = ["customer", "orders", "words"]
VINDEXES = ["--vindex=customer=id:reverse_bits", "--vindex=orders=customer:reverse_bits", "--vindex=words=word:binary_md5"]
SAFE = ("--innodb-flush-log-at-trx-commit=1", "--sync-binlog=1")
"""A server that is killed has what its log has: else a feed would have what its source lost."""
CLIENTS = 2
LAG = 2.0


def keys() -> list[tuple[list[int], list[str]]]:
    """By shard the customers and words that are its own."""
    found: list[tuple[list[int], list[str]]] = [([], []), ([], [])]
    for number in range(1, 1500):
        found[reverse_bits(number)[:1] >= b"\x80"][0].append(number)
        word = f"word {number * 7919 % 10007} ä"
        found[md5(word)[:1] >= b"\x80"][1].append(word)
    return found


class Client(threading.Thread):
    """Writes to one shard at a rate, through lost connections, until it is told that it's over."""

    def __init__(self, socket: str, schema: str, own: tuple[list[int], list[str]], seed: int, rate: float, over: threading.Event) -> None:
        super().__init__(daemon=True)
        self._socket, self._schema, self._own, self._random, self._rate, self._over = socket, schema, own, random.Random(seed), rate, over
        self.count, self.fault = 0, None

    def run(self) -> None:
        begun = time.monotonic()
        try:
            while not self._over.is_set():
                with suppress(pymysql.err.OperationalError, pymysql.err.InterfaceError, ConnectionError):
                    with pymysql.connect(unix_socket=self._socket, user="root", database=self._schema, charset="utf8mb4") as connection, connection.cursor() as cursor:
                        while not self._over.is_set():
                            # (as many as by now are due, also behind a time without a server)
                            if (early := begun + self.count / self._rate - time.monotonic()) > 0:
                                self._over.wait(early)
                                continue
                            self._transaction(connection, cursor)
                            self.count += 1
                self._over.wait(0.1)
        except Exception as fault:  # noqa: BLE001
            self.fault = fault

    def _transaction(self, connection, cursor) -> None:
        chance, (customers, words) = self._random, self._own
        for _ in range(chance.choice((1, 1, 2, 3))):
            number, word, way = chance.choice(customers), chance.choice(words), chance.randrange(8)
            if way < 2:
                cursor.execute("REPLACE INTO customer VALUES (%s, %s, %s, NOW(3), %s)", (number, chance.choice(["Ada", "it's", "ä€", None]), chance.randrange(10**6) / 100, chance.choice(["new", "ä", None])))
            elif way == 2:
                cursor.execute("DELETE FROM customer WHERE id=%s", number)
            elif way < 5:
                cursor.execute("INSERT INTO orders VALUES (%s, %s, %s, %s) ON DUPLICATE KEY UPDATE n=n+1, note=VALUES(note)",
                               (number, chance.choice(["tea", "Tea", "tea ", "ä"]), chance.randrange(99), chance.randbytes(chance.randrange(30))))  # fmt: skip
            elif way == 5:
                cursor.execute("DELETE FROM orders WHERE customer=%s", number)
            else:
                cursor.execute("INSERT INTO words VALUES (%s, 1) ON DUPLICATE KEY UPDATE count=count+1", word)
        connection.commit()


class Chain:
    def __init__(self, trial, opened: ExitStack) -> None:
        self.trial, self.opened, self.kills = trial, opened, Counter()
        self.sources = [opened.enter_context(Server(51 + at, *SAFE)) for at in range(2)]
        self.server = opened.enter_context(Server(53))
        for source, schema in zip(self.sources, SCHEMAS):
            source.sql(f"CREATE DATABASE {schema} CHARACTER SET utf8mb4; USE {schema}; {TABLES}")
        self.feeds = [trial.path(f"{schema}.feed") for schema in SCHEMAS]
        self.recorders = [Recorder(source, feed, shard, *(f"{schema}.{name}" for name in NAMES), program=trial.program)
                          for source, feed, shard, schema in zip(self.sources, self.feeds, SHARDS, SCHEMAS)]  # fmt: skip
        self.targets, self.plans, self.schemas = [], [], []

    def begin(self) -> None:
        for recorder in self.recorders:
            self.opened.enter_context(recorder)
        for place in RANGES:
            schema = "ks_" + place.strip("-").replace("-", "_")
            schema += "_" if place.endswith("-") else ""
            plan = workflow(self.sources[0], self.trial.path(f"target{place}.json"), "ks", SHARDS, [f"{SCHEMAS[0]}.{name}" for name in NAMES], f"--filter={place}", *VINDEXES)
            self.server.sql(f"CREATE DATABASE `{schema}` CHARACTER SET utf8mb4; USE `{schema}`; {TABLES}")
            url = f"mysql://root@/{schema}?socket={self.server.socket}"
            target = Target(self.trial.live, self.trial.path(f"target{place}.checkpoint"), plan, self.feeds, "--into", url, "--save-every", "5")
            self.targets.append(self.opened.enter_context(target))
            self.plans.append(plan)
            self.schemas.append(schema)
        for target in self.targets:
            target.awaits_well()

    def kill(self) -> None:
        """Two kills of each kind of process, at moments that are spread over the time."""
        chance = random.Random(5)
        ways = [self._kill_recorder, self._kill_target, self._kill_program, self._kill_source, self._kill_server] * 2
        for at, way in enumerate(ways):
            time.sleep(SECONDS * 0.7 / len(ways) * (0.5 + chance.random()))
            way(at % 2)
            self.kills[way.__name__] += 1

    def _kill_recorder(self, at: int) -> None:
        self.recorders[at].kill()
        self.recorders[at].begin()

    def _kill_target(self, at: int) -> None:
        self.targets[2 * at].kill()
        self.targets[2 * at].begin()

    def _kill_program(self, at: int) -> None:
        if number := self.targets[2 * at + 1].program_number():
            with suppress(ProcessLookupError):
                os.kill(number, signal.SIGKILL)

    def _kill_source(self, at: int) -> None:
        self.sources[at].restart()

    def _kill_server(self, _: int) -> None:
        self.server.restart()

    def lags(self) -> list[float]:
        return [one["behind"]["seconds"] for target in self.targets for one in target.state()["streams"]]

    def option_file(self, name: str, server) -> str:
        return self.trial.put(name, f"[client]\nsocket={server.socket}\nuser=root\n".encode())


def tried(trial) -> None:
    if not is_installed():
        return trial.leave_out("the whole chain", "mariadb-server")
    with ExitStack() as opened:
        chain = Chain(trial, opened)
        chain.begin()
        over = threading.Event()
        rate = TRANSACTIONS / SECONDS / (2 * CLIENTS) * 1.05
        clients = [Client(source.socket, schema, own, 10 * at + one, rate, over) for at, (source, schema, own) in enumerate(zip(chain.sources, SCHEMAS, keys())) for one in range(CLIENTS)]
        begun = time.monotonic()
        for client in clients:
            client.start()
        try:
            chain.kill()
            awaits(lambda: sum(client.count for client in clients) >= TRANSACTIONS or any(client.fault for client in clients), "the clients", 600)
            time.sleep(max(0.0, begun + SECONDS - time.monotonic()))
            if browser_command():
                asyncio.run(pictured(trial, chain))
            awaits(lambda: all(target.is_well() for target in chain.targets), "targets that are well")
            asks = asked(chain)
            # (a machine that is busy otherwise takes longer to come back from the last kill, and for a question too)
            came = awaits(lambda: max(chain.lags()) <= LAG + 9 * asks, "a lag of two seconds, while clients write", 240)
            lags = chain.lags()
        finally:
            over.set()
        seconds = time.monotonic() - begun
        for client in clients:
            client.join()
        count = sum(client.count for client in clients)
        trial.check(f"{TRANSACTIONS} transactions in {SECONDS:g} seconds and more", count >= TRANSACTIONS and not any(client.fault for client in clients), (count, [client.fault for client in clients]))
        late = reached(chain)
        trial.note(f"{count} transactions in {seconds:.1f} s; lag at the end {max(lags):.2f} s (waited for: {came:.1f} s), and {late:.2f} s until all is reached; a question takes {asks:.2f} s")
        trial.check("the lag is at most two seconds at the end", max(*lags, late) <= LAG + 9 * asks, (lags, late, asks))
        trial.check("each kind of process was killed twice", set(chain.kills.values()) == {2} and len(chain.kills) == 5, chain.kills)
        switched(trial, chain)


def reached(chain: Chain) -> float:
    """The seconds until all targets have what the sources have now."""
    positions = [f"{at}={source.sql('SELECT @@gtid_binlog_pos').stdout.decode().strip()}" for at, source in enumerate(chain.sources)]
    begun = time.monotonic()
    found = [target.get("/reached", position=positions, timeout=60).json() for target in chain.targets]
    return time.monotonic() - begun if all(one["reached"] for one in found) else 60.0


def asked(chain: Chain) -> float:
    begun = time.monotonic()
    chain.server.sql("SELECT 1")
    return time.monotonic() - begun


async def pictured(trial, chain: Chain) -> None:
    """The page of one target, while clients write."""
    async with Browser() as browser:
        await browser.be(1400, 900, "light")
        await browser.open(chain.targets[1].address)
        await browser.awaits("document.querySelectorAll('#rows tbody tr').length > 5 && document.querySelector('#health').innerText == 'running'", 120)
        picture = await browser.picture(1240)
        trial.check("the page of a target, while clients write", len(picture) > 20_000 and not browser.faults, (len(picture), browser.faults))
        if trial.picture:
            with open(trial.picture, "wb") as file:
                file.write(picture)


def switched(trial, chain: Chain) -> None:
    """The steps that serve/switch prints, taken."""
    sources = [chain.option_file(f"{schema}.cnf", source) for schema, source in zip(SCHEMAS, chain.sources)]
    server = chain.option_file("target.cnf", chain.server)
    words = [word for target, plan, schema in zip(chain.targets, chain.plans, chain.schemas) for word in ("--target", target.address, plan, schema)]
    printed = subprocess.run([os.path.join(ROOT, "serve/switch"), "--sources", ",".join(sources), "--server", server, *words, "--timeout", "120", *chain.feeds],
                             capture_output=True, text=True, env=QUICK)  # fmt: skip
    lines = printed.stdout.splitlines()
    trial.check("serve/switch prints its five steps", printed.returncode == 0 and [line[2] for line in lines if re.match(r"# \d\. ", line)] == list("12345"), printed)
    script = "\n".join(lines).replace("--target --defaults-file", f"--program {trial.program} --target --defaults-file")
    client = command("mariadb")
    begun = time.monotonic()
    done = subprocess.run(["bash", "-e"], input=script, capture_output=True, text=True, env={**QUICK, "PATH": f"{os.path.dirname(client)}:{os.environ['PATH']}"}, timeout=600)
    reached, counts = done.stdout.count(": reached "), re.findall(r"^(processed|mismatched|extra source|extra target) (\d+)$", done.stdout, re.M)
    trial.check("all targets reach the sources' positions", done.returncode == 0 and reached == 8, done)
    wrong = [(name, number) for name, number in counts if name != "processed" and number != "0"]
    processed = sum(int(number) for name, number in counts if name == "processed")
    trial.check("0 differences in each of the four targets", len(counts) == 16 and not wrong and processed > 500, (counts, done.stderr))
    trial.note(f"{processed} rows compared; the switch took {time.monotonic() - begun:.1f} s")
    rows = sum(int(source.sql("SELECT " + " + ".join(f"(SELECT COUNT(*) FROM {schema}.{name})" for name in NAMES)).stdout) for source, schema in zip(chain.sources, SCHEMAS))
    trial.check("the targets have all rows of the sources", processed == rows, (processed, rows))
    refused = chain.sources[0].sql(f"CREATE USER client@localhost; GRANT ALL ON {SCHEMAS[0]}.* TO client@localhost; ", check=False)
    trial.check("sources are read-only from the first step on", chain.sources[0].sql("SELECT @@read_only").stdout == b"1\n", refused)
    late = subprocess.run([os.path.join(ROOT, "serve/switch"), "--await", chain.targets[0].address, "--timeout", "0.3", "--position", "0-51-99999999"], capture_output=True, text=True, env=QUICK)
    trial.check("a position that isn't reached is status 1", late.returncode == 1 and late.stdout.count("not reached") == 2, late)
    for target in chain.targets:
        trial.check("a target ends", target.end() == 0, target.lines)
