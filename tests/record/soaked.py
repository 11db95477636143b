"""A recording by the program that lives beside clients that write, over logs that end and are purged, and meets one harm behind the
other: kills, connections that are lost, servers that are killed, copies that are cut, damaged and away, and no room for the copies or
the feed. Each transaction is in the feed once, and no row differs."""
import json
import os
import random
import resource
import shutil
import signal
import time

from .bylog import World, logs_of
from .commands import Command, run
from .kept import read_file
from .living import clients
from .load import SCHEMAS, SHARDS, Load, creation, tables_of
from .server import Server

SETTINGS = ["--innodb-flush-log-at-trx-commit=1", "--sync-binlog=1"]
"""So that a server that is killed has lost nothing that its log has."""
HARM = ["killed", "connection", "cut", "purged", "room for a copy", "server", "gone", "ended", "damaged", "room for the feed"]
ROUNDS = int(os.environ.get("SOAK_ROUNDS", len(HARM) * 2))
ROOM = 3000


class Soak:
    """The feed, and what was seen of it."""

    def __init__(self, trial, server: Server) -> None:
        self.server, self.chance, self.seen, self.faults = server, random.Random(6), b"", []
        self.world = World(type(trial)(server, trial.program), SCHEMAS[0], SHARDS[0], *tables_of(SCHEMAS[0]))

    def copies(self) -> list[str]:
        folder = f"{self.world.by}.logs"
        return sorted(os.path.join(folder, name) for name in os.listdir(folder)) if os.path.exists(folder) else []

    def least(self, harm: str) -> int:
        """The size of a file up to which there is room; 0 where there always is."""
        sizes = {"room for a copy": max(map(os.path.getsize, self.copies()), default=0), "room for the feed": os.path.getsize(self.world.by)}
        return sizes[harm] + ROOM if harm in sizes else 0

    def round(self, harm: str, seed: int) -> None:
        least = self.least(harm) if self.seen else 0
        one = Command(*self.world.words(*(["--append"] if self.seen else []), "--forever"),
                      prepare=lambda: least and resource.setrlimit(resource.RLIMIT_FSIZE, (least, least)))  # fmt: skip
        if not least:
            one.awaits(lambda: one.has_said("going on"), harm)
        if harm == "server":
            self.server.restart()
            one.awaits(lambda: one.has_said("going on", 2), harm)
        with clients(self.server.socket, seed, xa=False):
            if harm == "connection":
                for line in self.server.sql("SHOW PROCESSLIST").stdout.decode().splitlines():
                    if "Binlog Dump" in line:
                        self.server.sql(f"KILL {line.split()[0]}")
            if least:
                # clients write until there is no room
                one.awaits(one.has_ended, harm)
            else:
                time.sleep(self.chance.random())
                one.kill(signal.SIGTERM if harm == "ended" else signal.SIGKILL)
        done, data = one.wait(), read_file(self.world.by)
        wanted = 1 if least else 0 if harm == "ended" else -signal.SIGKILL
        if done.status != wanted or not data.startswith(self.seen) or "itself" in done.err or least and done.err.count("\nfeed: ") > 2:
            self.faults.append(f"{harm}: {len(data)} bytes behind {len(self.seen)}, {done}")
        self.seen = data[: json.loads(read_file(f"{self.world.by}.json"))["size"]]
        self.behind(harm)

    def behind(self, harm: str) -> None:
        """What happens before the next recording."""
        if harm == "cut":
            for path in self.copies()[-1:]:
                os.truncate(path, self.chance.randrange(os.path.getsize(path)))
        elif harm == "gone":
            shutil.rmtree(f"{self.world.by}.logs")
        elif harm == "purged":
            run(*self.world.words("--append"))
            self.server.sql("FLUSH BINARY LOGS")
            run(*self.world.words("--append"))
            self.world.decode("--append")
            self.server.purge(logs_of(self.world.trial)[-1])
        elif harm == "damaged":
            self.damaged()

    def damaged(self) -> None:
        """A bit of a copy is turned: that is refused, by a line that says what to do, which is enough."""
        run(*self.world.words("--append"))
        place = json.loads(read_file(f"{self.world.by}.json"))["place"]
        path = os.path.join(f"{self.world.by}.logs", place["log"])
        data = bytearray(read_file(path))
        # (behind the head of the first event, so that the copy is still told to be of its log)
        data[self.chance.randrange(40, place["offset"])] ^= 1 << self.chance.randrange(8)
        with open(path, "r+b") as file:
            file.write(data)
        self.server.sql(f"INSERT INTO {SCHEMAS[0]}.whole (id) VALUES (7) ON DUPLICATE KEY UPDATE i8 = 1 - COALESCE(i8, 0)")
        done = run(*self.world.words("--append"))
        if done.why_not_stopped(f"take {self.world.by}.logs away"):
            self.faults.append(f"damaged: {done}")
        shutil.rmtree(f"{self.world.by}.logs")


def soaked(trial) -> None:
    with Server(7, *SETTINGS) as server:
        server.sql("RESET MASTER; " + creation())
        soak = Soak(trial, server)
        Load(server.socket, 31, clients=2, transactions=20, xa=False).wait()
        soak.world.record()
        soak.seen = read_file(soak.world.by)
        for at in range(ROUNDS):
            soak.round(HARM[at % len(HARM)], 50 + at)
        trial.check("by log, soaked", f"{len(soak.faults)}: {soak.faults[0]}" if soak.faults else None)
        done = soak.world.record("--append")
        have, want = soak.world.changes(soak.world.by), soak.world.changes(soak.world.own)
        fine = have == want and len(want) > 100 and not done[0].status
        trial.check("by log, soaked, each transaction once", None if fine else f"{done}, {len(have)} groups and {len(want)}")
        workflow = soak.world.trial.workflow("soaked.json", [SHARDS[0]], tables_of(SCHEMAS[0]))
        trial.same("by log, soaked, rows", trial.made(trial.program, "run", workflow, soak.world.by), soak.world.trial.selected(workflow, SCHEMAS[0]), 20)
