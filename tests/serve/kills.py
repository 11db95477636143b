"""A target that is killed again and again while its feeds grow: the database's rows are those of its positions."""
import os
import random
import signal
import time
from contextlib import suppress

from .daemon import Target, awaits
from .into import has_written, with_server
from .stores import Store
from .writer import Writer, workflow

KILLS = int(os.environ.get("SERVE_KILLS", "50"))
EACH = 15
"""How many groups each feed grows by between two kills, at most."""


@with_server
def tried(trial, server) -> None:
    writer = Writer(trial, "kills", 3, 0.05)
    writer.grow(30)
    server.sql("CREATE DATABASE kills")
    store = Store(trial, server, "kills", trial.put("kills.json", workflow("-a0")))
    chance, faults, compared, counts, seen = random.Random(3), [], 0, [], set()
    target = Target(trial.live, trial.path("kills.checkpoint"), store.workflow, writer.feeds, "--into", store.url, "--save-every", "1.5", "--groups", "20")
    writer.most = 30
    with writer:
        for turn in range(KILLS):
            with target:
                if chance.random() < 0.75:
                    with suppress(RuntimeError):
                        awaits(lambda: target.state()["into"]["positions"], "positions", 30)
                        # (what the program reads anew each time is bounded, however slow a machine is)
                        writer.most += EACH
                        wanted = target.state()["into"]["transactions"] + chance.randrange(1, 4)
                        awaits(lambda wanted=wanted: target.state()["into"]["transactions"] >= wanted, "transactions", 3)
                    time.sleep(chance.random() * 0.2)
                else:
                    time.sleep(chance.random() * 1.5)
                if turn % 5 == 4:
                    # the program alone, and then both
                    number = target.state()["program"]["pid"]
                    with suppress(ProcessLookupError):
                        os.kill(number or 0 or target.process.pid, signal.SIGKILL)
                    time.sleep(chance.random())
                target.kill()
            with suppress(Exception):
                seen.add(tuple(store.held()[0]))
            why = store.why_not_exact(writer.whole())
            if why and "not all is copied" in why and turn < KILLS // 2:
                continue
            compared += 1
            if why:
                faults.append(f"kill {turn}: {why}")
            counts.append(target.said().count("made equal"))
        trial.check(f"{KILLS} kills, and rows that are those of the positions each time", not faults and compared > KILLS * 0.8, (compared, faults[:2]))
        trial.check("which went on between them", len(seen) > KILLS // 3, (len(seen), sum(counts)))
        trial.note(f"{len(seen)} different positions, {compared} times compared, rows held {sum(counts)} times")
    with target:
        awaits(lambda: has_written(target), "all rows")
        trial.check("and all rows at last", (why := store.why_not_exact(writer.whole())) is None, why)
        trial.check("and it ends", target.end() == 0, target.lines)
