#!/usr/bin/env python3
"""Tries sessions of `vrepl live`, and holds them to docs/LIVE.md, 'The session's protocol'.

usage: tests/run_live.py [--program PROGRAM] LIVE [STEP ..]

LIVE is what is run for `vrepl live`: a built program, or a stand-in for it by the plain model (tests/live_model.py); both are held to the same page.
PROGRAM is a built program that says by `run --until` what the rows have to be, LIVE unless given, and nothing where that is the stand-in; the plain
model in tests/model says so in any case.

    asks      each request and its answer
    refused   what is no request (124), no table (125), no key (126); lines that are too long, and at random
    begun     what can't be opened
    ends      how a session ends
    grows     feeds that grow by a byte at a time, with whole and with broken transactions
    broken    a feed that is refused stops its stream alone; keys that streams share
    files     feeds' files that are replaced, cut short, away (127, 131)
    large     feeds of more than one request reads, and rows of many megabytes
    memory    no memory is left (72)
    saves     checkpoints that are replaced many times, by two sessions, in files that are none
    kills     sessions that are killed at random, and go on from their checkpoint
    changes   who applies `changes` has the rows of the positions that are told, over random workflows and feeds

With STEPs these alone are tried, all otherwise, side by side. The last line is 'N passed, M failed': one a check.
"""
import argparse
import multiprocessing
import os
import shutil
import signal
import sys
import tempfile
import time
import traceback
from concurrent.futures import ProcessPoolExecutor, as_completed

sys.dont_write_bytecode = True
from live import asks, changing, growing, saving  # noqa: E402
from record.server import die_with_parent  # noqa: E402
from serve.trial import Trial  # noqa: E402

STEPS = {
    "changes": changing.tried, "kills": saving.killed, "refused": asks.refused, "asks": asks.tried, "begun": asks.begun, "ends": asks.ends, "grows": growing.tried, "broken": growing.broken,
    "files": growing.files, "large": growing.large, "memory": growing.memory, "saves": saving.tried,
}  # fmt: skip


def tried(name: str, program: str | None, live: str, folder: str) -> tuple[int, int, str, float]:
    """Tries a step in a process of its own: what passed and failed, and how long it took."""
    begun = time.monotonic()
    trial = Trial(os.path.join(folder, name), program, live, is_brief=True)
    trial.step = name
    os.mkdir(trial.folder)
    try:
        STEPS[name](trial)
    except Exception as fault:  # noqa: BLE001
        trial.check("to its end", False, f"{type(fault).__name__}: {fault}")
        if os.environ.get("LIVE_TRACE"):
            traceback.print_exc()
    return trial.passed, trial.failed, name, time.monotonic() - begun


def words() -> argparse.Namespace:
    parser = argparse.ArgumentParser(prog="tests/run_live.py", description=__doc__, formatter_class=argparse.RawDescriptionHelpFormatter)
    parser.add_argument("--program", metavar="PROGRAM")
    parser.add_argument("live", metavar="LIVE")
    parser.add_argument("steps", nargs="*", metavar="STEP")
    said = parser.parse_intermixed_args()
    if unknown := [name for name in said.steps if name not in STEPS]:
        parser.error(f"no step {unknown[0]}: one of {', '.join(STEPS)}")
    for name in filter(None, (said.live, said.program)):
        if not os.path.isfile(name) or not os.access(name, os.X_OK):
            parser.error(f"no program at {name}")
    return said


def main() -> int:
    said = words()
    live = os.path.abspath(said.live)
    program = os.path.abspath(said.program) if said.program else None if live.endswith(".py") else live
    for number in (signal.SIGTERM, signal.SIGHUP):
        signal.signal(number, lambda *_: sys.exit(1))
    passed = failed = 0
    with tempfile.TemporaryDirectory(prefix="vrepl-live-") as folder:
        pool = ProcessPoolExecutor(min(4, os.cpu_count() or 1), initializer=begin)
        try:
            for done in as_completed(pool.submit(tried, name, program, live, folder) for name in said.steps or STEPS):
                more, less, name, seconds = done.result()
                passed, failed = passed + more, failed + less
                print(f"  {name}: {more} passed, {less} failed" + (f", {seconds:.1f} s" if os.environ.get("LIVE_TIMES") else ""), flush=True)
        except BaseException:
            for child in multiprocessing.active_children():
                child.kill()
                child.join()
            shutil.rmtree(folder, ignore_errors=True)
            os._exit(1)
        pool.shutdown()
    print(f"{passed} passed, {failed} failed")
    return 1 if failed else 0


def begin() -> None:
    """For a process of a step."""
    die_with_parent()
    for number in (signal.SIGTERM, signal.SIGHUP):
        signal.signal(number, signal.SIG_DFL)


if __name__ == "__main__":
    sys.exit(main())
