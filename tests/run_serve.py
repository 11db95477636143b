#!/usr/bin/env python3
"""Tries serve/: a target that is served, applied to a database and switched over to, over real feeds and real servers.

usage: tests/run_serve.py [--program LIVE] [--picture FILE] PROGRAM [STEP ..]

PROGRAM is a built program, whose `live` runs and whose `run` says what the rows have to be. With --program LIVE is what is run for `vrepl live`,
as a stand-in by the plain model, tests/live_model.py. Requests are real ones, pages are looked at in a headless Chromium, and feeds come from
private MariaDB servers in temporary folders, without a network; the last step is the whole chain, from two servers under clients that write,
to four targets in a third one, with kills of each kind of process. With --picture the page of that is kept in FILE. With STEPs these alone are
tried. What needs a package of the system's that isn't installed is named and not counted. The last line is 'N passed, M failed': one a check.
"""
import argparse
import importlib.util
import os
import signal
import sys
import tempfile
import time
import traceback
from collections.abc import Callable

from serve.trial import Trial

ROOT = os.path.dirname(os.path.dirname(os.path.abspath(__file__)))
OWN = "/usr/bin/python3"
MODULES = ("aiohttp", "prometheus_client", "pymysql", "google.protobuf")
sys.dont_write_bytecode = True
sys.path.append(os.path.join(ROOT, "record"))


def has_modules() -> bool:
    try:
        return all(importlib.util.find_spec(name) for name in MODULES)
    except ModuleNotFoundError:
        return False


def steps() -> list[dict[str, Callable[[Trial], None]]]:
    """In rows that are tried side by side."""
    from serve import answers, chain, ends, into, kills, looks, page

    return [
        {"chain": chain.tried, "page": page.tried},
        {"kills": kills.tried},
        {"answers": answers.tried, "guarded": answers.guarded, "hostile": answers.hostile, "ends": ends.tried, "begun": ends.begun, "looks": looks.tried,
         "into": into.tried, "held": into.held, "refused": into.refused},
    ]  # fmt: skip


def tried(trial: Trial, row: dict[str, Callable[[Trial], None]]) -> None:
    for name, step in row.items():
        begun = time.monotonic()
        trial.step = name
        try:
            step(trial)
        except Exception as fault:  # noqa: BLE001
            trial.check("to its end", False, f"{type(fault).__name__}: {fault}")
            if os.environ.get("SERVE_TRACE"):
                traceback.print_exc()
        if os.environ.get("SERVE_TIMES"):
            trial.note(f"{time.monotonic() - begun:.1f} s")


def aside(trial: Trial, row: dict[str, Callable[[Trial], None]]) -> tuple[int, int]:
    """Tries a row in a process of its own; that, and what it tells its counts by."""
    from record.server import die_with_parent

    begin, end = os.pipe()
    pid = os.fork()
    if pid:
        os.close(end)
        return pid, begin
    try:
        die_with_parent()
        tried(trial, row)
        os.write(end, f"{trial.passed} {trial.failed}".encode())
    except SystemExit:
        pass
    finally:
        sys.stdout.flush()
        os._exit(0)


def counts(pid: int, begin: int) -> tuple[int, int]:
    """How many checks of a row passed, and how many failed, once it has ended."""
    with open(begin, "rb") as pipe:
        said = pipe.read().split()
    os.waitpid(pid, 0)
    return (int(said[0]), int(said[1])) if said else (0, 1)


def words() -> argparse.Namespace:
    parser = argparse.ArgumentParser(prog="tests/run_serve.py", description=__doc__, formatter_class=argparse.RawDescriptionHelpFormatter)
    parser.add_argument("--program", metavar="LIVE")
    parser.add_argument("--picture", metavar="FILE")
    parser.add_argument("built", metavar="PROGRAM")
    parser.add_argument("steps", nargs="*", metavar="STEP")
    return parser.parse_args()


def main() -> int:
    if not has_modules() and os.access(OWN, os.X_OK) and not os.environ.get("OWN_PYTHON"):
        os.execve(OWN, [OWN, os.path.abspath(__file__), *sys.argv[1:]], {**os.environ, "OWN_PYTHON": "1"})
    said = words()
    if not has_modules():
        print("python3-aiohttp, python3-prometheus-client, python3-pymysql and python3-protobuf are not all installed: nothing was tried\n0 passed, 0 failed")
        return 0
    for number in (signal.SIGTERM, signal.SIGHUP):
        signal.signal(number, lambda *_: sys.exit(1))
    with tempfile.TemporaryDirectory(prefix="vrepl-serve-") as folder:
        trial = Trial(folder, os.path.abspath(said.built), os.path.abspath(said.program or said.built), said.picture)
        rows = [{name: step for name, step in row.items() if not said.steps or name in said.steps} for row in steps()]
        asides = [aside(trial, row) for row in rows[1:] if row]
        try:
            tried(trial, rows[0])
            found = [counts(*one) for one in asides]
        except BaseException:
            for pid, _ in asides:
                os.kill(pid, signal.SIGTERM)
                os.waitpid(pid, 0)
            raise
    passed, failed = (sum(one) for one in zip((trial.passed, trial.failed), *found))
    print(f"{passed} passed, {failed} failed")
    return 1 if failed else 0


if __name__ == "__main__":
    sys.exit(main())
