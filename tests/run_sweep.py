#!/usr/bin/env python3
"""Refuses each growth of memory in turn, and wants the same answer or refusal 72 each time.

usage: tests/run_sweep.py PROGRAM

The built program runs over every case of tests/cases, as many cases at once as there are cores, and once for
each growth that it asks for: with that growth refused, and with that one and all later ones refused
(tests/refuse_growth.c). It has to
do what the case wants, or to print nothing, say `refused 72`, or the same as JSON where the words ask for that, and end with status 1; a
refusal's place, of `check`, may be missing or be told of `refused 72`. In a script the
line of a refused step is its reply: there `refused 72` may stand in place of a reply, behind which the
script goes on from another state. So it may in a session's answers, where it is a refused request's or of a stream.

The tests of the crates in SWEPT, as the gate (or `rt test`) has built them, run in the same way, each test
once or twice for each growth that it asks for. A test may fail only with want of memory: as the error that
it ends with, or as what it compared.

`run` of two feeds in threads, on 1, 2 and 4 processors, has the Nth growth refused, N from 1 until none is: it
prints the dump or says `refused 72`. And the Nth thread, alone and with all behind it: it prints the dump.

Scripts of steps on one board, some that stand in refused_steps.py and some at random, have each growth of each step
refused: the step is made again each time, and at last answers what the plain model does.
The last line is 'N passed, M failed': one check a case, one a crate, one a number of processors, and one a script.
"""
import functools
import multiprocessing
import os
import re
import subprocess
import sys
import tempfile

import preloaded
import refused_steps
import run_cases
from model import making, program as model, refusal

# The crates whose tests are swept, each with words of some tests' names and the last growth that is refused of
# the tests of the first word that fits: behind it a step of a script is refused, which these tests take for a wrong
# reply, and the cases don't. Of some crates the tests in `memory` alone are swept, which call again what found none.
EACH_GROWTH = 2**32
IN_MEMORY = {"memory::": EACH_GROWTH, "": 0}
SWEPT = {
    "row_tests": {"dumps::": 0, "repairs::": 0},
    "board_tests": IN_MEMORY,
    "thread_tests": {"memory::": EACH_GROWTH, "without_memory": EACH_GROWTH, "replies::": 3, "commands::": EACH_GROWTH, "": 0},
}
SCRIPTS_AT_RANDOM = 60
# of a run of two streams: a reader for each, and a worker beside the first thread's
FEWEST_THREADS = 3

TESTS = os.path.dirname(os.path.abspath(__file__))
ROOT = os.path.dirname(TESTS)
REFUSED = (1, b"", b"refused 72\n")
REFUSED_AS_JSON = (1, b"", refusal.as_json(b"refused 72\n"))
WANTS_MEMORY = b'"refused":{"number":72,'
PASSED_TEST = re.compile(r"^test (\S+) \.\.\. ok$", re.M)
FAILED_TEST = re.compile(r"^test (\S+) \.\.\. FAILED\n((?:    .*\n)*)", re.M)
IS_MEMORY = re.compile(r"^ +(?:error|left): .*\b(?:Memory|OutOfMemory|AllocError|AllocFailed)\b", re.M)


def is_reply_of_a_step(case, status, stdout, stderr):
    """Answers whether a script's replies are those wanted up to one that is `refused 72`."""
    replies, wanted = stdout.splitlines(), case.stdout.splitlines()
    same = [reply == other for reply, other in zip(replies, wanted)] + [False]
    first = replies[same.index(False) :][:1]
    is_script = case.words[:1] in ([b"step"], [b"resume"])
    return is_script and (status, stderr, first) == (case.status, case.stderr, [b"refused 72"])


def is_answer_of_a_session(case, status, stdout, stderr):
    """Answers whether a session's answers are those wanted up to one that tells of want of memory: its request's, or a stream's."""
    answers, wanted = stdout.splitlines(), case.stdout.splitlines()
    first = [answer for answer, other in zip(answers, wanted) if answer != other][:1]
    is_session = case.words[:1] == [b"live"] and len(answers) == len(wanted)
    return is_session and (status, stderr) == (case.status, case.stderr) and any(WANTS_MEMORY in it for it in first)


def is_told_without_its_place(case, status, stdout, stderr):
    """Answers whether a refusal is the one that is wanted, or for want of memory, without the place of its fault or with it."""
    said = status, stdout, refusal.without_place(stderr)
    # (as text too before the words are read)
    wanted = [REFUSED] + [REFUSED_AS_JSON] * (b"--json" in case.words)
    return said in wanted or said == (case.status, case.stdout, refusal.without_place(case.stderr or b""))


def sweep_case(program, library, name):
    """Answers why the case fails under some refused growth, or nothing; and how many growths it asks for."""
    case = run_cases.Case(name)
    with case.place() as place, tempfile.NamedTemporaryFile("r", encoding="ascii") as count:
        preloaded = {**os.environ, "LD_PRELOAD": library}
        plain = case.run(program, place, {**preloaded, "GROWTHS": count.name})
        if case.faults(*plain):
            return "fails with no growth refused", 0
        growths = int(count.read())
        for at in range(1, growths + 1):
            for refused in (f"{at}", f"{at}+"):
                ran = case.run(program, place, {**preloaded, "REFUSE_GROWTH": refused})
                if case.faults(*ran) and not (is_told_without_its_place(case, *ran) or is_reply_of_a_step(case, *ran) or is_answer_of_a_session(case, *ran)):
                    return f"growth {refused} of {growths} refused: status {ran[0]}, output {ran[1]!r}, error {ran[2]!r}", growths
    return None, growths


def runs_tests(tests, name, told):
    """Runs the built tests whose names contain a name, with told beside the environment, and answers the status and what was printed."""
    how = {"stdin": subprocess.DEVNULL, "stdout": subprocess.PIPE, "stderr": subprocess.STDOUT}
    words = [preloaded.toolchain("rattle-test"), "--seconds", "60", "--filter", name, tests]
    ran = subprocess.run(words, env={**os.environ, **told}, text=True, errors="replace", **how)
    return ran.returncode, ran.stdout


def sweep_test(tests, lasts, name):
    """Answers why the test fails under some refused growth, or nothing; and how many growths it asks for."""
    last = next((growth for word, growth in lasts.items() if word in name), EACH_GROWTH)
    if not last:
        return None, 0
    with tempfile.NamedTemporaryFile("r", encoding="ascii") as count:
        status, said = runs_tests(tests, name, {"GROWTHS": count.name})
        growths = int(count.read())
    if status:
        return f"{name} fails with no growth refused\n{said}", 0
    growths = min(growths, last)
    for at in range(1, growths + 1):
        for refused in (f"{at}", f"{at}+"):
            status, said = runs_tests(tests, name, {"REFUSE_GROWTH": refused})
            failed = FAILED_TEST.findall(said)
            if status and not (failed and all(IS_MEMORY.search(why) for _, why in failed)):
                return f"growth {refused} of {growths} refused\n{said}", growths
    return None, growths


def sweep_crate(pool, room, library, name, lasts):
    """Answers why the crate's tests fail under some refused growth, or nothing."""
    built = os.path.join(ROOT, "crates", name, "out", f"{name}_tests")
    if not os.path.isfile(built):
        return "its tests are not built: `rt test` builds them"
    # the runner of the tests itself is to have all its memory
    tests = os.path.join(room, f"{name}_tests")
    with open(tests, "w", encoding="utf-8") as it:
        it.write(f'#!/bin/sh\nLD_PRELOAD={library} exec {built} "$@"\n')
    os.chmod(tests, 0o755)
    status, said = runs_tests(tests, "", {})
    names = PASSED_TEST.findall(said)
    if status or not names:
        return f"fails with no growth refused\n{said}"
    said = pool.map(functools.partial(sweep_test, tests, lasts), names, chunksize=1)
    print(f"tests of {name}: {sum(growths for _, growths in said)} growths refused, one by one and with all behind")
    return next((why for why, _ in said if why is not None), None)


def sweep_script(program, library, given):
    """Answers why the replies of a script differ with its growths refused, or nothing; how many were, and how many of them it did without."""
    with tempfile.TemporaryDirectory(prefix="vrepl-sweep-") as place:
        return refused_steps.sweep(program, library, place, *given[1:])


def sweep_scripts(pool, program, library):
    """The scripts' titles, and of each why its replies differ, or nothing."""
    scripts = [*refused_steps.worked(), *refused_steps.at_random(SCRIPTS_AT_RANDOM)]
    said = pool.map(functools.partial(sweep_script, program, library), scripts, chunksize=1)
    growths, spared = (sum(it[place] for it in said) for place in (1, 2))
    print(f"{len(scripts)} scripts: {growths} growths refused, one by one, each step again behind each; {spared} of them it did without")
    return [f"script of {it[0]}" for it in scripts], [why for why, *_ in said]


def sweep_run(program, library, processors):
    """Answers why a run in threads on so many processors fails under some refused growth or thread, or nothing."""
    files = {"workflow": making.TWO, "lower": making.LOWER, "upper": making.UPPER}
    words = ["run", *files]
    wanted = model.answers(words, files)
    chosen = sorted(os.sched_getaffinity(0))[:processors]
    how = {"capture_output": True, "preexec_fn": lambda: os.sched_setaffinity(0, chosen), "timeout": run_cases.SECONDS}
    with tempfile.TemporaryDirectory(prefix="vrepl-sweep-") as place:
        for name, data in files.items():
            with open(os.path.join(place, name), "wb") as file:
                file.write(data)

        def run(counted, **refused):
            """What it says, and how many growths or threads it asks for."""
            told = {"LD_PRELOAD": library, counted: os.path.join(place, "count"), **refused}
            ran = subprocess.run([program, *words], cwd=place, env={**os.environ, **told}, **how)
            with open(told[counted], encoding="ascii") as file:
                return (ran.returncode, ran.stdout, ran.stderr), int(file.read())

        at, growths = 0, 1
        while at < growths:
            at += 1
            said, growths = run("GROWTHS", REFUSE_GROWTH=f"{at}")
            if said not in [*wanted, REFUSED]:
                return f"growth {at} refused: {said}"
            growths += said == REFUSED
        _, threads = run("THREADS")
        if threads < FEWEST_THREADS:
            return f"{threads} threads are made"
        for one in range(1, threads + 1):
            for refused in f"{one}", f"{one}+":
                said, _ = run("THREADS", REFUSE_THREAD=refused)
                if said not in wanted:
                    return f"thread {refused} of {threads} refused: {said}"
    print(f"run in threads on {processors} processors: {at - 1} growths refused, one by one, and {threads} threads, one by one and with all behind")
    return None


def main(program):
    program = os.path.abspath(program)
    names = run_cases.names()
    with tempfile.TemporaryDirectory(prefix="vrepl-sweep-") as room, multiprocessing.Pool() as pool:
        library = preloaded.library(room, "refuse_growth")
        sweep = functools.partial(sweep_case, program, library)
        said = pool.map(sweep, names, chunksize=1)
        print(f"{len(names)} cases: {sum(growths for _, growths in said)} growths refused, one by one and with all behind")
        of_cases = [f"case {name}" for name in names], [why for why, _ in said]
        of_scripts = sweep_scripts(pool, program, library)
        of_crates = [f"crate {name}" for name in SWEPT], [sweep_crate(pool, room, library, *it) for it in SWEPT.items()]
        of_runs = [f"run on {it} processors" for it in (1, 2, 4)], [sweep_run(program, library, it) for it in (1, 2, 4)]
    swept = [*zip(*of_cases), *zip(*of_scripts), *zip(*of_crates), *zip(*of_runs)]
    faults = [f"{name}: {why}" for name, why in swept if why is not None]
    checks = len(swept)
    for it in faults:
        print(f"sweep: {it}")
    print(f"{checks - len(faults)} passed, {len(faults)} failed")
    return 1 if faults else 0


if __name__ == "__main__":
    if len(sys.argv) != 2 or sys.argv[1] == "--help":
        sys.exit("usage: tests/run_sweep.py PROGRAM")
    sys.exit(main(sys.argv[1]))
