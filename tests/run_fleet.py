#!/usr/bin/env python3
"""Reshards a keyspace by fleet/reshard, and holds each target to what `follow` makes of it in one process.

usage: tests/run_fleet.py PROGRAM

Four source shards with rows that are put, changed, moved to other keys and other targets, and removed, made from a
seed; three targets by `in_keyrange`. Checkpoints and dumps have to be the same, bit for bit: plainly, where a worker
process is killed in mid-task twice, where each task runs twice at once, where results are found, and in twenty orders
and nestings of the joins. A feed that is refused and a disk that fills end their target alone. Targets whose ranges leave
a gap or overlap are refused, rows that are in none are counted, checkpoints are moved on where a feed grew, and how far a job is
is told. The cluster is this script's: processes on the loopback that end with each run. Where python3-distributed of the system isn't installed
nothing is tried, and the script says so and counts nothing. The last line is 'N passed, M failed': one a check.
"""
import io
import json
import os
import random
import re
import signal
import subprocess
import sys
import tempfile
import time
from concurrent.futures import ThreadPoolExecutor

from model import making

ROOT = os.path.dirname(os.path.dirname(os.path.abspath(__file__)))
OWN = "/usr/bin/python3"
PATIENCE = 600
"""The seconds that a command is given: it ends in five, on a machine with nothing else to do."""
SHARDS = ["-40", "40-80", "80-c0", "c0-"]
TARGETS = ["-55", "55-aa", "aa-"]
OWN_SHARDS = {"-40": ["-55"], "40-80": ["-55", "55-aa"], "80-c0": ["55-aa", "aa-"], "c0-": ["aa-"]}
"""The targets that meet a shard's own range."""
ROWS = re.compile(r"^(\S+) +(\d+) +(\S+) +[\d.]+ +(\d+)$", re.M)
sys.dont_write_bytecode = True
sys.path.append(os.path.join(ROOT, "fleet"))

HELD = """#!/bin/sh
# Two tasks name the worker that runs them, and wait until it is killed.
for it in 1 2; do
    if [ "$1" = follow ] && mkdir {folder}/held.$it 2>/dev/null; then
        echo $PPID > {folder}/held.$it/worker
        exec sleep 600
    fi
done
exec {program} "$@"
"""
WAITING = """#!/bin/sh
# The first task of all waits until it may go on.
if [ "$1" = follow ] && mkdir {folder}/waiting 2>/dev/null; then
    while [ ! -e {folder}/go ]; do sleep 0.05; done
fi
exec {program} "$@"
"""
CLUSTER = b"""import os, sys
from distributed import LocalCluster
if __name__ == "__main__":
    with LocalCluster(n_workers=2, threads_per_worker=1, host="127.0.0.1", dashboard_address="127.0.0.1:0",
                      worker_dashboard_address="127.0.0.1:0", local_directory=".") as cluster:
        with open(sys.argv[1] + ".part", "w") as file:
            file.write(cluster.scheduler_address)
        os.rename(sys.argv[1] + ".part", sys.argv[1])
        sys.stdin.read()
"""
FULL = """#!/bin/sh
# No byte fits on the disk of one target.
case "$*" in *{target}.json*) trap '' XFSZ; ulimit -f 0 ;; esac
exec {program} "$@"
"""


def is_installed():
    return not subprocess.run([OWN, "-c", "import distributed"], capture_output=True).returncode


def groups_of(r, first, count):
    """Changes of one shard's rows: put, changed, moved to another key and removed."""
    there, said = {}, []
    for _ in range(count):
        changes = []
        for _ in range(r.randrange(1, 5)):
            key = first + r.randrange(80)
            before, after = there.get(key), (key, b"%x" % r.randrange(1 << 40))
            if before and r.random() < 0.4:
                moved = (first + 80 + r.randrange(80), before[1])
                after = None if r.random() < 0.5 or moved[0] in there else moved
            there.pop(key, None)
            if after:
                there[after[0]] = after
            changes.append((before, after))
        said.append(changes)
    return said


class Trial:
    """A folder with a job, what each target has to be, and the count of what was seen."""

    def __init__(self, program, folder):
        self.program, self.folder, self.passed, self.failed = os.path.abspath(program), folder, 0, 0
        self.random = random.Random(54)
        for s, shard in enumerate(SHARDS):
            uuid = making.U[:-1] + b"%d" % s
            self.put(f"{shard}.feed", making.feed(groups_of(self.random, 1000 * s, 150), uuid))
        self.wanted = {}
        for target in TARGETS:
            self.put(f"{target}.json", self.workflow(target, SHARDS))
            ran = self.run(self.program, "follow", "--dump", "--save-to", self.path("one"), self.path(f"{target}.json"), *self.feeds())
            assert ran.returncode == 0, ran
            self.wanted[target] = self.get("one"), ran.stdout

    @staticmethod
    def workflow(target, shards):
        return making.workflow(*shards, match="t", text=f"select * from t where in_keyrange(v, 'binary_md5', '{target}')")

    def path(self, *name):
        return os.path.join(self.folder, *name)

    def put(self, name, data):
        with open(self.path(name), "wb") as file:
            file.write(data)

    def get(self, *name):
        with open(self.path(*name), "rb") as file:
            return file.read()

    def feeds(self):
        return [self.path(f"{shard}.feed") for shard in SHARDS]

    def run(self, *words, **how):
        told = {**os.environ, "PYTHONDONTWRITEBYTECODE": "1"}
        return subprocess.run(words, cwd=ROOT, capture_output=True, timeout=PATIENCE, env=told, **how)

    def script(self, name, text, **said):
        """A program in front of the one that is tried."""
        self.put(name, text.format(program=self.program, **said).encode())
        os.chmod(self.path(name), 0o755)
        return self.path(name)

    def job(self, results, **more):
        """Writes a job over all targets; answers its file."""
        said = {
            "feeds": {shard: f"{shard}.feed" for shard in SHARDS},
            "workflows": {target: f"{target}.json" for target in TARGETS},
            "results": results,
            "program": self.program,
            "workers": 3,
        }
        self.put(f"{results}.job", json.dumps(said | more).encode())
        return self.path(f"{results}.job")

    def reshard(self, results, **more):
        return self.run("fleet/reshard", self.job(results, **more), text=True)

    def check(self, title, holds, why=""):
        self.passed, self.failed = self.passed + bool(holds), self.failed + (not holds)
        print(f"  {title}" if holds else f"FAILED {title}: {str(why)[:600]}", flush=True)

    def is_filled(self, results, target):
        """Whether a target is as `follow` makes it, and nothing else is left in its folder."""
        streams = [f"stream-{s}.checkpoint{end}" for s in range(len(SHARDS)) for end in ("", ".json")]
        left = sorted(os.listdir(self.path(results, target))) == sorted([*streams, "target.checkpoint", "target.dump"])
        return left and self.wanted[target] == (self.get(results, target, "target.checkpoint"), self.get(results, target, "target.dump"))

    def are_filled(self, results, *targets):
        return all(self.is_filled(results, target) for target in targets or TARGETS)


def plainly(trial):
    for target in TARGETS:
        trial.put(f"{target}.dump", trial.wanted[target][1])
    ran = trial.reshard("plain", wanted={target: f"{target}.dump" for target in TARGETS})
    trial.check("three targets are those of follow in one process", ran.returncode == 0 and trial.are_filled("plain"), ran)
    rows = {target: str(trial.wanted[target][1].count(b"\n") - 1) for target in TARGETS}
    trial.check("the table has a line for each", ROWS.findall(ran.stdout) == [(it, "4", rows[it], "5") for it in TARGETS], ran.stdout)
    trial.check("and a line stands for each task", len(re.findall(r"^\S+ (?:stream \d|join): [\d.]+ s$", ran.stdout, re.M)) == 15, ran.stdout)
    trial.put(f"{TARGETS[0]}.dump", trial.wanted[TARGETS[1]][1])
    cut = trial.get("plain", TARGETS[1], "stream-2.checkpoint")[:-1]
    trial.put(f"plain/{TARGETS[1]}/stream-2.checkpoint", cut)
    ran = trial.reshard("plain", wanted={TARGETS[0]: f"{TARGETS[0]}.dump"})
    trial.check("results are found, and one that isn't whole is made again", ran.stdout.count(": found") == 11 and trial.are_filled("plain"), ran)
    trial.check("a dump that isn't the wanted one", ran.returncode == 1 and f"target {TARGETS[0]} vdiff: processed" in ran.stderr, ran)


def killed(trial):
    held = trial.script("held", HELD, folder=trial.folder)
    words = ["fleet/reshard", trial.job("killed", program=held)]
    ran = subprocess.Popen(words, cwd=ROOT, stdout=subprocess.PIPE, stderr=subprocess.PIPE, text=True)
    end = time.monotonic() + PATIENCE
    for it in ("held.1", "held.2"):
        while ran.poll() is None and time.monotonic() < end:
            time.sleep(0.05)
            worker = trial.get(it, "worker") if os.path.exists(trial.path(it, "worker")) else b""
            if worker.endswith(b"\n"):
                # (it tells in a thread of its own that the task was begun)
                time.sleep(0.5)
                os.kill(int(worker), signal.SIGKILL)
                break
    out, err = ran.communicate(timeout=PATIENCE)
    trial.check("a worker is killed in mid-task, twice", ran.returncode == 0 and trial.are_filled("killed"), (out, err))
    trial.check("and their tasks were begun once more", sum(int(it[3]) for it in ROWS.findall(out)) >= 17, out)


def by_address(trial):
    """A cluster that runs elsewhere, whose workers don't have the package; and one that isn't there."""
    trial.put("cluster.py", CLUSTER)
    ran = subprocess.Popen([OWN, trial.path("cluster.py"), trial.path("address")], cwd=trial.folder, stdin=subprocess.PIPE, stderr=subprocess.DEVNULL)
    end = time.monotonic() + PATIENCE
    while not os.path.exists(trial.path("address")) and ran.poll() is None and time.monotonic() < end:
        time.sleep(0.05)
    said = trial.reshard("elsewhere", cluster=trial.get("address").decode())
    trial.check("a cluster that runs already", said.returncode == 0 and trial.are_filled("elsewhere"), said)
    ran.communicate(b"end", timeout=PATIENCE)
    said = trial.reshard("nowhere", cluster="tcp://127.0.0.1:9")
    trial.check("a cluster that isn't there", said.returncode == 1 and said.stderr.startswith("reshard: no cluster answers at tcp://127.0.0.1:9: "), said)


def descendants(pid):
    """A process and all that it has begun."""
    parents = {}
    for name in filter(str.isdigit, os.listdir("/proc")):
        try:
            with open(f"/proc/{name}/stat") as file:
                parents.setdefault(file.read().rpartition(")")[2].split()[1], []).append(name)
        except OSError:
            continue
    found = [str(pid)]
    for one in found:
        found += parents.get(one, [])
    return found


def listening(pids):
    """The addresses at which processes listen, as /proc/net has them."""
    inodes = set()
    for pid in pids:
        try:
            links = [os.readlink(f"/proc/{pid}/fd/{number}") for number in os.listdir(f"/proc/{pid}/fd")]
        except OSError:
            continue
        inodes |= {link[8:-1] for link in links if link.startswith("socket:[")}
    found = set()
    for name in ("tcp", "tcp6"):
        with open(f"/proc/net/{name}") as file:
            lines = [line.split() for line in file.read().splitlines()[1:]]
        found |= {words[1].partition(":")[0] for words in lines if words[3] == "0A" and words[9] in inodes}
    return found


def on_the_loopback(trial):
    """Its processes listen on the loopback alone, and two jobs at once don't meet."""
    words = ["fleet/reshard", trial.job("waiting-job", program=trial.script("waits", WAITING, folder=trial.folder))]
    ran = subprocess.Popen(words, cwd=ROOT, stdout=subprocess.PIPE, stderr=subprocess.PIPE, text=True)
    end = time.monotonic() + PATIENCE
    while ran.poll() is None and not os.path.exists(trial.path("waiting")) and time.monotonic() < end:
        time.sleep(0.05)
    there = listening(descendants(ran.pid))
    trial.check("it listens on the loopback alone", there == {"0100007F"}, there)
    other = trial.reshard("beside")
    trial.put("go", b"")
    out, err = ran.communicate(timeout=PATIENCE)
    trial.check("two at once", ran.returncode == 0 and not err and trial.are_filled("waiting-job"), (out, err))
    trial.check("and the other one", other.returncode == 0 and not other.stderr and trial.are_filled("beside"), other)


def refused(trial):
    """One target with a feed that is cut, one whose disk is full, and one that has all."""
    broken, full, whole = TARGETS
    trial.put("cut.feed", trial.get("c0-.feed")[:-1])
    trial.put("broken.json", trial.workflow(broken, [*SHARDS[:3], "cut"]))
    feeds = {shard: f"{shard}.feed" for shard in [*SHARDS, "cut"]}
    workflows = {broken: "broken.json", full: f"{full}.json", whole: f"{whole}.json"}
    ran = trial.reshard("refused", feeds=feeds, workflows=workflows, program=trial.script("full", FULL, target=full), partial=True)
    lines = ran.stderr.splitlines()
    one = [it for it in lines if it.startswith(f"target {broken} ")]
    words = f"target {broken} stream 3: refused 81: a feed's message is cut short; place stream 3 file {trial.path('cut.feed')} message "
    trial.check("a feed that is cut ends its target alone, with place and words", len(one) == 1 and one[0].startswith(words), ran)
    other = [it for it in lines if it.startswith(f"target {full} ")]
    trial.check("a disk that is full ends its target alone", len(other) == 4 and all(": refused 132 file " in it for it in other), ran)
    trial.check("nothing stays on it", os.listdir(trial.path("refused", full)) == [], os.listdir(trial.path("refused", full)))
    trial.check("the third is filled", ran.returncode == 1 and len(lines) == 5 and trial.is_filled("refused", whole), ran)
    said = trial.reshard("refused", workflows={whole: f"{whole}.json"}, feeds={"-40": "-40.feed"})
    trial.check("a shard without a feed", said.returncode == 1 and said.stderr == f"reshard: target {whole} reads shard 40-80, which has no feed\n", said)
    bare = trial.run(OWN, "-S", "fleet/reshard", trial.job("bare"), text=True)
    trial.check("what isn't installed", bare.returncode == 1 and bare.stderr == "reshard: python3-distributed isn't installed: apt-get install python3-distributed\n", bare)


def tiled(trial):
    """What the ranges of a job's targets leave out or have twice is refused before anything is begun."""
    one, other, last = TARGETS
    trial.put("aa-bb.json", trial.workflow("aa-bb", SHARDS))
    trial.put("numeric.json", trial.workflow(other, SHARDS).replace(b"in_keyrange(v, 'binary_md5'", b"in_keyrange(id, 'numeric'"))
    trial.put("all.json", making.workflow(*SHARDS, match="t"))
    trial.put("nothing.json", making.workflow(*SHARDS, match="u"))
    trial.put("fault.json", trial.workflow("5-", SHARDS))
    trial.put("upper.json", trial.workflow(last, SHARDS[:3]))
    once = "reshard: the targets don't have each row once: table t shard ks/"
    refused = {
        "a target is left out": ([one, other], f"{once}80-c0 gap aa-c0, and 1 more that `tiles` tells of"), "one alone": ([other], f"{once}-40 gap -40, and "),
        "ranges leave a gap": ([one, other, "aa-bb"], f"{once}80-c0 gap bb-c0, and 1 more"),
        "ranges overlap": ([one, other, last, "aa-bb"], f"{once}80-c0 overlap aa-bb target {last} target aa-bb"),
        "another vindex": ([one, "numeric", last], f"{once}-40 ranges by other columns or vindexes"),
        "all rows in one": ([one, "all", other, last], f"{once}-40 overlap -40 target {one} target all"),
        "a shard that one lacks": ([one, other, "upper"], f"{once}c0- gap c0-"),
        "a workflow that is refused": ([one, "fault"], "reshard: target fault: refused 55 stream 0 rule 0: "),
    }  # fmt: skip
    for name, (targets, line) in refused.items():
        ran = trial.reshard("tiled", workflows={it: f"{it}.json" for it in targets})
        fine = ran.returncode == 1 and ran.stderr.startswith(line) and ran.stderr.count("\n") == 1 and not ran.stdout
        trial.check(f"refused where {name}", fine and not os.path.exists(trial.path("tiled")), ran)
    from resharder.job import read_job
    from resharder.rules import check_rules

    ways = {"in one target each, and one that has none": ([one, "nothing", other, last], False), "in each target": (["all", "all"], True)}
    for name, (targets, is_everywhere) in ways.items():
        job = read_job(trial.job("rules", workflows={f"{at} {it}": f"{it}.json" for at, it in enumerate(targets)}))
        trial.check(f"rows {name}", check_rules(job) == {"t": is_everywhere}, targets)
    ran = trial.reshard("some", workflows={it: f"{it}.json" for it in (one, other)}, partial=True)
    trial.check("some of the targets", ran.returncode == 0 and trial.are_filled("some", one, other) and "rows of the sources" not in ran.stdout, ran)
    ran = trial.reshard("each", workflows={"a": "all.json", "b": "all.json"})
    trial.check("all rows in each target", ran.returncode == 0 and "\nall " in ran.stdout and ran.stdout.endswith(" rows of the sources are in the targets\n"), ran)


def counted(trial):
    """A row that lies in another shard than its own range, where no target looks for it, is missing in the count."""
    said = {it: [shard for shard in SHARDS if it in OWN_SHARDS[shard]] for it in TARGETS}
    for target, shards in said.items():
        trial.put(f"own{target}.json", trial.workflow(target, shards))
    ran = trial.reshard("counted", workflows={it: f"own{it}.json" for it in TARGETS})
    line = re.search(r"^table t: the sources have (\d+) rows, and the targets (\d+)$", ran.stderr, re.M)
    trial.check("rows that are in no target", ran.returncode == 1 and line and int(line[1]) > int(line[2]) > 0, ran)


def moved_on(trial):
    """A feed that grew: the checkpoints are moved on; one that is another one: they are made anew, which is said."""
    whole = trial.get("-40.feed")
    trial.put("-40.feed", cut_behind_groups(whole, 90))
    first, was = trial.reshard("grown"), trial.are_filled("grown")
    trial.put("-40.feed", whole)
    again = trial.reshard("grown")
    trial.check("less of a feed first", first.returncode == 0 and not was and ": moved on" not in first.stdout, first)
    fine = again.returncode == 0 and again.stdout.count(": moved on, ") == 3 and again.stdout.count(": found") == 9 and trial.are_filled("grown")
    trial.check("checkpoints are moved on where a feed grew", fine, again)
    trial.put("-40.feed", making.feed(groups_of(random.Random(2), 0, 150), making.U[:-1] + b"0"))
    other = trial.reshard("grown")
    fine = other.returncode == 0 and len(re.findall(r"stream 0: filled anew, since the old checkpoint is refused 11[78]\b", other.stdout)) == 3
    trial.check("and made anew where it is another one", fine and not trial.is_filled("grown", TARGETS[0]), other)
    trial.put("-40.feed", whole)


def cut_behind_groups(feed, count):
    """A feed's first groups, each of which is a message."""
    at = 0
    for _ in range(count):
        length = shift = 0
        while True:
            byte = feed[at]
            at, length, shift = at + 1, length | (byte & 127) << shift, shift + 7
            if byte < 128:
                break
        at += length
    return feed[:at]


def told(trial):
    """How far a job is: drawn anew on a terminal, written into a file now and then, and not said where it is to be quiet."""
    from resharder.job import read_job
    from resharder.progress import Progress, sizes

    job = read_job(trial.job("told", program=trial.script("held", WAITING, folder=trial.folder)))
    of_tasks, form = sizes(job), r"\d+ % of [\d.]+ [kMG]B, (\d+) of 19 tasks(?:, \d+ rows a second)?, \d+:\d\d gone(?:, \d+:\d\d to come)?"
    first = sum(os.path.getsize(feed) for feed in trial.feeds())
    trial.check("what tasks read", len(of_tasks) == 19 and sum(of_tasks.values()) == 19 + 7 * first, of_tasks)
    out = io.StringIO()
    with Progress(of_tasks, out, False, pause=0.01) as progress:
        for name in of_tasks:
            progress.ended(name, 10, f"{name}: done" if "source" in name else "")
            time.sleep(0.03)
    lines = out.getvalue().splitlines()
    counts = [int(found[1]) for line in lines if (found := re.fullmatch(r"\d\d:\d\d:\d\d " + form, line))]
    trial.check("lines in a file", counts == sorted(counts) and len(set(counts)) > 2 and len(counts) + 4 == len(lines), lines[:5])
    trial.check("the last one", re.fullmatch("100 %.*, 19 of 19 tasks, .* rows a second, 0:0. gone, 0:00 to come", progress.line()), progress.line())
    ends = os.openpty()
    with subprocess.Popen(["fleet/reshard", trial.path("told.job")], cwd=ROOT, stdin=subprocess.DEVNULL, stdout=ends[1], stderr=subprocess.PIPE) as shown:
        os.close(ends[1])
        drawn = read_until(ends[0], rb"\r[1-9]\d?" + form[3:].encode() + rb"\x1b\[K")
        trial.put("go", b"")
        drawn += read_until(ends[0], rb"\Z(?!)")
    os.close(ends[0])
    fine = shown.returncode == 0 and b"\r\x1b[Ktarget  streams" in drawn and drawn.endswith(b" rows of the sources are in the targets\r\n") and b" s\r\n" not in drawn
    trial.check("a line drawn anew on a terminal", fine, drawn[-600:])
    ran = trial.run("fleet/reshard", "--quiet", trial.path("told.job"), text=True)
    trial.check("nothing but the table of a job that is quiet", ran.returncode == 0 and ran.stdout.count("\n") == 5 and not ran.stderr, ran)


def read_until(terminal, form):
    """What comes on a terminal, up to what has a form, or to its end."""
    said = b""
    while not re.search(form, said):
        try:
            piece = os.read(terminal, 1 << 16)
        except OSError:
            piece = b""
        if not piece:
            break
        said += piece
    return said


def twice(trial):
    from resharder import tasks
    from resharder.job import read_job

    job = read_job(trial.job("twice"))
    with ThreadPoolExecutor(6) as pool:
        list(pool.map(lambda it: tasks.fill(job, *it), [(target, s) for target in job.targets for s in range(4)] * 2))
        list(pool.map(lambda target: tasks.join(job, target), job.targets * 2))
    trial.check("each task twice at once", trial.are_filled("twice"))


def in_any_order(trial, orders=20):
    """Joins of a target's streams, some of them twice, two or more at a time as they come."""
    r, alike = trial.random, 0
    for turn in range(orders):
        target = r.choice(TARGETS)
        parts = [trial.path("plain", target, f"stream-{s}.checkpoint") for s in range(4)]
        parts += r.sample(parts, r.randrange(3))
        r.shuffle(parts)
        while len(parts) > 1:
            one, other, *more = [parts.pop(r.randrange(len(parts))) for _ in range(r.randrange(2, len(parts) + 1))]
            also = [word for it in more for word in ("--also", it)]
            ran = trial.run(trial.program, "join", *also, trial.path(f"{target}.json"), one, other, *trial.feeds())
            assert ran.returncode == 0, ran
            name = f"joined-{turn}-{len(parts)}"
            trial.put(name, ran.stdout)
            parts.insert(r.randrange(len(parts) + 1), trial.path(name))
        with open(parts[0], "rb") as joined:
            alike += joined.read() == trial.wanted[target][0]
    trial.check(f"{orders} orders and nestings of joins", alike == orders, f"{alike} alike")


def main(program):
    if not is_installed():
        print("python3-distributed isn't installed for /usr/bin/python3: nothing was tried\n0 passed, 0 failed")
        return 0
    with tempfile.TemporaryDirectory(prefix="vrepl-fleet-") as folder:
        trial = Trial(program, folder)
        for part in (plainly, killed, by_address, on_the_loopback, refused, tiled, counted, moved_on, told, twice, in_any_order):
            part(trial)
    print(f"{trial.passed} passed, {trial.failed} failed")
    return 1 if trial.failed else 0


if __name__ == "__main__":
    if len(sys.argv) != 2 or sys.argv[1] == "--help":
        sys.exit(__doc__)
    sys.exit(main(sys.argv[1]))
