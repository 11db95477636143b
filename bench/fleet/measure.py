#!/usr/bin/env python3
"""Measures fleet/reshard with 1, 2 and 4 workers, over four streams of one target and over four targets, and prints a table.

usage: bench/fleet/measure.py PROGRAM [MB..] [--turns N]     10 and 100 MB of feeds in all, and three turns, if not given

Feeds are made by bench/feed/make_feed.py, ten rows a group, and kept in /tmp/vrepl_fleet. Each line: the feeds' bytes, what
is filled, the workers, the least and the most seconds of the turns, the peak memory of the largest process, how often the
program was run, and the bytes of the streams' checkpoints, which are written and read again to be joined. In front of them
stands `vrepl run`, in threads: of the one target, and of the four, one behind the other. Behind the four stands the slowest of
them where each is filled alone, by one worker and by four.
"""
import argparse
import json
import os
import shutil
import subprocess
import sys
import time

HERE = os.path.dirname(os.path.abspath(__file__))
ROOT = os.path.dirname(os.path.dirname(HERE))
FOLDER = "/tmp/vrepl_fleet"
SHARDS = ["-40", "40-80", "80-c0", "c0-"]


def workflow(target):
    table = {"name": "t", "columns": [["id", "INT64"], ["v", "VARCHAR"]], "key": ["id"]}
    text = f"select * from t where in_keyrange(v, 'binary_md5', '{target}')" if target else ""
    rules = {"rules": [{"match": "t", "filter": text}]}
    return {"keyspace": "ks", "tables": [table], "streams": [{"shard": shard, "filter": rules} for shard in SHARDS]}


def write(name, said):
    with open(f"{FOLDER}/{name}", "w", encoding="utf-8") as out:
        json.dump(said, out)
    return f"{FOLDER}/{name}"


def make(megabytes):
    """The feeds' files, and those of the workflows: of all rows, and of a quarter each."""
    os.makedirs(FOLDER, exist_ok=True)
    feeds = {}
    for s, shard in enumerate(SHARDS):
        feeds[shard] = f"{FOLDER}/{megabytes}_{s}.feed"
        if not os.path.exists(feeds[shard]):
            groups = int(megabytes * 1_000_000 / 430 / len(SHARDS))
            with open(feeds[shard], "wb") as out:
                subprocess.run([sys.executable, f"{ROOT}/bench/feed/make_feed.py", "--stream", str(s), str(len(SHARDS)), str(groups), "10"], stdout=out, check=True)
    return feeds, {"one target": {"-": write("all.json", workflow(""))}, "four targets": {it: write(f"{it}.json", workflow(it)) for it in SHARDS}}


def timed(words):
    """Seconds, and the peak memory of the largest process in bytes."""
    begun = time.monotonic()
    child = subprocess.Popen(words, stdout=subprocess.DEVNULL)
    _, status, usage = os.wait4(child.pid, 0)
    if status:
        sys.exit(f"{words} ended with {status}")
    return time.monotonic() - begun, usage.ru_maxrss * 1024


def in_threads(program, workflows, feeds):
    runs = [timed([program, "run", it, *feeds.values()]) for it in workflows.values()]
    return sum(run[0] for run in runs), max(run[1] for run in runs)


def by_fleet(program, workflows, feeds, workers):
    results = f"{FOLDER}/results"
    shutil.rmtree(results, ignore_errors=True)
    said = {"feeds": feeds, "workflows": workflows, "results": results, "program": program, "workers": workers}
    return timed([f"{ROOT}/fleet/reshard", write("job.json", said)])


def moved():
    """The bytes of the streams' checkpoints."""
    found = [os.path.join(at, name) for at, _, names in os.walk(f"{FOLDER}/results") for name in names]
    return sum(os.path.getsize(it) for it in found if "/stream-" in it and it.endswith(".checkpoint"))


def line(*cells):
    print("| " + " | ".join(cells) + " |", flush=True)


def told(runs):
    return f"{min(run[0] for run in runs):.2f} to {max(run[0] for run in runs):.2f} s", f"{max(run[1] for run in runs) / 1e6:.0f} MB"


def main():
    parser = argparse.ArgumentParser(usage=__doc__)
    parser.add_argument("program", type=os.path.abspath)
    parser.add_argument("megabytes", type=int, nargs="*", default=[10, 100])
    parser.add_argument("--turns", type=int, default=3)
    said = parser.parse_args()
    line("The feeds", "What", "Workers", "Time", "The largest process", "Runs of the program", "Checkpoints of streams")
    line(*["---"] * 7)
    for megabytes in said.megabytes:
        feeds, all_workflows = make(megabytes)
        size = f"{sum(map(os.path.getsize, feeds.values())):,} bytes"
        for what, workflows in all_workflows.items():
            line(size, what, "`run`", *told([in_threads(said.program, workflows, feeds) for _ in range(said.turns)]), str(len(workflows)), "")
            for workers in 1, 2, 4:
                runs = [by_fleet(said.program, workflows, feeds, workers) for _ in range(said.turns)]
                # each target has a run for each stream, one to join them, and one for the dump
                line(size, what, str(workers), *told(runs), str(len(workflows) * (len(SHARDS) + 2)), f"{moved():,} bytes")
            for workers in (1, 4) if len(workflows) > 1 else ():
                alone = [max(by_fleet(said.program, {name: it}, feeds, workers) for name, it in workflows.items()) for _ in range(said.turns)]
                line(size, "the slowest of these alone", str(workers), *told(alone), str(len(SHARDS) + 2), "")


if __name__ == "__main__":
    main()
