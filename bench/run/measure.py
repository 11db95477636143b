#!/usr/bin/env python3
"""Measures `vrepl run` over feeds of 1, 2 and 4 streams, each some MB in all, and prints a table.

usage: bench/run/measure.py PROGRAM [MB..]          10 and 100 MB if not given

Feeds are made by bench/feed/make_feed.py, ten rows a group, and kept in /tmp/vrepl_run. Each line: the streams, the
feeds' bytes, then `xxd -p` of the same bytes, `run --alone` and `run`, each the least and the most of five runs in
seconds and MB/s of the least, and the peak memory of the two runs over the feeds' bytes.
"""
import json
import os
import subprocess
import sys
import time

HERE = os.path.dirname(os.path.abspath(__file__))
FOLDER = "/tmp/vrepl_run"
TURNS = 5


def workflow(streams):
    table = {"name": "t", "columns": [["id", "INT64"], ["v", "VARCHAR"]], "key": ["id"]}
    rules = {"rules": [{"match": "/.*", "filter": ""}]}
    shards = {1: ["-"], 2: ["-80", "80-"], 4: ["-40", "40-80", "80-c0", "c0-"]}[streams]
    return {"keyspace": "ks", "tables": [table], "streams": [{"shard": shard, "filter": rules} for shard in shards]}


def make(streams, megabytes):
    """The words of the files: the workflow, and a feed for each stream."""
    os.makedirs(FOLDER, exist_ok=True)
    path = f"{FOLDER}/{streams}.json"
    with open(path, "w") as out:
        json.dump(workflow(streams), out)
    names = [path]
    groups = int(megabytes * 1_000_000 / 430 / streams)
    for s in range(streams):
        name = f"{FOLDER}/{megabytes}_{s}_of_{streams}"
        if not os.path.exists(name):
            with open(name, "wb") as out:
                words = ["--stream", str(s), str(streams), str(groups), "10"]
                subprocess.run([sys.executable, f"{HERE}/../feed/make_feed.py", *words], stdout=out, check=True)
        names.append(name)
    return names


def timed(words):
    """Seconds, and the peak memory in bytes."""
    start = time.monotonic()
    child = subprocess.Popen(words, stdout=subprocess.DEVNULL)
    _, status, usage = os.wait4(child.pid, 0)
    seconds = time.monotonic() - start
    if status != 0:
        sys.exit(f"{words} ended with {status}")
    return seconds, usage.ru_maxrss * 1024


def several(words):
    runs = [timed(words) for _ in range(TURNS)]
    seconds = [run[0] for run in runs]
    return min(seconds), max(seconds), max(run[1] for run in runs)


def shown(size, run):
    return f"{run[0]:.2f} to {run[1]:.2f} s, {size / run[0] / 1e6:.0f} MB/s"


def main():
    program = sys.argv[1]
    print("| Streams | The feeds | `xxd -p` | `run --alone` | `run` | `run` against `--alone` | Peak memory over the feeds, alone and not |")
    print("|---|---|---|---|---|---|---|")
    for megabytes in [int(word) for word in sys.argv[2:]] or [10, 100]:
        for streams in 1, 2, 4:
            names = make(streams, megabytes)
            size = sum(os.path.getsize(name) for name in names[1:])
            plain = several(["sh", "-c", "for f in \"$@\"; do xxd -p \"$f\"; done > /dev/null", "sh", *names[1:]])
            alone = several([program, "run", "--alone", *names])
            beside = several([program, "run", *names])
            line = [str(streams), f"{size:,} bytes", shown(size, plain), shown(size, alone), shown(size, beside), f"{alone[0] / beside[0]:.2f}", f"{alone[2] / size:.2f} and {beside[2] / size:.2f}"]
            print("| " + " | ".join(line) + " |", flush=True)


if __name__ == "__main__":
    if not sys.argv[1:] or sys.argv[1] == "--help":
        sys.exit(__doc__)
    main()
