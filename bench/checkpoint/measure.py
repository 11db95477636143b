#!/usr/bin/env python3
"""Measures `vrepl save` and `vrepl resume` over feeds of some numbers of rows, and prints a table.

usage: bench/checkpoint/measure.py PROGRAM [ROWS..]          250,000, 500,000 and 1,000,000 if not given
       bench/checkpoint/measure.py --timed OUT COMMAND..    the processor time and the peak memory of a command alone

Feeds are made by bench/feed/make_feed.py, ten rows a group, scripts by bench/step/make_script.py, and both are kept
in /tmp/vrepl_checkpoint. Each line: the rows, the bytes of the feed and of the checkpoint; then the processor time of
`step` and of `save` with the same script, which offers and applies every group, of `resume` with a script that
prints where the stream stands, and of `resume` with a dump, each the least and the most of three runs in seconds;
and the peak memory of `step`, `save` and `resume`. It ends where the dump of the resumed board isn't that of `step`.
"""
import os
import subprocess
import sys

HERE = os.path.dirname(os.path.abspath(__file__))
WORKFLOW = f"{HERE}/../../examples/workflows/one_shard.json"
FOLDER = "/tmp/vrepl_checkpoint"
TURNS = 3


def made(name, words):
    """The path of a file of that name, written by a script if it isn't there."""
    path = f"{FOLDER}/{name}"
    if not os.path.exists(path):
        with open(path, "wb") as out:
            subprocess.run([sys.executable, *words], stdout=out, check=True)
    return path


def text(name, lines):
    path = f"{FOLDER}/{name}"
    with open(path, "w") as out:
        out.write(lines)
    return path


def timed(words, script, printed):
    """Seconds of the processor, and the peak memory in bytes."""
    with open(script, "rb") as given, open(printed, "wb") as out:
        child = subprocess.Popen(words, stdin=given, stdout=out)
        _, status, usage = os.wait4(child.pid, 0)
    if status != 0:
        sys.exit(f"{words} ended with {status}")
    return usage.ru_utime + usage.ru_stime, usage.ru_maxrss * 1024


def several(words, script, printed):
    runs = [timed(words, script, printed) for _ in range(TURNS)]
    seconds = [run[0] for run in runs]
    return f"{min(seconds):.2f} to {max(seconds):.2f} s", max(run[1] for run in runs)


def dumped(path):
    """What stands from the dump on."""
    with open(path, "rb") as file:
        lines = file.read()
    return lines[lines.index(b"table t\n") :]


def measure(program, rows):
    groups = rows // 10
    feed = made(f"{rows}.feed", [f"{HERE}/../feed/make_feed.py", str(groups), "10"])
    script = made(f"{rows}.script", [f"{HERE}/../step/make_script.py", str(groups)])
    whole = made(f"{rows}.whole", [f"{HERE}/../step/make_script.py", str(groups), "1"])
    saved, printed, stepped = f"{FOLDER}/{rows}.checkpoint", f"{FOLDER}/{rows}.out", f"{FOLDER}/{rows}.stepped"
    resume = [program, "resume", "--checkpoint", saved, WORKFLOW, feed]
    step, step_peak = several([program, "step", WORKFLOW, feed], script, printed)
    save, save_peak = several([program, "save", WORKFLOW, feed], script, saved)
    state, peak = several(resume, text("state", "state 0\n"), printed)
    dump, _ = several(resume, text("dump", "dump\n"), printed)
    timed([program, "step", WORKFLOW, feed], whole, stepped)
    if dumped(printed) != dumped(stepped):
        sys.exit(f"{rows} rows: the dumps differ")
    sizes = [f"{rows:,}", f"{os.path.getsize(feed):,} bytes", f"{os.path.getsize(saved):,} bytes"]
    peaks = " / ".join(f"{it / 1e6:.0f}" for it in (step_peak, save_peak, peak))
    print("| " + " | ".join([*sizes, step, save, state, dump, f"{peaks} MB"]) + " |", flush=True)


def main():
    if sys.argv[1] == "--timed":
        print(*timed(sys.argv[3:], os.devnull, sys.argv[2]))
        return
    os.makedirs(FOLDER, exist_ok=True)
    print("| Rows | The feed | The checkpoint | `step` | `save` | `resume` | `resume` with a dump | Peak memory of `step` / `save` / `resume` |")
    print("|---|---|---|---|---|---|---|---|")
    for rows in [int(word) for word in sys.argv[2:]] or [250_000, 500_000, 1_000_000]:
        measure(sys.argv[1], rows)


if __name__ == "__main__":
    if not sys.argv[1:] or sys.argv[1] == "--help":
        sys.exit(__doc__)
    main()
