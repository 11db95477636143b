#!/usr/bin/env python3
"""Runs the built program over damaged files, restarts and writers that fail.

usage: tests/run_hostile.py PROGRAM

Each answer is compared with that of the plain model in tests/model: the worked feed cut to each length and with each
byte changed, through `show` and `step`; four checkpoints likewise, through `resume`, where a board that is taken has
to be one of the feed's; positions, rows, hexadecimal text, scripts, filters and workflows on both sides of a limit;
restarts after each step of a script, by `restart` and by `save` and `resume`; dumps and checkpoints into pipes whose
reader is gone, into a full device and into files of limited size; all cases with reads and writes that are interrupted
and take one byte (tests/short_calls.c), and signals while the program waits; feeds that can't be read; names that speak to a
terminal; files that would cost the square of their size; and feeds that would take many times their bytes of memory. The last line is 'N passed, M failed': one a check.
"""
import json
import os
import re
import resource
import signal
import subprocess
import sys
import tempfile
import time

import preloaded
import run_cases
from model import checkpoint, limits, making, program

SECONDS = 60


class Room:
    """A folder with the files of a run, and the program that runs there."""

    def __init__(self, built, place):
        self.built, self.place = os.path.abspath(built), place

    def run(self, words, files, stdin=b"", **how):
        for name, data in files.items():
            with open(os.path.join(self.place, name), "wb") as file:
                file.write(data)
        how = {"stdout": subprocess.PIPE, "stderr": subprocess.PIPE, "timeout": SECONDS, "cwd": self.place} | how
        ran = subprocess.run([self.built, *words], input=stdin, **how)
        return ran.returncode, ran.stdout, ran.stderr

    def fault(self, words, files, stdin=b""):
        """Answers how the program's answer differs from the model's, or nothing."""
        wanted = program.answers(words, files, stdin)
        status, out, error = self.run(words, files, stdin)
        said = status, out, program.without_place(error)
        return None if said in wanted else f"{said}, wanted {wanted}"


def changed(data):
    """All copies of some bytes in which one is replaced by 00, by ff or by itself plus one."""
    for at, byte in enumerate(data):
        for other in sorted({0, 255, (byte + 1) % 256} - {byte}):
            yield f"byte {at} as {other:02x}", data[:at] + bytes([other]) + data[at + 1 :]


def cut(data):
    return ((f"cut to {k} bytes", data[:k]) for k in range(len(data) + 1))


def damaged_feed(room, make, data):
    tried = 0
    for title, it in make(data):
        for words in (["show", "feed"], ["show", "--keyspace=ks", "--shard=-80", "feed"], ["step", "workflow", "feed"]):
            tried += 1
            fault = room.fault(words, {"feed": it, "workflow": making.ONE}, making.COPY_ONE + b"dump\n")
            yield fault and f"{title}, {' '.join(words)}: {fault}"
    print(f"  {tried} feeds")


# Feeds that are refused, each with its line.
BROKEN = {
    "04 0a 02 08 06": "82 cause 23 type 6",
    "02 0a 00": "82 cause 23 type 0",
    "03 0a 01 0b": "82 cause 3",
    "01 0b": "82 cause 3",
    "08 0a 06 08 04 3a 00 3a 00": "82 cause 22",
    "0d 0a 0b 08 0c 2a 07 0a 01 74 12 02 18 01": "82 cause 25",
    "07 0a 05 08 01 1a 01 78": "94 cause 32",
    "ff ff ff ff ff ff ff ff ff ff": "81",
}


def broken_feeds(room):
    for text, line in BROKEN.items():
        said = room.run(["show", "feed"], {"feed": bytes.fromhex(text)})
        yield said != (1, b"", f"refused {line}\n".encode()) and f"{text}: {said}"


def damaged_checkpoint(room, make, data, workflow, feeds):
    names = [f"feed{i}" for i in range(len(feeds))]
    files = {"workflow": workflow, **dict(zip(names, feeds))}
    script = b"".join(b"state %d\n" % s for s in range(len(feeds))) + b"dump\n"
    counts = {}
    for title, it in make(data):
        wanted = program.answers(["resume", "--checkpoint=it", "workflow", *names], {"it": it, **files}, script)
        said = room.run(["resume", "--checkpoint=it", "workflow", *names], {"it": it, **files}, script)
        kind = said[2].split()[1].decode() if said[0] else "a lawful board"
        counts[kind] = counts.get(kind, 0) + 1
        is_allowed = kind in ("116", "117", "118", "a lawful board") and (make is changed or kind == "116" or it == data)
        yield (said not in wanted or not is_allowed) and f"{title}: {said}, wanted {wanted}"
    print("  " + ", ".join(f"{count} {kind}" for kind, count in sorted(counts.items())))


def at_limits(room):
    tried = 0
    for title, *case in limits.cases():
        tried += 1
        fault = room.fault(*case)
        yield fault and f"{title}: {fault[:500]}"
    print(f"  {tried} texts")


def restarts(room):
    files = {"workflow": making.ONE, "feed": making.MOVING}
    wanted = b"table t\nx34\tx68\nx35\tx65\nx38\tx6b\n"
    steps = making.NINE_STEPS.splitlines(True)
    for k in range(len(steps) + 1):
        first = b"".join(steps[:k])
        status, said, error = room.run(["step", "workflow", "feed"], files, first + b"restart 0\n" + making.TO_THE_END)
        yield (status, said[-len(wanted) :], error) != (0, wanted, b"") and f"restart after {k} steps: {said}"
        saved = room.run(["save", "workflow", "feed"], files, first)
        resumed = room.run(["resume", "--checkpoint=it", "workflow", "feed"], files | {"it": saved[1]}, making.TO_THE_END)
        yield (saved[0], resumed[0], resumed[1][-len(wanted) :]) != (0, 0, wanted) and f"resume after {k} steps: {resumed}"


# A dump and a checkpoint of some blocks: what is written, and how much of it.
ROWS = 3000
MANY = making.feed([making.added(*((i, b"%060d" % i) for i in range(ROWS)))])
COPY_ALL = b"offer 0 1\nadvance 0\nopen 0 1\ncopy 0 %d\n" % ROWS
WRITERS = {
    "run": (["run", "workflow", "feed"], b""),
    "step": (["step", "workflow", "feed"], COPY_ALL + b"dump\n"),
    "save": (["save", "workflow", "feed"], COPY_ALL),
    "show": (["show", "feed"], b""),
}
CANNOT_WRITE = b"refused 132 file -\n"


def into_limited_file(room, words, files, stdin, limit, at_limit=signal.SIG_IGN):
    """Past the limit a write fails where SIGXFSZ is ignored; else that signal ends the program, as it ends any."""

    def limits():
        signal.signal(signal.SIGXFSZ, at_limit)
        resource.setrlimit(resource.RLIMIT_FSIZE, (limit, limit))

    with open(os.path.join(room.place, "output"), "wb") as output:
        status, _, error = room.run(words, files, stdin, stdout=output, preexec_fn=limits)
    with open(os.path.join(room.place, "output"), "rb") as output:
        return status, output.read(), error


def into_closed_pipe(room, words, files, stdin, taken):
    """The program writes into a pipe whose reader goes away once it has taken some bytes."""
    room.run(["--help"], files)
    reader, writer = os.pipe()
    ran = subprocess.Popen([room.built, *words], cwd=room.place, stdin=subprocess.PIPE, stdout=writer, stderr=subprocess.PIPE)
    os.close(writer)
    if not taken:
        os.close(reader)
    ran.stdin.write(stdin)
    ran.stdin.close()
    said = b""
    while len(said) < taken and (piece := os.read(reader, taken - len(said))):
        said += piece
    if taken:
        os.close(reader)
    error = ran.stderr.read()
    return ran.wait(SECONDS), said, error


def failing_writers(room):
    files = {"workflow": making.ONE, "feed": MANY}
    tried = 0
    for title, (words, stdin) in WRITERS.items():
        _, whole, error = room.run(words, files, stdin)
        yield (error or len(whole) < 1 << 17) and f"{title}: {error}, {len(whole)} bytes"
        ends = [*range(0, len(whole), 4096), 1, 4095, 4097, len(whole) - 1]
        for limit in ends:
            said = into_limited_file(room, words, files, stdin, limit)
            tried += 1
            yield said != (1, whole[:limit], CANNOT_WRITE) and f"{title} into {limit} bytes: {said[0], len(said[1]), said[2]}"
            said = into_limited_file(room, words, files, stdin, limit, signal.SIG_DFL)
            yield said != (-signal.SIGXFSZ, whole[:limit], b"") and f"{title} ended at {limit} bytes: {said[0], len(said[1]), said[2]}"
        yield into_limited_file(room, words, files, stdin, len(whole)) != (0, whole, b"") and f"{title} into a file of its size"
        for taken in (0, 1, 4095, 4096, 4097, 60000):
            status, said, error = into_closed_pipe(room, words, files, stdin, taken)
            tried += 1
            yield (status, said, error) != (1, whole[:taken], CANNOT_WRITE) and f"{title}, reader gone after {taken}: {status, len(said), error}"
        with open("/dev/full", "wb") as full:
            said = room.run(words, files, stdin, stdout=full)
        tried += 1
        yield (said[0], said[2]) != (1, CANNOT_WRITE) and f"{title} into /dev/full: {said}"
    small = {"workflow": making.TWO, "lower": making.LOWER, "upper": making.UPPER}
    one = {"workflow": making.ONE, "feed": making.ONE_ROW}
    for words, given, stdin in ((["run", "workflow", "lower", "upper"], small, b""), (["save", "workflow", "feed"], one, making.COPY_ONE)):
        whole = room.run(words, given, stdin)[1]
        for limit in range(len(whole)):
            said = into_limited_file(room, words, given, stdin, limit)
            tried += 1
            yield said != (1, whole[:limit], CANNOT_WRITE) and f"{words} into {limit} bytes: {said}"
    print(f"  {tried} failing writers")


def in_short_calls(room):
    """Each case with reads and writes of one byte, of which the first and every 32nd are interrupted."""
    told = {**os.environ, "LD_PRELOAD": preloaded.library(room.place, "short_calls"), "SHORT_CALLS": "1"}
    for name in run_cases.names():
        case = run_cases.Case(name)
        with case.place() as place:
            said = case.faults(*case.run(room.built, place, told))
        yield said and f"{name}: {said}"


def waits(ran):
    """Waits until a program waits for what it reads, or has ended, and answers whether it does."""
    end = time.monotonic() + SECONDS
    while time.monotonic() < end:
        with open(f"/proc/{ran.pid}/stat", "rb") as stat:
            state = stat.read().rpartition(b")")[2].split()[0]
        if state in (b"S", b"Z"):
            return state == b"S"
        time.sleep(0.0002)
    ran.kill()
    return False


def started(room, words, **how):
    """A program that signal 10 interrupts, and the name of the file that is there once it did."""
    noted = os.path.join(room.place, "interrupted")
    if os.path.exists(noted):
        os.remove(noted)
    told = {**os.environ, "LD_PRELOAD": preloaded.library(room.place, "short_calls"), "INTERRUPTED": noted}
    how = {"stdin": subprocess.DEVNULL, "stdout": subprocess.PIPE, "stderr": subprocess.PIPE, "cwd": room.place, "env": told} | how
    return subprocess.Popen([room.built, *words], **how), noted


def fed_slowly(ran, writer, data):
    """Gives a program that reads a pipe a byte at a time, with a signal before each while it waits."""
    for at in range(len(data)):
        if waits(ran):
            ran.send_signal(signal.SIGUSR1)
        if waits(ran):
            os.write(writer, data[at : at + 1])
    os.close(writer)


def signals_while_it_reads(room):
    """Signals to a program that waits for the next byte of a FIFO, or of standard input."""
    files = {"workflow": making.ONE, "feed": making.ONE_ROW}
    script = making.COPY_ONE + b"dump\n"
    of_feed, of_script = program.answers(["show", "feed"], files), program.answers(["step", "workflow", "feed"], files, script)
    room.run(["--help"], files)
    os.mkfifo(os.path.join(room.place, "fifo"))
    ran, noted = started(room, ["show", "fifo"])
    fed_slowly(ran, os.open(os.path.join(room.place, "fifo"), os.O_WRONLY), making.ONE_ROW)
    out, error = ran.communicate(timeout=SECONDS)
    yield (ran.returncode, out, error) not in of_feed and f"a feed in a FIFO: {ran.returncode, out, error}"
    yield not os.path.exists(noted) and "no read of a FIFO was interrupted"
    reader, writer = os.pipe()
    ran, noted = started(room, ["step", "workflow", "feed"], stdin=reader)
    os.close(reader)
    fed_slowly(ran, writer, script)
    out, error = ran.communicate(timeout=SECONDS)
    yield (ran.returncode, out, error) not in of_script and f"a script: {ran.returncode, out, error}"
    yield not os.path.exists(noted) and "no read of standard input was interrupted"


def signals_while_it_writes(room):
    """Signals to a program that waits until some of what it printed is taken."""
    room.run(["--help"], {"workflow": making.ONE, "feed": MANY})
    for words in (["show", "feed"], ["run", "--alone", "workflow", "feed"]):
        whole = room.run(words, {})[1]
        ran, noted = started(room, words)
        said = b""
        while waits(ran):
            ran.send_signal(signal.SIGUSR1)
            waits(ran)
            said += os.read(ran.stdout.fileno(), 10007)
        rest, error = ran.communicate(timeout=SECONDS)
        yield (ran.returncode, said + rest, error) != (0, whole, b"") and f"{words}: {ran.returncode, len(said + rest), error}"
        yield not os.path.exists(noted) and f"{words}: no write was interrupted"


def unreadable_feeds(room):
    os.mkdir(os.path.join(room.place, "folder"))
    files = {"workflow": making.ONE, "it": checkpoint.MAGIC[2], "feed": making.ONE_ROW}
    for name in ("missing", "folder"):
        for words in (["show", name], *([it, "workflow", name] for it in ("step", "save", "run")), ["resume", "--checkpoint=it", "workflow", name]):
            said = room.run(words, files)
            yield said != (1, b"", f"refused 131 file {name}\n".encode()) and f"{words}: {said}"


# What a name may have in it that speaks to a terminal or forges a line: of a feed anything, of a workflow's table or
# column no byte below 0x20.
SPEAKING = "\n\x1b[2Jwarning stream 0 no groups\r\x07\u009b31m\u202e"
LONG = "n" * 250


def speaking_names(room):
    """What `check` and its place print of names, and that the JSON has them whole."""
    quiet = SPEAKING.replace("\n", "").replace("\x1b", "").replace("\r", "").replace("\x07", "")
    table, column, shard, unknown, file = f"t{quiet}", f"v{quiet}", f"s{SPEAKING}", f"u{SPEAKING}", "feed\x1b[2J\nwarning"
    flow = json.loads(making.workflow(shard))
    flow["tables"][0] |= {"name": table, "columns": [["id", "INT64"], [column, "VARCHAR"]]}
    flow["tables"].append(flow["tables"][0] | {"name": LONG, "vindex": ["id", "numeric"]})
    columns = [(b"id", 265), (column.encode(), 6165)]
    row = [(None, (b"1", b"a"))]
    feed = making.group(making.U + b":1", row, table.encode(), columns) + making.group(making.U + b":1-2", row, unknown.encode(), columns)
    files = {"workflow": json.dumps(flow).encode(), file: feed}
    status, out, err = room.run(["check", "workflow", file], files)
    yield (status, err) != (3, b"") and f"{status, err}"
    yield bool(set(out) - {10, *range(32, 127)}) and f"bytes that aren't printable: {out}"
    lines = [re.sub(rb"\?+", b"?", it) for it in out.splitlines()]
    wanted = [b"rule stream 0 table ", b"rule stream 0 table ", b"stream 0 file feed?[2J?warning shard s", b"table t", b"table nnn"]
    wanted += [b"note stream 0 table nnn", b"warning stream 0 no table u"]
    yield len(lines) != len(wanted) and f"{len(lines)} lines, wanted {len(wanted)}: {out}"
    yield next((f"line {it}, wanted {begin}" for it, begin in zip(lines, wanted) if not it.startswith(begin)), None)
    yield max(map(len, lines)) > 300 and "a name of more than 200 bytes"
    told = json.loads(room.run(["check", "--json", "workflow", file], {})[1])["streams"][0]
    whole = told["file"], told["shard"], told["tables"][0]["table"], told["tables"][1]["table"], told["unknown"][0]["name"]
    yield whole != (file, shard, table, LONG, unknown) and f"in JSON {whole}"
    wrong = making.group(making.U + b":1", row, table.encode(), [(b"id", 265), (unknown.encode(), 6165)])
    status, out, err = room.run(["check", "workflow", file], {file: wrong})
    yield (status, out) != (1, b"") and f"{status, out}"
    yield (bool(set(err) - {10, *range(32, 127)}) or err.count(b"\n") != 2) and f"the place {err}"
    yield b" column u?" not in err and f"the place {err}"


# Names that have one hash under a hash of words that are multiplied and folded: behind this any eight bytes.
ONE_HASH = b"tbl00000000055433hf7DMe!"
COLUMN = [(b"id", 265)]


def names_of_one_hash(count):
    return [ONE_HASH + b"%08d" % i for i in range(count)]


def flow_of(columns, text=""):
    """A workflow of one table with these columns, whose stream has this filter."""
    flow = json.loads(making.workflow("-80", match="t" if text else "/.*", text=text))
    flow["tables"][0]["columns"] = [[it, "INT64"] for it in columns]
    return json.dumps(flow).encode()


def feed_of_unknown(names, changes):
    """A group with a row of each of so many tables that no workflow has, and so many rows more of the last."""
    tables = [b"u%07d" % i for i in range(names)]
    events = [it for table in tables for it in (making.field_event(table, COLUMN), making.row_event(table, [(None, (b"1",))]))]
    more = making.row_event(tables[-1], [(None, (b"2",))] * 1000)
    return making.frame(making.event(2), *events, *[more] * (changes // 1000), making.gtid(b"MySQL56/" + making.U + b":1"), making.event(3))


def costs():
    """Files that cost much where something is read anew for each of its like: the words, the files, and the beginning of
    what is refused, or nothing."""
    many = [b"c%d" % i for i in range(60000)]
    wide = flow_of([it.decode() for it in many])
    alike = flow_of([it.decode() for it in names_of_one_hash(60000)])
    listed = flow_of(["id"], "select " + ",".join(it.decode() for it in many[:40000]) + " from t")
    fields = [making.frame(making.event(2)), *[making.frame(making.field_event(it, COLUMN)) for it in names_of_one_hash(80000)]]
    last = making.frame(making.gtid(b"MySQL56/" + making.U + b":1"), making.event(3))
    yield "tables of one hash in a feed", ["show", "feed"], {"feed": b"".join(fields) + last}, b""
    yield "tables of one hash, under a plan", ["run", "--alone", "workflow", "feed"], {"feed": b"".join(fields) + last, "workflow": making.ONE}, b""
    yield "columns of one hash in a workflow", ["run", "workflow", "feed"], {"feed": b"", "workflow": alike}, b"refused 56"
    yield "a workflow of many columns, looked at", ["check", "workflow", "feed"], {"feed": b"", "workflow": wide}, b"refused 56"
    yield "a filter that lists many columns", ["run", "workflow", "feed"], {"feed": b"", "workflow": listed}, b"refused 55"
    yield "many tables that no workflow has", ["check", "workflow", "feed"], {"feed": feed_of_unknown(20000, 200000), "workflow": making.ONE}, b""


# What each of these takes at most in the processor's seconds, ten times over. What goes by the square of its size takes
# more, and the answers differ by nothing that a busy machine does.
COST, TIMES = 0.4, 10


def hostile_costs(room):
    for title, words, files, refused in costs():
        before = resource.getrusage(resource.RUSAGE_CHILDREN).ru_utime
        try:
            status, _, error = room.run(words, files)
        except subprocess.TimeoutExpired:
            yield f"{title}: more than {SECONDS} s"
            continue
        took = resource.getrusage(resource.RUSAGE_CHILDREN).ru_utime - before
        print(f"  {title}: {took:.2f} s")
        yield not error.startswith(refused) and f"{title}: {status, error[:200]}"
        yield (not refused and error) and f"{title}: {status, error[:200]}"
        yield took > COST * TIMES and f"{title}: {took:.1f} s of the processor, {COST * TIMES:.0f} at most"


# A feed of events of four bytes that are passed over, and what a check of it takes at most: for each event of a feed no more
# than this, whether they stand in one message or each in its own. The words, and how many bytes are printed.
EVENTS = 1_000_000
EVENT_BYTES = 64
DDL = making.event(5)


def peak(room, words, files):
    """The most memory that the program has had, in bytes: asked of the system for a process that started it alone."""
    for name, data in files.items():
        with open(os.path.join(room.place, name), "wb") as file:
            file.write(data)
    measure = "import resource, subprocess, sys; done = subprocess.run(sys.argv[1:], stdout=subprocess.DEVNULL); print(done.returncode, resource.getrusage(resource.RUSAGE_CHILDREN).ru_maxrss)"
    said = subprocess.run([sys.executable, "-c", measure, room.built, *words], stdout=subprocess.PIPE, cwd=room.place, timeout=SECONDS, check=True).stdout
    status, kilobytes = map(int, said.split())
    return status, kilobytes * 1024


def hostile_memory(room):
    few = peak(room, ["check", "--json", "workflow", "feed"], {"feed": making.frame(DDL), "workflow": making.ONE})[1]
    for title, feed in (("one message", making.frame(*[DDL] * EVENTS)), ("a message each", making.frame(DDL) * EVENTS)):
        for form in ([], ["--json"]):
            status, most = peak(room, ["check", *form, "workflow", "feed"], {"feed": feed})
            each = (most - few - len(feed)) / EVENTS
            print(f"  {title}, {' '.join(['check', *form])}: {each:.0f} bytes an event")
            yield status != 3 and f"{title}: status {status}"
            yield each > EVENT_BYTES and f"{title}, {' '.join(['check', *form])}: {each:.0f} bytes an event, {EVENT_BYTES} at most"


def of_two_streams():
    """A checkpoint of two streams, of which one is within its table and the other has copied it."""
    script = b"offer 0 1\nadvance 0\nopen 0 1\ncopy 0 1\noffer 1 1\nadvance 1\nopen 1 1\ncopy 1 1\n"
    feeds = [making.MOVING, making.UPPER]
    return program.save(False, making.TWO, feeds, script), making.TWO, feeds


def of_a_table_that_waits():
    """A checkpoint without rows, whose position can be another of the feed's."""
    script = b"offer 0 1\noffer 0 2\nadvance 0\nadvance 0\n"
    return program.save(False, making.ONE, [making.MOVING], script), making.ONE, [making.MOVING]


def of_listed_columns():
    """A checkpoint of a row whose columns stand in another order than in its feed."""
    workflow = making.workflow("-80", match="t", text="select v, id from t")
    return program.save(False, workflow, [making.ONE_ROW], making.COPY_ONE), workflow, [making.ONE_ROW]


def checks(room):
    one = program.save(False, making.ONE, [making.ONE_ROW], making.COPY_ONE), making.ONE, [making.ONE_ROW]
    yield "the worked feed cut", damaged_feed(room, cut, making.ONE_ROW)
    yield "the worked feed with a byte changed", damaged_feed(room, changed, making.ONE_ROW)
    yield "feeds that are broken", broken_feeds(room)
    for title, given in (("one row", one), ("two streams", of_two_streams()), ("a table that waits", of_a_table_that_waits()), ("listed columns", of_listed_columns())):
        yield f"the checkpoint of {title} cut", damaged_checkpoint(room, cut, *given)
        yield f"the checkpoint of {title} with a byte changed", damaged_checkpoint(room, changed, *given)
    yield "texts on both sides of a limit", at_limits(room)
    yield "restarts after each step", restarts(room)
    yield "writers that fail", failing_writers(room)
    yield "calls that are interrupted and take one byte", in_short_calls(room)
    yield "signals while it reads", signals_while_it_reads(room)
    yield "signals while it writes", signals_while_it_writes(room)
    yield "feeds that can't be read", unreadable_feeds(room)
    yield "names that speak to a terminal", speaking_names(room)
    yield "files that cost much", hostile_costs(room)
    yield "feeds that take much memory", hostile_memory(room)


def main(built):
    passed = failed = 0
    with tempfile.TemporaryDirectory(prefix="vrepl-hostile-") as place:
        for title, check in checks(Room(built, place)):
            print(f"{title}:")
            faults = [it for it in check if it]
            for it in faults[:10]:
                print(f"hostile: {title}: {it}")
            passed, failed = passed + (not faults), failed + bool(faults)
    print(f"{passed} passed, {failed} failed")
    return 1 if failed else 0


if __name__ == "__main__":
    if len(sys.argv) != 2 or sys.argv[1] == "--help":
        sys.exit("usage: tests/run_hostile.py PROGRAM")
    sys.exit(main(sys.argv[1]))
