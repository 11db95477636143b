"""Each request and its answer; what is no request, or is refused; how a session begins and ends."""
import os
import random
import subprocess

from serve.writer import Shard
from serve.writer import workflow as workflow_of_shards

from .asking import Ended, Follower, Session, append, longest_request, opening, pages
from .inputs import QUOTED, added, group, workflow

STREAM = {"applied", "bytes", "copied", "groups", "phase", "position", "read", "refused", "stream", "tail"}


def named(trial, name: str, said: bytes, *feeds: bytes) -> list[str]:
    """The workflow's file, and the feeds'."""
    return [trial.put(f"{name}.json", said), *(trial.put(f"{name}.{at}", data) for at, data in enumerate(feeds))]


def tried(trial) -> None:
    shards = [Shard(at, 1) for at in range(2)]
    words = named(trial, "asks", workflow_of_shards(), *(b"".join(shard.group() for _ in range(40)) for shard in shards))
    size = [os.path.getsize(it) for it in words[1:]]
    with Session(trial.live, *words) as session:
        streams = session.ok("state")["streams"]
        trial.check("state: a stream's members", [{*it} for it in streams] == [STREAM] * 2 and [it["stream"] for it in streams] == [0, 1], streams)
        said = session.ok("more")
        trial.check("more: its members, where nothing came", {*said} == {"bytes", "changes", "streams"} and said["bytes"] == 0 and said["streams"] == streams, said)
        trial.check("it is opened at the feeds' ends", [(it["applied"], it["groups"], it["bytes"], it["tail"], it["phase"], it["refused"]) for it in streams]
                    == [(40, 40, its, 0, "Running", None) for its in size], streams)  # fmt: skip
        trial.check("positions", [it["position"][:-36] and it["position"].endswith(":1-40") and it["position"].startswith("MySQL56/") for it in streams] == [True] * 2, streams)
        copied = [{"key": None, "table": name, "what": "done"} for name in ("t", "u")]
        trial.check("all is copied", [it["copied"] for it in streams] == [copied] * 2, streams)
        trial.check("state tells the same", session.ok("state") == {"streams": streams})
        told(trial, session, said)
        trial.check("more: nothing came", session.ok("more") == {"bytes": 0, "changes": 0, "streams": streams})
        append(words[1], shards[0].group())
        said = session.ok("more")
        trial.check("more: a group came", said["bytes"] == os.path.getsize(words[1]) - size[0] and said["streams"][0]["applied"] == 41 and said["streams"][1] == streams[1], said)
        if session.ask("told") == {"ok": {"changes": said["changes"], "streams": said["streams"]}}:
            trial.check("told: nothing is left to be told", session.ok("changes") == {"changes": [], "streams": said["streams"]})
        else:
            trial.note("`told` isn't known to this program: `changes` serves in its place")
        at_once(trial, session)
        trial.check("end", session.end() == (0, b""))
        trial.check("answers are lines of JSON, without blanks, members by their names", not session.odd, session.odd[:2])


def told(trial, session: Session, more: dict) -> None:
    """What the first `changes` tells is what is there."""
    said, follower = session.ok("changes"), Follower()
    follower.take(said["changes"])
    trial.check("changes: its members", {*said} == {"changes", "streams"} and said["streams"] == more["streams"] and all([*it] == ["key", "row", "stream", "table"] for it in said["changes"]), said)
    trial.check("as many as `more` says, a key each", len(said["changes"]) == more["changes"] and not follower.faults, (more["changes"], follower.faults))
    trial.check("none is left", session.ok("changes")["changes"] == [])
    for table in ("t", "u"):
        rows = pages(session, table)
        found = {tuple(it["key"]): (it["stream"], tuple(it["row"])) for it in rows}
        trial.check(f"rows are those that were told, {table}", found == follower.of_table(table) and len(found) == len(rows) > 20, (len(found), len(rows)))
        trial.check(f"they rise by their keys, {table}", [it["key"] for it in rows] == sorted((it["key"] for it in rows), key=ordered), rows[:3])
        trial.check(f"pages of any size have them, {table}", all(pages(session, table, limit) == rows for limit in (1, 2, 7, len(rows), len(rows) + 1)))
        trial.check(f"a hundred where no limit is said, {table}", session.ok("rows", table) == session.ok("rows", table, "100"))
        one = rows[len(rows) // 2]
        there = session.ok("row", table, ",".join(one["key"]))
        trial.check(f"row: the row at a key, {table}", there == {"row": one["row"], "stream": one["stream"]}, there)
        counts = [it["rows"] for it in session.ok("counts")["tables"] if it["table"] == table]
        trial.check(f"counts by stream, {table}", counts == [[sum(it["stream"] == at for it in rows) for at in range(2)]], counts)
    trial.check("row: none", session.ok("row", "t", "x393939393939") == {"row": None, "stream": None})


def ordered(key: list[str]) -> tuple:
    """A key of those tables as keys are ordered."""
    parts = [bytes.fromhex(cell[1:]) for cell in key]
    return (int(parts[0]),) if len(parts) == 1 else (parts[0], int(parts[1]))


def at_once(trial, session: Session) -> None:
    """Requests that are sent together are answered one by one, in their order."""
    count = 300
    session.send(b"state\nrows\tt\t1\nso\n" * count)
    found = [session.answer() for _ in range(3 * count)]
    fine = all("streams" in found[at]["ok"] and "rows" in found[at + 1]["ok"] and found[at + 2]["refused"]["number"] == 124 for at in range(0, 3 * count, 3))
    trial.check(f"{3 * count} requests at once", fine)


NO_REQUESTS = [
    b"", b"so", b"More", b"MORE", b" more", b"more ", b"more\r", b"more\t", b"more\t0", b"more\t-1", b"more\t+1", b"more\tx", b"more\t1x", b"more\t1.0", b"more\t1\t1", b"more 1",
    b"more\t4294967296", b"more\t99999999999999999999", b"state\t", b"state\tx", b"changes\t1", b"rows", b"rows\tt\t0", b"rows\tt\t10001", b"rows\tt\t", b"rows\tt\tx",
    b"rows\tt\t1\tx31\tx31", b"rows\tt\t4294967297", b"row", b"row\tt", b"row\tt\tx31\tx31", b"counts\tt", b"save\tx", b"end\t", b"end\r", b"end ", b"\tend", b"more\0", b"\0", b"\t", b"\t\t\t\t\t",
    b"\xff\xfe", "é".encode(), b"live", b"told\tx", b"exit", b"quit", b"{}", b"{\"more\":1}",
]  # fmt: skip
OTHERS = {
    125: [b"rows\tu", b"rows\t", b"rows\tT", b"rows\tt ", b"rows\ta", b"row\tu\tx31", b"row\t\tx31", b"rows\t\xff", b"row\tu\tso", b"rows\tks.t"],
    126: [b"row\tt\tso", b"row\tt\t", b"row\tt\tN", b"row\tt\tx", b"row\tt\tx3", b"row\tt\tx3g", b"row\tt\tx31,x31", b"row\tt\tx31,", b"row\tt\t,x31", b"row\tt\tx61", b"row\tt\tx2d",
          b"row\tt\t31", b"row\tt\tX31", b"row\tt\tx3138343436373434303733373039353531363136", b"row\ta b\tx31", b"row\ta b\tx31,x61", b"row\ta b\tx31,x31,x31", b"row\ta b\tx31;x31",
          b"rows\tt\t1\t", b"rows\tt\t1\tso", b"rows\ta b\t1\tx31", b"row\tt\tx31 "],
}  # fmt: skip
SEVEN = ["x37", "x736576656e"]
FOUND = {
    b"row\tt\tx37": SEVEN, b"row\tt\tx303037": SEVEN, b"row\tt\tx" + b"30" * 500 + b"37": SEVEN, b"row\ta b\tx,x2d31": ["x", "x2d31", "N"], b"row\ta b\tx6B,x2d303031": ["x6b", "x2d31", "x00"],
    b"row\ta b\tx6b,x31": None, f"row\t{QUOTED}\tx".encode(): ["x"], f"row\t{QUOTED}\tx7a".encode(): ["x7a"], f"row\t{QUOTED}\tx7A7a".encode(): None,
}  # fmt: skip
"""Requests of a row, and the row."""


def refused(trial) -> None:
    rows = [("t", None, (b"7", b"seven")), ("a b", None, (b"", b"-1", None)), ("a b", None, (b"k", b"-1", b"\0")), (QUOTED, None, (b"",)), (QUOTED, None, (b"z",))]
    words = named(trial, "refused", workflow(), group(0, 1, *rows), b"")
    with Session(trial.live, *words) as session:
        session.ok("more")
        rows = {name: pages(session, name) for name in ("t", "a b", QUOTED)}
        for line in NO_REQUESTS:
            trial.check(f"{line!r} is no request", (said := session.refused(line)) == 124, said)
        for number, lines in OTHERS.items():
            for line in lines:
                trial.check(f"{line!r} is {number}", (said := session.refused(line)) == number, said)
        for line, row in FOUND.items():
            said = session.ok(line)
            trial.check(f"{line[:30]!r} is a key", said == {"row": row, "stream": 0 if row else None}, said)
        trial.check("save without --save-to", session.refused("save") == 124)
        long_lines(trial, session)
        fuzzed(trial, session)
        trial.check("nothing of that changed a row", {name: pages(session, name) for name in rows} == rows)
        trial.check("and the session goes on", session.ok("more")["streams"][0]["applied"] == 1 and session.end() == (0, b""))
        trial.check("refusals are lines of JSON too", not session.odd, session.odd[:2])


def long_lines(trial, session: Session) -> None:
    most = longest_request()

    def of_size(size: int) -> bytes:
        """A request of so many bytes, its LF among them."""
        return b"row\tt\tx" + b"30" * ((size - 10) // 2) + b"37" + b" " * (size % 2) + b"\n"

    for size in (most - 2, most):
        session.send(of_size(size))
        trial.check(f"a request of {size} bytes", session.answer().get("ok", {}).get("row") is not None)
    for size in (most + 2, 2 * most, most + 4096, 3_000_000):
        session.send(of_size(size) + b"state\n")
        trial.check(f"one of {size} bytes is too long, and passed over", session.answer().get("refused", {}).get("number") == 124 and "ok" in session.answer())


def fuzzed(trial, session: Session, count: int = 3000) -> None:
    """Lines at random: each has an answer of its own."""
    r, words = random.Random(71), [b"more", b"state", b"changes", b"rows", b"row", b"counts", b"t", b"a b", QUOTED.encode(), b"u", b"1", b"0", b"x37", b"x31,x31", b"N", b"", b"10001", b"so"]
    lines = []
    for _ in range(count):
        line = bytearray(b"\t".join(r.choice(words) for _ in range(r.choice((1, 1, 2, 2, 3, 4, 5)))))
        for _ in range(r.choice((0, 0, 0, 1, 2))):
            at = r.randrange(len(line) + 1)
            line[at:at + r.randrange(2)] = bytes([r.choice((0, 9, 13, 32, 44, 48, 120, 127, 195, 255, r.randrange(256)))])
        lines.append(bytes(line).replace(b"\n", b"\r"))
    lines = [line for line in lines if line not in (b"end", b"save")]
    wrong = []
    for line in lines:
        said = session.ask(line)
        if "refused" in said and said["refused"]["number"] not in (124, 125, 126):
            wrong.append((line, said))
    trial.check(f"{len(lines)} lines at random", not wrong, wrong[:2])


def begun(trial) -> None:
    """What can't be opened has one line of a refusal, and status 1; faults of usage status 2."""
    said, lower, upper = named(trial, "begun", workflow(), added(0, 1, 1) + added(0, 2, 2), added(1, 1, 3))
    bad = trial.put("begun.bad.json", b"{")
    other = trial.put("begun.other", added(0, 1, 1) + b"\xff" * 11)
    short = trial.put("begun.short", added(0, 1, 1))
    cut = trial.put("begun.cut", added(0, 1, 1) + added(0, 2, 2)[:-1])
    keyless = trial.put("begun.keyless", added(0, 1, 1) + group(0, 2, ("t", None, (None, b"v"))))
    same = trial.put("begun.same", added(1, 1, 2))
    none = trial.put("begun.none", b"VREPLCP2 and nothing else")
    kept = trial.path("begun.kept")
    with Session(trial.live, "--save-to", kept, said, lower, upper) as session:
        session.ok("more")
        session.ok("save")
    folder = trial.path("begun.folder")
    os.mkdir(folder)
    os.symlink("nothing", trial.path("begun.link"))
    cases = {
        "": (0, b"", [said, lower, upper]),
        "a feed that isn't whole": (0, b"", [said, cut, upper]),
        "from a checkpoint": (0, b"", ["--checkpoint", kept, "--save-to", kept, said, lower, upper]),
        "with each option": (0, b"", ["--alone", "--rows", "1", "--ahead", "2", "--chunks", "3", said, lower, upper]),
        "behind --": (0, b"", [f"--checkpoint={kept}", f"--save-to={kept}", "--", said, lower, upper]),
        "no workflow": (1, b"refused 131 file /nowhere", ["/nowhere", lower, upper]),
        "no feed's file": (1, b"refused 131 file /nowhere", [said, lower, "/nowhere"]),
        "no checkpoint's file": (1, b"refused 131 file /nowhere", ["--checkpoint", "/nowhere", said, lower, upper]),
        "the checkpoint before the workflow": (1, b"refused 131 file /nowhere1", ["--checkpoint", "/nowhere1", "/nowhere2", lower, upper]),
        "files before what is in them": (1, b"refused 131 file /nowhere", [bad, lower, "/nowhere"]),
        "a workflow that is none": (1, b"refused 51", [bad, lower, upper]),
        "a feed too few": (1, b"refused 119", [said, lower]),
        "a feed too many": (1, b"refused 119", [said, lower, upper, upper]),
        "bytes that are no feed": (1, b"refused 81", [said, other, upper]),
        "a row without a key": (1, b"refused 90 group 2 table t cause 61\n", [said, keyless, upper]),
        "a key of two streams": (1, b"refused 71 table t key x32 owner ", ["--alone", said, lower, same]),
        "bytes that are no checkpoint": (1, b"refused 116", ["--checkpoint", none, said, lower, upper]),
        "a checkpoint that is further on": (1, b"refused 118 stream 0", ["--checkpoint", kept, said, short, upper]),
        "and one that the whole groups don't reach": (1, b"refused 118 stream 0", ["--checkpoint", kept, said, cut, upper]),
        "a folder that isn't there": (1, b"refused 13", ["--save-to", "/nowhere/file", said, lower, "/nowhere"]),
        "--hex": (2, b"", ["--hex", said, lower, upper]),
        "no feed": (2, b"", [said]),
        "nothing": (2, b"", []),
        "--rows 0": (2, b"", ["--rows", "0", said, lower, upper]),
        "--ahead so": (2, b"", ["--ahead", "so", said, lower, upper]),
        "another word": (2, b"", ["--so", said, lower, upper]),
        "a checkpoint in a feed's place": (2, b"", ["--save-to", lower, said, lower, upper]),
        "in the workflow's": (2, b"", ["--save-to", said, said, lower, upper]),
        "in a folder's": (2, b"", ["--save-to", folder, said, lower, upper]),
        "in that of a link to nothing": (2, b"", ["--save-to", trial.path("begun.link"), said, lower, upper]),
    }  # fmt: skip
    for name, (status, line, words) in cases.items():
        ran = opening(trial.live, *words)
        fine = ran[0] == status and ran[1] == b"" and (ran[2].startswith(line) and ran[2].count(b"\n") == 1 if status == 1 else ran[2] == b"" if status == 0 else ran[2] != b"")
        trial.check(f"begun: {name or 'plainly'}", fine, ran)
    trial.check("nothing but that file was made", sorted(it for it in os.listdir(trial.folder) if it.startswith(("begun.kept", ".begun"))) == ["begun.kept"])


def ends(trial) -> None:
    words = named(trial, "ends", workflow(), added(0, 1, 1), b"")
    with Session(trial.live, *words) as session:
        session.send(b"state\nmore")
        session.process.stdin.close()
        found = [session.answer(), session.answer()]
        trial.check("the last line may lack its LF", found[1]["ok"]["streams"][0]["applied"] == 1, found)
        trial.check("an input that ends is the end", session.line() == b"" and session.process.wait(60) == 0 and session.process.stderr.read() == b"")
    with Session(trial.live, *words) as session:
        session.send(b"state\nend\nstate\n")
        found = [session.answer(), session.answer()]
        trial.check("nothing is answered behind `end`", found[1] == {"ok": {}} and session.ended() == (0, b""))
    with Session(trial.live, *words) as session:
        session.send(b"x" * (2 * longest_request()))
        session.process.stdin.close()
        trial.check("a line that is too long, and an end without LF", session.answer()["refused"]["number"] == 124 and session.line() == b"" and session.process.wait(60) == 0)
    with Session(trial.live, *words) as session:
        session.ok("more")
        session.process.stdout.close()
        session.send(b"state\n")
        session.process.stdin.close()
        status, said = session.process.wait(60), session.process.stderr.read()
        trial.check("an answer that can't be written is 132", (status, said) == (1, b"refused 132 file -\n"), (status, said))
    with open("/dev/null", "wb") as closed:
        ran = subprocess.run([trial.live, "live", *words], stdin=closed, capture_output=True, timeout=60)
    trial.check("a request that can't be read is 131", (ran.returncode, ran.stdout, ran.stderr) == (1, b"", b"refused 131 file -\n"), ran)
    try:
        with Session(trial.live, *words) as session:
            session.kill()
            session.ask("state")
        trial.check("a session that is killed answers nothing", False)
    except (BrokenPipeError, Ended):
        trial.check("a session that is killed answers nothing", True)
