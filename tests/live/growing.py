"""Feeds that grow: by bytes, by broken transactions, by what is refused; and files that are replaced, away or large."""
import os
import resource
import shutil
import time

from model import making
from model.refusal import meanings

from .asking import Follower, Session, append, pages
from .asks import named
from .inputs import added, events, faults, group, gtid, scattered, workflow


def is_within(stream: dict, applied: int, refused: int | None = None) -> bool:
    """Whether a stream has applied so many groups, and is refused for this number or for nothing."""
    return stream["applied"] == applied and (stream["refused"] and stream["refused"]["number"]) == refused


def tried(trial) -> None:
    """A feed a byte at a time: what is taken ends with the last message behind which no transaction is open."""
    row = ("t", None, (b"%d" % 5, b"five"))
    parts = [added(0, 1, 1), making.frame(making.event(5)), scattered(0, 2, row, ("a b", None, (b"k", b"1", None))), making.frame(gtid(0, 3)),
             making.frame(*events(0, 4, ("t", row[2], None))[:2]) + making.frame(*events(0, 4, ("t", row[2], None))[2:]),
             # a transaction that is rolled back, and two in one message
             making.frame(making.event(2)) + making.frame(making.event(4)), making.frame(*events(0, 5, row), *events(0, 6, ("t", row[2], (b"6", b"six"))))]  # fmt: skip
    counts = [1, 1, 2, 3, 4, 4, 6]
    ends = [0]
    for part in parts:
        ends.append(ends[-1] + len(part))
    feed = b"".join(parts)
    words = named(trial, "grows", workflow(["-"]), b"")
    taken, wrong, follower = 0, [], Follower()
    with Session(trial.live, *words) as session:
        session.ok("more")
        for size in range(1, len(feed) + 1):
            append(words[1], feed[size - 1:size])
            said = session.ok("more")
            taken += said["bytes"]
            stream, end = said["streams"][0], max(it for it in ends if it <= size)
            want = ([0, *counts][ends.index(end)], end, size - end)
            if (stream["applied"], stream["bytes"], stream["tail"]) != want or taken != end or stream["groups"] != want[0] or stream["refused"]:
                wrong.append((size, want, taken, stream))
            if size % 7 == 0:
                follower.take(session.ok("changes")["changes"])
        follower.take(session.ok("changes")["changes"])
        trial.check(f"{len(feed)} bytes, one by one", not wrong, wrong[:2])
        rows = {tuple(it["key"]): (it["stream"], tuple(it["row"])) for it in pages(session, "t")}
        trial.check("and who follows has the rows", rows == follower.of_table("t") == {("x31",): (0, ("x31", "x76")), ("x36",): (0, ("x36", "x736978"))}, rows)
        trial.check("and it ends", session.end() == (0, b"") and not session.odd, session.odd[:1])
    whole(trial, feed, ends, counts)


def whole(trial, feed: bytes, ends: list[int], counts: list[int]) -> None:
    """A session that is begun over a feed that is cut anywhere takes what is whole; with groups one by one all the same."""
    wrong = []
    for size in range(0, len(feed) + 1, 37):
        words = named(trial, "cut", workflow(["-"]), feed[:size])
        with Session(trial.live, *words) as session:
            session.ok("more")
            append(words[1], feed[size:])
            session.ok("more")
            stream = session.ok("state")["streams"][0]
            if not is_within(stream, counts[-1]) or (stream["bytes"], stream["tail"]) != (len(feed), 0):
                wrong.append((size, stream))
    trial.check("begun over a feed that is cut anywhere", not wrong, wrong[:2])
    words = named(trial, "steps", workflow(["-"]), b"")
    with Session(trial.live, "--rows", "1", "--ahead", "1", "--chunks", "1", *words) as session:
        before, leaps = session.ok("state")["streams"][0], []
        append(words[1], feed)
        for count in range(1, counts[-1] + 1):
            now = session.ok("more", "1")["streams"][0]
            leaps += [now] if now["applied"] != before["applied"] + 1 or now["groups"] != counts[-1] or now["read"] < now["applied"] else []
            before = now
        trial.check("`more 1` applies one group", not leaps and is_within(before, counts[-1]), leaps[:2])
        trial.check("and then no more", session.ok("more", "1")["streams"][0] == before)


def broken(trial) -> None:
    for number, data in faults(3).items():
        words = named(trial, "broken", workflow(), added(0, 1, 1) + added(0, 2, 2), added(1, 1, 11))
        with Session(trial.live, "--save-to", trial.path(f"broken.{number}.kept"), *words) as session:
            session.ok("more")
            append(words[1], data)
            append(words[2], added(1, 2, 12))
            lower, upper = session.ok("more")["streams"]
            trial.check(f"{number} stops its stream alone", is_within(lower, 2, number) and is_within(upper, 2), (lower, upper))
            append(words[1], added(0, 3, 3))
            append(words[2], added(1, 3, 13))
            lower, upper = session.ok("more")["streams"]
            trial.check(f"{number} is for good, and the others go on", is_within(lower, 2, number) and is_within(upper, 3), (lower, upper))
            trial.check(f"{number} is told in the words of `explain`", lower["refused"]["words"] == meanings()[number], lower)
            details = {82: {"cause"}, 84: {"group"}, 90: {"cause", "group", "table"}, 94: {"cause"}}.get(number, set())
            trial.check(f"{number} is told with its details", {*lower["refused"]} == {"number", "words"} | details, lower["refused"])
            rows = [it["row"] for it in pages(session, "t")]
            trial.check(f"{number}: rows are those of what is applied", [it[0] for it in rows] == ["x31", "x32", "x3131", "x3132", "x3133"], rows)
            trial.check(f"{number}: it can be saved, and ends", "ok" in session.ask("save") and session.end() == (0, b"") and not session.odd, session.odd[:1])
    shared(trial)


def shared(trial) -> None:
    """A key at which another stream's row stands is refused 71 until that one goes."""
    words = named(trial, "shared", workflow(), added(0, 1, 1), added(1, 1, 11))
    with Session(trial.live, *words) as session:
        session.ok("more")
        append(words[2], added(1, 2, 1, b"another's") + added(1, 3, 12))
        lower, upper = session.ok("more")["streams"]
        trial.check("71 stops its stream before that group", is_within(lower, 1) and is_within(upper, 1, 71), (lower, upper))
        said = {name: upper["refused"].get(name) for name in ("key", "owner", "table")}
        trial.check("71 tells table, key and owner", said == {"key": ["x31"], "owner": 0, "table": "t"}, upper["refused"])
        for _ in range(3):
            lower, upper = session.ok("more")["streams"]
        trial.check("71 is tried again", is_within(lower, 1) and is_within(upper, 1, 71), (lower, upper))
        append(words[1], group(0, 2, ("t", (b"1", b"v"), (b"2", b"moved"))))
        session.ok("more")
        lower, upper = session.ok("more")["streams"]
        trial.check("71 passes once the owner's row is gone", is_within(lower, 2) and is_within(upper, 3), (lower, upper))
        rows = [(it["stream"], it["row"][0]) for it in pages(session, "t")]
        trial.check("each row has its stream", rows == [(1, "x31"), (0, "x32"), (1, "x3131"), (1, "x3132")], rows)
        trial.check("and it ends", session.end() == (0, b""))


def files(trial) -> None:
    data, more = added(0, 1, 1) + added(0, 2, 2), added(0, 3, 3)

    def replaced(path: str) -> None:
        with open(path + ".new", "wb") as file:
            file.write(data + more)
        os.rename(path + ".new", path)

    def cut(path: str) -> None:
        os.truncate(path, len(data) - 1)

    def emptied(path: str) -> None:
        os.truncate(path, 0)

    for name, change in {"another file": replaced, "a file that is cut short": cut, "one that is emptied": emptied}.items():
        words = named(trial, "files", workflow(), data, added(1, 1, 11))
        kept = trial.path("files.kept")
        with Session(trial.live, "--save-to", kept, *words) as session:
            session.ok("more")
            change(words[1])
            append(words[2], added(1, 2, 12))
            lower, upper = session.ok("more")["streams"]
            trial.check(f"{name} is 127, and the others go on", is_within(lower, 2, 127) and is_within(upper, 2), (lower, upper))
            with open(words[1], "ab") as file:
                file.truncate(0)
                file.write(data + more)
            lower, _ = session.ok("more")["streams"]
            trial.check(f"{name}: for good, also where it is longer again", is_within(lower, 2, 127), lower)
            trial.check(f"{name}: it can be saved, and ends", "ok" in session.ask("save") and session.end() == (0, b""))
        with Session(trial.live, "--checkpoint", kept, "--save-to", kept, *words) as session:
            lower, upper = session.ok("more")["streams"]
            trial.check(f"{name}: begun anew it goes on", is_within(lower, 3) and is_within(upper, 2), (lower, upper))
    away(trial, data, more)


def away(trial, data: bytes, more: bytes) -> None:
    words = named(trial, "away", workflow(), data, added(1, 1, 11))
    with Session(trial.live, *words) as session:
        session.ok("more")
        os.rename(words[1], words[1] + ".away")
        append(words[2], added(1, 2, 12))
        lower, upper = session.ok("more")["streams"]
        trial.check("a file that is away is 131, and the others go on", is_within(lower, 2, 131) and is_within(upper, 2), (lower, upper))
        trial.check("131 is told in the words of `explain`", lower["refused"] == {"number": 131, "words": meanings()[131]}, lower["refused"])
        append(words[1] + ".away", more)
        os.rename(words[1] + ".away", words[1])
        lower, _ = session.ok("more")["streams"]
        trial.check("back again, it is gone on with", is_within(lower, 3), lower)
        # what wasn't taken may change, as where a recording that is begun again cuts a torn end
        append(words[1], added(0, 4, 4)[:-3])
        lower, _ = session.ok("more")["streams"]
        os.truncate(words[1], len(data) + len(more))
        trial.check("an end that isn't taken may be cut off", lower["tail"] == len(added(0, 4, 4)) - 3 and is_within(session.ok("more")["streams"][0], 3), lower)
        append(words[1], added(0, 4, 40, b"another") + added(0, 5, 5))
        lower, _ = session.ok("more")["streams"]
        rows = [it["row"][0] for it in pages(session, "t")]
        trial.check("and written anew", is_within(lower, 5) and lower["tail"] == 0 and rows == ["x31", "x32", "x33", "x35", "x3131", "x3132", "x3430"], (lower, rows))
        os.rename(words[1], words[1] + ".away")
        os.mkdir(words[1])
        lower, upper = session.ok("more")["streams"]
        trial.check("a folder in its place stops its stream alone", is_within(lower, 5, lower["refused"] and lower["refused"]["number"]) and lower["refused"] and is_within(upper, 2), (lower, upper))
        os.rmdir(words[1])
        trial.check("and it ends", session.end() == (0, b""))


def large(trial) -> None:
    """A request reads at most 2^26 bytes of a feed; rows may be large."""
    value = os.urandom(1 << 20)
    words = named(trial, "large", workflow(["-"]), b"")
    with Session(trial.live, *words) as session:
        session.ok("more")
        with open(words[1], "ab") as file:
            for n in range(1, 71):
                file.write(added(0, n, n, value))
        size, sums, applied = os.path.getsize(words[1]), [], 0
        for _ in range(3):
            said = session.ok("more")
            sums.append(said["bytes"])
            applied = said["streams"][0]["applied"]
        trial.check("at most 2^26 bytes at a request", max(sums) <= 2**26 and sum(sums) == size and sums[1] > 0, (size, sums))
        trial.check("and then all", applied == 70 and session.ok("counts")["tables"][0]["rows"] == [70])
        row = session.ok("row", "t", "x3730")["row"]
        trial.check("a row of a megabyte", row == ["x3730", "x" + value.hex()])
        said = session.ok("rows", "t", "3", "x3638")
        trial.check("and three of them", [it["row"] for it in said["rows"]] == [[f"x363{n}" if n < 10 else "x3730", row[1]] for n in (8, 9, 10)] and said["next"] is None)
        append(words[1], b"".join(group(0, n, ("t", None, (b"%d" % n, b"v"))) for n in range(71, 4071)))
        begun = time.monotonic()
        said = session.ok("more")
        many = [it for it in pages(session, "t", 10_000) if len(it["row"][1]) < 100]
        trial.check("four thousand rows", said["streams"][0]["applied"] == 4070 and len(many) == 4000 and many[-1]["key"] == ["x34303730"], said)
        trial.note(f"4,000 groups in {time.monotonic() - begun:.1f} s")
        trial.check("and it ends", session.end() == (0, b"") and not session.odd)


def held(pid: int) -> int:
    """The bytes of a process's addresses."""
    with open(f"/proc/{pid}/statm", encoding="ascii") as file:
        return int(file.read().split()[0]) * resource.getpagesize()


def memory(trial) -> None:
    """Where memory is bounded, a request is refused 72, and answered once there is memory again."""
    value = b"v" * 200_000
    words = named(trial, "memory", workflow(), added(0, 1, 1), added(1, 1, 3))
    kept = trial.path("memory.kept")
    follower = Follower()
    with Session(trial.live, "--save-to", kept, *words) as session:
        session.ok("more")
        follower.take(session.ok("changes")["changes"])
        pid, before = session.process.pid, session.ok("state")
        append(words[1], b"".join(added(0, n, 2 * n, value) for n in range(2, 302)))

        def bounded(more: int) -> None:
            resource.prlimit(pid, resource.RLIMIT_AS, (held(pid) + more, resource.RLIM_INFINITY))

        def free() -> None:
            resource.prlimit(pid, resource.RLIMIT_AS, (resource.RLIM_INFINITY, resource.RLIM_INFINITY))

        bounded(1 << 20)
        said = session.ask("more")
        lower = session.ok("state")["streams"]
        fine = said.get("refused", {}).get("number") == 72 or is_within(said["ok"]["streams"][0], lower[0]["applied"], 72)
        trial.check("a feed for which there is no memory is 72, and each stream stays", fine and lower[1]["applied"] == 1 and lower[0]["applied"] < 301, (said, lower, before))
        append(words[2], added(1, 2, 5))
        said = session.ask("more")
        trial.check("the session goes on", "ok" in said or said["refused"]["number"] == 72, said)
        free()
        for _ in range(3):
            streams = session.ok("more")["streams"]
        trial.check("with memory it is gone on with", is_within(streams[0], 301) and is_within(streams[1], 2), streams)
        numbers = []
        for words_of_it in (["changes"], ["rows", "t", "10000"], ["save"], ["row", "t", "x34"], ["counts"], ["state"], ["so"]):
            bounded(1 << 20)
            said = session.ask(*words_of_it)
            free()
            numbers.append((words_of_it[0], said.get("refused", {}).get("number")))
            if words_of_it[0] == "changes" and "ok" in said:
                follower.take(said["ok"]["changes"])
        trial.check("each request is answered, or refused 72", all(number in (None, 72) or name == "so" and number == 124 for name, number in numbers), numbers)
        trial.note(", ".join(f"{name} {number or 'ok'}" for name, number in numbers))
        follower.take(session.ok("changes")["changes"])
        rows = {tuple(it["key"]): (it["stream"], tuple(it["row"])) for it in pages(session, "t")}
        trial.check("nothing is lost by it", rows == follower.of_table("t") and len(rows) == 303, (len(rows), len(follower.of_table("t"))))
        trial.check("and it is saved", "ok" in session.ask("save") and os.path.getsize(kept) > 300 * len(value))
        trial.check("and it ends", session.end() == (0, b"") and not session.odd)
    shutil.rmtree(kept, ignore_errors=True)
