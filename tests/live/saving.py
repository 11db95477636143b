"""Checkpoints of a session: many of them, two sessions over one, files that can't be written, and kills."""
import os
import random
import resource
import stat
import subprocess
import threading
import time

from model import checkpoint
from model.board import Board
from model.feed import Feed
from model.refusal import meanings
from model.workflow import Workflow
from serve.writer import Shard
from serve.writer import workflow as workflow_of_shards

from .asking import Session, append
from .asks import named
from .inputs import added, workflow

KILLS = int(os.environ.get("LIVE_KILLS", "25"))


def get(path: str) -> bytes:
    with open(path, "rb") as file:
        return file.read()


def ended_board(words: list[str]) -> Board:
    """The plain model's board at the feeds' ends, of a workflow's file and the feeds'."""
    read = Workflow(get(words[0]))
    board = Board(read, [Feed(get(path), read.keyspace, shard, read.columns) for path, shard in zip(words[1:], read.shards)])
    for it, feed in zip(board.streams, board.feeds):
        it.applied, it.marks = len(feed.groups), ["done"] * len(it.marks)
    return board


def beside(path: str) -> list[str]:
    """What stands beside a file and has its name."""
    name = os.path.basename(path)
    return sorted(it for it in os.listdir(os.path.dirname(path)) if name in it)


def tried(trial) -> None:
    many(trial)
    two_sessions(trial)
    odd_files(trial)


def many(trial, count: int = 30) -> None:
    """Each checkpoint is the whole one of the board, and so is what another one sees at any time."""
    shards = [Shard(at, 5) for at in range(2)]
    words = named(trial, "saves", workflow_of_shards(), b"", b"")
    kept = trial.put("saves.kept", b"what stood there before")
    os.chmod(kept, 0o640)
    os.symlink(os.path.basename(kept), kept + ".link")
    saved, seen, over = [get(kept)], set(), threading.Event()

    def look() -> None:
        while not over.is_set():
            seen.add(get(kept))

    looking = threading.Thread(target=look, daemon=True)
    with Session(trial.live, "--save-to", kept + ".link", *words) as session:
        looking.start()
        sizes = []
        for _ in range(count):
            for shard, path in zip(shards, words[1:]):
                append(path, shard.group())
            session.ok("more")
            sizes.append(session.ok("save") == {"bytes": os.path.getsize(kept)})
            saved.append(get(kept))
        sizes.append(session.ok("save") == {"bytes": os.path.getsize(kept)})
        trial.check(f"{count} checkpoints, and their bytes", all(sizes), sizes)
        over.set()
        looking.join()
        trial.check("each time it is the old one or the whole new one", seen <= {*saved} and len(seen) > 2, len(seen))
        trial.check("it is the plain model's", saved[-1] == checkpoint.save(ended_board(words)), len(saved[-1]))
        trial.check("saved again it is the same", get(kept) == saved[-1])
        trial.check("mode and link stay, and nothing is left beside it",
                    stat.S_IMODE(os.stat(kept).st_mode) == 0o640 and os.path.islink(kept + ".link") and beside(kept) == ["saves.kept", "saves.kept.link"], beside(kept))  # fmt: skip
        trial.check("and it ends", session.end() == (0, b"") and not session.odd)
    if trial.program:
        followed = trial.path("saves.followed")
        ran = subprocess.run([trial.program, "follow", "--save-to", followed, *words], capture_output=True)
        trial.check("it is the program's", ran.returncode == 0 and get(followed) == saved[-1], ran)


def two_sessions(trial) -> None:
    words = named(trial, "two", workflow(), added(0, 1, 1), added(1, 1, 3))
    kept = trial.path("two.kept")
    with Session(trial.live, "--save-to", kept, *words) as one, Session(trial.live, "--save-to", kept, *words) as other:
        both(trial, "a new file", kept, words, one, other)
    append(words[1], added(0, 2, 5))
    over = ["--checkpoint", kept, "--save-to", kept, *words]
    with Session(trial.live, *over) as one, Session(trial.live, *over) as other:
        both(trial, "a checkpoint", kept, words, one, other)
    with Session(trial.live, *over) as session:
        session.ok("more")
        os.rename(trial.put("two.another", b"another"), kept)
        said = session.ask("save")
        trial.check("a file that another program put there is 129", said.get("refused", {}).get("number") == 129 and get(kept) == b"another", said)
        trial.check("129 is told in the words of `explain`", said.get("refused") == {"number": 129, "words": meanings()[129]}, said)
        trial.check("and the session goes on", "ok" in session.ask("more") and session.end() == (0, b""))


def both(trial, name: str, kept: str, words: list[str], one: Session, other: Session) -> None:
    """Two sessions over one file: what the first one saved the other one doesn't undo."""
    other.ok("state")
    one.ok("more")
    one.ok("save")
    saved = get(kept)
    other.ok("more")
    said = other.ask("save")
    trial.check(f"{name}: the second session's is 129", said.get("refused", {}).get("number") == 129 and get(kept) == saved, said)
    append(words[2], added(1, int(one.ok("state")["streams"][1]["applied"]) + 1, 100 + len(saved)))
    one.ok("more")
    one.ok("save")
    trial.check(f"{name}: the first one's goes on", get(kept) == checkpoint.save(ended_board(words)) and beside(kept) == ["two.kept"], beside(kept))
    if trial.program:
        ran = subprocess.run([trial.program, "follow", f"--checkpoint={kept}", f"--save-to={kept}", *words], capture_output=True)
        trial.check(f"{name}: a `follow` meanwhile is 129", (ran.returncode, ran.stdout, ran.stderr) == (1, b"", b"refused 129 file %s\n" % kept.encode()), ran)
    trial.check(f"{name}: both end", one.end() == (0, b"") == other.end())
    if trial.program:
        ran = subprocess.run([trial.program, "follow", f"--checkpoint={kept}", f"--save-to={kept}", *words], capture_output=True)
        trial.check(f"{name}: and one behind that isn't", (ran.returncode, ran.stdout, ran.stderr) == (0, b"", b""), ran)


def odd_files(trial) -> None:
    words = named(trial, "odd", workflow(), added(0, 1, 1, b"v" * 5000), added(1, 1, 3))
    folder = trial.path("odd.folder")
    os.mkdir(folder)
    with Session(trial.live, "--save-to", os.path.join(folder, "kept"), *words) as session:
        session.ok("more")
        os.rmdir(folder)
        said = session.ask("save")
        trial.check("a folder that is gone is 132", said.get("refused") == {"number": 132, "words": meanings()[132]}, said)
        os.mkdir(folder)
        trial.check("there again, it is saved", "ok" in session.ask("save") and os.listdir(folder) == ["kept"], os.listdir(folder))
        trial.check("and it ends", session.end() == (0, b""))
    kept = trial.put("odd.kept", b"old")
    with Session(trial.live, "--save-to", kept, *words) as session:
        session.ok("more")
        resource.prlimit(session.process.pid, resource.RLIMIT_FSIZE, (1000, resource.RLIM_INFINITY))
        said = session.ask("save")
        trial.check("a disk that is full is 132", said.get("refused", {}).get("number") == 132 and get(kept) == b"old" and beside(kept) == ["odd.kept"], (said, beside(kept)))
        resource.prlimit(session.process.pid, resource.RLIMIT_FSIZE, (resource.RLIM_INFINITY, resource.RLIM_INFINITY))
        trial.check("with room again, it is saved", "ok" in session.ask("save") and get(kept) == checkpoint.save(ended_board(words)))
        trial.check("and it ends", session.end() == (0, b""))


def killed(trial) -> None:
    """Sessions that are killed at any moment, each over feeds that grew: the file is a whole checkpoint, and the next one goes on from it."""
    r, shards = random.Random(9), [Shard(at, 9) for at in range(2)]
    words = named(trial, "kills", workflow_of_shards(), *(b"".join(shard.group() for _ in range(10)) for shard in shards))
    kept, reached, wrong, how = trial.path("kills.kept"), [0, 0], [], {"saved": 0, "not": 0}
    for turn in range(KILLS):
        begun = [f"--checkpoint={kept}"] * os.path.exists(kept)
        with Session(trial.live, *r.choice(([], ["--alone"], ["--rows=1", "--ahead=2", "--chunks=1"])), *begun, "--save-to", kept, *words) as session:
            if r.random() < 0.8:
                applied = [it["applied"] for it in session.ok("state")["streams"]]
                if any(now < before for now, before in zip(applied, reached)):
                    wrong.append((turn, applied, reached))
            for shard, path in zip(shards, words[1:]):
                append(path, b"".join(shard.group() for _ in range(r.randrange(4))))
            old = get(kept) if begun else None
            session.send(b"more\t2\nsave\n" * 20)
            count = r.randrange(12)
            for _ in range(count):
                said = session.answer()
                reached = [it["applied"] for it in session_streams(said)] or reached
            # (what the last `more` applied is in the file once the next answer has come)
            time.sleep(r.random() * 0.01)
            session.process.kill()
            session.process.wait()
            how["saved" if os.path.exists(kept) and get(kept) != old else "not"] += 1
        reached = saved_groups(kept, words) if os.path.exists(kept) else [0, 0]
        if reached is None:
            wrong.append((turn, "no checkpoint"))
            break
    trial.check(f"{KILLS} kills: the file is a whole checkpoint each time", not wrong, wrong[:2])
    trial.note(f"killed {how['saved']} times behind a new checkpoint, {how['not']} times before")
    with Session(trial.live, "--checkpoint", kept, "--save-to", kept, *words) as session:
        session.ok("more")
        session.ok("save")
        trial.check("and at last it is the one of the feeds' ends", get(kept) == checkpoint.save(ended_board(words)))
        trial.check("which ends", session.end() == (0, b""))


def session_streams(said: dict) -> list[dict]:
    return said.get("ok", {}).get("streams", [])


def saved_groups(kept: str, words: list[str]) -> list[int] | None:
    """How many groups each stream of a checkpoint has applied, as the plain model resumes it; None where it is none."""
    read = Workflow(get(words[0]))
    feeds = [Feed(get(path), read.keyspace, shard, read.columns) for path, shard in zip(words[1:], read.shards)]
    try:
        return [it.applied for it in checkpoint.resume(read, feeds, get(kept)).streams]
    except Exception:  # noqa: BLE001
        return None
