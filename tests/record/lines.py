"""A signal at each line that a command runs: what is made beside a feed is gone then, and what it has is whole."""
import json
import os
import signal
import sys
import tempfile
import threading
import time
from collections.abc import Callable
from random import Random

from recorder.stop import Stop

from . import commands
from .commands import Done
from .vtgate_load import KEYS, changed, filled

RECORDER = os.path.join(commands.ROOT, "record", "recorder")
OF_VTGATE = ["vtgate.py", "vcopy.py", "growing.py", "held.py", "files.py"]
OF_FEED = ["behind.py", "held.py", "files.py", "feedfile.py"]
PATIENCE = commands.PATIENCE
LATE = 0.4
"""The seconds in which a thread that is left has to be at its end, and says what it stumbled over."""
Line = tuple[str, int, int]
"""A file's name, the number of a line in it, and which time it is run."""
_KILL, _WRITE = os.kill, os.write


class Lines:
    """The lines of some files that a process runs from here on, and how often; at one of them a signal comes."""

    def __init__(self, names: list[str], at: Line | None = None) -> None:
        # (another folder's file is named by its whole path)
        self._files = {os.path.join(RECORDER, name): name for name in names}
        self._at, self.seen = at, {}

    def begin(self) -> None:
        sys.settrace(self._called)

    def _called(self, frame, *_: object):
        return self._met if frame.f_code.co_filename in self._files else None

    def _met(self, frame, event: str, _: object):
        if event == "line":
            name, line = self._files[frame.f_code.co_filename], frame.f_lineno
            self.seen[name, line] = time = self.seen.get((name, line), 0) + 1
            if (name, line, time) == self._at:
                _KILL(os.getpid(), signal.SIGTERM)
        return self._met


def lines_of(names: list[str], run: Callable[[Callable[[], None]], Done]) -> list[Line]:
    """The first time of each line of these files in a command's run that nothing ends, and of the first file's the last time too."""
    with tempfile.TemporaryFile() as file:

        def prepare() -> None:
            lines, end = Lines(names), os._exit

            def ended(status: int) -> None:
                sys.settrace(None)
                _WRITE(file.fileno(), json.dumps([[*line, times] for line, times in lines.seen.items()]).encode())
                end(status)

            os._exit = ended
            lines.begin()

        run(prepare)
        file.seek(0)
        return sorted({(name, line, time) for name, line, times in json.load(file) for time in {1, times if name == names[0] else 1}})


def at_each(names: list[str], run: Callable[[Callable[[], None]], Done], judge: Callable[[Done], str | None], step: int = 1) -> str | None:
    """Why a command that a signal meets at one of its lines, of which each `step` one is tried, isn't ended as it has to be."""
    items = lines_of(names, run)[::step]
    faults = commands.spread(items, lambda line: judge(run(Lines(names, line).begin)))
    return f"{len(faults)} of {len(items)}: {faults[0]}" if faults else None if len(items) * step > 100 else f"only {len(items)} lines"


class Answering:
    """In the place of a VTGate and the way to it: a copy, and some transactions behind it; then the stream is over."""

    heartbeat = 5

    def __init__(self, *_: object) -> None:
        pass

    def check(self) -> None:
        pass

    def answers(self, _: object):
        from recorder.vcall import Over

        random = Random(3)
        source = filled(random, True)
        yield from (answer.SerializeToString() for answer in source.copy(50, lambda *_: iter(())))
        for _ in range(3):
            for transaction in changed(random, source, "a", None, "update", True):
                yield from (answer.SerializeToString() for answer in source.transaction(source.change(transaction)))
        raise Over("VTGate ended it", False)


def vtgate_at_each_line(trial) -> None:
    """record/vtgate --from-copy."""
    commands.command("vtgate")

    def run(prepare: Callable[[], None]) -> Done:
        def prepared() -> None:
            from recorder import vcall

            vcall.Server = Answering
            prepare()

        with tempfile.TemporaryDirectory(dir=trial.server.folder) as folder:
            feed = os.path.join(folder, "lines.feed")
            words = ["--server", "-", "--keyspace", "ks", "--shard", "-", "--from-copy", "--out", feed, *sorted({*KEYS, "e"})]
            done = commands.run(*words, prepare=prepared, name="vtgate")
            done.left = sorted(os.listdir(folder))
            done.torn = torn(feed) if os.path.exists(feed) else 0
            return done

    def judge(done: Done) -> str | None:
        has_feed = "lines.feed" in done.left
        wanted = ["lines.feed", "lines.feed.json", "lines.feed.lock"] if has_feed else []
        is_line = (done.out + done.err).count("\n") == 1 and (done.status == 0) == bool(done.out) and (has_feed or done.status == 1)
        return None if is_line and done.left == wanted and not done.torn else f"{done}, {done.left} was left, {done.torn} bytes too much"

    trial.check("vtgate call ended at each line", at_each(OF_VTGATE, run, judge))


def call_at_each_line(trial) -> None:
    """record/vtgate at the lines that ask for a stream and take its answers, those of the library of gRPC among them: it ends,
    and no thread of that says a word."""
    import grpc._channel

    from .operate import stand_in

    commands.command("vtgate")
    with stand_in(trial.path("late.feed")) as address:
        if not address:
            return

        def run(prepare: Callable[[], None]) -> Done:
            def prepared() -> None:
                end = os._exit

                def ended(status: int) -> None:
                    for one in threading.enumerate():
                        if one is not threading.current_thread():
                            one.join(LATE)
                    end(status)

                os._exit = ended
                prepare()

            with tempfile.TemporaryDirectory(dir=trial.server.folder) as folder:
                words = ["--server", address, "--keyspace", "shop", "--shard", "-", "--behind", "current", "--out", os.path.join(folder, "a.feed")]
                one, begun = commands.Command(*words, "t", prepare=prepared, name="vtgate"), time.monotonic()
                while not one.has_ended():
                    time.sleep(0.01)
                    if time.monotonic() - begun > PATIENCE:
                        one.kill()
                done = one.wait()
                done.left = sorted(os.listdir(folder))
                return done

        def judge(done: Done) -> str | None:
            is_line = (done.out + done.err).count("\n") == 1 and done.status in (0, 1) and (done.status == 0) == bool(done.out)
            return None if is_line and set(done.left) <= {"a.feed", "a.feed.json", "a.feed.lock"} else f"{done}, {done.left} was left"

        trial.check("vtgate call ended at each line of a call", at_each(["vcall.py", grpc._channel.__file__], run, judge))


def torn(feed: str) -> int:
    """The bytes behind a feed's last whole transaction."""
    # (these need the library of gRPC)
    from recorder.vstream import Reading
    from recorder.vtgate import read_feed

    try:
        end, size = read_feed(feed, Reading("ks", "-"))
    except Stop:
        return -1
    return size - end
