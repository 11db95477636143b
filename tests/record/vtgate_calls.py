"""record/vtgate, as a process of its own, against a VTGate that copies, breaks off, is silent, ends, refuses and wants to know who asks."""
import contextlib
import json
import os
import random
import shutil
import signal
import subprocess
import time
from collections.abc import Callable, Iterator
from concurrent.futures import ThreadPoolExecutor

from recorder.messages import EventType
from recorder.stop import Stop
from recorder.vstream import Reading
from recorder.vtgate import read_feed

from .vtgate_copy import event, merged
from .vtgate_gate import PATIENCE, Gate

ROOT = os.path.dirname(os.path.dirname(os.path.dirname(os.path.abspath(__file__))))
TABLES = ["a", "b", "c", "d", "e", "f"]


class Fault(Exception):
    """What wasn't as it has to be."""


def hold(is_so: object, why: str) -> None:
    if not is_so:
        raise Fault(why)


class Recorder:
    """One feed of a gate's keyspace, and the processes that record it."""

    def __init__(self, trial, name: str, gate: Gate | None, *words: str) -> None:
        self.trial, self.gate, self.words = trial, gate, words
        self.feed = trial.path(f"{name}.feed")
        self.lines = ""

    def command(self, *words: str) -> list[str]:
        address = self.gate.address if self.gate else "127.0.0.1:1"
        return ["record/vtgate", "--server", address, "--keyspace", "ks", "--shard", "-", "--out", self.feed, *self.words, *words]

    @contextlib.contextmanager
    def started(self, *words: str, tables: tuple[str, ...] = tuple(TABLES), limit: int = 0, stdout=subprocess.PIPE) -> Iterator[subprocess.Popen]:
        told = {**os.environ, "PYTHONDONTWRITEBYTECODE": "1"}
        command = [*self.command(*words), *tables]
        if limit:
            command = ["bash", "-c", f'ulimit -f {limit}; exec "$@"', "-", *command]
        with subprocess.Popen(command, cwd=ROOT, stdin=subprocess.DEVNULL, stdout=stdout, stderr=subprocess.PIPE, text=True, env=told) as process:
            try:
                yield process
            finally:
                process.kill()

    def end(self, process: subprocess.Popen, number: int | None = signal.SIGTERM) -> tuple[int, str, str]:
        """The status of a process that is told to end, or that ends by itself, and what it said."""
        if number is not None:
            process.send_signal(number)
        out, self.lines = process.communicate(timeout=PATIENCE)
        hold("Traceback" not in self.lines, self.lines)
        return process.returncode, out, self.lines

    def ends(self, *words: str, **how) -> tuple[int, str, str]:
        with self.started(*words, **how) as process:
            return self.end(process, None)

    def stops(self, line: str, *words: str, **how) -> None:
        """The command ends by itself with this line, the last of what it says, and status 1."""
        status, out, lines = self.ends(*words, **how)
        last = (lines.splitlines() or [""])[-1]
        hold(status == 1 and not out and last.startswith("vtgate: ") and line in last, f"{words}: status {status}, {out!r} {lines!r}, and not {line!r}")

    def position(self) -> str:
        """That of the feed as it is."""
        reading = Reading("ks", "-")
        with contextlib.suppress(Stop):
            read_feed(self.feed, reading)
        return reading.kept.position

    def wait(self, fits: Callable[[], object], what: str, process: subprocess.Popen | None = None) -> None:
        begun = time.monotonic()
        while not fits():
            hold(time.monotonic() - begun < PATIENCE, f"never {what}")
            if process and process.poll() is not None:
                raise Fault(f"it ended before {what}: {process.stderr.read()}")
            time.sleep(0.02)

    def reach(self, process: subprocess.Popen | None = None) -> None:
        """Waits until the feed has all that was committed."""
        self.wait(lambda: self.position() == self.gate.source.gtid, "up to the gate's position", process)

    def sent(self, count: int, process: subprocess.Popen) -> None:
        """Waits until the gate has sent so many answers more, or the feed has all."""
        begun = self.gate.count
        self.wait(lambda: self.gate.count - begun >= count or self.position() == self.gate.source.gtid, f"{count} answers", process)

    def check_rows(self) -> None:
        """The program makes of the feed what the gate has."""
        path = f"{self.feed}.workflow"
        with open(path, "w", encoding="utf-8") as file:
            json.dump(self.gate.workflow(), file)
        done = self.trial.run(self.trial.program, "run", path, self.feed)
        wanted = self.gate.source.dump(TABLES)
        hold(done.stdout == wanted and not done.stderr, f"{done.stderr!r}, {len(done.stdout)} bytes of rows and not {len(wanted)}")
        hold(wanted.count(b"\n") > 20, "there are no rows")

    def check_left(self) -> None:
        """Nothing else is left than the feed, its note and its lock."""
        name = os.path.basename(self.feed)
        left = {one for one in os.listdir(os.path.dirname(self.feed)) if name in one} - {name, f"{name}.json", f"{name}.lock", f"{name}.workflow"}
        hold(not left, f"{left} was left")


def abort(call, code: str = "UNAVAILABLE") -> None:
    import grpc

    call.abort(grpc.StatusCode[code], "broken by\nthe test")


def copied(trial) -> None:
    """A copy amid changes, and what follows it; ended by hand, with status 0."""
    for seed in range(3):
        with Gate(seed) as gate:
            recorder = Recorder(trial, f"copied{seed}", gate)
            with recorder.started("--from-copy") as process:
                recorder.reach(process)
                gate.write(20)
                recorder.reach(process)
                status, out, lines = recorder.end(process, [signal.SIGINT, signal.SIGTERM, signal.SIGHUP][seed])
            hold((status, lines) == (0, ""), f"status {status}, {lines!r}")
            hold(out == f"{recorder.feed}: {os.path.getsize(recorder.feed)} bytes, up to {gate.source.gtid}\n", repr(out))
            recorder.check_rows()
            recorder.check_left()
            gate.write(5)
            with open("/dev/full", "w", encoding="utf-8") as full, recorder.started("--append", stdout=full) as process:
                recorder.reach(process)
                hold(recorder.end(process)[::2] == (1, "vtgate: standard output can't be written: No space left on device\n"), recorder.lines)
            recorder.check_rows()


def broken(trial) -> None:
    """A stream that breaks off amid a copy and behind it is asked for again, with pauses that grow while nothing comes."""
    with Gate(10) as gate:
        recorder, count, at = Recorder(trial, "broken", gate), 0, {1, 2, 40}

        def breaks(call) -> None:
            nonlocal count
            count += 1
            if count in at:
                abort(call)

        gate.breaks = breaks
        with recorder.started("--from-copy") as process:
            recorder.reach(process)
            at |= {count + 5, count + 11, count + 12}
            gate.write(30)
            recorder.reach(process)
            status, _, lines = recorder.end(process)
        pauses = [line.split()[-2] for line in lines.splitlines()]
        hold(status == 0 and pauses[:3] == ["1", "2", "4"] and "1" in pauses[3:], f"status {status}, {lines}")
        hold(all("UNAVAILABLE, broken by?the test" in line for line in lines.splitlines()), lines)
        hold([asked.vgtid.shard_gtids[0].gtid == "" for asked in gate.asked].count(True) == 4, "the copy wasn't begun anew")
        recorder.check_rows()
        recorder.check_left()


def silent(trial) -> None:
    """Signs of life keep a stream; without them it is asked for again."""
    with Gate(11) as gate:
        recorder = Recorder(trial, "silent", gate, "--heartbeat", "1")
        with recorder.started("--from-copy") as process:
            recorder.reach(process)
            # on a machine that stands still they may be late, but not each time
            hold(any(is_kept(recorder, process) for _ in range(9)), "it was asked again and again amid signs of life")
            gate.beats, before = False, len(gate.asked)
            recorder.wait(lambda: len(gate.asked) > before, "asked again", process)
            gate.write(3)
            recorder.reach(process)
            gate.beats = True
            status, _, lines = recorder.end(process)
        hold(status == 0 and "silence for 4 s" in lines, f"status {status}, {lines}")
        recorder.check_rows()


def is_kept(recorder: Recorder, process: subprocess.Popen) -> bool:
    """Whether a stream is the same one behind more signs of life than are waited for in vain."""
    asked, beaten = len(recorder.gate.asked), recorder.gate.beaten
    recorder.wait(lambda: recorder.gate.beaten > beaten + 6, "signs of life", process)
    return len(recorder.gate.asked) == asked


def nobody(trial) -> None:
    """Where nobody listens it is asked again and again, and nothing is left when that is ended."""
    recorder = Recorder(trial, "nobody", None)
    with recorder.started("--behind", "current") as process:
        told = process.stderr.readline() + process.stderr.readline()
        status, out, lines = recorder.end(process)
    hold(status == 1 and not out and "asked again in 1 s" in told and "asked again in 2 s" in told, f"status {status}, {told!r}")
    hold(lines.startswith("vtgate: nothing was recorded before SIGTERM"), lines)
    hold(not os.path.exists(recorder.feed), "there is a feed")
    recorder.check_left()


def ended(trial) -> None:
    """Where VTGate ends the stream, or refuses, the status is 1; what came is there, and gone on with."""
    with Gate(12) as gate:
        recorder = Recorder(trial, "ended", gate)
        gate.breaks = lambda call: abort(call, "INVALID_ARGUMENT")
        recorder.stops("the stream ended amid the copy: INVALID_ARGUMENT, broken by?the test; record again", "--from-copy")
        hold(not os.path.exists(recorder.feed), "there is a feed")
        recorder.check_left()
        gate.breaks = lambda call: None
        with recorder.started("--from-copy") as process:
            recorder.reach(process)
            gate.write(2)
            recorder.reach(process)
            gate.server.stop(None)
            recorder.wait(lambda: "asked again" in process.stderr.readline(), "asked again")
            recorder.end(process)
        recorder.check_rows()


def finite(trial) -> None:
    """A stream without a fault that ends."""
    with Gate(13) as gate:
        recorder = Recorder(trial, "finite", gate)
        whole = gate.sent

        def until_idle(behind, beat, call):
            for answer in whole(behind, 0, call):
                if answer.events[0].type == EventType.HEARTBEAT:
                    return
                yield answer

        gate.sent = until_idle
        recorder.stops("the stream ended behind MySQL56/", "--from-copy")
        hold("VTGate ended it; go on with --append" in recorder.lines, recorder.lines)
        recorder.check_rows()
        gate.write(4)
        recorder.stops("VTGate ended it", "--append")
        recorder.check_rows()


def killed(trial) -> None:
    """Killed at any moment, and its file cut anywhere: the next start goes on, tells what was cut off, and nothing is lost or twice."""
    chance, cut = random.Random(5), 0
    with Gate(14) as gate:
        recorder = Recorder(trial, "killed", gate)
        count = 1
        while not os.path.exists(recorder.feed):
            with recorder.started("--from-copy") as process:
                recorder.sent(count, process)
            count *= 3
        for _ in range(12):
            gate.write(4)
            with recorder.started("--append") as process:
                recorder.sent(chance.randrange(12), process)
                process.kill()
                process.communicate()
            size = os.path.getsize(recorder.feed)
            with open(recorder.feed, "r+b") as file:
                if chance.random() < 0.3:
                    file.seek(0, os.SEEK_END)
                    file.write(bytes(chance.randint(1, 9)))
                elif chance.random() < 0.7:
                    file.truncate(max(size - chance.randint(1, 200), first_group(recorder.feed)))
        with recorder.started("--append") as process:
            recorder.reach(process)
            recorder.end(process)
        recorder.check_rows()
        with open(recorder.feed, "r+b") as file:
            file.truncate(os.path.getsize(recorder.feed) - 1)
        before = recorder.position()
        with recorder.started("--append") as process:
            recorder.reach(process)
            _, _, lines = recorder.end(process)
        hold(lines.count("\n") == 1 and f"bytes behind {before} were no whole transaction, and are cut off" in lines, lines)
        recorder.check_rows()
        recorder.check_left()


def first_group(path: str) -> int:
    """Where the first group ends."""
    from recorder.growing import read_messages

    reading = Reading("ks", "-")
    with open(path, "rb") as file:
        for data, end in read_messages(file):
            for one in merged().FromString(data).events:
                reading.take(one)
            if not reading.is_open:
                return end
    return 0


def signalled(trial) -> None:
    """A signal at any moment ends it with one line, and what the feed has is whole."""
    chance = random.Random(6)
    with Gate(15) as gate:
        for at in range(10):
            recorder = Recorder(trial, f"signalled{at}", gate)
            with recorder.started("--from-copy") as process:
                if at < 4:
                    time.sleep(chance.uniform(0, 0.4))
                else:
                    recorder.sent(chance.randrange(600), process)
                out, lines = met(process, chance.choice([signal.SIGINT, signal.SIGTERM]))
            status = process.returncode
            # before the first module is read a signal ends it in Python's own way
            if status >= 0 and "KeyboardInterrupt" not in lines:
                hold((out + lines).count("\n") == 1 and (status == 0) == os.path.exists(recorder.feed), f"status {status}, {out!r} {lines!r}")
            recorder.check_left()


LOST = b"Failed checking if argv[0]"
"""What Python says where a SIGINT comes just before the first line of a command is read: it goes on then."""


def met(process: subprocess.Popen, number: int) -> tuple[str, str]:
    """What a process says that a signal meets; once more where Python itself lost it."""
    process.send_signal(number)
    begun = time.monotonic()
    while True:
        try:
            return process.communicate(timeout=2)
        except subprocess.TimeoutExpired as fault:
            if LOST in (fault.stderr or b""):
                process.send_signal(number)
            hold(time.monotonic() - begun < PATIENCE, f"signal {number} doesn't end it")


def limited(trial) -> None:
    """Where a file can't grow it ends with one line, and the feed with a whole transaction."""
    with Gate(16) as gate:
        recorder = Recorder(trial, "limited", gate)
        recorder.stops("can't be ", "--from-copy", limit=2)
        hold(not os.path.exists(recorder.feed), "there is a feed")
        recorder.check_left()
        with recorder.started("--from-copy") as process:
            recorder.reach(process)
            recorder.end(process)
        gate.write(200)
        recorder.stops("no file can be written at", "--append", limit=os.path.getsize(recorder.feed) // 1024 + 4)
        with recorder.started("--append") as process:
            recorder.reach(process)
            _, _, lines = recorder.end(process)
        hold(not lines, f"not whole: {lines}")
        recorder.check_rows()


def guarded(trial) -> None:
    """What would lose or mix up feeds is refused, and a feed that is there stays as it was."""
    with Gate(17) as gate:
        recorder = Recorder(trial, "guarded", gate)
        with recorder.started("--from-copy") as process:
            recorder.reach(process)
            recorder.stops("another recording writes this feed", "--append")
            recorder.end(process)
        with open(recorder.feed, "rb") as file:
            whole = file.read()
        recorder.stops("a file is there", "--from-copy")
        recorder.stops("a file is there", "--behind", "current")
        recorder.stops("a note of another recording", "--append", tables=("a", "b"))
        recorder.stops("a position without all of the feed's", "--append", "--behind", "MySQL56/3e11fa47-71ca-11e1-9e33-c80aa9429562:1-3")
        recorder.stops("in place of numbers", "--append", "--behind", "MySQL56/3e11fa47-71ca-11e1-9e33-c80aa9429562:tag:1-3")
        os.rename(f"{recorder.feed}.json", f"{recorder.feed}.workflow")
        recorder.stops("no note beside the feed", "--append", tables=("a", "b"))
        os.rename(f"{recorder.feed}.workflow", f"{recorder.feed}.json")
        none = Recorder(trial, "none", gate)
        none.stops("no feed to append to", "--append")
        os.symlink(recorder.feed, none.feed)
        none.stops("no feed to append to at", "--append")
        none.stops("a link is there", "--from-copy")
        hold(not os.path.exists(f"{none.feed}.lock"), "there is a lock")
        os.unlink(none.feed)
        others = {"no_feed": b"\x05hello" + whole, "of_kt": whole.replace(b"ks", b"kt"), "long": b"\xff" * 11 + whole, "ddl": whole + b"\x04\x0a\x02\x08\x05"}
        for name, data in others.items():
            other = Recorder(trial, name, gate)
            with open(other.feed, "wb") as file:
                file.write(data)
            other.stops("that can grow; record anew", "--append")
            with open(other.feed, "rb") as file:
                hold(file.read() == data, f"{name} was changed")
        with open(recorder.feed, "rb") as file:
            hold(file.read() == whole, "the feed was changed")
        status, _, lines = recorder.ends("--append", "--from-copy")
        hold(status == 2 and "one of --behind, --from-copy and --append" in lines, lines)


def passed(trial) -> None:
    """A DDL stops it before its position is written; --append --behind that position passes it."""
    with Gate(18) as gate:
        recorder = Recorder(trial, "passed", gate)
        with recorder.started("--from-copy") as process:
            recorder.reach(process)
            gate.write(3)
            recorder.reach(process)
            before = recorder.position()
            gate.source.change([])
            statement = event(EventType.DDL)
            statement.events[0].statement = "alter table a\nadd index (v)"
            gate.put([merged(gate.source.position()), statement])
            ddl = gate.source.gtid
            status, out, lines = recorder.end(process, None)
        wanted = f"vtgate: an event of type 5 (alter table a?add index (v)) at {ddl}: docs/OPERATE.md says how to go on\n"
        hold(status == 1 and lines == wanted, f"{out!r} {lines!r}")
        hold(recorder.position() == before, "the statement's position is in the feed")
        gate.write(3)
        recorder.stops("an event of type 5", "--append")
        gate.breaks = abort
        with recorder.started("--append", "--behind", ddl) as process:
            recorder.wait(lambda: recorder.position() == ddl, "at the statement's position", process)
            recorder.end(process)
        gate.breaks = lambda call: None
        with recorder.started("--append") as process:
            recorder.reach(process)
            recorder.end(process)
        recorder.check_rows()


def secured(trial) -> None:
    """TLS on both sides, a user and a password; what isn't so is told in one line."""
    import grpc

    folder = trial.path("tls")
    certify(folder)
    parts = [read(f"{folder}/{name}") for name in ("server.key", "server.crt", "ca.crt")]
    credentials = grpc.ssl_server_credentials([(parts[0], parts[1])], root_certificates=parts[2], require_client_auth=True)
    with Gate(19, credentials=credentials) as gate:
        login = f"{folder}/login.json"
        with open(login, "w", encoding="utf-8") as file:
            json.dump({"Username": "recorder", "Password": "p:w x"}, file)
        tls = ["--ca", f"{folder}/ca.crt", "--cert", f"{folder}/client.crt", "--key", f"{folder}/client.key"]
        recorder = Recorder(trial, "secured", gate)
        with recorder.started("--from-copy", *tls, "--login", login) as process:
            recorder.reach(process)
            gate.write(3)
            recorder.reach(process)
            hold(recorder.end(process)[0] == 0, recorder.lines)
        recorder.check_rows()
        hold([(one.get("username"), one.get("password")) for one in gate.logins] == [("recorder", "p:w x")], f"{gate.logins}")
        for words in tls[:2], ["--ca", f"{folder}/other.crt", *tls[2:]], []:
            with recorder.started("--append", *words) as process:
                recorder.wait(lambda: "UNAVAILABLE" in process.stderr.readline(), "told", process)
                recorder.end(process)
        gate.breaks = lambda call: abort(call, "UNAUTHENTICATED")
        recorder.stops("UNAUTHENTICATED", "--append", *tls)
        recorder.stops("no certificate, or not its key in", "--append", "--ca", login)
        recorder.stops("no certificate, or not its key in", "--append", *tls[:-1], f"{folder}/server.key")
        recorder.stops("No such file", "--append", "--ca", f"{folder}/none.crt")
        recorder.stops("no user and password in", "--append", "--login", f"{folder}/ca.crt")
        hold(recorder.ends("--append", *tls[:4])[0] == 2, "a certificate without its key")
        hold(len(gate.logins) == 2, f"{gate.logins}")


def certify(folder: str) -> None:
    """Keys and certificates of two authorities, of a server and of a client."""
    os.mkdir(folder)

    def openssl(*words: str) -> None:
        subprocess.run(["openssl", *words], cwd=folder, check=True, capture_output=True, timeout=PATIENCE)

    for name in "ca", "other":
        openssl("req", "-x509", "-newkey", "rsa:2048", "-nodes", "-keyout", f"{name}.key", "-out", f"{name}.crt", "-subj", f"/CN={name}", "-days", "9")
    with open(f"{folder}/names", "w", encoding="utf-8") as file:
        file.write("subjectAltName=DNS:localhost\n")
    for name in "server", "client":
        openssl("req", "-newkey", "rsa:2048", "-nodes", "-keyout", f"{name}.key", "-out", f"{name}.csr", "-subj", f"/CN={name}")
        signed = ["-CA", "ca.crt", "-CAkey", "ca.key", "-CAcreateserial", "-extfile", "names", "-days", "9"]
        openssl("x509", "-req", "-in", f"{name}.csr", *signed, "-out", f"{name}.crt")


def read(path: str) -> bytes:
    with open(path, "rb") as file:
        return file.read()


SCENES: list[Callable] = [copied, broken, silent, nobody, ended, finite, killed, signalled, limited, guarded, passed, secured]


def calls(trial) -> None:
    """All of them, side by side: most of what they do is to wait."""
    scenes = [scene for scene in SCENES if scene is not secured or shutil.which("openssl")]
    if len(scenes) < len(SCENES):
        print("openssl isn't installed: TLS wasn't tried")
    with ThreadPoolExecutor(8) as pool:
        for scene, why in zip(scenes, pool.map(lambda scene: why_not(scene, trial), scenes)):
            trial.check(f"vtgate call {scene.__name__}", why)


def why_not(scene: Callable, trial) -> str | None:
    try:
        scene(trial)
    except Exception as fault:  # noqa: BLE001
        return f"{type(fault).__name__}: {str(fault)[:900]}"
    return None
