"""A source: a server's tables, and record/feed --forever over them as a process."""
import os
import signal
import subprocess

from record.server import die_with_parent

from .daemon import QUICK, ROOT, awaits

OWN = "/usr/bin/python3"


class Recorder:
    """Use it with `with`: it is killed behind that, if it hasn't ended. The program reads the log, ./vrepl where none is named."""

    def __init__(self, server, feed: str, shard: str, *tables: str, program: str | None = None) -> None:
        self._words = [OWN, os.path.join(ROOT, "record/feed"), "--socket", server.socket, "--user", "root", f"--shard={shard}", "--forever", "--out", feed,
                       *(["--program", program] if program else [])]  # fmt: skip
        self._tables, self.feed, self.process, self.said = tables, feed, None, feed + ".said"

    def begin(self, patience: float = 600) -> None:
        """Goes on with the feed, or begins it by a snapshot, until it has come to the log's end once."""
        how = "--append" if os.path.exists(self.feed + ".json") else "--from-snapshot"
        with open(self.said, "wb") as said:
            self.process = subprocess.Popen([*self._words, how, *self._tables], stdin=subprocess.DEVNULL, stdout=said, stderr=said, preexec_fn=die_with_parent, env=QUICK)
        awaits(self._has_begun, "a recording", patience)

    def _has_begun(self) -> bool:
        with open(self.said, encoding="utf-8") as file:
            text = file.read()
        if self.process.poll() is not None:
            raise RuntimeError(f"the recording has ended: {text}")
        return "going on" in text

    def kill(self) -> None:
        self.process.kill()
        self.process.wait()

    def __enter__(self) -> "Recorder":
        self.begin()
        return self

    def __exit__(self, *_: object) -> None:
        if self.process and self.process.poll() is None:
            self.process.send_signal(signal.SIGKILL)
            self.process.wait()


def workflow(server, path: str, keyspace: str, shards: list[str], tables: list[str], *words: str) -> str:
    """Writes a workflow file by record/workflow; answers its path."""
    said = [OWN, os.path.join(ROOT, "record/workflow"), "--socket", server.socket, "--user", "root", "--keyspace", keyspace, f"--shards={','.join(shards)}", *words, *tables]
    with open(path, "wb") as file:
        done = subprocess.run(said, stdout=file, stderr=subprocess.PIPE, env=QUICK, timeout=120)
    if done.returncode:
        raise RuntimeError(done.stderr.decode())
    return path
