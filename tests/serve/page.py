"""The commands of docs/LIVE.md, in one shell, one behind the other: they print what stands under them."""
import os
import re
import select
import shutil
import signal
import socket
import subprocess
import time

from record.operate import commands
from record.server import Server, command, die_with_parent, is_installed

from .daemon import ROOT

PAGE = "docs/LIVE.md"
PROGRAM = """#!/bin/sh
# The program, and for its session what stands in for that.
case $1 in live) exec {live} "$@" ;; *) exec {program} "$@" ;; esac
"""
PATIENCE = 300


def free_ports(count: int) -> list[int]:
    taken = [socket.create_server(("127.0.0.1", 0)) for _ in range(count)]
    ports = [one.getsockname()[1] for one in taken]
    for one in taken:
        one.close()
    return ports


class Shell:
    """A shell that stays; what it began ends with it."""

    def __init__(self, folder: str) -> None:
        told = {**os.environ, "HOME": folder, "PYTHONDONTWRITEBYTECODE": "1", "PATH": f"{os.path.dirname(command('mariadb'))}:{os.environ['PATH']}"}
        pipe = subprocess.PIPE
        self._process = subprocess.Popen(["bash", "--norc"], cwd=folder, env=told, stdin=pipe, stdout=pipe, stderr=subprocess.STDOUT, start_new_session=True,
                                         preexec_fn=die_with_parent)  # fmt: skip

    def run(self, text: str) -> str:
        """What a command prints. RuntimeError where it doesn't end."""
        self._process.stdin.write(f"{{ {text}\n}} < /dev/null\necho; echo ended\n".encode())
        self._process.stdin.flush()
        last = time.monotonic() + PATIENCE
        said = b""
        while not said.endswith(b"\nended\n"):
            if time.monotonic() > last or self._process.poll() is not None:
                raise RuntimeError(f"{text}: {said}")
            if select.select([self._process.stdout], [], [], 1)[0]:
                said += os.read(self._process.stdout.fileno(), 2**16)
        return said.removesuffix(b"\nended\n").decode(errors="replace")

    def end(self) -> None:
        os.killpg(self._process.pid, signal.SIGKILL)
        self._process.wait()


def tried(trial) -> None:
    if not is_installed() or not shutil.which("curl"):
        return trial.leave_out(PAGE, "mariadb-server or curl")
    folder = trial.path("page")
    os.mkdir(folder)
    for name in ("record", "serve"):
        shutil.copytree(os.path.join(ROOT, name), os.path.join(folder, name), ignore=shutil.ignore_patterns("__pycache__"))
    os.symlink(os.path.join(ROOT, "examples"), os.path.join(folder, "examples"))
    with open(os.path.join(folder, "vrepl"), "w", encoding="utf-8") as file:
        file.write(PROGRAM.format(live=trial.live, program=trial.program))
    os.chmod(file.name, 0o755)
    with open(os.path.join(ROOT, PAGE), encoding="utf-8") as file:
        text = file.read().split("## What it answers")[0]
    ports = dict(zip(("8417", "8418"), map(str, free_ports(2))))
    with Server(61) as source, Server(62) as server:
        for name, one in (("source", source), ("target", server)):
            with open(os.path.join(folder, f"{name}.cnf"), "w", encoding="utf-8") as file:
                file.write(f"[client]\nsocket={one.socket}\nuser=root\n")
        shell = Shell(folder)
        try:
            for words, output in commands(text):
                asked = re.sub("841[78]", lambda it: ports[it[0]], words)
                if "serve/target" in asked and "--listen" not in asked:
                    asked = asked.replace("serve/target", f"serve/target --listen 127.0.0.1:{ports['8417']}")
                said = re.sub("|".join(ports.values()), lambda it: next(name for name, port in ports.items() if port == it[0]), shell.run(asked))
                trial.check(words[:70], said == output, f"{said!r} and not {output!r}")
        finally:
            shell.end()
