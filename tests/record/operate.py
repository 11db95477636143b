"""What docs/OPERATE.md says, tried: a dump put back as rows, and the page's own commands, with a stand-in for VTGate."""
import os
import re
import shutil
import subprocess
from collections.abc import Iterator
from contextlib import contextmanager

from .load import SCHEMAS, tables_of
from .server import die_with_parent

ROOT = os.path.dirname(os.path.dirname(os.path.dirname(os.path.abspath(__file__))))
PAGE = "docs/OPERATE.md"
SOCKET, VTGATE = "/run/mysqld/mysqld.sock", "vtgate.example:15991"
PATIENCE = 600


@contextmanager
def stand_in(feed: str) -> Iterator[str]:
    """The address of a VTGate that has the groups of a feed; none where the system's Python has no gRPC."""
    if subprocess.run(["/usr/bin/python3", "-c", "import grpc"], capture_output=True, timeout=PATIENCE).returncode:
        yield ""
        return
    words = [os.path.join(ROOT, "tests/record/vtgate.py"), feed, "shop", "-", "customer=id", "orders=customer,number"]
    told = {**os.environ, "PYTHONDONTWRITEBYTECODE": "1"}
    with subprocess.Popen(words, stdin=subprocess.DEVNULL, stdout=subprocess.PIPE, text=True, preexec_fn=die_with_parent, env=told) as served:
        try:
            address = served.stdout.readline().strip()
            if not address:
                raise RuntimeError("the stand-in for VTGate doesn't start")
            yield address
        finally:
            served.kill()


def read_file(path: str) -> bytes:
    with open(path, "rb") as file:
        return file.read()


def restored(trial) -> None:
    """A dump's rows are put into empty tables, which then are those of the source; all but FLOAT, of which a dump has six digits."""
    sources = [("ks_lower", [name.partition(".")[2] for name in tables_of(SCHEMAS[0])]), ("k", ["t"])]
    trial.server.sql("ALTER TABLE k.t DROP COLUMN f")
    for schema, tables in sources:
        workflow = trial.workflow(f"{schema}.back.json", ["-"], [f"{schema}.{table}" for table in tables])
        inserts = trial.run("record/insert", workflow, "back", stdin=trial.selected(workflow, schema).decode())
        trial.server.sql("CREATE DATABASE back; " + "".join(f"CREATE TABLE back.{table} LIKE {schema}.{table}; " for table in tables))
        trial.server.sql(inserts.stdout.decode())
        for table in tables:
            sums = trial.server.sql(f"CHECKSUM TABLE {schema}.{table}, back.{table}").stdout.decode().split()
            trial.check(f"restored {schema}.{table}", None if sums[1] == sums[3] not in ("0", "NULL") else f"{sums}")
        trial.server.sql("DROP DATABASE back")


def commands(text: str) -> Iterator[tuple[str, str]]:
    """The commands of a page, each with its output."""
    lines = text.splitlines()
    for at, line in enumerate(lines):
        if line.startswith("    $ "):
            block = []
            for more in lines[at + 1:]:
                if not more.startswith("    ") or more.startswith("    $ "):
                    break
                block.append(more[4:])
            command = line[6:]
            while command.endswith("\\"):
                command = command[:-1] + block.pop(0).strip()
            yield command, "".join(f"{one}\n" for one in block)


def page(trial) -> None:
    """The commands of the page, one behind the other in a folder of their own, print what it says."""
    trial.server.sql("RESET MASTER")
    folder = trial.path("page")
    os.mkdir(folder)
    for name in ("examples", "tests"):
        os.symlink(os.path.join(ROOT, name), os.path.join(folder, name))
    # the program that record/compare takes is the one beside it
    shutil.copytree(os.path.join(ROOT, "record"), os.path.join(folder, "record"), ignore=shutil.ignore_patterns("__pycache__"))
    os.symlink(trial.program, os.path.join(folder, "vrepl"))
    with open(os.path.join(folder, ".my.cnf"), "w", encoding="utf-8") as file:
        file.write(f"[client]\nsocket={trial.server.socket}\nuser=root\n")
    with stand_in(os.path.join(folder, "shop.feed")) as address:
        untried = try_commands(trial, folder, address)
    if untried:
        print(f"python3-grpcio isn't installed: what {PAGE} says of {', '.join(sorted(untried))} wasn't tried")


def try_commands(trial, folder: str, address: str) -> set[str]:
    """Checks what each command prints; answers the files that weren't made, since there is no VTGate."""
    untried: set[str] = set()
    for command, output in commands(read_file(os.path.join(ROOT, PAGE)).decode()):
        files = set(re.findall(r"\w+\.(?:feed|dump)", command))
        if not address and VTGATE in command or files & untried:
            untried |= {name for name in files if not os.path.exists(os.path.join(folder, name))}
            continue
        said = run_in(folder, command.replace(SOCKET, trial.server.socket).replace(VTGATE, address))
        said, output = (re.sub(r"binlog\.\d+:\d+", "binlog:N", one) for one in (said, output))
        trial.check(f"{PAGE}: {command}", None if said == output else f"{said!r} and not {output!r}")
    return untried


def run_in(folder: str, command: str) -> str:
    told = {**os.environ, "HOME": folder, "PYTHONDONTWRITEBYTECODE": "1"}
    done = subprocess.run(["bash", "-c", command], cwd=folder, env=told, stdin=subprocess.DEVNULL, stdout=subprocess.PIPE,
                          stderr=subprocess.STDOUT, timeout=PATIENCE)  # fmt: skip
    return done.stdout.decode(errors="replace")
