"""What an operator does to switch over to targets: the commands in their order, and the waiting between them."""
import json
import os
import shlex
import time
from collections.abc import Iterator
from dataclasses import dataclass
from http.client import HTTPException
from urllib.error import HTTPError, URLError
from urllib.parse import urlencode
from urllib.request import Request, urlopen

from recorder.stop import Stop

from .plan import Plan

HERE = os.path.dirname(os.path.dirname(os.path.abspath(__file__)))
BEYOND = 10
"""The seconds that an answer may come late."""


@dataclass(frozen=True)
class Target:
    """A target that is served, and where its rows are."""

    address: str
    workflow: str
    schema: str

    @property
    def name(self) -> str:
        return os.path.basename(self.workflow).removesuffix(".json")


@dataclass(frozen=True)
class Switch:
    """What is switched: the option files of the sources' servers, one a stream, that of the targets' server, and the feeds."""

    sources: list[str]
    server: str
    targets: list[Target]
    feeds: list[str]
    token: str | None
    timeout: float

    def check(self) -> None:
        """Stops where sources, feeds and streams aren't as many."""
        for target in self.targets:
            count = len(Plan.read(target.workflow).shards)
            if len(self.sources) != count or len(self.feeds) != count:
                raise Stop(f"{count} streams", f"in {target.workflow}", f"they want as many servers and feeds; here are {len(self.sources)} and {len(self.feeds)}")

    def steps(self) -> Iterator[str]:
        """The lines of a script of the shell, in which what is said to a person is a comment."""
        servers = list(dict.fromkeys(self.sources))
        yield "# 1. Stop writes on the sources. Whoever has READ_ONLY ADMIN or SUPER still writes: end these clients first. Clients wait from here on."
        yield from (f"mariadb --defaults-file={shlex.quote(server)} -e 'SET GLOBAL read_only=ON'" for server in servers)
        yield "# 2. Read the sources' positions."
        for at, server in enumerate(servers):
            yield f"""position{at}=$(mariadb --defaults-file={shlex.quote(server)} --batch --skip-column-names -e 'SELECT @@gtid_binlog_pos')"""
        yield "# 3. Wait until each target has applied them. The status is 1 where one hasn't in time: go back by the last step."
        positions = [f'--position "{stream}=$position{servers.index(server)}"' for stream, server in enumerate(self.sources)]
        for target in self.targets:
            token = ["--token", shlex.quote(self.token)] if self.token else []
            yield " ".join([self._command("serve/switch"), "--await", shlex.quote(target.address), *token, "--timeout", f"{self.timeout:g}", *positions])
        yield "# 4. Compare. The status is 0 where all rows are the same, and 3 where one differs."
        for target in self.targets:
            name = target.name.replace("\\", "\\\\").replace("'", "''")
            query = f"SELECT position FROM {_quoted(target.schema)}.vrepl_streams WHERE workflow='{name}' ORDER BY stream"
            words = ["--target", f"--defaults-file={self.server}", "--positions", query, target.workflow, *self.feeds, target.schema]
            yield " ".join([self._command("record/compare"), *map(shlex.quote, words)])
        yield "# 5. Switch: let the clients write to the targets, and nobody to the sources, which stay read-only. Then end each serve/target by SIGTERM."
        yield "# To go back, where a step failed and before a client wrote to a target:"
        yield from (f"# mariadb --defaults-file={shlex.quote(server)} -e 'SET GLOBAL read_only=OFF'" for server in servers)

    @staticmethod
    def _command(name: str) -> str:
        return shlex.quote(os.path.normpath(os.path.join(HERE, "..", name)))


def _quoted(name: str) -> str:
    return "`" + name.replace("`", "``") + "`"


def wait(address: str, positions: list[str], token: str, seconds: float) -> dict:
    """What /reached answers once it does. Stops where nobody answers there, or something else; a target that is just begun again is
    waited for."""
    last = time.monotonic() + seconds
    while True:
        left = max(0.0, last - time.monotonic())
        query = urlencode({"position": positions, "timeout": f"{left:.3f}"}, doseq=True)
        request = Request(f"{address.rstrip('/')}/reached?{query}", headers={"Authorization": f"Bearer {token}"} if token else {})
        try:
            with urlopen(request, timeout=left + BEYOND) as answer:
                return _said(address, answer.read())
        except HTTPError as fault:
            with fault:
                said = _said(address, fault.read())
            if fault.code == 504 and "streams" in said:
                return said
            raise Stop("no answer", f"of {address}", str(said.get("error", fault.reason))) from None
        except (URLError, OSError, HTTPException, ValueError) as fault:
            if time.monotonic() >= last:
                raise Stop("no answer", f"of {address}", str(getattr(fault, "reason", fault))) from None
            time.sleep(0.5)


def _said(address: str, body: bytes) -> dict:
    try:
        said = json.loads(body)
        if isinstance(said, dict):
            return said
    except ValueError:
        pass
    raise Stop("no serve/target", f"at {address}", "it answers something else")
