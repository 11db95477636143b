"""The words of serve/target."""
import argparse
import ipaddress
import os
from dataclasses import dataclass

from recorder.program import OWN
from recorder.stop import Stop

from .login import Place, read_url

PORT = 8417
SHORTEST_TOKEN = 16
MOST_GROUPS = 2**32 - 1


@dataclass(frozen=True)
class Asked:
    """What a target is asked for."""

    workflow: str
    feeds: list[str]
    checkpoint: str
    program: str
    host: str
    port: int
    token: str | None
    place: Place | None
    name: str
    groups: int
    every: float
    """The seconds between two checkpoints."""
    is_adopting: bool

    def words(self) -> list[str]:
        """The program's, which goes on with the checkpoint where one is there. Names may begin as options do."""
        begun = [f"--checkpoint={self.checkpoint}"] if os.path.exists(self.checkpoint) else []
        return [self.program, "live", *begun, f"--save-to={self.checkpoint}", "--", self.workflow, *self.feeds]


def read_words(what: str) -> Asked:
    parser = argparse.ArgumentParser(prog="serve/target", description=what)
    parser.add_argument("--checkpoint", required=True, metavar="FILE", help="where the rows are saved: it is gone on with, or made")
    parser.add_argument("--into", metavar="URL", help="apply the rows to this database too: mysql://USER@HOST:PORT/SCHEMA or mysql:///SCHEMA?socket=FILE; the password is MYSQL_PWD's")
    parser.add_argument("--name", help="by which the database knows this workflow; the workflow file's name otherwise")
    parser.add_argument("--adopt", action="store_true", help="with --into: tables that have rows and no positions are made equal to the workflow's")
    parser.add_argument("--listen", default=f"127.0.0.1:{PORT}", metavar="ADDRESS:PORT", help="where requests are answered; 127.0.0.1:%d otherwise; port 0 is any" % PORT)
    parser.add_argument("--token", metavar="FILE", help="a file with the word that all requests but /healthz have to bring; wanted where others can reach ADDRESS")
    parser.add_argument("--groups", type=int, default=1000, metavar="N", help="how many transactions a stream are applied in one, at most; 1000 otherwise")
    parser.add_argument("--save-every", type=float, default=60, metavar="SECONDS", help="how often the checkpoint is saved; 60 otherwise")
    parser.add_argument("--program", default=OWN, help="the program; vrepl of this repository otherwise")
    parser.add_argument("workflow", metavar="WORKFLOW")
    parser.add_argument("feeds", nargs="+", metavar="FEED", help="the feed of each stream, in their order")
    said = parser.parse_args()
    host, port = _address(parser, said.listen)
    if not 1 <= said.groups <= MOST_GROUPS or not said.save_every > 0:
        parser.error(f"--groups is a number of 1 to {MOST_GROUPS}, and --save-every is above 0")
    if not said.into and (said.name is not None or said.adopt):
        parser.error("--name and --adopt are for --into")
    if not said.token and not _is_own(host):
        parser.error(f"others can reach {host}: --token FILE has the word that they bring")
    token = _token(said.token) if said.token else None
    name = said.name or os.path.basename(said.workflow).removesuffix(".json")
    place = read_url(said.into) if said.into else None
    return Asked(said.workflow, said.feeds, said.checkpoint, said.program, host, port, token, place, name, said.groups, said.save_every, said.adopt)


def _address(parser: argparse.ArgumentParser, text: str) -> tuple[str, int]:
    host, colon, port = text.rpartition(":")
    if not colon or not port.isdigit() or int(port) > 65535 or not host:
        parser.error(f"--listen {text}: it is ADDRESS:PORT")
    return host.removeprefix("[").removesuffix("]"), int(port)


def _is_own(host: str) -> bool:
    """Whether an address is reached from this machine alone."""
    try:
        return ipaddress.ip_address(host).is_loopback
    except ValueError:
        return host == "localhost"


def _token(name: str) -> str:
    """The word in a file."""
    try:
        with open(name, encoding="utf-8") as file:
            token = file.read().strip()
    except UnicodeDecodeError:
        token = ""
    if len(token) < SHORTEST_TOKEN or not token.isascii() or not token.isprintable() or " " in token or ";" in token or '"' in token:
        raise Stop("no token", f"in {name}", f"it is one word of {SHORTEST_TOKEN} characters of ASCII or more, without quotes and semicolons: openssl rand -hex 32 makes one")
    return token
