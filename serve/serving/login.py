"""The database that a URL names: `mysql://[USER@]HOST[:PORT]/SCHEMA`, or `mysql:///SCHEMA?socket=FILE`.

Further words stand behind the question mark: `socket`, `ssl-ca`, `defaults-file`, `user`. A password is no part of it, since others see a
command's words: it is in MYSQL_PWD, or in the option file.
"""
import argparse
from dataclasses import dataclass
from urllib.parse import parse_qsl, unquote, urlsplit

from recorder.logins import login_of
from recorder.server import Login
from recorder.stop import Stop

WORDS = ("socket", "ssl-ca", "defaults-file", "user")
FORM = "it is mysql://USER@HOST:PORT/SCHEMA or mysql:///SCHEMA?socket=FILE, with user=, ssl-ca= and defaults-file="


@dataclass(frozen=True)
class Place:
    """A schema of a server."""

    login: Login
    schema: str

    def __str__(self) -> str:
        return f"{self.schema} at {self.login.place}"


def read_url(text: str) -> Place:
    """Stops where it is no such URL."""
    try:
        said = urlsplit(text)
        port, pairs = said.port, parse_qsl(said.query, keep_blank_values=True, strict_parsing=bool(said.query))
    except ValueError as fault:
        raise Stop("no URL of a database", "(--into)", f"{fault}; {FORM}") from None
    words, schema = dict(pairs), unquote(said.path[1:])
    if said.password is not None:
        raise Stop("a password in a URL", "(--into)", "others see a command's words: put it into MYSQL_PWD, or into defaults-file=FILE")
    if said.scheme not in ("mysql", "mariadb") or not schema or "/" in schema or said.fragment or not set(words) <= set(WORDS):
        raise Stop("no URL of a database", "(--into)", FORM)
    user = unquote(said.username) if said.username else words.get("user")
    host = said.hostname or ""
    if bool(host) == ("socket" in words) and "defaults-file" not in words:
        raise Stop("no URL of a database", "(--into)", f"it names a host or a socket; {FORM}")
    named = argparse.Namespace(socket=words.get("socket"), host=host or None, port=port, user=user, ssl_ca=words.get("ssl-ca"), defaults_file=words.get("defaults-file"))
    return Place(login_of(named), schema)
