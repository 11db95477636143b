"""The words of a command that say which server is meant, and the file of options that may say it too."""
import argparse
import configparser
import ssl

from pymysql.optionfile import Parser

from .server import Login
from .stop import Stop

GROUPS = ("client", "client-server", "client-mariadb")
"""The groups of an option file that are read, the later ones before the earlier."""


def add_words(parser: argparse.ArgumentParser) -> None:
    parser.add_argument("--socket", help="the server's socket")
    parser.add_argument("--host", help="the server's address in the network, in place of --socket")
    parser.add_argument("--port", type=int, help="the server's port; 3306 otherwise")
    parser.add_argument("--user", help="as whom to connect; the login's name otherwise")
    parser.add_argument("--ssl-ca", metavar="FILE", help="speak TLS with the host alone, whose certificate one of this file's has signed for its name")
    parser.add_argument("--defaults-file", metavar="FILE", help="what isn't said here is in [client] there: socket, host, port, user, password and ssl-ca")


def check_words(parser: argparse.ArgumentParser, said: argparse.Namespace) -> None:
    """A fault of usage where the words name two servers or none."""
    if said.socket is not None and (said.host or said.port or said.ssl_ca):
        parser.error("--host, --port and --ssl-ca are in place of --socket")
    if said.socket is None and not (said.host or said.defaults_file):
        parser.error("name the server by --socket or --host, or in --defaults-file")


def login_of(said: argparse.Namespace) -> Login:
    """The login that the words, and behind them the option file, say. Stops where there is none in it."""
    if said.socket == "":
        # the library would take this machine's server in the network for it
        raise Stop("no connection", "at ''", "a socket has a name")
    file = _options(said.defaults_file) if said.defaults_file else {}
    user = Login.of("", said.user or file.get("user")).user
    password = file.get("password") or ""
    socket = said.socket or ("" if said.host else file.get("socket") or "")
    host = said.host or file.get("host") or ""
    if socket:
        return Login(socket, user, password=password)
    if not host:
        raise Stop("no server", f"in {said.defaults_file}", "name it there, or by --socket or --host")
    ssl_ca = said.ssl_ca or file.get("ssl-ca") or ""
    if ssl_ca:
        _check_certificates(ssl_ca)
    try:
        return Login("", user, host, said.port or int(file.get("port") or 3306), ssl_ca, password)
    except ValueError:
        raise Stop(f"port {file['port']}", f"in {said.defaults_file}", "it isn't a number") from None


def of_file(name: str) -> Login:
    """The login that an option file says by itself."""
    return login_of(argparse.Namespace(socket=None, host=None, port=None, user=None, ssl_ca=None, defaults_file=name))


def _check_certificates(name: str) -> None:
    try:
        ssl.create_default_context(cafile=name)
    except OSError as fault:
        raise Stop("no certificates", f"in {name}", str(fault.strerror or fault)) from None


def _options(name: str) -> dict[str, str | None]:
    """What an option file says to clients. Stops where it can't be read as a whole."""
    parser = Parser(strict=False)
    try:
        with open(name, encoding="utf-8") as file:
            lines = file.readlines()
        if any(line.startswith("!") for line in lines):
            raise Stop("another file that is included", f"by {name}", "name the file itself, by --defaults-file")
        parser.read_file(lines, name)
    except OSError as fault:
        raise Stop("no option file", f"at {name}", str(fault.strerror)) from None
    except (configparser.Error, UnicodeDecodeError) as fault:
        raise Stop("no option file", f"in {name}", " ".join(str(fault).split())) from None
    return {key.replace("_", "-"): value and parser.get(group, key) for group in GROUPS if parser.has_section(group) for key, value in parser.items(group)}
