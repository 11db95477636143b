"""What the program doesn't tell of a server's log, and what to do where it refuses one: each is a stop."""
import re

from pymysql import Connection

from .catalogue import Table
from .kinds import Kind
from .logcopies import Copies
from .server import ask
from .stop import AGAIN, BEHIND, Refused, Stop

MOST_TABLES = 64
"""How many a workflow file has."""
UNREAD = (Kind.FLOAT32, Kind.FLOAT64, Kind.GEOMETRY)
PLAIN = re.compile(r"[A-Za-z0-9_$]+")
"""A table's name as the program reads it."""
OF_A_FILE = re.compile(r" file (.+) byte (\d+)")
OF_FILES = range(140, 147)
"""The numbers by which it refuses a file that is no log, or a damaged one."""
ANEW_CLIENTS = "let clients connect anew, and"
TODO = {
    72: "a smaller max_binlog_size, and record/compact, take less memory",
    147: f"SET GLOBAL binlog_row_image=FULL, {ANEW_CLIENTS} {BEHIND}",
    149: f"SET GLOBAL binlog_row_metadata=FULL and {BEHIND}, or leave the table out",
    150: f"leave the table out, or {BEHIND}",
    151: f"SET GLOBAL binlog_format=ROW, {ANEW_CLIENTS} {BEHIND}",
    153: f"SET GLOBAL log_bin_compress=0, FLUSH BINARY LOGS, and {BEHIND}",
    158: f"numbers of a domain have to rise (gtid_strict_mode=1); {BEHIND}",
}
"""What to do by a refusal's number; of one of a log that isn't here, BEHIND."""
OF_LOGS = range(140, 160)


def told_refusal(refused: Refused, copies: Copies) -> Refused:
    """A refusal of the log's copies, with the place in the log and with what to do."""
    found = OF_A_FILE.search(str(refused))
    place = copies.place_of(found[1], int(found[2])) if found else None
    todo = f"where a copy was damaged take {copies.folder} away, and {AGAIN}; else {BEHIND}" if refused.number in OF_FILES else TODO.get(refused.number)
    todo = todo or (BEHIND if refused.number in OF_LOGS else "")
    return refused.with_todo(todo, f"at {place}" if place else "") if todo else refused


def check_told(connection: Connection, tables: list[Table]) -> None:
    """Stops at what the program's feed would lack, or would print otherwise than the server."""
    if ask(connection, "SELECT @@global.log_bin_compress")[0][0]:
        raise Stop("log_bin_compress is on", "", f"packed events aren't read; SET GLOBAL log_bin_compress=0, FLUSH BINARY LOGS, and {BEHIND}")
    if len({table.schema for table in tables}) > 1:
        raise Stop("tables of several schemas", f"({', '.join(sorted({table.schema for table in tables}))})", "record one feed of each")
    if len(tables) > MOST_TABLES:
        raise Stop(f"more than {MOST_TABLES} tables", f"({len(tables)})", "record fewer in each feed")
    for table in tables:
        _check_table(table)


def _check_table(table: Table) -> None:
    """Stops at a table that the program doesn't tell as the server prints it."""
    if not PLAIN.fullmatch(table.name):
        raise Stop(f"a table's name that isn't plain ({table.name})", f"in {table.schema}",
                   "its letters are those of ASCII, digits, _ and $; rename it, or leave it out")  # fmt: skip
    for column in table.columns:
        kind, width = column.kind, column.printing.width
        if kind in UNREAD or width and kind != Kind.BINARY and (kind, width) != (Kind.YEAR, 4):
            what = kind.name if kind in UNREAD or kind == Kind.YEAR else "ZEROFILL"
            raise Stop(f"column {column.name}, which is {what},", f"in {table.schema}.{table.name}",
                       f"no log is read as the server prints it; make it {_instead(what)}, and record again, or leave the table out")  # fmt: skip


def _instead(what: str) -> str:
    return {"ZEROFILL": "a plain number", "YEAR": "YEAR(4)", "GEOMETRY": "BLOB"}.get(what, "DECIMAL")
