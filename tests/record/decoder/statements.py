"""What a statement of the log is, and which tables' layout or rows it changes as a whole.

Statements stand in a row-based log where no row event can: around transactions, and for changes of
tables themselves. The text is cut into words as MariaDB cuts it; there is no grammar beyond the places
in which such statements name their tables, and that of `alterations`.
"""
from dataclasses import dataclass
from enum import Enum, auto

from recorder.catalogue import Name

from .alterations import has_one_meaning, leaves_key, leaves_table
from .words import Walk, words_of


class Does(Enum):
    BEGIN = auto()
    COMMIT = auto()
    ROLLBACK = auto()
    SAVEPOINT = auto()
    ROLLBACK_TO = auto()
    XA_COMMIT = auto()
    XA_ROLLBACK = auto()
    NOTHING = auto()
    """Nothing to the rows, the columns and the primary key of any table."""
    CREATE = auto()
    """Makes a table; MariaDB logs none that was there already."""
    LAYOUT = auto()
    """Changes or drops tables."""
    DROP_SCHEMA = auto()
    TRUNCATE = auto()
    ROWS = auto()
    """May change rows: it was logged as a statement, or isn't known."""


_OF_TABLES = ("ANALYZE", "OPTIMIZE", "REPAIR", "CHECK")
"""Statements that say so behind these words, and leave their rows; ANALYZE UPDATE is an UPDATE."""


@dataclass(frozen=True)
class Statement:
    does: Does
    names: tuple[Name, ...] = ()
    """The tables that are named; of DROP_SCHEMA the schema and an empty name."""
    savepoint: str = ""
    moves: bool = False
    """Rows may come into the named tables that no event has: those of a table that is renamed, exchanged or imported."""


_HARMLESS = {"GRANT", "REVOKE", "FLUSH", "SET", "RESET", "PURGE", "COMMENT", "INSTALL", "UNINSTALL"}
_MOVES = {"RENAME", "EXCHANGE", "CONVERT", "IMPORT"}


def _of_tables(walk: Walk, first: str, is_sure: bool) -> Statement:
    """A CREATE, ALTER, DROP, RENAME or TRUNCATE, behind its first word; whether its text has one meaning alone."""
    walk.skip_any("OR", "REPLACE", "ONLINE", "OFFLINE", "IGNORE", "UNIQUE", "FULLTEXT", "SPATIAL")
    # with IGNORE rows that an index doesn't allow go away
    is_sure = is_sure and not any(word.key == "IGNORE" for word in walk.words[:walk.at])
    if walk.skip("TEMPORARY"):
        return Statement(Does.NOTHING)
    if first == "TRUNCATE":
        walk.skip_any("TABLE")
        return Statement(Does.TRUNCATE, tuple(walk.name()))
    if first == "DROP" and (walk.skip("DATABASE") or walk.skip("SCHEMA")):
        walk.skip("IF", "EXISTS")
        return Statement(Does.DROP_SCHEMA, ((walk.name()[0][1], ""),))
    if walk.skip("INDEX"):
        if is_sure and (first == "CREATE" or leaves_key(walk)):
            return Statement(Does.NOTHING)
        return Statement(Does.LAYOUT, tuple(walk.names_behind("ON")[:1]))
    if not (walk.skip("TABLE") or walk.skip("TABLES")):
        return Statement(Does.NOTHING)
    walk.skip("IF", "NOT", "EXISTS")
    walk.skip("IF", "EXISTS")
    names, moves = walk.name(), first == "RENAME"
    if first == "CREATE":
        return Statement(Does.ROWS if _has_rows(walk) else Does.CREATE, tuple(names))
    if first in ("DROP", "RENAME"):
        while walk.at < len(walk.words):
            names += walk.name() if walk.skip(",") or walk.skip("TO") else []
            walk.at += walk.at < len(walk.words) and walk.words[walk.at].key not in (",", "TO")
    elif first == "ALTER":
        behind = walk.at
        if is_sure and leaves_table(walk):
            return Statement(Does.NOTHING)
        moves = any(word.key in _MOVES for word in walk.words[behind:])
        walk.at = behind
        names += walk.names_behind("RENAME")
        walk.at = behind
        names += walk.names_behind("TABLE")
    return Statement(Does.LAYOUT, tuple(names), moves=moves)


def _has_rows(walk: Walk) -> bool:
    """Whether a CREATE TABLE says rows too. In row format the log has these as events, and a statement without them."""
    keys = [word.key for word in walk.words[walk.at:]]
    return "SELECT" in keys or any(pair == ("VALUES", "(") for pair in zip(keys, keys[1:]))


def read_statement(text: str, schema: str) -> Statement:
    """What a statement does that ran with this schema as its default one."""
    words = words_of(text)
    if [word.key for word in words[:2]] == ["SET", "STATEMENT"]:
        # SET STATEMENT variable=value, .. FOR another statement
        words = words[next((at + 1 for at, word in enumerate(words) if word.key == "FOR"), len(words)):]
    walk = Walk(words, schema)
    first = words[0].key if words else ""
    walk.at = 1
    match first:
        case "BEGIN" | "START":
            return Statement(Does.BEGIN)
        case "COMMIT":
            return Statement(Does.COMMIT)
        case "SAVEPOINT":
            return Statement(Does.SAVEPOINT, savepoint=words[1].text.lower())
        case "RELEASE":
            return Statement(Does.NOTHING)
        case "ROLLBACK":
            walk.skip("WORK")
            if walk.skip("TO"):
                walk.skip("SAVEPOINT")
                return Statement(Does.ROLLBACK_TO, savepoint=words[walk.at].text.lower())
            return Statement(Does.ROLLBACK)
        case "XA":
            return Statement({"COMMIT": Does.XA_COMMIT, "ROLLBACK": Does.XA_ROLLBACK}.get(words[1].key, Does.NOTHING))
        case "CREATE" | "ALTER" | "DROP" | "RENAME" | "TRUNCATE":
            return _of_tables(walk, first, has_one_meaning(text))
        case _ if first in _OF_TABLES:
            walk.skip_any("NO_WRITE_TO_BINLOG", "LOCAL")
            return Statement(Does.NOTHING if walk.take_one("TABLE", "TABLES", "VIEW", "VIEWS") else Does.ROWS)
    return Statement(Does.NOTHING if first in _HARMLESS else Does.ROWS)
