"""The labels of an ENUM or SET column, as the server prints them.

information_schema can't be asked: it has the text of the column's definition, in which control characters and
backslashes stand as escapes, and what isn't in its own character set (utf8mb3) as a question mark. A variable
that is declared to be of the column's type has the labels as they are, by their numbers.
"""
import re

from pymysql import Connection

from .server import ask

_LABEL = re.compile(r"'(?:[^']|'')*'")
_NUMBERED = """BEGIN NOT ATOMIC
    DECLARE label TYPE OF {column}; DECLARE number INT DEFAULT 0; DECLARE found LONGTEXT DEFAULT '';
    WHILE number < {count} DO SET label = {value}, found = CONCAT(found, HEX(label), ','), number = number + 1; END WHILE;
    SELECT found;
END"""


def read_labels(connection: Connection, column: str, definition: str, charset: str | None) -> tuple[tuple[bytes, ...], bytes]:
    """The labels by their numbers, in the column's character set, and the comma that parts those of a SET. The column is
    named as SQL does, with its schema and table; the definition is information_schema's."""
    value = "1 << number" if definition.startswith("set") else "number + 1"
    ((found,),) = ask(connection, _NUMBERED.format(column=column, count=len(_LABEL.findall(definition)), value=value))
    ((comma,),) = ask(connection, f"SELECT HEX(CONVERT(',' USING {charset or 'binary'}))")
    return tuple(map(bytes.fromhex, found.split(",")[:-1])), bytes.fromhex(comma)
