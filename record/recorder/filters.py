"""A workflow's filters as conditions of SQL, and its tables as the query that prints their dump.

The filters are those of docs/FORMATS.md, 'Workflow file'. The workflow is taken to be one that the program
accepts: a filter that isn't read here is a ValueError.
"""
import re
from dataclasses import dataclass

from .catalogue import quoted
from .kinds import BYTES, NAMED, TEXTS, WHOLE, Kind

UNSURE = (Kind.FLOAT32, Kind.FLOAT64, Kind.ENUM, Kind.SET)
"""What VTGate may print otherwise than a server's SELECT does."""
BY_NAME = {kind.name: kind for kind in NAMED}
_BLANKS = r"[ \t\r\n]*"
_NAME = r"(`[^`]+`|[\w$]+)"
_QUOTED = r"'([^']*)'"
_COLUMN = r"(?:`[^`]+`|[\w$]+(?![\w$]))"
_SELECT = re.compile(
    rf"{_BLANKS}select(?![\w$]){_BLANKS}(\*|{_COLUMN}(?:{_BLANKS},{_BLANKS}{_COLUMN})*){_BLANKS}from(?![\w$]){_BLANKS}{_NAME}"
    rf"(?P<where>\s+where\s+in_keyrange{_BLANKS}\({_BLANKS}"
    rf"(?:{_NAME}{_BLANKS},{_BLANKS}{_QUOTED}{_BLANKS},{_BLANKS})?{_QUOTED}{_BLANKS}\))?{_BLANKS}", re.I)  # fmt: skip


@dataclass(frozen=True)
class Planned:
    """A table of a workflow file."""

    name: str
    kinds: dict[str, int]
    key: list[str]
    vindex: tuple[str, str] | None

    @classmethod
    def read(cls, said: dict) -> "Planned":
        kinds = {name: BY_NAME[kind].value if isinstance(kind, str) else kind for name, kind in said["columns"]}
        return cls(said["name"], kinds, said["key"], tuple(said["vindex"]) if "vindex" in said else None)

    def _text(self, column: str) -> str:
        """The hexadecimal digits of a column as it is printed."""
        kind, name = self.kinds[column], quoted(column)
        if kind in (*TEXTS, *BYTES, Kind.ENUM, Kind.SET, Kind.GEOMETRY):
            return f"HEX({name})"
        return f"HEX(CONCAT({name}))" if kind == Kind.BIT else f"HEX(CAST({name} AS CHAR))"

    def kept(self, filtered: str) -> list[str]:
        """The columns that a filter keeps, in their order."""
        found = _SELECT.fullmatch(filtered)
        if not found or found[1] == "*":
            return [*self.kinds]
        return [name.strip("`") for name in re.findall(_COLUMN, found[1])]

    def sure(self, filtered: str) -> str:
        """A filter that passes the same rows, and keeps those columns of it that are printed alike everywhere."""
        columns = [name for name in self.kept(filtered) if self.kinds[name] not in UNSURE]
        if "`" in "".join([self.name, *columns]):
            raise ValueError(f"a backquote in a name of table {self.name}, which no rule can have")
        found = _SELECT.fullmatch(filtered)
        where = found["where"] or "" if found else f" where in_keyrange('{filtered}')" if filtered else ""
        return f"select {', '.join(f'`{name}`' for name in columns)} from `{self.name}`{where}"

    def cells(self, columns: list[str]) -> str:
        parts = [f"IF({quoted(name)} IS NULL, 'N', CONCAT('x', LOWER({self._text(name)})))" for name in columns]
        return f"CONCAT_WS(CHAR(9), {', '.join(parts)})"

    def order(self) -> list[str]:
        """What each key column is ordered by: numbers by value, others by their bytes."""
        return [quoted(name) if self.kinds[name] in WHOLE else f"CAST({quoted(name)} AS BINARY)" for name in self.key]

    def _id(self, column: str, vindex: str) -> str:
        """The hexadecimal digits of a row's id."""
        name = quoted(column)
        match vindex:
            case "numeric":
                return f"LPAD(HEX({name}), 16, '0')"
            case "reverse_bits":
                return f"LPAD(CONV(REVERSE(LPAD(BIN({name}), 64, '0')), 2, 16), 16, '0')"
            case "binary":
                return self._text(column)
            case "binary_md5":
                return f"UPPER(MD5({name}))"
            case "hash":
                raise ValueError(f"the vindex hash of table {self.name} is DES, which the server can't compute: have the program cut a snapshot (docs/RECORD.md)")
        raise ValueError(f"no vindex {vindex}")

    def condition(self, filtered: str) -> str:
        """A filter as a condition."""
        if not filtered:
            return "TRUE"
        found = _SELECT.fullmatch(filtered)
        if not found:
            return self._in_range(self.vindex, filtered)
        column, vindex, place = found.groups()[-3:]
        if place is None:
            return "TRUE"
        return self._in_range((column.strip("`"), vindex) if column else self.vindex, place)

    def _in_range(self, vindex: tuple[str, str] | None, place: str) -> str:
        if vindex is None:
            raise ValueError(f"table {self.name} has no vindex for {place}")
        if place in ("0", "-"):
            return "TRUE"
        if not re.fullmatch(r"([0-9a-fA-F]{2})*-([0-9a-fA-F]{2})*", place):
            raise ValueError(f"no key range: {place}")
        row_id = f"CAST({self._id(*vindex)} AS BINARY)"
        start, end = (re.sub("(00)+$", "", bound.upper()) if len(bound) % 2 == 0 else bound for bound in place.split("-"))
        return f"({row_id} >= '{start}'" + (f" AND {row_id} < '{end}')" if end else ")")


def _literal(text: str) -> str:
    return "'" + text.replace("'", "''") + "'"


def dump_query(workflow: dict, schemas: list[str]) -> str:
    """The statements that print the dump of a workflow's target, from one schema a stream. For
    `mariadb --batch --raw --skip-column-names`. ValueError where there aren't as many schemas as streams."""
    return "".join(f"{statement};\n" for statement in dump_statements(workflow, schemas))


def dump_statements(workflow: dict, schemas: list[str]) -> list[str]:
    """Those statements; each but the first answers lines of the dump."""
    streams = workflow["streams"]
    if len(streams) != len(schemas):
        raise ValueError(f"{len(streams)} streams and {len(schemas)} schemas")
    statements = ["SET NAMES utf8mb4, sql_mode='NO_BACKSLASH_ESCAPES', time_zone='+00:00', max_sort_length=16384"]
    for table in map(Planned.read, workflow["tables"]):
        parts, order = [], [f"k{at}" for at in range(len(table.key))]
        keys = ", ".join(f"{what} AS {name}" for what, name in zip(table.order(), order))
        for stream, schema in zip(streams, schemas):
            filtered = _rule_of(stream, table.name)
            if filtered is not None:
                cells = table.cells(table.kept(filtered))
                parts.append(f"SELECT {cells} AS line, {keys} FROM {quoted(schema)}.{quoted(table.name)} WHERE {table.condition(filtered)}")
        statements.append(f"SELECT {_literal('table ' + table.name)}")
        if parts:
            union = "\n  UNION ALL ".join(parts)
            statements.append(f"SELECT line FROM (\n  {union}\n) AS dumped ORDER BY {', '.join(order)}")
    return statements


def of_stream(workflow: dict, number: int) -> dict:
    """The workflow of the rows of one of its streams."""
    return workflow | {"streams": [workflow["streams"][number]]}


def of_target(workflow: dict) -> dict:
    """The workflow whose source is a workflow's target: its tables with the kept columns, and all rows of them."""
    tables = []
    for said, table in zip(workflow["tables"], map(Planned.read, workflow["tables"])):
        columns = [[name, table.kinds[name]] for name in kept_columns(workflow, table)]
        tables.append({"name": table.name, "columns": columns, "key": said["key"]})
    return workflow | {"tables": tables, "streams": [{"shard": "-", "filter": {"rules": [{"match": "/.*", "filter": ""}]}}]}


def sure_workflow(workflow: dict) -> dict:
    """The workflow of the same rows without the columns that VTGate may print otherwise than a server does. ValueError
    where a name can't be written in a rule."""
    tables = [table for table in map(Planned.read, workflow["tables"]) if set(UNSURE) & set(table.kinds.values())]
    streams = []
    for stream in workflow["streams"]:
        found = [(table, _rule_of(stream, table.name)) for table in tables]
        rules = [{"match": table.name, "filter": table.sure(filtered)} for table, filtered in found if filtered is not None]
        streams.append(stream | {"filter": stream["filter"] | {"rules": [*rules, *stream["filter"]["rules"]]}})
    return workflow | {"streams": streams}


def kept_columns(workflow: dict, table: Planned) -> list[str]:
    """The columns that the target has of a table, in their order: all, where no stream has a rule for it."""
    rules = [_rule_of(stream, table.name) for stream in workflow["streams"]]
    return next((table.kept(it) for it in rules if it is not None), [*table.kinds])


def _rule_of(stream: dict, table: str) -> str | None:
    """The filter of the first rule that matches a table, None where none does."""
    for rule in stream["filter"]["rules"]:
        if rule["match"] in ("/.*", table):
            return rule.get("filter", "")
    return None
