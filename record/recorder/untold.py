"""What no log says and no program can know from one feed, told where a recording or a workflow begins."""
from collections.abc import Iterator

from pymysql import Connection

from .catalogue import Table
from .server import ask
from .stop import Stop

WHOLE = ("-", "0")
"""Shards that have a keyspace by themselves."""
PAGE = "docs/OPERATE.md, 'What a log doesn't say'"
_UNIQUE = """SELECT index_name, GROUP_CONCAT(IF(sub_part IS NULL, column_name, '') SEPARATOR '\\n') FROM information_schema.statistics
    WHERE table_schema=%s AND table_name=%s AND non_unique=0 AND index_name<>'PRIMARY' GROUP BY index_name ORDER BY index_name"""


def told_of(connection: Connection, tables: list[Table], shard: str) -> list[str]:
    """The lines of one shard's recording."""
    return [] if shard in WHOLE else list(of_shards(connection, tables))


def of_shards(connection: Connection, tables: list[Table], vindexes: dict[str, str] | None = None) -> Iterator[str]:
    """A line for each unique index beside the primary key by which a row of one shard may stand in the way of another
    shard's. Rows with the same primary key, or the same value of the vindex's column, are told apart otherwise."""
    for table in tables:
        apart = [set(table.key_names)]
        if vindexes and table.name in vindexes:
            apart.append({vindexes[table.name]})
        for index, columns in ask(connection, _UNIQUE, *table.full):
            if not any(some <= set(columns.split("\n")) for some in apart):
                yield f"unique index {index} of {'.'.join(table.full)}: two shards may have one value, which a target's server refuses ({PAGE})"


def check_names(tables: list[Table], keyspace: str) -> None:
    """Stops at a table that is taken for another one under this keyspace."""
    for table in tables:
        if keyspace and table.name.startswith(f"{keyspace}."):
            raise Stop(f"a table whose name begins with the keyspace and a dot, {table.name},", f"in {table.schema}",
                       f"it is taken for {table.name[len(keyspace) + 1:]}; give the keyspace another name, or leave the table out")  # fmt: skip
