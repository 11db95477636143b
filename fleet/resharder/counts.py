"""Whether the targets have as many rows as the sources."""
from .targets import Outcome, Sources


def differences(everywhere: dict[str, bool], outcomes: list[Outcome], sources: Sources) -> list[str]:
    """A line for each table of which rows are missing or twice. `everywhere` says by table whether each target has all rows of
    its sources, or each row is in one target."""
    found = []
    for table, is_everywhere in everywhere.items():
        if is_everywhere:
            for one in outcomes:
                rows = _rows(sources, table, one.target.shards)
                if one.tables.get(table, 0) != rows:
                    found.append(f"table {table}: the sources have {rows} rows, and target {one.target.name} {one.tables.get(table, 0)}")
            continue
        rows, there = _rows(sources, table, list(sources.tables)), sum(one.tables.get(table, 0) for one in outcomes)
        if rows != there:
            found.append(f"table {table}: the sources have {rows} rows, and the targets {there}")
    return found


def _rows(sources: Sources, table: str, shards: list[str] | tuple[str, ...]) -> int:
    return sum(sources.tables.get(shard, {}).get(table, 0) for shard in shards)
