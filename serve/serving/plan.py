"""A workflow's tables as the target has them: the kept columns, and where the key stands among them."""
import json
from dataclasses import dataclass

from recorder.filters import Planned, kept_columns
from recorder.kinds import WHOLE
from recorder.stop import Stop

from .cells import Value

Key = tuple[int | bytes, ...]


@dataclass(frozen=True)
class Table:
    name: str
    columns: list[str]
    kinds: list[int]
    """The types of the columns, by their numbers."""
    key: list[int]
    """The places of the key's columns among them, in key order."""
    planned: Planned

    def key_columns(self) -> list[str]:
        return [self.columns[at] for at in self.key]

    def is_number(self, at: int) -> bool:
        """Whether a column of the key is a whole number."""
        return self.kinds[self.key[at]] in WHOLE

    def ordered(self, key: list[Value]) -> Key:
        """A key as keys are ordered: numbers by value, all else by its bytes. Stops where it is no key of this table."""
        try:
            return tuple(int(value) if self.is_number(at) else bytes(value) for at, value in enumerate(key))
        except (TypeError, ValueError):
            raise Stop("a row without a key", f"in table {self.name}", "the program answers otherwise than docs/LIVE.md says") from None

    def key_of(self, row: list[Value]) -> Key:
        return self.ordered([row[at] for at in self.key])


@dataclass(frozen=True)
class Plan:
    """`said` is the workflow file as it stands."""

    said: dict
    shards: list[str]
    tables: dict[str, Table]

    @classmethod
    def read(cls, path: str) -> "Plan":
        """The plan of a workflow file; the program judges it. Stops where this can't read it."""
        try:
            with open(path, encoding="utf-8") as file:
                said = json.load(file)
            shards = [stream["shard"] for stream in said["streams"]]
            tables = [_table(said, one) for one in said["tables"]]
        except (OSError, ValueError, KeyError, TypeError, IndexError) as fault:
            raise Stop("no workflow file", f"at {path}", f"{fault}; vrepl check says more") from None
        return cls(said, shards, {table.name: table for table in tables})


def _table(workflow: dict, said: dict) -> Table:
    planned = Planned.read(said)
    columns = kept_columns(workflow, planned)
    return Table(planned.name, columns, [int(planned.kinds[name]) for name in columns], [columns.index(name) for name in planned.key], planned)
