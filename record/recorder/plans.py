"""A workflow file (docs/FORMATS.md), and all that a reshard needs: a workflow file for each target, which the program's
`check` doesn't refuse, and the job of fleet/reshard (fleet/README.md)."""
import json
import os
import re
from contextlib import suppress
from dataclasses import dataclass
from tempfile import TemporaryDirectory

from .catalogue import Table
from .kinds import NAMED
from .program import DIFFERS, OWN, Program
from .stop import Stop

JOB = "job.json"
FURTHER = "hash"
"""The vindex beyond the four: a file that names it has to say that it uses it."""
NOTHING = "/dev/null"
"""In place of a feed that isn't there yet."""
RANGE = re.compile(r"([0-9a-fA-F]{2})*-([0-9a-fA-F]{2})*")


@dataclass(frozen=True)
class Plan:
    """What the workflow files of all targets have in common."""

    keyspace: str
    tables: list[Table]
    shards: list[str]
    """The source shards, in the order of their feeds."""
    vindexes: dict[str, list[str]]
    rules: list[dict[str, str]]
    """Those of single tables, before that of all others."""

    def workflow(self, filtered: str) -> dict:
        """The workflow file of the target whose rows are those of a filter."""
        streams = [self._stream(shard, filtered) for shard in self.shards]
        return {"keyspace": self.keyspace, **self._further(), "tables": [self._table(table) for table in self.tables], "streams": streams}

    def _further(self) -> dict:
        """The member that says that `hash` is used, where a table or a rule names it."""
        named = [vindex for _, vindex in self.vindexes.values()]
        named += [word for rule in self.rules for word in re.findall(r"'([^']*)'", rule["filter"])]
        return {"vindexes": [FURTHER]} if FURTHER in named else {}

    def _stream(self, shard: str, filtered: str) -> dict:
        return {"shard": shard, "filter": {"rules": [*self.rules, {"match": "/.*", "filter": filtered}]}}

    def _table(self, table: Table) -> dict:
        columns = [[column.name, column.kind.name if column.kind in NAMED else int(column.kind)] for column in table.columns]
        said = {"name": table.name, "columns": columns, "key": table.key_names}
        return said | ({"vindex": self.vindexes[table.name]} if table.name in self.vindexes else {})


def printed(said: dict) -> str:
    return json.dumps(said, ensure_ascii=False) + "\n"


@dataclass(frozen=True)
class Reshard:
    """A plan for several targets, by the key ranges that they are named for; the feeds of its shards in their order, the
    folder for all files, and the program that looks at them and fills the targets."""

    plan: Plan
    targets: list[str]
    feeds: list[str]
    folder: str
    program: str | None

    def write(self) -> list[str]:
        """Writes the workflow files and the job; answers their names. Stops, with nothing written, where the program
        refuses a file, and where the targets don't have each row once."""
        is_new = not os.path.isdir(self.folder)
        os.makedirs(self.folder, exist_ok=True)
        try:
            with TemporaryDirectory(prefix=".plan-", dir=self.folder) as beside:
                files = [_put(os.path.join(beside, f"{target}.json"), self.plan.workflow(target)) for target in self.targets]
                for target, file in zip(self.targets, files):
                    self._checked(f"target {target}", file)
                self._check_targets(files, beside)
                _put(os.path.join(beside, JOB), self._job())
                return [self._moved(beside, name) for name in (*(f"{target}.json" for target in self.targets), JOB)]
        finally:
            if is_new:
                with suppress(OSError):
                    os.rmdir(self.folder)

    def _job(self) -> dict:
        feeds = {shard: os.path.relpath(feed, self.folder) for shard, feed in zip(self.plan.shards, self.feeds)}
        job = {"feeds": feeds, "workflows": {target: f"{target}.json" for target in self.targets}, "results": "results"}
        return job | ({"program": os.path.abspath(self.program)} if self.program else {})

    def _moved(self, beside: str, name: str) -> str:
        file = os.path.join(self.folder, name)
        os.replace(os.path.join(beside, name), file)
        return file

    def _check_targets(self, files: list[str], beside: str) -> None:
        """Stops where the targets' ranges leave a gap or overlap."""
        status, said = Program(self.program or OWN).answer("the targets", "tiles", *files)
        if status == DIFFERS:
            warning = next(line.removeprefix("warning ") for line in said.splitlines() if line.startswith("warning "))
            raise Stop("targets that don't have each row once", "", warning.replace(os.path.join(beside, ""), ""))

    def _checked(self, who: str, file: str) -> None:
        """Stops with what `check` refuses of a workflow file and the feeds that are there."""
        Program(self.program or OWN).answer(who, "check", file, *(feed if os.path.exists(feed) else NOTHING for feed in self.feeds))


def _put(file: str, said: dict) -> str:
    with open(file, "w", encoding="utf-8") as out:
        out.write(printed(said))
    return file
