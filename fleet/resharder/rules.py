"""What the targets' workflow files say of the rows of each source shard: each goes to one target, or each to all of them.

The program reads the files, and says so of them all (`tiles`).
"""
import json
import re
import subprocess
from collections.abc import Iterator
from contextlib import contextmanager
from tempfile import NamedTemporaryFile

from .job import Job
from .refusals import said_of
from .stop import Stop
from .words import NOTHING, check, environment, tiles

WARNED = 3
"""The status of a command that tells of something."""
_SAID = re.compile(r"table (.*) shard .* files \d+ (?:(once)|every row)")
_WARNING = "warning "


def check_rules(job: Job) -> dict[str, bool]:
    """By table whether all targets have each row, or each row is in one. Stops where the program refuses a workflow file, and
    where rows of a shard would be in no target, or in several of which each has a range."""
    lines = _tiles(job)
    warnings = [line.removeprefix(_WARNING) for line in lines if line.startswith(_WARNING)]
    if warnings and not job.is_partial:
        more = f", and {len(warnings) - 1} more that `tiles` tells of" if len(warnings) > 1 else ""
        raise Stop(f"the targets don't have each row once: {_by_target(job, warnings[0])}{more}")
    everywhere: dict[str, bool] = {}
    for said in filter(None, map(_SAID.fullmatch, lines)):
        if everywhere.setdefault(said[1], not said[2]) != (not said[2]):
            raise Stop(f"table {said[1]}: all of its rows are in every target, but for those of some shards")
    return everywhere


def _by_target(job: Job, warning: str) -> str:
    """A warning with the targets' names in place of their files'."""
    return warning.partition(" file ")[0] + "".join(f" target {target.name}" for target in job.targets if f" file {target.workflow} file " in f"{warning} file ")


def _tiles(job: Job) -> list[str]:
    """What the program says of the targets' files together. Stops with its refusal of one, and where that stands."""
    ran = _run(tiles(job, [target.workflow for target in job.targets]))
    if ran.returncode not in (0, WARNED):
        for target in job.targets:
            run_check(job, f"target {target.name}", target.workflow, [NOTHING] * len(target.feeds))
        raise Stop(f"the targets: {said_of(ran.args, ran.stderr.decode(errors='replace'), ran.returncode)}")
    return ran.stdout.decode().splitlines()


def _run(command: list[str]) -> subprocess.CompletedProcess:
    try:
        return subprocess.run(command, stdin=subprocess.DEVNULL, capture_output=True, check=False, env=environment())
    except OSError as fault:
        raise Stop(f"{fault.filename}: {fault.strerror}") from None


def run_check(job: Job, who: str, workflow: str, feeds: list[str]) -> str:
    """What the program says of a workflow file and feeds. Stops with its refusal."""
    ran = _run(check(job, workflow, feeds))
    if ran.returncode not in (0, WARNED):
        raise Stop(f"{who}: {said_of(ran.args, ran.stderr.decode(errors='replace'), ran.returncode)}")
    return ran.stdout.decode()


def source_rows(job: Job, shard: str) -> dict[str, int]:
    """By table how many rows the feed of a source shard leaves, whatever goes to which target."""
    with _written(_whole(job, shard)) as file:
        said = json.loads(run_check(job, f"source {shard}", file, [job.feeds[shard]]))
    return {table["table"]: table["rows"] for table in said["streams"][0]["tables"]}


@contextmanager
def _written(workflow: dict) -> Iterator[str]:
    """A workflow file, for a while."""
    with NamedTemporaryFile("w", encoding="utf-8", suffix=".json") as file:
        json.dump(workflow, file)
        file.flush()
        yield file.name


def _whole(job: Job, shard: str) -> dict:
    """The workflow of all rows of a shard, with the tables that targets have of it."""
    tables, found = {}, {}
    for target in job.targets:
        with open(target.workflow, encoding="utf-8") as file:
            said = json.load(file)
        if shard in {stream["shard"] for stream in said["streams"]}:
            tables |= {table["name"]: table for table in said["tables"]}
            found = said
    rules = {"rules": [{"match": "/.*", "filter": ""}]}
    return found | {"tables": list(tables.values()), "streams": [{"shard": shard, "filter": rules}]}
