"""All tasks of a job, and what came of them."""
import collections
from collections.abc import Callable
from dataclasses import dataclass, field

from distributed import Client, Future, as_completed, get_worker

from . import tasks
from .files import clear
from .job import Job, Target
from .stop import Refused
from .tasks import Done

BEGUN = "resharder-begun"


@dataclass
class Outcome:
    """A target: its rows by table, the seconds of its tasks, and how often one of them was begun."""

    target: Target
    tables: dict[str, int] = field(default_factory=dict)
    seconds: float = 0
    is_done: bool = False
    difference: str = ""
    attempts: int = 0
    refused: dict[str, str] = field(default_factory=dict)
    """The lines that ended it, by the tasks' names."""

    @property
    def rows(self) -> int:
        return sum(self.tables.values())

    @property
    def lines(self) -> list[str]:
        """The lines of its streams, or that of the join, which hasn't one of its own where a stream has."""
        streams = [f"{name}: {line}" for name, line in self.refused.items() if not name.endswith(" join")]
        return streams or [f"{name}: {line}" for name, line in self.refused.items()]


def _begun(name: str, function: Callable[..., Done], *given) -> Done:
    """Runs a task on a worker, and tells the engine that it was begun once more."""
    get_worker().log_event(BEGUN, name)
    return function(*given)


@dataclass
class Sources:
    """The rows of the source shards, by table."""

    tables: dict[str, dict[str, int]] = field(default_factory=dict)
    refused: dict[str, str] = field(default_factory=dict)


def reshard(client: Client, job: Job, tell: Callable[[str, Future], None]) -> tuple[list[Outcome], Sources]:
    """Hands all tasks to the engine, and waits until each has ended: a target's join begins when its streams are there.
    `tell` is given each task that has ended. The sources' rows are counted where the targets are all of a reshard's."""
    whose: dict[Future, tuple[Outcome, str]] = {}
    outcomes = [Outcome(target) for target in job.targets]
    for outcome in outcomes:
        target, filled = outcome.target, []
        for stream in range(len(target.feeds)):
            name = f"{target.name} stream {stream}"
            filled.append(client.submit(_begun, name, tasks.fill, job, target, stream, key=name, pure=False))
            whose[filled[-1]] = outcome, name
        name = f"{target.name} join"
        whose[client.submit(_begun, name, tasks.join, job, target, *filled, key=name, pure=False)] = outcome, name
    counted: dict[Future, str] = {}
    for shard in [] if job.is_partial else job.shards:
        name = f"source {shard}"
        counted[client.submit(_begun, name, tasks.count, job, shard, key=name, pure=False)] = shard
    sources = Sources()
    for future in as_completed([*whose, *counted]):
        if future in counted:
            name = f"source {counted[future]}"
            _count(sources, counted[future], future)
        else:
            outcome, name = whose[future]
            _note(outcome, name, future)
        tell(name, future)
    begun = collections.Counter(name.rpartition(" stream ")[0] or name.removesuffix(" join") for _, name in client.get_events(BEGUN))
    for outcome in outcomes:
        outcome.attempts = begun[outcome.target.name]
        clear(outcome.target)
    return outcomes, sources


def line_of(future: Future) -> str | None:
    """Why a task ended without a result: its refusal, that of a stream that it waited for, or the engine's word. None
    where there is a result."""
    fault = future.exception()
    return None if fault is None else str(fault) if isinstance(fault, Refused) else f"{type(fault).__name__}: {fault}".partition("\n")[0]


def _note(outcome: Outcome, name: str, future: Future) -> None:
    line = line_of(future)
    if line is not None:
        outcome.refused[name] = line
        return
    done: Done = future.result()
    outcome.seconds += done.seconds
    if name.endswith(" join"):
        outcome.is_done, outcome.tables, outcome.difference = True, done.tables, done.difference


def _count(sources: Sources, shard: str, future: Future) -> None:
    line = line_of(future)
    if line is None:
        sources.tables[shard] = future.result().tables
    else:
        sources.refused[shard] = line
