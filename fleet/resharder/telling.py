"""A line a task, and the table at the end."""
import sys

from distributed import Future

from .progress import Progress
from .targets import Outcome, Sources, line_of
from .tasks import FOUND


def tell(progress: Progress, name: str, future: Future) -> None:
    """Counts a task that has ended, and has its line."""
    if line_of(future) is not None:
        progress.ended(name, 0)
        return
    done = future.result()
    took = f"{done.seconds:.1f} s"
    progress.ended(name, sum(done.tables.values()), f"{name}: {done.how if done.how == FOUND else f'{done.how}, {took}' if done.how else took}")


def table(outcomes: list[Outcome], sources: Sources, differences: list[str]) -> None:
    """Prints each refusal, a line for each target, and whether the sources' rows are in them."""
    for outcome in outcomes:
        for line in outcome.lines:
            print(f"target {line}", file=sys.stderr, flush=True)
        for line in outcome.difference.splitlines():
            print(f"target {outcome.target.name} vdiff: {line}", file=sys.stderr, flush=True)
    rows = [("target", "streams", "rows", "seconds", "attempts")]
    for it in outcomes:
        rows.append((it.target.name, str(len(it.target.feeds)), str(it.rows) if it.is_done else "refused", f"{it.seconds:.1f}", str(it.attempts)))
    wide = [max(map(len, column)) for column in zip(*rows)]
    for row in rows:
        print("  ".join([row[0].ljust(wide[0]), *(cell.rjust(most) for cell, most in zip(row[1:], wide[1:]))]))
    if all(it.is_done for it in outcomes):
        for shard, line in sources.refused.items():
            print(f"source {shard}: {line}", file=sys.stderr, flush=True)
        for line in differences:
            print(line, file=sys.stderr, flush=True)
        if sources.tables and not differences and not sources.refused:
            print(f"all {sum(sum(tables.values()) for tables in sources.tables.values())} rows of the sources are in the targets")
