"""What Prometheus is told: one look at the state, of which all samples are made."""
from collections.abc import Iterator

from prometheus_client import CollectorRegistry, ProcessCollector, generate_latest
from prometheus_client.core import CounterMetricFamily, GaugeMetricFamily, Metric
from recorder.position import sets_of

from .state import RUNNING, State

PHASES = ("CatchUp", "Copy", "FastForward", "Running")
OF_STREAM = ["stream", "shard"]


class _Collector:
    def __init__(self, state: State) -> None:
        self._state = state

    def describe(self) -> list[Metric]:
        # (names are not asked for before there is something to say)
        return []

    def collect(self) -> Iterator[Metric]:
        state = self._state
        yield GaugeMetricFamily("vrepl_healthy", "1 where the program runs, no stream is refused and the database takes the rows", value=state.is_healthy())
        yield GaugeMetricFamily("vrepl_program_running", "1 where the program has been begun and answers", value=state.program == RUNNING)
        yield CounterMetricFamily("vrepl_program_starts", "How often the program was begun and answered", value=state.starts)
        yield CounterMetricFamily("vrepl_changes", "How many keys' rows changed", value=state.changes)
        if state.saved is not None:
            yield GaugeMetricFamily("vrepl_checkpoint_saved_seconds", "When the checkpoint was saved, in seconds since 1970", value=state.saved)
            yield GaugeMetricFamily("vrepl_checkpoint_bytes", "The bytes of that checkpoint", value=state.saved_bytes)
        yield from self._of_streams()
        yield self._of_tables()
        yield from self._of_into()

    def _of_streams(self) -> Iterator[Metric]:
        def gauge(name: str, text: str, *more: str) -> GaugeMetricFamily:
            return GaugeMetricFamily(f"vrepl_stream_{name}", text, labels=[*OF_STREAM, *more])

        applied = CounterMetricFamily("vrepl_stream_applied_groups", "The transactions that are applied", labels=OF_STREAM)
        groups = gauge("lag_groups", "The transactions of the feed that are read and not applied")
        size, seconds = gauge("lag_bytes", "The bytes of the feed that aren't applied, at most"), gauge("lag_seconds", "Since when the first of these is there")
        feed, phase = gauge("feed_bytes", "The bytes of the feed"), gauge("phase", "1 of the phase in which the stream is", "phase")
        position, refused = gauge("position", "The last number of a uuid in the position", "uuid"), gauge("refused", "1 of the refusal that stops the stream", "number")
        copied = gauge("copied_tables", "How many tables are copied")
        refusals = CounterMetricFamily("vrepl_refusals", "How often a stream was refused", labels=["number"])
        for at, (stream, reached) in enumerate(zip(self._state.streams, self._state.applied_positions())):
            said, labels, behind = stream.said, [str(at), stream.shard], self._state.behind(at)
            applied.add_metric(labels, stream.applied())
            groups.add_metric(labels, behind.groups)
            size.add_metric(labels, behind.bytes)
            seconds.add_metric(labels, behind.seconds)
            feed.add_metric(labels, stream.feed.size)
            copied.add_metric(labels, sum(one["what"] == "done" for one in said.get("copied", [])))
            for name in PHASES:
                phase.add_metric([*labels, name], said.get("phase") == name)
            for uuid, number in sets_of(reached or "").items():
                position.add_metric([*labels, uuid], number)
            if said.get("refused"):
                refused.add_metric([*labels, str(said["refused"]["number"])], 1)
        for number, count in sorted(self._state.refusals.items()):
            refusals.add_metric([str(number)], count)
        yield from (applied, groups, size, seconds, feed, copied, phase, position, refused, refusals)

    def _of_tables(self) -> Metric:
        rows = GaugeMetricFamily("vrepl_table_rows", "The rows of a table, by the stream that they are of", labels=["table", *OF_STREAM])
        for table, counts in self._state.counts.items():
            for at, count in enumerate(counts):
                rows.add_metric([table, str(at), self._state.streams[at].shard], count)
        return rows

    def _of_into(self) -> Iterator[Metric]:
        if into := self._state.into:
            yield CounterMetricFamily("vrepl_into_transactions", "The transactions that were committed in the database", value=into.transactions)
            yield CounterMetricFamily("vrepl_into_rows", "The rows that were written or taken away in these", value=into.rows)
            yield CounterMetricFamily("vrepl_into_held_rows", "The rows that were held to the board's", value=into.held)
            yield CounterMetricFamily("vrepl_into_mended_rows", "The rows that were made equal", value=into.mended)
            yield GaugeMetricFamily("vrepl_into_stopped", "1 where the database doesn't take the rows", value=bool(into.trouble))


class Metrics:
    def __init__(self, state: State) -> None:
        self._registry = CollectorRegistry()
        self._registry.register(_Collector(state))
        ProcessCollector(registry=self._registry)

    def text(self) -> bytes:
        return generate_latest(self._registry)
