"""What the recorder writes of answers at random is a feed to the program, and what it stops at is refused by it."""
import os
import tracemalloc
from collections.abc import Iterator
from random import Random
from time import process_time

from recorder.messages import EventType, Response, framed, set_row
from recorder.stop import Stop
from recorder.vstream import Reading, transactions

from .vtgate import BEGINNING, position
from .vtgate_copy import event, merged

ROUNDS = 150
UUIDS = ["3e11fa47-71ca-11e1-9e33-c80aa9429562", "3E11FA47-71ca-11e1-9e33-c80aa9429563"]
TEXTS = ["", "MariaDB/0-1-2", "MySQL56/x", f"MySQL56/{UUIDS[0]}", f"MySQL56/{UUIDS[0]}:tag:1-5", f"{UUIDS[0]}:0", f"{UUIDS[0]}:1-", f"{UUIDS[0]}:+1",
         f" MySQL56/ {UUIDS[0]}:1-9223372036854775806 ,", f"{UUIDS[0]}:9223372036854775807", f"{UUIDS[0]}:5-2", f"{UUIDS[0]}:0007-0009:1-9",
         f"a/{UUIDS[0]}:1", f"MySQL56//{UUIDS[0]}:1", f"{UUIDS[0]}:١", f"{UUIDS[0]}:{'0' * 5000}1", f"{UUIDS[0]}:{'9' * 5000}"]  # fmt: skip
NUMBERS = [("a BEGIN amid", 92), ("outside a transaction", 92), ("a COMMIT without", 83), ("before its columns", 86),
           ("whose values", 82), ("a row image", 82), ("which has 257", 82), ("columns of", 87),
           ("an event of type", 82), ("a position of flavour", 94), ("a position of ", 89), ("a position without all", 84),
           ("a position with", 94)]  # fmt: skip
"""What a stop's line begins with or has, and as what the program refuses a feed with the same: the first that fits."""
IGNORED = ("an event of type 5 ", "an event of type 5:", "other columns of")
"""The program passes over DDL, and a FIELD is held to a plan alone."""


def show(trial, feed: bytes) -> tuple[int, str, bytes]:
    """The status, the refusal and the groups."""
    path = trial.path("law.feed")
    with open(path, "wb") as file:
        file.write(feed)
    done = trial.run(trial.program, "show", "--keyspace", "ks", "--shard", "-", path)
    return done.returncode, done.stderr.decode(), done.stdout


class Source:
    """Events at random, most of them such as may stand where they do."""

    def __init__(self, random: Random) -> None:
        self.random, self.is_open, self.told, self.numbers = random, False, {}, [0, 0]

    def next(self) -> Response:
        if self.random.random() < 0.03:
            odd = lambda: event(self.random.choice([*range(22), 2**31 - 1]))  # noqa: E731
            return self.random.choice([odd, self.odd_position, self.odd_position, self.odd_row,
                                       self.field, self.row, self.begin])()
        if not self.is_open:
            return self.random.choice([self.begin, self.begin, self.position, self.field, lambda: event(11), lambda: event(14)])()
        return self.random.choice([self.row, self.row, self.row, self.field, self.position, self.end, lambda: event(19)])()

    def begin(self) -> Response:
        self.is_open = True
        return event(EventType.BEGIN)

    def end(self) -> Response:
        self.is_open = False
        if self.random.random() < 0.2:
            return event(EventType.ROLLBACK)
        return merged(*([] if self.random.random() < 0.02 else [self.position()]), event(EventType.COMMIT))

    def position(self) -> Response:
        self.numbers[self.random.randrange(2)] += self.random.choice([0, 1, 1, 7])
        if self.random.random() < 0.01:
            self.numbers[0] = max(0, self.numbers[0] - 9)
        sets = [f"{uuid}:{'1-' if number > 1 else ''}{number}" for uuid, number in zip(UUIDS, self.numbers) if number]
        return position("ks", "-", "MySQL56/" + ",".join(self.random.sample(sets, len(sets))))

    def odd_position(self) -> Response:
        return position(*self.random.choice([("ks", "-"), ("ks", "-"), ("ks", "-"), ("ks", "-80"), ("k", "-"), ("", "")]), self.random.choice(TEXTS))

    def field(self) -> Response:
        table = self.random.choice("tu")
        count = self.told.get(table) if self.random.random() < 0.98 else None
        self.told[table] = count or self.random.choices([1, 2, 3, 256, 257], [9, 9, 9, 1, 1])[0]
        answer = event(EventType.FIELD)
        answer.events[0].field_event.table_name = self.random.choice([f"ks.{table}", table])
        for at in range(self.told[table]):
            answer.events[0].field_event.fields.add(name=f"c{at}", type=265)
        return answer

    def row(self) -> Response:
        if not self.told:
            return self.field() if self.random.random() < 0.9 else self.row_of("t", 2)
        table = self.random.choice(sorted(self.told))
        return self.row_of(table, self.told[table])

    def row_of(self, table: str, count: int) -> Response:
        answer = event(EventType.ROW)
        answer.events[0].row_event.table_name = f"ks.{table}"
        for _ in range(self.random.choice([0, 1, 1, 1, 3])):
            change = answer.events[0].row_event.row_changes.add()
            for image in self.random.sample([change.before, change.after], self.random.randint(0, 2)):
                set_row(image, tuple(self.random.choice([None, b"", b"ab"]) for _ in range(count)))
        return answer

    def odd_row(self) -> Response:
        """A row with other columns than its table, one whose values end too early, or an image with another field."""
        answer = self.row_of("t", self.random.choice([0, 1, 2, 3])) if self.random.random() < 0.3 else self.row()
        for change in answer.events[0].row_event.row_changes:
            if self.random.random() < 0.5:
                change.MergeFromString(self.random.choice([b"\x1a\x00", b"\x22\x00", b"\x28\x01"]))
            elif len(change.after.lengths):
                change.after.lengths[0] += 50
        return answer

    def answers(self) -> Iterator[Response]:
        for _ in range(self.random.choice([3, 30, 120])):
            yield merged(*(self.next() for _ in range(self.random.choice([1, 1, 2, 5]))))


def law(trial) -> None:
    """Rounds at random; a seed that fails is printed."""
    stopped: set[str] = set()
    for seed in range(ROUNDS):
        why = why_unlawful(trial, list(Source(Random(seed)).answers()), stopped)
        trial.check(f"vtgate law, seed {seed}", why)
    missing = {text for text, _ in NUMBERS} - stopped
    trial.check("vtgate law, all stops", f"no {missing}" if missing else None)


def why_unlawful(trial, answers: list[Response], stopped: set[str]) -> str | None:
    reading, written, read, stop = Reading("ks", "-"), b"", [], None

    def reads() -> Iterator[bytes]:
        for answer in answers:
            read.append(answer)
            yield answer.SerializeToString()

    try:
        for transaction in transactions(reads(), reading):
            written += b"".join(transaction.messages)
    except Stop as met:
        stop = str(met)
    status, line, groups = show(trial, written)
    if status:
        return f"what is written is {line}"
    status, line, whole = show(trial, b"".join(map(framed, read)))
    if stop and not stop.startswith(IGNORED):
        text, number = next((one for one in NUMBERS if one[0] in stop), ("", 0))
        stopped.add(text)
        # the faults of an event come before those of where it stands
        return None if line.startswith((f"refused {number}", "refused 82 cause")) else f"{stop}, and the program: {line or 'reads it'}"
    if line not in ("", "refused 88\n"):
        return f"no stop, and the program: {line}"
    left = whole[len(groups):]
    return None if line or whole.startswith(groups) and b"\t" not in left else f"{groups!r:.300} of {whole!r:.300}"


def large(trial) -> None:
    """A row of the most bytes is written and a larger one isn't, as the program has it."""
    for more in (0, 1):
        answer = merged(event(EventType.BEGIN), Source(Random(0)).row_of("t", 0), position("ks", "-", BEGINNING), event(EventType.COMMIT))
        row = answer.events[1].row_event.row_changes
        del row[:]
        set_row(row.add().after, (b"x" * (2**24 - 11 + more),))
        told = event(EventType.FIELD)
        told.events[0].field_event.table_name = "ks.t"
        told.events[0].field_event.fields.add(name="v", type=10260)
        why = why_unlawful(trial, [told, answer], set())
        size = row[0].after.ByteSize() - 2**24
        trial.check(f"vtgate row of 2^24 bytes and {more}", why or (None if size == more else f"2^24 and {size}"))


def linear(trial) -> None:
    """A transaction of four times the bytes takes four times the time and no more memory than its bytes again."""
    spent = {count: taken(count) for count in (1000, 4000)}
    (short, _), (long, peak) = spent[1000], spent[4000]
    trial.check("vtgate linear", None if long < 9 * short else f"{short:.2f} s and {long:.2f} s")
    trial.check("vtgate memory", None if peak < 1.5 * 4000 * 4096 else f"{peak} bytes")


def taken(count: int) -> tuple[float, int]:
    """The processor's time and the most memory for a transaction of so many answers of 4 KiB."""
    told = event(EventType.FIELD)
    told.events[0].field_event.table_name = "ks.t"
    told.events[0].field_event.fields.add(name="v", type=10260)

    def answers() -> Iterator[bytes]:
        yield merged(event(EventType.BEGIN), told).SerializeToString()
        for _ in range(count):
            answer = event(EventType.ROW)
            answer.events[0].row_event.table_name = "ks.t"
            set_row(answer.events[0].row_event.row_changes.add().after, (os.urandom(4096),))
            yield answer.SerializeToString()
        yield merged(position("ks", "-", BEGINNING), event(EventType.COMMIT)).SerializeToString()

    tracemalloc.start()
    begun = process_time()
    for transaction in transactions(answers(), Reading("ks", "-")):
        assert len(transaction.messages) == count + 2
    spent, (_, peak) = process_time() - begun, tracemalloc.get_traced_memory()
    tracemalloc.stop()
    return spent, peak
