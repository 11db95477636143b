"""Feeds of two streams that grow by whole groups, of changes made from a seed: what a recorder would write."""
import json
import os
import random
import threading

from model import making
from model.checkpoint import put_text

UUIDS = [making.U, making.V]
SHARDS = ["-80", "80-"]
TABLES = {
    b"t": [(b"id", 265), (b"v", 6165), (b"n", 259)],
    b"u": [(b"k", 10262), (b"at", 776), (b"b", 10260)],
}  # fmt: skip
SCHEMA = """CREATE TABLE t (id BIGINT PRIMARY KEY, v VARCHAR(80) CHARACTER SET utf8mb4, n SMALLINT);
    CREATE TABLE u (k VARBINARY(60), at INT UNSIGNED, b BLOB, PRIMARY KEY (k, at)); """


def workflow(where: str = "") -> bytes:
    """One of both tables, of all rows or of those in a key range."""
    def rules() -> list[dict]:
        return [{"match": "t", "filter": where and f"select * from t where in_keyrange(id, 'reverse_bits', '{where}')"}, {"match": "/.*", "filter": ""}]

    tables = [{"name": name.decode(), "columns": [[column.decode(), kind] for column, kind in columns], "key": [columns[0][0].decode()] if name == b"t" else ["k", "at"]}
              for name, columns in TABLES.items()]  # fmt: skip
    return json.dumps({"keyspace": "ks", "tables": tables, "streams": [{"shard": shard, "filter": {"rules": rules()}} for shard in SHARDS]}).encode()


class Shard:
    """A stream's source: its rows, and the feed that has come of their changes."""

    def __init__(self, number: int, seed: int) -> None:
        self._number, self._random, self.groups = number, random.Random(seed * 2 + number), 0
        self._rows: dict[bytes, dict] = {name: {} for name in TABLES}

    def _key(self, table: bytes) -> list[bytes]:
        chance = self._random
        if table == b"t":
            return [b"%d" % (chance.randrange(120) * 2 + self._number)]
        return [bytes([65 + self._number, chance.choice(b"\x00ab \xff")]) * chance.randrange(1, 4), b"%d" % chance.randrange(4)]

    def _row(self, table: bytes) -> list[bytes | None]:
        chance = self._random
        key = self._key(table)
        if table == b"t":
            return [*key, chance.choice([None, b"", "ä€𝄞".encode(), b"it's", b"%d" % chance.randrange(1 << 40)]), chance.choice([None, b"%d" % chance.randrange(-30000, 30000)])]
        return [*key, chance.choice([None, b"", chance.randbytes(chance.randrange(40)), b"\\'\"\n\0"])]

    def group(self, most: int = 4) -> bytes:
        """The next transaction."""
        self.groups += 1
        events = [making.event(2)] + [making.field_event(name, columns) for name, columns in TABLES.items()]
        for _ in range(self._random.randrange(1, most + 1)):
            table = self._random.choice(list(TABLES))
            before, after = None, self._row(table)
            rows, width = self._rows[table], 1 if table == b"t" else 2
            if rows and self._random.random() < 0.6:
                at = self._random.choice(list(rows))
                before = rows.pop(at)
                # a row goes, changes, or moves to another key
                after = None if self._random.random() < 0.3 else after if self._random.random() < 0.3 else [*before[:width], *after[width:]]
            if after and tuple(after[:width]) in rows:
                if before:
                    rows[tuple(before[:width])] = before
                continue
            if after:
                rows[tuple(after[:width])] = after
            events.append(making.row_event(table, [(before, after)]))
        position = UUIDS[self._number] + (b":1" if self.groups == 1 else b":1-%d" % self.groups)
        return making.frame(*events, making.event(1, put_text(3, b"MySQL56/" + position)), making.event(3))


class Writer:
    """Two feeds that grow. Use it with `with`, and they grow by themselves."""

    def __init__(self, trial, name: str, seed: int, pause: float = 0.01) -> None:
        self._shards, self._pause, self._over, self.lock = [Shard(number, seed) for number in (0, 1)], pause, threading.Event(), threading.Lock()
        self.feeds = [trial.put(f"{name}.{at}.feed", b"") for at in (0, 1)]
        self._trial, self.most = trial, 10**9
        """How many groups a feed grows to by itself."""
        self._thread = threading.Thread(target=self._go_on, daemon=True)

    def grow(self, count: int = 1, most: int = 4) -> None:
        """So many groups more in each feed."""
        with self.lock:
            for shard, feed in zip(self._shards, self.feeds):
                with open(feed, "ab") as file:
                    file.write(b"".join(shard.group(most) for _ in range(count)))

    def _go_on(self) -> None:
        while not self._over.wait(self._pause):
            if self._shards[0].groups < self.most:
                self.grow()

    def __enter__(self) -> "Writer":
        self._thread.start()
        return self

    def __exit__(self, *_: object) -> None:
        self._over.set()
        self._thread.join()

    def whole(self) -> list[str]:
        """Copies of the feeds as they are, which end with whole groups."""
        names = []
        with self.lock:
            for feed in self.feeds:
                with open(feed, "rb") as file:
                    names.append(self._trial.put(os.path.basename(feed) + ".whole", file.read()))
        return names
