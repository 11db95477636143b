"""A reshard of a keyspace by the vindex `hash`, which the server can't compute: its rows are cut by the plain model's own DES."""
import json
import random

from model import des

SCHEMAS, SHARDS, TARGETS = ["h0", "h1"], ["-80", "80-"], ["-40", "40-80", "80-c0", "c0-"]
WORDS = ["--vindex=t=id:hash"]


def row_id(number: int) -> bytes:
    return des.enciphered(0, number).to_bytes(8, "big")


def is_in(target: str, row: bytes) -> bool:
    """Whether a target has a row of a dump, as `x31\\tx61`."""
    start, end = map(bytes.fromhex, target.split("-"))
    at = row_id(int(bytes.fromhex(row.split(b"\t")[0][1:].decode())))
    return start <= at and (not end or at < end)


def changes(chance: random.Random) -> dict[int, list[str]]:
    """The statements of each source shard: rows are added, changed, moved and removed, some of them in one transaction."""
    numbers = [*range(1, 60), 2**64 - 1, 2**63, *(chance.randrange(2**64) for _ in range(60))]
    made: dict[int, list[str]] = {0: [], 1: []}
    for number in numbers:
        shard = row_id(number)[0] >> 7
        made[shard].append(f"INSERT INTO t VALUES ({number}, 'v{number}')")
        if chance.random() < 0.5:
            made[shard].append(f"UPDATE t SET v = CONCAT(v, 'w') WHERE id = {number}")
        elif chance.random() < 0.3:
            made[shard].append(f"DELETE FROM t WHERE id = {number}")
    return made


def resharded(trial) -> None:
    """Two source shards into four targets, each with the rows of its range and no others."""
    for schema in SCHEMAS:
        trial.server.sql(f"CREATE DATABASE {schema}; CREATE TABLE {schema}.t (id BIGINT UNSIGNED PRIMARY KEY, v VARCHAR(40))")
    for shard, statements in changes(random.Random(74)).items():
        trial.server.sql(f"USE {SCHEMAS[shard]}; BEGIN; " + "; ".join(one + ("; COMMIT; BEGIN" if at % 3 else "") for at, one in enumerate(statements)) + "; COMMIT; ")
    feeds, snapshots = ([trial.path(f"{schema}.{kind}") for schema in SCHEMAS] for kind in ("feed", "snapshot"))
    for schema, shard, feed, snapshot in zip(SCHEMAS, SHARDS, feeds, snapshots):
        trial.recorded_twice(shard, feed, f"{schema}.t")
        trial.recorded_twice(shard, snapshot, "--from-snapshot", f"{schema}.t")
    tables = [f"{SCHEMAS[0]}.t"]
    whole = trial.selected(trial.workflow("hashed.json", SHARDS, tables, *WORDS), *SCHEMAS).splitlines()
    for target in TARGETS:
        part = trial.workflow(f"hashed{target}.json", SHARDS, tables, *WORDS, f"--filter={target}")
        with open(part, encoding="utf-8") as file:
            trial.check(f"hash {target}, said", None if json.load(file).get("vindexes") == ["hash"] else "the file doesn't say that it uses hash")
        wanted = b"".join(line + b"\n" for line in whole if line.startswith(b"table ") or is_in(target, line))
        trial.same(f"hash {target}", trial.made(trial.program, "run", part, *feeds), wanted, 10)
        trial.same(f"hash {target}, by a snapshot", trial.made(trial.program, "run", part, *snapshots), wanted, 10)
        with open(trial.path("hashed.wanted"), "wb") as file:
            file.write(wanted)
        with open(trial.path("hashed.dump"), "wb") as file:
            file.write(trial.made(trial.program, "run", part, *feeds))
        compared = trial.made(trial.program, "vdiff", part, file.name.replace(".dump", ".wanted"), file.name)
        trial.check(f"hash {target}, compared", None if compared.endswith(b"mismatched 0\nextra source 0\nextra target 0\n") else f"{compared!r}")
        told = trial.run("record/select", part, *SCHEMAS)
        is_told = (told.returncode, told.stdout) == (1, b"") and told.stderr.count(b"\n") == 1 and b"hash" in told.stderr
        trial.check(f"hash {target}, selected", None if is_told else f"status {told.returncode}, {told.stderr!r}")
    said = ["--socket", trial.server.socket, "--user", "root", "--keyspace", "ks", f"--shards={','.join(SHARDS)}", f"--program={trial.program}"]
    trial.made("record/workflow", *said, *WORDS, f"--targets={','.join(TARGETS)}", f"--into={trial.path('hashed')}", f"--feeds={','.join(feeds)}", *tables)
    by_rule = trial.workflow("hashed_rule.json", SHARDS, tables, "--rule=t=select * from t where in_keyrange(id, 'hash', '40-80')")
    wanted = b"".join(line + b"\n" for line in whole if line.startswith(b"table ") or is_in("40-80", line))
    trial.same("hash by a rule", trial.made(trial.program, "run", by_rule, *feeds), wanted, 10)
    trial.server.sql("".join(f"DROP DATABASE {schema}; " for schema in SCHEMAS))
