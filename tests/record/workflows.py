"""What record/workflow and record/select write beside one workflow: a reshard's files, and what VTGate prints surely."""
import importlib.util
import json
import os

FLOATS = "id INT PRIMARY KEY, f FLOAT, d DOUBLE(9,2), e ENUM('x','y'), s SET('p','q'), v VARCHAR(9), n DECIMAL(5,2)"
UNIQUE = "unique index {} of {}: two shards may have one value, which a target's server refuses (docs/OPERATE.md, 'What a log doesn't say')"


def _said(trial, *words: str) -> tuple[int, str, str]:
    done = trial.run(*words)
    return done.returncode, done.stdout.decode(), done.stderr.decode()


def untold(trial) -> None:
    """What no log says is told, or stops."""
    trial.server.sql("CREATE DATABASE u; CREATE TABLE u.t (id INT PRIMARY KEY, a INT, b TEXT, c INT, UNIQUE both_ (id, c), UNIQUE one (a), UNIQUE part (b(3)));"
                     " CREATE TABLE u.`ks.t` (id INT PRIMARY KEY); ")  # fmt: skip
    feed, how = trial.path("untold.feed"), ["--socket", trial.server.socket, "--user", "root"]
    index = {one: f": warning: {UNIQUE.format(one, 'u.t')}\n" for one in ("one", "part")}
    done = trial.record("--shard=-", "--from-snapshot", "--out", feed, "u.t", "u.ks.t")
    trial.check("a name with a dot", None if done.returncode == 1 and b"feed: a table's name that isn't plain (ks.t) in u: " in done.stderr else f"{done}")
    for shard, wanted in ("-", ""), ("0", ""), ("-80", "feed" + index["one"] + "feed" + index["part"]):
        done = trial.record(f"--shard={shard}", "--from-snapshot", "--out", feed, "u.t")
        trial.check(f"warnings of shard {shard}", None if (done.returncode, done.stderr.decode()) == (0, wanted) else f"{done}")
    ways = {
        ("ks2", "-"): (0, ""),
        ("ks2", "-80,80-"): (0, f"workflow{index['part']}"),
        ("ks", "-"): (1, "workflow: a table whose name begins with the keyspace and a dot, ks.t, in u: it is taken for t; give the keyspace another name,"
                         " or leave the table out\n"),
    }  # fmt: skip
    for (keyspace, shards), wanted in ways.items():
        said = ["--keyspace", keyspace, f"--shards={shards}", "--vindex=t=a:reverse_bits", "u.t", "u.ks.t"]
        status, _, told = _said(trial, "record/workflow", *how, *said)
        trial.check(f"warnings of a workflow of {keyspace} {shards}", None if (status, told) == wanted else f"{status} {told!r}")
    trial.server.sql("DROP DATABASE u")


def targets(trial) -> None:
    """All files of a reshard, from the feeds of both shards: each target is what the server says; and what is refused."""
    from .load import SCHEMAS, SHARDS, VINDEXES, tables_of

    plan, feeds = trial.path("plan"), [trial.path(f"{schema}.feed") for schema in SCHEMAS]
    words = ["record/workflow", "--socket", trial.server.socket, "--user", "root", "--keyspace", "ks", f"--shards={','.join(SHARDS)}", "--into", plan,
             "--program", trial.program]  # fmt: skip
    all_of = [*VINDEXES, f"--feeds={','.join(feeds)}", *tables_of(SCHEMAS[0])]
    ranges = ["-40", "40-80", "80-c0", "c0-"]
    refusals = {
        "a gap": ["--targets=-40,80-", *all_of], "an overlap": ["--targets=-40,20-80,80-", *all_of], "one part": ["--targets=-80", *all_of],
        "a target twice": ["--targets=-80,80-,80-", *all_of], "no vindex": [f"--targets={','.join(ranges)}", *all_of[len(VINDEXES):]],
        "a feed of other columns": ["--targets=-80,80-", *VINDEXES, f"--feeds={feeds[0]},{trial.path('other.feed')}", *tables_of(SCHEMAS[0])],
        "no program": ["--targets=-80,80-", *all_of, "--program=/nowhere"],
    }  # fmt: skip
    once = "targets that don't have each row once: table "
    lines = [once, once, once, once, "target -40: refused 55 stream 0 rule 0", "target -80: refused 85; place stream 1 file ", "no program at /nowhere: "]  # fmt: skip
    with open(trial.path("other.feed"), "wb") as file:
        file.write(_with_another_column(feeds[1]))
    for (name, said), line in zip(refusals.items(), lines):
        status, _, told = _said(trial, *words, *said)
        why = None if status == 1 and told.startswith(f"workflow: {line}") and told.count("\n") == 1 else f"{status} {told!r}"
        trial.check(f"targets with {name}", why or (f"{os.listdir(plan)} was written" if os.path.exists(plan) else None))
    for name, said in ("no folder", words[:9]), ("a filter", [*words, "--filter=-80"]), ("no range", [*words, "--targets=-80,x"]):
        status, _, told = _said(trial, *said, "--targets=-80,80-", *tables_of(SCHEMAS[0]))
        trial.check(f"targets with {name}", None if status == 2 else f"{status} {told!r}")
    # (which begins with a minus, and is no option)
    made = trial.made(*words, "--targets", ",".join(ranges), *all_of).decode().split()
    names = [f"{target}.json" for target in ranges]
    trial.check("files of a reshard", None if made == [os.path.join(plan, name) for name in [*names, "job.json"]] else f"{made}")
    trial.check("nothing else is left", None if sorted(os.listdir(plan)) == sorted([*names, "job.json"]) else f"{os.listdir(plan)}")
    for target in ranges:
        one = trial.workflow("one.json", SHARDS, tables_of(SCHEMAS[0]), *VINDEXES, f"--filter={target}")
        with open(one, "rb") as file, open(os.path.join(plan, f"{target}.json"), "rb") as other:
            trial.check(f"workflow of target {target}", None if file.read() == other.read() else "another one")
    _resharded(trial, plan, ranges, SCHEMAS)


def _with_another_column(feed: str) -> bytes:
    """A feed whose first FIELD names its first column otherwise."""
    from recorder.messages import EventType, Response, framed, frames

    with open(feed, "rb") as file:
        data = file.read()
    messages = [Response.FromString(data[start:end]) for start, end in frames(data)]
    field = next(event for message in messages for event in message.events if event.type == EventType.FIELD)
    field.field_event.fields[0].name += "_"
    return b"".join(map(framed, messages))


def _resharded(trial, plan: str, ranges: list[str], schemas: list[str]) -> None:
    """Runs the job, where Dask's `distributed` is installed."""
    if importlib.util.find_spec("distributed") is None:
        print("python3-distributed isn't installed: the job wasn't run")
        return
    trial.made("fleet/reshard", os.path.join(plan, "job.json"))
    for target in ranges:
        with open(os.path.join(plan, "results", target, "target.dump"), "rb") as dump:
            trial.same(f"resharded {target}", dump.read(), trial.selected(os.path.join(plan, f"{target}.json"), *schemas), 10)


def sure(trial) -> None:
    """With --vtgate a feed that prints FLOAT, DOUBLE, ENUM and SET otherwise is the same, and one of another text isn't."""
    trial.server.sql(f"CREATE DATABASE v; CREATE TABLE v.t ({FLOATS}); CREATE TABLE v.plain (id INT PRIMARY KEY, v INT); CREATE DATABASE w;"
                     " CREATE TABLE w.t LIKE v.t; CREATE TABLE w.plain LIKE v.plain; ")  # fmt: skip
    trial.server.sql("INSERT INTO v.t SELECT seq, seq / 7, seq / 3, 1 + seq % 2, seq % 4, seq, seq FROM v.seq_1_to_50; INSERT INTO v.plain VALUES (1, 2);"
                     " INSERT INTO w.t SELECT id, f * 2, d * 2, 3 - e, 0, v, n FROM v.t; INSERT INTO w.plain SELECT * FROM v.plain; ")  # fmt: skip
    ways = {
        "all rows": [], "a range": ["--filter=-80"], "a list": ["--rule=t=select v, f, `id`, e from t where in_keyrange(id, 'reverse_bits', '40-')"],
        "a range by a rule": ["--rule=t=select * from t where in_keyrange('-c0')"], "another rule": ["--rule=t=select * from t", "--filter=80-"],
    }  # fmt: skip
    kept = dict.fromkeys(ways, 3) | {"a list": 2}
    for name, said in ways.items():
        workflow = trial.workflow("unsure.json", ["-"], ["v.t", "v.plain"], "--vindex=t=id:reverse_bits", "--vindex=plain=id:reverse_bits", *said)
        smaller, feed = trial.path("sure.json"), trial.path("sure.feed.own")
        statements = trial.made("record/select", "--vtgate", smaller, workflow, "v").decode()
        wanted = trial.server.sql(statements).stdout
        trial.decoded("-", trial.path("sure.feed"), "w.t", "w.plain")
        trial.same(f"sure columns, {name}", trial.made(trial.program, "run", smaller, feed), wanted, 10)
        columns = {line.count(b"\t") + 1 for line in wanted.split(b"table plain\n")[0].splitlines()[1:]}
        trial.check(f"sure columns, {name}, are so many", None if columns == {kept[name]} else f"{columns}")
        trial.check(f"all columns, {name}, differ", None if trial.made(trial.program, "run", workflow, feed) != trial.selected(workflow, "v") else "they don't")
        with open(smaller, encoding="utf-8") as one, open(workflow, encoding="utf-8") as other:
            alike = json.load(one)["tables"] == json.load(other)["tables"]
        trial.check(f"sure columns, {name}, of the same tables", None if alike else "others")
    trial.server.sql("UPDATE w.t SET v='moved' WHERE id=3")
    trial.decoded("-", trial.path("sure.feed"), "--append", "w.t", "w.plain")
    trial.check("a text that differs", None if trial.made(trial.program, "run", smaller, feed) != wanted else "it doesn't")
    trial.server.sql("DROP DATABASE v; DROP DATABASE w")
