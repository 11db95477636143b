"""What is told of a workflow file beside its plans, and where a file or a feed that is refused has its fault."""
import re

from . import Refused, wire
from .feed import Feed
from .shown import shown
from .workflow import ALL_VINDEXES, TYPE, Number, read_filter, read_json

READ = {"file": ("keyspace", "tables", "streams", "vindexes"), "table": ("name", "columns", "key", "vindex"), "stream": ("shard", "filter")}
READ |= {"filter": ("rules",), "rule": ("match", "filter")}
ROLLBACK = bytes([4, 10, 2, 8, 4])


def ignored(kind, path, said):
    """The members of an object that aren't read."""
    return [path + name for name in sorted(said, key=str.encode) if name not in READ[kind]] if isinstance(said, dict) else []


def all_ignored(said):
    found = ignored("file", "", said)
    for i, table in enumerate(said["tables"]):
        found += ignored("table", f"tables[{i}].", table)
    for i, stream in enumerate(said["streams"]):
        path = f"streams[{i}]."
        found += ignored("stream", path, stream) + ignored("filter", path + "filter.", stream["filter"])
        for j, rule in enumerate(stream["filter"]["rules"]):
            found += ignored("rule", f"{path}filter.rules[{j}].", rule)
    return found


def said_of(table, stream):
    """What a stream's first rule for a table says, if it has one."""
    for rule in stream["filter"]["rules"]:
        if rule["match"] in ("/.*", table["name"]):
            return read_filter(rule.get("filter", "").encode(), ALL_VINDEXES)
    return None


def ranged(table, stream):
    """What a stream passes of a table: nothing, all, or a range as (column, vindex, start, end)."""
    said = said_of(table, stream)
    if said is None:
        return None
    _, _, column, vindex, bounds = said
    if bounds is None:
        return "all"
    own = [it.encode() for it in table.get("vindex", ())]
    return (*((column, vindex) if column is not None else own), *bounds)


def words(table, stream):
    """What a stream keeps of a table: the columns that its rule lists, if it does, and the rows."""
    said, it = said_of(table, stream), ranged(table, stream)
    if it is None:
        return b"no row"
    columns = b"" if said[1] is None else b"columns %s " % b",".join(said[1])
    if it == "all":
        return columns + b"every row"
    return columns + b"range %s-%s of %s by %s" % (it[2].hex().encode(), it[3].hex().encode(), it[0], it[1])


def rules(data):
    """For each table of each stream: the stream, the table, and the rows that the stream passes."""
    said = read_json(data)
    return [(i, table["name"], words(table, stream)) for i, stream in enumerate(said["streams"]) for table in said["tables"]]


def do_tile(ranges):
    """Sorted by their starts, each range starts where the one before it ends."""
    at = sorted((start, end) for _, _, start, end in ranges)
    return at[0][0] == b"" and at[-1][1] == b"" and all(at[i][1] == at[i + 1][0] != b"" for i in range(len(at) - 1))


FLAWS = {"ignored": b"isn't read", "unmatched": b"matches no table", "undecided": b"has no rule for table ", "untiled": b"has ranges that don't tile"}


MAY_STAND = ("undecided",)


def note_lines(told):
    """The lines of what is told of a file."""
    word = {why: b"note" if why in MAY_STAND else b"warning" for why in FLAWS}
    return [b"%s workflow %s %s%s" % (word[why], shown(path.encode()), FLAWS[why], shown(table.encode())) for path, why, table in told]


def notes(data):
    """What is told of a file that is read: a path, why, and the table's name, empty where the path says it."""
    said = read_json(data)
    names = [table["name"] for table in said["tables"]]
    told = [(path, "ignored", "") for path in all_ignored(said)]
    for i, stream in enumerate(said["streams"]):
        for j, rule in enumerate(stream["filter"]["rules"]):
            if rule["match"] not in ("/.*", *names):
                told.append((f"streams[{i}].filter.rules[{j}]", "unmatched", ""))
    for i, stream in enumerate(said["streams"]):
        told += [(f"streams[{i}]", "undecided", table["name"]) for table in said["tables"] if ranged(table, stream) is None]
    for i, table in enumerate(said["tables"]):
        ranges = [ranged(table, stream) for stream in said["streams"]]
        if all(isinstance(it, tuple) for it in ranges) and len({it[:2] for it in ranges}) == 1 < len({*ranges}):
            told += [] if do_tile(ranges) else [(f"tables[{i}]", "untiled", "")]
    return told


# ---- where a file is at fault


def quoted(missed, text):
    return missed + b' "' + shown(text.encode()) + b'"'


def text(said):
    return None if type(said) is str else ("", b"no text")


def name(said):
    if type(said) is not str:
        return "", b"no text"
    at = said.encode()
    return None if 1 <= len(at) <= 256 and not any(it < 32 or it == 127 for it in at) else ("", b"no name of 1 to 256 bytes without control characters")


def kind(said):
    if type(said) is str:
        return None if said in TYPE else ("", quoted(b"no type", said))
    is_number = isinstance(said, Number) and re.fullmatch("[0-9]+", said) and int(said) < 2**32
    return None if is_number else ("", b"no type")


def vindex_name(said):
    if type(said) is not str:
        return "", b"no text"
    return None if said.encode() in ALL_VINDEXES else ("", quoted(b"no vindex", said))


def member(said, key, tells, needed=True, dot="."):
    """What is told of a member."""
    if not isinstance(said, dict) or key not in said:
        return (dot + key, b"missing") if needed else None
    it = tells(said[key])
    return it and (dot + key + it[0], it[1])


def items(said, tells, named=None):
    """What is told of a list's items, and then of the first name that stands before it."""
    if not isinstance(said, list):
        return "", b"no list"
    for i, it in enumerate(said):
        found = tells(it)
        if found:
            return f"[{i}]{found[0]}", found[1]
    names = [named(it) for it in said] if named else []
    for i, it in enumerate(names):
        if it in names[:i]:
            return f"[{i}]", quoted(b"a second", it)
    return None


def pair(first, second):
    def tells(said):
        if not isinstance(said, list):
            return "", b"no list"
        if len(said) != 2:
            return "", b"no list of two"
        for i, (it, tell) in enumerate(zip(said, (first, second))):
            found = tell(it)
            if found:
                return f"[{i}]{found[0]}", found[1]
        return None

    return tells


def table(said):
    return (
        member(said, "name", name)
        or member(said, "vindex", pair(name, vindex_name), needed=False)
        or member(said, "columns", lambda it: items(it, pair(name, kind), lambda column: column[0]))
        or member(said, "key", lambda it: items(it, name, lambda column: column))
    )


def rule(said):
    return member(said, "match", text) or member(said, "filter", text, needed=False)


def stream(said):
    def rules(filtered):
        return member(filtered, "rules", lambda it: items(it, rule))

    return member(said, "shard", text) or member(said, "filter", rules)


def shape(said):
    return (
        member(said, "keyspace", text, dot="")
        or member(said, "tables", lambda it: items(it, table, lambda one: one["name"]), dot="")
        or member(said, "streams", lambda it: items(it, stream, lambda one: one["shard"]), dot="")
    )


def unsaid(said):
    """The first table by `hash`, where the file doesn't say that it uses it."""
    further = said.get("vindexes", [])
    if isinstance(further, list) and "hash" in further:
        return None
    by_hash = [i for i, one in enumerate(said["tables"]) if one.get("vindex", [""])[-1] == "hash"]
    return (f"tables[{by_hash[0]}].vindex[1]", b'vindex "hash" without the file\'s member "vindexes": ["hash"]') if by_hash else None


def further_name(said):
    return text(said) or (None if said == "hash" else ("", quoted(b"no further vindex", said)))


def further(said):
    return member(said, "vindexes", lambda it: items(it, further_name), needed=False, dot="")


def counted(path, it, what, most):
    if not it:
        return path, b"0 %s, at least 1" % what
    return None if len(it) <= most else (path, b"%d %s, at most %d" % (len(it), what, most))


def counts(said):
    found = counted("streams", said["streams"], b"streams", 64) or counted("tables", said["tables"], b"tables", 64)
    for i, one in enumerate(said["tables"]):
        found = found or counted(f"tables[{i}].columns", one["columns"], b"columns", 256) or counted(f"tables[{i}].key", one["key"], b"columns", 8)
    return found


# ---- where a feed is at fault


def messages(data):
    """Where each message begins and its two ends; at what is none nothing but its beginning."""
    at = 0
    while at < len(data):
        size, after = wire.varint(data, at, len(data))
        if size is None or size > len(data) - after:
            yield at, None
            return
        yield at, (after, after + size)
        at = after + size


def is_read(data, span):
    if span is None:
        return False
    found, fault = wire.fields(data, span)
    try:
        for number, kind_of, payload in found:
            if (number, kind_of) == (1, 2):
                wire.Event(data, payload)
    except wire.BadEvent:
        return False
    return fault is None


def differing(feed, columns, data, span):
    """The column in which a FIELD of a message differs from the workflow's, in words."""
    for number, kind_of, payload in wire.fields(data, span)[0]:
        event = wire.Event(data, payload) if (number, kind_of) == (1, 2) else None
        if event and event.type == wire.FIELD:
            at = feed.table(event)
            wanted = columns.get(at, event.columns)
            for i in range(max(len(wanted), len(event.columns))):
                one, other = (it[i] if i < len(it) else None for it in (event.columns, wanted))
                if one is None:
                    return b" table %s column %s missing" % (shown(at), shown(other[0]))
                if other is None:
                    return b" table %s column %s unwanted" % (shown(at), shown(one[0]))
                if one[0] != other[0]:
                    return b" table %s column %s wanted %s" % (*map(shown, (at, one[0], other[0])),)
                if one[1] != other[1]:
                    return b" table %s column %s type %d wanted %d" % (shown(at), shown(one[0]), one[1], other[1])
    return None


def feed_place(workflow, s, file, data, number):
    empty = Feed(b"", workflow.keyspace, workflow.shards[s])
    for m, (at, span) in enumerate(messages(data), 1):
        column = differing(empty, workflow.columns, data, span) if number == 85 else None
        if column is None and (number == 85 or is_read(data, span)):
            continue
        place = b"place stream %d file %s message %d byte %d" % (s, shown(file), m, at)
        try:
            place += b" behind group %d" % len(Feed(data[:at] + ROLLBACK, workflow.keyspace, workflow.shards[s]).groups)
        except Refused:
            pass
        return place + (column or b"") + b"\n"
    return b""


def place(data, workflow, names, datas, refused):
    """The line that tells where the fault stands for which `check` refuses, or nothing."""
    number = int(refused.line.split()[1])
    if number in (52, 56):
        said = read_json(data)
        path, what = shape(said) or unsaid(said) or further(said) or counts(said)
        return b"place %s: %s\n" % (path.encode(), what)
    if number in (81, 82, 85):
        for s, (file, feed) in enumerate(zip(names, datas)):
            try:
                Feed(feed, workflow.keyspace, workflow.shards[s], workflow.columns)
            except Refused:
                return feed_place(workflow, s, file, feed, number)
    return b""
