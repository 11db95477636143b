"""Random and damaged inputs through the library and through the program: both have to give the same answers.

usage: same.py SECONDS|COUNTi [SEED [FILE]]

With FILE each call of the library is noted there, to be made again by tests/library/walk.c.

A position, good or damaged, is the library's by `vrepl_gtid_set`, and the program's by `show` of a feed of one group that
has it: the printed form, or 94 and the same cause as `tests/model` says. Ranges and ids are held to a row that `run`
passes or not under a workflow that has them; the messages of a damaged feed to what `show` reads of it; a workflow
file, good or damaged, to what `run` refuses of it and to where `check` tells the fault, or what it warns of; and of a good
one which rows pass, as which keys, to the rows that `run` prints; lists of ranges to whether `check` warns of them; two
dumps, good or damaged, to what `vdiff` says of them. Many inputs go through one process of the program: as groups of one feed, or as rows of one table.
"""
import copy
import json
import os
import random
import re
import subprocess
import sys
import time

from noted import note_calls

import vrepl
from vrepl.feed import Feed
from vrepl.program import _asked, _file_of, program
from vrepl.wire import EventType, field_bytes, number_bytes

ROOT = os.path.dirname(os.path.dirname(os.path.dirname(os.path.abspath(__file__))))
UUIDS = ["3e11fa47-71ca-11e1-9e33-c80aa9429562", "3E11FA47-71CA-11E1-9E33-C80AA9429563", "00000000-0000-0000-0000-000000000001"]
TABLES = {"t": {"id": "INT64", "v": "VARBINARY"}}


def a_number(chance):
    return chance.choice([1, 2, 3, chance.randrange(1, 30), 2**63 - 2, chance.randrange(1, 2**62)])


def a_position(chance):
    """A position's text: parts of few uuids, intervals that touch, overlap and are empty, blanks; one of five is damaged."""
    parts = []
    for _ in range(chance.choice([0, 1, 1, 2, 3])):
        intervals = []
        for _ in range(chance.randrange(1, 4)):
            first = a_number(chance)
            intervals.append(str(first) if chance.random() < 0.4 else f"{first}-{min(first + chance.randrange(-1, 5), 2**63 - 2)}")
        parts.append(chance.choice(["", " ", "\t"]) + chance.choice(UUIDS) + ":" + ":".join(intervals))
    text = (chance.choice(["", "MySQL56/"]) + chance.choice([",", " ,", ",\n"]).join(parts)).encode()
    return damaged(chance, text) if chance.random() < 0.2 else text


def damaged(chance, content):
    there = bytearray(content)
    for _ in range(chance.randrange(1, 3)):
        at = chance.randrange(len(there) + 1)
        kind = chance.randrange(3)
        if kind == 0 or at == len(there):
            there.insert(at, chance.choice(b"0:-,/ fg\xff\x00\x80"))
        elif kind == 1:
            del there[at]
        else:
            there[at] ^= 1 << chance.randrange(8)
    return bytes(there)


def set_or_number(text):
    try:
        return str(vrepl.GtidSet(text))
    except vrepl.Refused as refused:
        return refused.number


def shown(feed):
    """What `show` prints of a feed, a text a group, or the number of its refusal."""
    try:
        with _file_of(bytes(feed)) as path:
            return [line.split(b" ", 2)[2].decode() for line in _asked("show", path)[1].split(b"\n") if line.startswith(b"group ")]
    except vrepl.Refused as refused:
        return refused.number


def positions(chance):
    """The unions of good positions, one behind another, as the groups of one feed; and one damaged position."""
    texts = [a_position(chance) for _ in range(60)]
    good = [it for it in texts if isinstance(set_or_number(it), str)]
    feed, union, wanted = Feed(TABLES), vrepl.GtidSet(), []
    for text in good:
        more = vrepl.GtidSet(text)
        both = union | more
        if not (more <= both and union <= both and (both <= union) == (more <= union)):
            raise AssertionError(f"the union of {union} and {text!r} is {both}")
        if not both <= union:
            wanted.append(str(both))
        union = both
        feed.transaction(position=str(union))
    if shown(feed) != wanted:
        raise AssertionError(f"of the positions {good} the program shows {shown(feed)}")
    for text in texts:
        said = set_or_number(text)
        try:
            name = text.decode()
        except UnicodeDecodeError:
            if said != 24:
                raise AssertionError(f"{text!r} is no text, and the library says {said}") from None
            continue
        if isinstance(said, int) or chance.random() < 0.05:
            found = shown_alone(name)
            if found != (said if isinstance(said, str) else 94):
                raise AssertionError(f"of the position {text!r} the library says {said}, the program {found}")
    return len(texts)


def shown_alone(name):
    """What `show` says of a feed of one group at a position; a position of the empty set is no group."""
    body = name.encode()
    found = shown(Feed(TABLES).message(number_bytes(1, EventType.GTID) + field_bytes(3, body)))
    return found if isinstance(found, int) else (found or [""])[0]


def a_bound(chance):
    digits = bytes(chance.choice([0, 0x40, 0x80, 0xFF, chance.randrange(256)]) for _ in range(chance.randrange(4))).hex()
    return digits.upper() if chance.random() < 0.3 else digits


def ranges(chance):
    """A range, good or damaged, over the ids of many values: which rows of a table pass it."""
    text = chance.choice(["0", "-", f"{a_bound(chance)}-{a_bound(chance)}", damaged(chance, f"{a_bound(chance)}-{a_bound(chance)}".encode()).decode("latin-1")])
    vindex = chance.choice(["numeric", "reverse_bits", "binary", "binary_md5"])
    values = [str(a_number(chance) if chance.random() < 0.7 else chance.randrange(2**64)) for _ in range(60)]
    column = "UINT64" if vindex in ("numeric", "reverse_bits") else "VARCHAR"
    feed = Feed({"t": {"id": column, "v": "VARCHAR"}}).insert("t", *((it, "") for it in dict.fromkeys(values)))
    workflow = feed.workflow("-", vindex=vindex)
    workflow["streams"][0]["filter"]["rules"][0]["filter"] = text
    try:
        held = vrepl.KeyRange(text)
        said = sorted(it for it in set(values) if vrepl.vindex_id(vindex, it.encode()) in held)
    except vrepl.Refused as refused:
        said = refused.number
    try:
        found = sorted(row[0].decode() for row in vrepl.run(workflow, feed).tables["t"])
    except vrepl.Refused as refused:
        found = refused.number
    # A rule whose text is no range is tried as a selection, and refused 55 as that.
    if found != (55 if said == 41 else said) and text.strip(" \t\r\n") == text and text:
        raise AssertionError(f"of the range {text!r} under {vindex} the library says {said}, the program {found}")
    return len(values)


def feeds(chance):
    """A feed that is cut or damaged in its lengths: the program finds it cut where the library does."""
    feed = bytes(Feed(TABLES).insert("t", (1, "a" * chance.randrange(200))).delete("t", (1, b"b")).insert("t", (2, None)))
    broken = feed[: chance.randrange(len(feed) + 1)] if chance.random() < 0.5 else damaged(chance, feed)
    try:
        said, number = sum(1 for _ in vrepl.messages(broken)), None
    except vrepl.Refused as refused:
        said, number = None, refused.number
    found = shown(broken)
    # What stands before it may be at fault too, and then it is that which is told.
    if (number is None and found == 81) or (number == 81 and not isinstance(found, int)):
        raise AssertionError(f"of the feed {broken.hex()} the library says {said or number}, the program {found}")
    return 1


def all_groups(chance):
    """A feed of several tables, often damaged: the groups that the library gives are those that `show` prints, or the same number."""
    tables = {"t": {"id": "INT64", "v": "VARBINARY"}, "u": {"a": "BLOB"}}
    feed = Feed(tables)
    for _ in range(chance.randrange(5)):
        changes = []
        for _ in range(chance.randrange(4)):
            table = chance.choice(list(tables))
            cell = lambda: chance.choice([None, b"", b"a", bytes(chance.randrange(256) for _ in range(chance.randrange(20)))])  # noqa: E731
            rows = [tuple(cell() for _ in tables[table]) for _ in range(2)]
            changes.append((table, *chance.choice([(None, rows[0]), (rows[0], None), (rows[0], rows[1])])))
        feed.transaction(*changes)
    given = bytes(feed)
    if chance.random() < 0.6:
        given = damaged(chance, given)
    cells = lambda row: "".join("\t" + ("N" if it is None else "x" + it.hex()) for it in row)  # noqa: E731
    try:
        said = []
        for it in vrepl.groups(given):
            said.append(f"group {it.number} {it.position}")
            for change in it.changes:
                said += [f"{sign} {change.table}{cells(row)}" for sign, row in (("-", change.before), ("+", change.after)) if row is not None]
        said = "".join(line + "\n" for line in said).encode()
    except vrepl.Refused as refused:
        said = refused.number
    try:
        with _file_of(given) as path:
            found = _asked("show", path)[1]
    except vrepl.Refused as refused:
        found = refused.number
    if said != found:
        raise AssertionError(f"of the feed {given.hex()} the library says {said}, the program {found}")
    return 1


WHOLE = ["INT8", "INT16", "INT24", "INT32", "INT64", "UINT8", "UINT16", "UINT24", "UINT32", "UINT64"]
KEYS = [*WHOLE, "VARCHAR", "CHAR", "VARBINARY", "BINARY"]
NUMERIC, BINARY = ["numeric", "reverse_bits", "hash"], ["binary", "binary_md5"]
JUNK = [None, True, 0, -1, 7, 2**32, 1.5, "", "x", "-40", "select * from t", "/.*", "/x", "a`b", [], ["x"], {}, {"x": 1}]


def a_table(chance, name):
    """A table with its columns, key and vindex, and of which columns rules keep a list, if they do."""
    kinds = [chance.choice(KEYS), *(chance.choice([*KEYS, "TEXT", "BLOB", 18]) for _ in range(chance.randrange(4)))]
    names = chance.sample(["id", "v", "a b", "from", "\xe9", "Id"], len(kinds))
    fit = [at for at, kind in enumerate(kinds) if kind in KEYS]
    key = [names[at] for at in chance.sample(fit, chance.randrange(1, min(3, len(fit) + 1)))]
    table = {"name": name, "columns": [list(it) for it in zip(names, kinds)], "key": key}
    by = [(names[at], chance.choice(NUMERIC if kinds[at] in WHOLE else BINARY)) for at in fit]
    if chance.random() < 0.8:
        table["vindex"] = list(chance.choice(by))
    more = [it for it in names if it not in key and chance.random() < 0.5]
    return table, by, chance.sample([*key, *more], len(key) + len(more)) if chance.random() < 0.4 else None


def a_rule(chance, table, by, kept):
    """A rule of a table, in one of the forms of docs/FORMATS.md."""
    bounds = sorted([a_bound(chance).lower(), a_bound(chance).lower()])
    place = chance.choice(["-", "0", "-".join(bounds), f"-{bounds[1]}", f"{bounds[0]}-"])
    try:
        vrepl.KeyRange(place)
    except vrepl.Refused:
        place = "-80"
    quoted = lambda it: f"`{it}`" if it in ("a b", "from", "\xe9", "t 2") or chance.random() < 0.3 else it  # noqa: E731
    column, vindex = chance.choice(by)
    where = chance.choice(["", f" where in_keyrange('{place}')" if "vindex" in table else "", f"  WHERE in_keyrange({quoted(column)} , '{vindex}','{place}')"])
    if not kept and not where and chance.random() < 0.5:
        return {"match": table["name"], "filter": place if "vindex" in table and chance.random() < 0.5 else ""}
    columns = ", ".join(map(quoted, kept)) if kept else "*"
    return {"match": table["name"], "filter": f"{chance.choice(['select', 'Select'])} {columns} from {quoted(table['name'])}{where}"}


def a_workflow(chance):
    """A workflow that is read, and by table the columns that rules keep."""
    made = [a_table(chance, name) for name in chance.sample(["t", "u", "t 2"], chance.randrange(1, 4))]
    streams = []
    for shard in ["-80", "80-", "x"][:chance.randrange(1, 4)]:
        rules = [a_rule(chance, *it) for it in made if it[2] or chance.random() < 0.9]
        streams.append({"shard": shard, "filter": {"rules": rules}})
    return {"keyspace": "ks", "vindexes": ["hash"], "tables": [it[0] for it in made], "streams": streams}, {it[0]["name"]: it[2] for it in made}


def places_of(value, path=()):
    """The paths of all values below one."""
    for key, one in value.items() if isinstance(value, dict) else enumerate(value) if isinstance(value, list) else ():
        yield (*path, key)
        yield from places_of(one, (*path, key))


def workflows(chance):
    """Workflow files: what is refused of them; and of those that are read what passes, as which key."""
    made, kept = a_workflow(chance)
    tried = 0
    for _ in range(4):
        text = json.dumps(made)
        if chance.random() < 0.8:
            there = copy.deepcopy(made)
            for key in ["vindexes"] if chance.random() < 0.3 else []:
                del there[key]
            for _ in range(chance.randrange(1, 3)):
                there = changed(chance, there)
            text = json.dumps(there)
        given = damaged(chance, text.encode()) if chance.random() < 0.3 else text.encode()
        try:
            said = vrepl.Workflow(given).streams
        except vrepl.Refused as refused:
            said = -refused.number
        told = vrepl.Workflow.check(given)
        if (told.refused or -said) != -said:
            raise AssertionError(f"of the workflow {given!r} the library says {said} and {told}")
        said = (said, vrepl.Workflow(given).rules() + told.warnings) if said > 0 else (said, told.place)
        found = checked(given, said[0] if said[0] > 0 else 1)
        if found != said:
            raise AssertionError(f"of the workflow {given!r} the library says {said}, the program {found}")
        tried += 1
    return tried + sum(rows_of_stream(chance, made, kept, stream) for stream in range(len(made["streams"])))


DETAILS = re.compile(r"refused (\d+) ?(.*)")


# Refusals of a workflow whose place in the file the program alone tells: the library has those of 52 and 56.
UNPLACED = ("51", "53", "54", "55", "57")


def checked(workflow, count):
    """What `check` says of a workflow with so many feeds without a group: how many its streams are, and the lines of its rules
    and of what is told of its file; or its refusal's number, and where the fault is."""
    with _file_of(workflow) as path, _file_of(b"") as empty:
        ran = subprocess.run([program(), "check", path, *[empty] * count], capture_output=True, check=False)
    if ran.returncode in (0, 3):
        return count, [it for it in ran.stdout.decode().splitlines() if it.startswith(("rule ", "note workflow ", "warning workflow "))]
    [line, *more] = ran.stderr.decode(errors="replace").split("\n")[:-1]
    number, details = DETAILS.fullmatch(line).groups()
    return -int(number), more[0].removeprefix("place ") if more and number not in UNPLACED else details


def tilings(chance):
    """Ranges that lie end to end, or nearly: `check` warns of those of a workflow's streams that don't, in whatever order."""
    bounds = sorted({a_bound(chance).lower() for _ in range(chance.randrange(5))} - {""})
    texts = [f"{one}-{other}" for one, other in zip(["", *bounds], [*bounds, ""])]
    if chance.random() < 0.5:
        texts[chance.randrange(len(texts))] = f"{a_bound(chance)}-{a_bound(chance)}"
    try:
        found = [vrepl.KeyRange(it) for it in texts]
        said = vrepl.KeyRange.tiles(sorted(found, key=lambda it: it.start))
    except vrepl.Refused as refused:
        said = refused.number
    if vrepl.KeyRange.tiles(texts) if said != 41 else 0:
        if said is not True:
            raise AssertionError(f"the ranges {texts} tile as they stand, and in order don't")
    workflow = Feed({"t": {"id": "VARBINARY"}}).workflow(*[f"s{at}" for at in range(len(texts))], vindex="binary")
    for stream, it in zip(workflow["streams"], texts):
        stream["filter"] = {"rules": [{"match": "/.*", "filter": it}]}
    number, lines = checked(workflow, len(texts))
    if said == 41:
        if number != -55:
            raise AssertionError(f"of the ranges {texts} the library says {said}, the program {number}")
    elif len(set(found)) > 1 and said != ("warning workflow tables[0] has ranges that don't tile" not in lines):
        raise AssertionError(f"of the ranges {texts} the library says {said}, the program {lines}")
    return 1


def a_dump(chance, tables, pool):
    """The dump of some rows of a pool, by rising key; one of six is damaged."""
    lines = []
    for name in tables:
        lines.append(f"table {name}\n")
        for key in sorted(chance.sample(range(len(pool)), chance.randrange(len(pool) + 1)), key=lambda it: pool[it]):
            value = chance.choice(["N", "x", "x61", "x" + chance.randbytes(3).hex()]) if chance.random() < 0.3 else "x00"
            lines.append(f"x{pool[key].hex()}\t{value}\n")
    dump = "".join(lines).encode()
    return damaged(chance, dump) if chance.random() < 0.16 else dump


def dumps(chance):
    """Two dumps of a workflow's tables: the counts, and all keys at which they differ."""
    feed = Feed({name: {"id": "VARBINARY", "v": "BLOB"} for name in chance.sample(["t", "u", "a b"], chance.randrange(1, 4))})
    workflow, pool = feed.workflow("-"), [*{chance.randbytes(chance.randrange(1, 4)) for _ in range(12)}]
    if chance.random() < 0.04:
        workflow["tables"][0]["key"] = chance.choice([[], ["x"]])
    source, target = a_dump(chance, feed.tables, pool), a_dump(chance, feed.tables, pool)
    first = chance.choice([1, 3, 1_000_000])
    said, found = [told_of(compare, workflow, source, target, first) for compare in (vrepl.compare, vrepl.vdiff)]
    if said != found:
        raise AssertionError(f"of {source!r} and {target!r} under {json.dumps(workflow)} the library says {said}, the program {found}")
    if said[0] == 0:
        rows = [f"table {it['name']}\n" + "".join("\t".join("N" if cell is None else "x" + cell.hex() for cell in entry.row) + "\n" for entry in
                vrepl.entries(workflow, source) if entry.table == it["name"]) for it in workflow["tables"]]  # fmt: skip
        if "".join(rows).encode() != source:
            raise AssertionError(f"of the rows of {source!r} the library says {rows}")
    return 2


def told_of(compare, workflow, source, target, first):
    """What is said of two dumps: counts and differences, or the number and line of the refusal."""
    try:
        it = compare(workflow, source, target, first)
    except vrepl.Refused as refused:
        line = re.search(r"line (\d+)", f"{refused.line} {refused.place}")
        return refused.number, line and line[1]
    return 0, it.processed, it.matching, it.mismatched, it.extra_source, it.extra_target, it.differences


def changed(chance, workflow):
    """A copy of a workflow in which something is another thing, isn't there, or stands twice."""
    whole = copy.deepcopy(workflow)
    *path, last = chance.choice(list(places_of(whole)))
    there = whole
    for key in path:
        there = there[key]
    kind = chance.randrange(3)
    if kind == 0:
        there[last] = chance.choice(JUNK)
    elif kind == 1:
        del there[last]
    elif isinstance(there, list):
        there.insert(last, copy.deepcopy(there[last]))
    else:
        there[last] = [there[last]] * chance.choice([1, 2, 65])
    return whole


def a_cell(chance, kind):
    if chance.random() < 0.03:
        return None
    if kind in WHOLE:
        return str(chance.choice([0, 1, 2, 7, 255, 2**63, 2**64 - 1, chance.randrange(2**32)])).encode() if chance.random() < 0.95 else chance.choice([b"-5", b"007", b"x", b"", b"-"])
    return chance.choice([b"", b"a", b"\x80", b"\xff\0", chance.randbytes(chance.randrange(12))])


def answers(judge, *row):
    """A row's key, and whether it passes, and the numbers of what is refused of these."""
    found, numbers = [], []
    for ask in judge.key, judge.passes:
        try:
            found.append(ask(*row))
        except vrepl.Refused as refused:
            found.append(None)
            numbers.append(refused.number)
    return found, numbers


def rows_of_stream(chance, workflow, kept, stream):
    """Rows of each table: which pass a stream's filter, and their keys; the rows that have no answer one by one."""
    judge = vrepl.Workflow(workflow)
    alone = {**workflow, "streams": [workflow["streams"][stream]]}
    tables = {it["name"]: dict(it["columns"]) for it in workflow["tables"]}
    wanted, good, faults = {name: {} for name in tables}, {name: {} for name in tables}, []
    has_rule = {rule["match"] for rule in alone["streams"][0]["filter"]["rules"]}
    for name, columns in tables.items():
        for _ in range(20):
            row = tuple(a_cell(chance, kind) for kind in columns.values())
            (key, passes), numbers = answers(judge, stream, name, row)
            if numbers:
                faults.append((name, row, numbers))
            if numbers or key in good[name]:
                continue
            good[name][key] = row
            if passes:
                listed = kept[name] if kept[name] and name in has_rule else [*columns]
                wanted[name][key] = tuple(row[[*columns].index(it)] for it in listed)
    feed = Feed(tables)
    for name, rows in good.items():
        feed.insert(name, *rows.values())
    found = vrepl.run(alone, feed).tables
    if {name: sorted(rows, key=repr) for name, rows in found.items()} != {name: sorted(rows.values(), key=repr) for name, rows in wanted.items()}:
        raise AssertionError(f"under {json.dumps(alone)} the library passes {wanted}, the program {found}")
    for name, row, numbers in faults[:2]:
        try:
            vrepl.run(alone, Feed(tables).insert(name, row))
            told = None
        except vrepl.Refused as refused:
            told = refused.number if refused.number != 90 else int(str(refused.line).rpartition("cause ")[2])
        if told not in numbers and name in has_rule:
            raise AssertionError(f"of the row {row} of {name} under {json.dumps(alone)} the library says {numbers}, the program {told}")
    return 20 * len(tables)


def main(until, seed=None, file=None):
    seed = int(seed if seed is not None else random.randrange(2**32))
    notes = note_calls(file) if file else None
    chance, began, tried = random.Random(seed), time.monotonic(), 0
    try:
        while tried < int(until[:-1]) if until.endswith("i") else time.monotonic() < began + float(until):
            tried += positions(chance) + ranges(chance) + sum(feeds(chance) + all_groups(chance) for _ in range(5)) + workflows(chance)
            tried += sum(tilings(chance) + dumps(chance) for _ in range(5))
    except AssertionError:
        print(f"seed {seed}")
        raise
    if notes:
        notes.close()
    print(f"{tried} inputs, seed {seed}")


main(*sys.argv[1:])
