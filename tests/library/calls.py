"""Each call of the module `vrepl`, its answers and its refusals. Ends with an AssertionError at the first that fails."""
import json
import os
import tempfile
import uuid

import vrepl

UUID = "3e11fa47-71ca-11e1-9e33-c80aa9429562"


def number_of(call, *given):
    """The number by which a call is refused."""
    try:
        call(*given)
    except vrepl.Refused as refused:
        return refused.number
    return None


def readers():
    one, more = vrepl.GtidSet(f"MySQL56/{UUID.upper()}:1-3:4"), vrepl.GtidSet(f"{UUID}:3-9".encode())
    assert str(one) == f"{UUID}:1-4" and one == vrepl.GtidSet(f"{UUID}:4:1-3") and hash(one) == hash(vrepl.GtidSet(str(one)))
    assert (UUID, 4) in one and (uuid.UUID(UUID), 4) in one and (uuid.UUID(UUID).bytes, 5) not in one and (UUID, 2**64) not in one
    assert str(one | more) == f"{UUID}:1-9" and one <= (one | more) and one < (one | more) and not one <= more and not one < one
    assert not vrepl.GtidSet() and vrepl.GtidSet() <= one and bool(one)
    assert [number_of(vrepl.GtidSet, it) for it in ("a/b", "a", f"{UUID}:0", UUID, b"\xff", " " * 1048577)] == [31, 32, 33, 35, 24, 36]
    many = vrepl.GtidSet(",".join(f"{UUID}:{2 * n}" for n in range(1, 2000)))
    assert vrepl.GtidSet(str(many)) == many and len(str(many)) > 8000

    lower, upper = vrepl.KeyRange("-8000"), vrepl.KeyRange("80-")
    assert (lower.start, lower.end, upper.start, upper.end) == (b"", b"\x80", b"\x80", None) and str(lower) == "-80"
    assert b"\x7f\xff" in lower and b"\x80" not in lower and b"\x80" in upper and lower == vrepl.KeyRange("00-80")
    assert vrepl.tiles([lower, upper]) and not vrepl.tiles([upper, lower]) and not vrepl.tiles([]) and not vrepl.tiles([lower, lower, upper])
    assert number_of(vrepl.KeyRange, "80-40") == 41
    assert vrepl.KeyRange.tiles(["-40", vrepl.KeyRange("40-80"), upper]) and vrepl.KeyRange.tiles(["0"]) and not vrepl.KeyRange.tiles(["-40", "80-"])
    assert number_of(vrepl.KeyRange.tiles, ["-80", "x"]) == 41 and number_of(vrepl.KeyRange.tiles, ["80-40"]) == 41

    assert vrepl.vindex_id("numeric", b"258") == bytes([0, 0, 0, 0, 0, 0, 1, 2]) and vrepl.vindex_id("binary", b"a" * 1000) == b"a" * 1000
    assert vrepl.vindex_id("binary_md5", b"").hex() == "d41d8cd98f00b204e9800998ecf8427e"
    assert [number_of(vrepl.vindex_id, *it) for it in (("lookup", b""), ("numeric", None), ("numeric", b"-1"))] == [42, 43, 44]

    tables = [{"name": "t", "columns": [["id", "INT64"], ["v", "VARCHAR"]], "key": ["id"], "vindex": ["id", "numeric"]}]
    rules = [{"shard": it, "filter": {"rules": [{"match": "t", "filter": it}]}} for it in ("-80", "80-")]
    workflow = vrepl.Workflow({"keyspace": "ks", "tables": tables, "streams": rules})
    assert workflow.streams == 2 and workflow.passes(0, "t", (1, None)) and not workflow.passes(1, "t", (1, "a")) and workflow.passes(1, "t", (2**63, b""))
    asked = ((2, "t", (1, None)), (-1, "t", (1, None)), (0, "u", (1, None)), (0, "t", (1,)), (0, "t", (None, 1)), (0, "t", ("x", 1)))
    assert [number_of(workflow.passes, *it) for it in asked] == [115, 115, 85, 87, 43, 44]
    assert number_of(vrepl.Workflow, b"{") == 51 and number_of(vrepl.Workflow, {}) == 52
    workflows(tables, rules, workflow)

    feed = b"\x02ab\x00\x01c"
    assert list(vrepl.messages(feed)) == [b"ab", b"", b"c"] and vrepl.whole(feed + b"\x05d") == 6 and vrepl.whole(b"") == 0
    assert number_of(list, vrepl.messages(feed + b"\x05d")) == 81
    assert workflow.key(0, "t", ("007", "a")) == (b"7",) and [number_of(workflow.key, 0, "t", it) for it in ((None, 1), ("x", 1), (1,))] == [61, 62, 87]
    made = vrepl.Feed({"t": {"id": "INT64", "v": "VARCHAR"}}).transaction(("t", None, (1, None)), ("t", ("2", ""), None))
    wanted = [vrepl.Change("t", None, (b"1", None)), vrepl.Change("t", (b"2", b""), None)]
    assert list(vrepl.groups(made)) == [vrepl.Group(1, UUID + ":1", wanted)] == list(vrepl.groups(bytes(made), "ks", "-80"))
    assert list(vrepl.groups(b"")) == [] and number_of(vrepl.groups, bytes(made)[1:]) is not None and number_of(vrepl.groups, bytes(made)[:-1]) == 81
    assert vrepl.explain(41).startswith("41   a key range doesn't start below its end\n")
    assert str(vrepl.Refused(72)) == "refused 72: memory was refused"


def workflows(tables, rules, workflow):
    good = vrepl.Workflow.check({"keyspace": "ks", "tables": tables, "streams": rules})
    assert good and (good.refused, good.place, good.warnings) == (0, "", [])
    lower = {"shard": "lower", "filter": {"rules": [{"match": "t", "filter": "-40"}]}}
    gap = vrepl.Workflow.check({"keyspace": "ks", "tables": tables, "streams": [lower, rules[1]], "x": 1})
    assert not gap and gap.warnings == ["warning workflow x isn't read", "warning workflow tables[0] has ranges that don't tile"]
    bad = {"keyspace": "ks", "tables": [{**tables[0], "columns": [["id", "INT64"], ["v", "DECIMAL"]]}], "streams": rules}
    told = vrepl.Workflow.check(bad)
    assert not told and (told.refused, told.place) == (52, 'tables[0].columns[1][1]: no type "DECIMAL"')
    try:
        vrepl.Workflow({"keyspace": "ks", "tables": [{**tables[0], "key": ["x"]}], "streams": rules})
    except vrepl.Refused as refused:
        assert (refused.number, refused.place) == (53, "table t column x") and str(refused).startswith("refused 53: table t column x: ")
    else:
        raise AssertionError("no key column of another name")
    assert vrepl.Workflow.check(b"{") == vrepl.Checked(51, "", [])
    assert workflow.rules() == ["rule stream 0 table t range -80 of id by numeric", "rule stream 1 table t range 80- of id by numeric"]
    table = vrepl.Table("t", {"id": 265, "v": 6165}, ("id",), ("id", "v"))
    assert workflow.plan(1) == vrepl.Plan("ks", "80-", [table]) and [number_of(workflow.plan, it) for it in (2, -1)] == [115, 115]

    source, target = b"table t\nx31\tN\nx32\tx\n", b"table t\nx31\tN\nx32\tx61\nx33\tx\n"
    assert vrepl.entries(workflow, source) == [vrepl.Entry("t", (b"1",), (b"1", None)), vrepl.Entry("t", (b"2",), (b"2", b""))]
    found = vrepl.compare(workflow, source, vrepl.Dump(target), first=None)
    assert not found and (found.processed, found.matching, found.mismatched, found.extra_source, found.extra_target) == (3, 1, 1, 0, 1)
    assert found.differences == [vrepl.Difference("t", (b"2",), (b"2", b""), (b"2", b"a")), vrepl.Difference("t", (b"3",), None, (b"3", b""))]
    assert vrepl.compare(workflow, source, target, first=1).differences == found.differences[:1] and vrepl.compare(workflow, source, source)
    for given, place in (((source, target[:-1]), "line 4 of the target"), ((source[:-1], target[:-1]), "line 3 of the source")):
        try:
            vrepl.compare(workflow, *given)
        except vrepl.Refused as refused:
            assert (refused.number, refused.place) == (121, place)
        else:
            raise AssertionError("a dump without its end")
    assert number_of(vrepl.entries, workflow, source[:-1]) == 121 and number_of(vrepl.entries, b"{", source) == 51


def program():
    feed = vrepl.Feed({"t": {"id": "INT64", "v": "VARCHAR"}}).insert("t", (1, "a"), (2, None)).update("t", ((1, "a"), (3, "b"))).delete("t", (2, None))
    workflow = feed.workflow("-", vindex="numeric")
    dump = vrepl.run(workflow, feed)
    assert dump.tables == {"t": [(b"3", b"b")]} and bytes(dump) == b"table t\nx33\tx62\n"
    with tempfile.TemporaryDirectory() as folder:
        paths = [os.path.join(folder, name) for name in ("workflow", "feed")]
        for path, content in zip(paths, (json.dumps(workflow).encode(), bytes(feed))):
            with open(path, "wb") as file:
                file.write(content)
        assert vrepl.run(*paths, alone=True) == dump
    report = vrepl.check(workflow, feed)
    assert not report.warned and report.said["noted"] and vrepl.check(workflow, feed, strict=True).warned
    assert (report.said["streams"][0]["groups"], len(report.said["streams"][0]["moves"])) == (3, 1)
    assert vrepl.check(workflow, vrepl.Feed({"t": {"id": "INT64", "v": "VARCHAR"}})).warned

    moved = vrepl.follow(workflow, feed, dump=True)
    assert moved.dump == dump and vrepl.follow(workflow, feed, checkpoint=moved, only=[0]).content == moved.content
    for compare in vrepl.vdiff, vrepl.compare:
        same = compare(workflow, dump, bytes(dump))
        assert same and (same.processed, same.matching, same.differences) == (1, 1, [])
    other = vrepl.vdiff(workflow, dump, b"table t\nx33\tN\nx35\tx61\n", first=1)
    assert not other and (other.mismatched, other.extra_target) == (1, 1)
    assert other.differences == [vrepl.Difference("t", (b"3",), (b"3", b"b"), (b"3", None))] and other.tables["t"]["processed"] == 2
    assert number_of(vrepl.run, b"{", feed) == 51 and number_of(vrepl.run, workflow, b"\x05a") == 81
    try:
        vrepl.follow(workflow, feed, only=[64])
    except vrepl.Usage as usage:
        assert "--only" in str(usage)
    else:
        raise AssertionError("no fault of usage")


readers()
program()
