"""Texts and files on both sides of a limit, or that a reader could take for something else."""
import json

from . import making
from .checkpoint import put_message, put_row, put_text

U = making.U
ROWS = making.feed([making.added((1, b"a"), (0, b"b"), (128, b"c"))])

POSITIONS = [U + it.encode() for it in (
    ":9223372036854775806", ":9223372036854775807", ":1-9223372036854775806", ":1-9223372036854775807", ":18446744073709551617",
    ":5-0", ":5-", ":-5", ":1-2-3", "", ":", "::1", ":1:", ": 1", ":1 ", ":1 -2", ":+1", ":01-0003", ":1-3:4", ":7:1-3:5-6", ":1,", "0:1",
)]
POSITIONS += [b"MySQL56//" + U + b":1", b" MySQL56/" + U + b":1", b"MySQL56 /" + U + b":1", b"/" + U + b":1", U + b":1/", b"mysql56/", b"MySQL56/"]
POSITIONS += ["MySQL56/é".encode(), "é".encode() * 18 + b":1", b"MySQL56/ ,\t," + U + b":1,,", U[:35] + b":1", U.upper() + b":1," + U + b":2"]

SCRIPTS = [
    b"dump\r\n", b"dump\r\r\n", b"\r\r\n", b"\r\n", b"dump\x0b\n", b"\xc3\xa9\n", b"#\xff\n", b"\xff\n", b"state " + b"0" * 40 + b"\n", b"state 4294967295\n",
    b"state 4294967296\n", b"dump\0\n", b"\0", b"dump\n\n\n", b"dump\ndump", b"\t\tdump \t", b" ", b"offer 0 18446744073709551617\n", b"DUMP\n", b"offer\t0  1\n",
    b"# \n#\n \n", b"dump\n#", b"state\n", b"dump 0\n", b"state 256\n", b"offer 0 +1\n", b"offer 0 -0\n",
]

HEX = [b"", b" ", b"\n", b"0", b"0 0", b"0x00", b"\x0b", b"\x0c", b"6C0A", b"0\r\n0", b"\xef\xbb\xbf00", b"00\0"]

RANGES = [
    "-", "0", "00", "0-", "-0", "00-", "-00", "0000-00", "80-80", "80-8000", "-8000", "8-", "80-40", "ff-FF00", "Ff-", "--", "40-80-", " -80", "-80 ", "0x80-",
    "-80\n", "０-", "80", "-800",
]

FILTERS = [
    "select * from t", "SELECT*FROM t", "select*from`t`", "select * from ``", "select  *\tfrom\r\nt ", " select * from t", "`select` * from t", "select * from 't'",
    'select * from "t"', "select * from t;", "selectx", "select", "select * from u", "select * fromt", "select * from é", " ", "\t-80", "-80\t", "select * from T",
]
CONDITIONS = [
    "", " in_keyrange", " in_keyrange()", " in_keyrange('-80'", " in_keyrange('-80') x", " in_keyrange(id,'numeric','-80')", " IN_KEYRANGE ( `id` , 'numeric' , '-80' ) ",
    " in_keyrange(`id`,'NUMERIC','-80')", " in_keyrange(v,'numeric','-80')", " in_keyrange(x,'numeric','-80')", " in_keyrange(x,'hash','-80')", " `in_keyrange`('-80')",
    " in_keyrange('-80','numeric',id)", " in_keyrange(id, `numeric`,'-80')", " in_keyrange(id 'numeric','-80')", " in_keyrange(\x0bid,'numeric','-80')",
    "in_keyrange('-80')", "`in_keyrange`('-80')", " in_keyrange(where,'numeric','-80')", " in_keyrange(id,'numeric','')", " in_keyrange(1d,'numeric','-')",
    " in_keyrange(v,'binary','61-62')", " in_keyrange(v,'binary_md5','-80')", " in_keyrange(id,'reverse_bits','-80')", " in_keyrange(id,'binary','31-')",
]
LISTS = [
    "id", "id,v", " v , id ", "`id`", "v", "id,id", "id,`id`", "id,x", "x,id", "x", "v,x", "id,,v", "id,", ",id", "id v", "*,id", "id,*", "(id)", "'id'", "id,from", "from", "from,id",
    "id,FROM", "id,`from`", "id,select", "ID", "id,``", "id,`v\t`", "",
]
FILTERS += [f"select {it} from t" for it in LISTS] + ["select`id`from`t`", "select id from", "select id", "select v from u", "select id from t where in_keyrange(x,'binary','-')"]
FILTERS += ["select id from t where in_keyrange(v,'binary','61-62')", "select v from t where in_keyrange(x,'binary','-')", "select id,x from t where in_keyrange(y,'binary','-')"]
FILTERS += ["select * from t where" + it for it in CONDITIONS] + [f"select * from t where in_keyrange('{it}')" for it in RANGES] + RANGES

# Members of a file, and the vindex of its table.
FURTHER = [(member, vindex) for member in (
    None, "[]", '["hash"]', '["hash", "hash"]', '["hash", "numeric"]', '["xxhash"]', '["Hash"]', '["hash", 1]', '["hash", ["hash"]]', '"hash"', "{}", "null", "1", '["\\u0068ash"]',
) for vindex in ("numeric", "hash", "Hash", "xxhash")]

DOCUMENTS = [
    '{"x": "\\ud83d\\ude00"}', '{"x": "\\ud800"}', '{"x": 1e999}', '{"x": 1e-999}', '{"x": 123456789012345678901234567890}', '{"x": -0}', '{"x":"a\tb"}', '{"x":1.}', '{"x":1E5}',
    '{"x":"\\/"}', '{"x":"\\u0000"}', '{"x": 1.7976931348623159e308}', '{"x": 01}', "{}", "[]", "", " ", "{} ", "{}x", '{"x":1}\f', '{"x":\v1}', "\ufeff{}", '{"x":nul}', "{'x':1}",
    '{"x":1,}', '{"keyspace":1,"keyspace":"\\ud800"}', '{"x":NaN}', '{"x":"\x7f"}', '{"x":' + "[" * 126 + "]" * 126 + "}",
]

COUNTS = [dict([it]) for it in (
    ("tables", 0), ("tables", 64), ("tables", 65), ("columns", 0), ("columns", 256), ("columns", 257), ("keys", 0), ("keys", 8), ("keys", 9), ("streams", 0), ("streams", 64),
    ("streams", 65), ("name", "x" * 256), ("name", "x" * 257), ("name", ""), ("name", "é" * 128), ("name", "é" * 129), ("name", "\x1f"), ("name", "\x7f"), ("name", "\x80"), ("rules", 0), ("rules", 3000),
)]

# Rows as messages, each with its number of columns.
LONGEST = 1 << 24
ROW_MESSAGES = [(put_row([b"a"] * count), count) for count in (1, 255, 256, 257, 300)] + [(b"", 0)]
ROW_MESSAGES += [(put_row([b"a" * (LONGEST + more)]), 1) for more in (-13, -12, -11)] + [(b"\xff" * LONGEST, 1), (b"\xff" * (LONGEST + 1), 1)]


def workflow(tables=1, columns=12, keys=1, streams=1, name="t", rules=1):
    named = [f"c{i}" for i in range(columns)]
    said = [{"name": name + str(i or ""), "columns": [[it, "INT64"] for it in named], "key": named[:keys]} for i in range(tables)]
    shards = [{"shard": f"s{i}", "filter": {"rules": [{"match": "/.*"}] * rules}} for i in range(streams)]
    return json.dumps({"keyspace": "ks", "tables": said, "streams": shards}).encode()


def by_vindex(member, vindex, filters=""):
    further = f'"vindexes": {member}, ' if member else ""
    table = '{"name": "t", "columns": [["id", "INT64"], ["v", "VARCHAR"]], "key": ["id"], "vindex": ["id", "%s"]}' % vindex
    rules = json.dumps([{"match": "t", "filter": filters}])
    return f'{{"keyspace": "ks", {further}"tables": [{table}], "streams": [{{"shard": "-80", "filter": {{"rules": {rules}}}}}]}}'.encode()


def feed_of_row(message, count):
    change = put_message(2, put_message(2, message))
    fields = making.field_event(b"t", [(b"c%d" % i, 6165) for i in range(count)])
    return making.frame(making.event(2), fields, making.event(12, put_message(5, put_text(1, b"t") + change)), making.gtid(U + b":1"), making.event(3))


def cases():
    """Each case as its title, words, files and standard input."""
    for text in POSITIONS + [U + b":1" + b" " * more for more in ((1 << 20) - 38, (1 << 20) - 37)]:
        yield f"position {text[:60]}", ["show", "feed"], {"feed": making.frame(making.gtid(text))}, b""
    for message, count in ROW_MESSAGES:
        yield f"row of {count} columns and {len(message)} bytes", ["show", "feed"], {"feed": feed_of_row(message, count)}, b""
    for text in HEX:
        yield f"hexadecimal text {text}", ["show", "--hex", "feed"], {"feed": text}, b""
    for text in SCRIPTS:
        yield f"script {text[:60]}", ["step", "workflow", "feed"], {"workflow": making.ONE, "feed": making.ONE_ROW}, text
    for text in FILTERS:
        yield f"filter {text}", ["run", "workflow", "feed"], {"workflow": making.workflow("-80", match="t", text=text), "feed": ROWS}, b""
    for member, vindex in FURTHER:
        for text in ("-80", "select * from t where in_keyrange(id,'hash','80-')"):
            for words in (["run"], ["check"]):
                yield f"vindexes {member} {vindex} {text}", [*words, "workflow", "feed"], {"workflow": by_vindex(member, vindex, text), "feed": ROWS}, b""
    for text in DOCUMENTS:
        yield f"document {text[:60]}", ["run", "workflow", "feed"], {"workflow": text.encode(), "feed": b""}, b""
    for counts in COUNTS:
        names = [f"feed{i}" for i in range(counts.get("streams", 1))] or ["feed0"]
        yield f"workflow of {counts}"[:80], ["run", "workflow", *names], {"workflow": workflow(**counts)} | {name: b"" for name in names}, b""
