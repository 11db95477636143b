"""The workflow file: tables, key ranges, vindexes, filters, and the faults of each in their order."""
import hashlib
import json
import math
import re

from . import Refused, des

WHOLE = {257, 259, 261, 263, 265, 770, 772, 774, 776, 778}
TYPE = dict(INT8=257, INT16=259, INT24=261, INT32=263, INT64=265, UINT8=770, UINT16=772, UINT24=774, UINT32=776, UINT64=778)
TYPE |= dict(TEXT=6163, VARCHAR=6165, CHAR=6167, BLOB=10260, VARBINARY=10262, BINARY=10264)
KEY_TYPES = WHOLE | {6165, 6167, 10262, 10264}
VINDEXES = (b"numeric", b"reverse_bits", b"binary", b"binary_md5")
ALL_VINDEXES = (*VINDEXES, b"hash")
NUMBER_VINDEXES = {b"numeric", b"reverse_bits", b"hash"}
NUMBER = re.compile(rb"-?[0-9]+")
TOKEN = re.compile(rb"[ \t\r\n]*(?:([A-Za-z0-9_$]+)|`([^`]+)`|'([^']*)'|([*(),]))")


class Shape(Exception):
    pass


class BadForm(Exception):
    pass


def number_of(text):
    """The number that a text is, from -2^63 to 2^64 - 1, or nothing."""
    value = int(text) if NUMBER.fullmatch(text) else None
    return value if value is not None and -(2**63) <= value < 2**64 else None


def key_range(text):
    """The two bounds of a key range, without 00 bytes at their ends."""
    if text == b"0":
        return b"", b""
    it = re.fullmatch(rb"((?:[0-9a-fA-F]{2})*)-((?:[0-9a-fA-F]{2})*)", text)
    if not it:
        raise BadForm
    start, end = (bytes.fromhex(side.decode()).rstrip(b"\0") for side in it.groups())
    if end and start >= end:
        raise BadForm
    return start, end


def keyspace_id(vindex, value):
    """The id of a value under a vindex, or the number of its fault."""
    if value is None:
        return 43
    if vindex == b"binary":
        return value
    if vindex == b"binary_md5":
        return hashlib.md5(value).digest()
    number = number_of(value)
    if number is None or number < 0:
        return 44
    if vindex == b"reverse_bits":
        number = int(f"{number:064b}"[::-1], 2)
    if vindex == b"hash":
        number = des.enciphered(0, number)
    return number.to_bytes(8, "big")


def tokens_of(text):
    """The tokens of a text, each as its kind and what it says."""
    tokens, at = [], 0
    while text[at:].strip(b" \t\r\n"):
        it = TOKEN.match(text, at)
        if not it:
            raise BadForm
        kind = next(i for i in range(1, 5) if it[i] is not None)
        tokens.append(("word name quoted sign".split()[kind - 1], it[kind]))
        at = it.end()
    return tokens


def is_from(token):
    return token[0] == "word" and token[1].lower() == b"from"


def read_list(tokens):
    """Takes the columns of a list off the tokens, with its `from`: none of `*`."""
    end = next((i for i, it in enumerate(tokens) if is_from(it)), None)
    if end is None:
        raise BadForm
    listed = tokens[:end]
    del tokens[: end + 1]
    if listed == [("sign", b"*")]:
        return None
    names, marks = listed[::2], listed[1::2]
    if len(listed) % 2 == 0 or any(kind not in ("word", "name") for kind, _ in names) or any(it != ("sign", b",") for it in marks):
        raise BadForm
    columns = [name for _, name in names]
    if len({*columns}) < len(columns):
        raise BadForm
    return columns


def read_filter(text, vindexes=VINDEXES):
    """A filter, which may name these vindexes, as (table or nothing, list of columns or nothing, column or nothing, vindex or nothing, range or nothing)."""
    if not text:
        return None, None, None, None, None
    first = TOKEN.match(text)
    if not (first and first[1] and first[1].lower() == b"select"):
        return None, None, None, None, key_range(text)
    tokens = tokens_of(text)

    def take(*wanted):
        kind, said = tokens.pop(0) if tokens else (None, None)
        if kind == "word" and "name" in wanted:
            return said
        if kind not in wanted and (kind, said.lower() if said else said) not in wanted:
            raise BadForm
        return said

    take(("word", b"select"))
    listed = read_list(tokens)
    table = take("name")
    if not tokens:
        return table, listed, None, None, None
    for kind, key in (("word", b"where"), ("word", b"in_keyrange"), ("sign", b"(")):
        take((kind, key))
    column = vindex = None
    if tokens[:1] and tokens[0][0] in ("word", "name"):
        column = take("name")
        take(("sign", b","))
        vindex = take("quoted")
        take(("sign", b","))
        if vindex not in vindexes:
            raise BadForm
    bounds = key_range(take("quoted"))
    take(("sign", b")"))
    if tokens:
        raise BadForm
    return table, listed, column, vindex, bounds


def need(holds):
    if not holds:
        raise Shape


def text_at(it, key):
    need(isinstance(it, dict) and type(it.get(key)) is str)
    return it[key].encode()


def list_at(it, key):
    need(isinstance(it, dict) and isinstance(it.get(key), list))
    return it[key]


def name_of(text):
    need(type(text) is str)
    name = text.encode()
    need(1 <= len(name) <= 256 and not any(byte < 32 or byte == 127 for byte in name))
    return name


def distinct(names):
    need(len({*names}) == len(names))
    return names


class Number(str):
    """A number of the file, as it is spelled: no text."""


def type_of(it):
    if isinstance(it, Number):
        need(re.fullmatch("[0-9]+", it) and len(it) <= 10 and int(it) < 2**32)
        return int(it)
    need(type(it) is str and it in TYPE)
    return TYPE[it]


class Table:
    def __init__(self, it, vindexes):
        need(isinstance(it, dict))
        self.name = name_of(it.get("name"))
        pairs = list_at(it, "columns")
        need(all(isinstance(pair, list) and len(pair) == 2 for pair in pairs))
        self.columns = [(name_of(name), type_of(kind)) for name, kind in pairs]
        self.names = distinct([name for name, _ in self.columns])
        self.key = distinct([name_of(name) for name in list_at(it, "key")])
        self.vindex = None
        if "vindex" in it:
            pair = it["vindex"]
            need(isinstance(pair, list) and len(pair) == 2 and type(pair[1]) is str)
            self.vindex = name_of(pair[0]), pair[1].encode()
            need(self.vindex[1] in vindexes)

    def place(self, column):
        if column not in self.names:
            raise Refused(53, b" table %s column %s" % (self.name, column))
        return self.names.index(column)

    def type(self, column):
        return self.columns[self.names.index(column)][1]

    def judge_vindex(self, column, vindex):
        fit = WHOLE if vindex in NUMBER_VINDEXES else set(TYPE.values())
        if self.type(column) not in fit:
            raise Refused(54, b" table %s column %s" % (self.name, column))

    def judge(self):
        self.key_places = [self.place(column) for column in self.key]
        self.kept = list(range(len(self.columns)))
        if self.vindex:
            self.place(self.vindex[0])
        for column in self.key:
            if self.type(column) not in KEY_TYPES:
                raise Refused(54, b" table %s column %s" % (self.name, column))
        if self.vindex:
            self.judge_vindex(*self.vindex)

    def key_of(self, row):
        """The parts of a row's key, or the number of its fault."""
        return self.key_in([row[place] for place in self.key_places])

    def key_of_kept(self, row):
        """The same of a row of kept columns."""
        return self.key_in([row[self.kept.index(place)] for place in self.key_places])

    def key_in(self, values):
        if None in values:
            return 61
        parts = [number_of(it) if self.is_number(i) else it for i, it in enumerate(values)]
        return 62 if None in parts else tuple(parts)

    def picked(self, row):
        """The kept columns of a row, in the order in which they are kept."""
        return [row[place] for place in self.kept]

    def kept_columns(self):
        """The names and types of the kept columns."""
        return self.picked(self.columns)

    def is_number(self, i):
        return self.columns[self.key_places[i]][1] in WHOLE


class Workflow:
    def __init__(self, data):
        try:
            said = read_json(data)
        except ValueError:
            raise Refused(51) from None
        try:
            self.shape(said)
        except Shape:
            raise Refused(52) from None
        counts = [len(self.shards), len(self.tables)]
        if self.further != ["hash"] * len(self.further) or not all(1 <= it <= 64 for it in counts) or any(not (1 <= len(t.columns) <= 256 and 1 <= len(t.key) <= 8) for t in self.tables):
            raise Refused(56)
        for table in self.tables:
            table.judge()
        self.filters = [[None] * len(self.tables) for _ in self.shards]
        self.kept_by = [[None] * len(self.tables) for _ in self.shards]
        for stream, rules in enumerate(self.rules):
            for rule, (match, text) in enumerate(rules):
                self.judge_rule(stream, rule, match, text)
        for i, table in enumerate(self.tables):
            self.keep(table, [by[i] for by in self.kept_by if by[i] is not None])
        self.columns = {table.name: table.columns for table in self.tables}

    def shape(self, said):
        need(isinstance(said, dict))
        self.keyspace = text_at(said, "keyspace")
        self.further = said.get("vindexes", [])
        self.further = self.further if isinstance(self.further, list) else [None]
        self.vindexes = ALL_VINDEXES if "hash" in self.further else VINDEXES
        self.tables = [Table(it, self.vindexes) for it in list_at(said, "tables")]
        distinct([it.name for it in self.tables])
        self.shards, self.rules = [], []
        for stream in list_at(said, "streams"):
            self.shards.append(text_at(stream, "shard"))
            rules = list_at(stream.get("filter"), "rules")
            self.rules.append([(text_at(it, "match"), text_at({"filter": "", **it}, "filter")) for it in rules])
        distinct(self.shards)

    def judge_rule(self, stream, rule, match, text):
        bad = Refused(55, b" stream %d rule %d" % (stream, rule))
        try:
            named, listed, column, vindex, bounds = read_filter(text, self.vindexes)
        except BadForm:
            raise bad from None
        is_pattern = match.startswith(b"/")
        if is_pattern and match != b"/.*" or named is not None and (is_pattern or named != match):
            raise bad
        for i, table in enumerate(self.tables):
            if self.filters[stream][i] is not None or not (is_pattern or table.name == match):
                continue
            self.filters[stream][i] = "all"
            if bounds is not None and column is None and table.vindex is None:
                raise bad
            if listed is not None and not {*table.key} <= {*listed}:
                raise bad
            self.kept_by[stream][i] = [table.place(it) for it in (table.names if listed is None else listed)]
            if bounds is None:
                continue
            by = (column, vindex) if column is not None else table.vindex
            place = table.place(by[0])
            table.judge_vindex(*by)
            self.filters[stream][i] = place, by[1], bounds

    def keep(self, table, kept):
        """Keeps of a table what all streams that have a rule for it keep: all columns, where none has one."""
        if any(it != kept[0] for it in kept):
            raise Refused(57, b" table %s" % table.name)
        table.kept = kept[0] if kept else table.kept

    def passes(self, stream, table, row):
        """Whether a row passes, or the number of the fault for which that isn't known."""
        said = self.filters[stream][table]
        if said in (None, "all"):
            return said == "all"
        place, vindex, (start, end) = said
        it = keyspace_id(vindex, row[place])
        return it if isinstance(it, int) else start <= it and (not end or it < end)


def read_json(data):
    """The document of a JSON text, in which numbers stay as they are spelled. A text that is half a pair is no JSON here."""

    def spelled(text):
        if math.isinf(float(text)):
            raise ValueError(text)
        return Number(text)

    def checked(said):
        json.dumps(said, ensure_ascii=False).encode()
        return said

    def last(pairs):
        return dict(checked(pairs))

    def no_number(text):
        raise ValueError(text)

    return checked(json.loads(data.decode(), object_pairs_hook=last, parse_int=spelled, parse_float=spelled, parse_constant=no_number))
