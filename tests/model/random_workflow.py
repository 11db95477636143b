"""A workflow file at random."""
import json

from .workflow import TYPE, WHOLE

NAMES = ["t", "u", "a b", "from", "ks.t", "é", "T"]
COLUMN_NAMES = ["id", "v", "w", "Key", "where", "from", "x y", "ü"]
RANGES = ["-", "0", "-80", "80-", "40-c0", "-00", "80-00", "4000-80", "00-80", "-01", "01-", "e0-", "0cc1-90"]
RANGES += ["61-6162", "-61", "61-", "-0000000000000003", "0000000000000001-0000000000000002", "-0CC175B9c0f1b6a831c399e269772661"]
BAD_RANGES = ["8-", "80-40", "x", "40-4000-", "80", " -80", "80-80", "--"]
SPELLED_TYPES = ["265", "265.0", "2.65e2", "-0", "1e999", "1e-999", '"\\ud800"', '"\\ud83d\\ude00"', "0265", "4294967295", "4294967296", "NaN"]
SPELLED_TYPES += ["[[1]]", "18446744073709551616", "nul", "null", "true", '"\\u0049NT64"', '"INT64" ', '"int64"', "1.", "+1", '"a\tb"', '"\\x"']


class Chances:
    """What a case draws by: `r`, the source of its chances, and whether it is one that has faults."""

    def chance(self, share):
        return self.r.random() < share

    def scratched(self, text, signs):
        """A text of which one or two places are left out or have one of the signs."""
        for _ in range(self.r.randrange(1, 3)):
            at = self.r.randrange(len(text) + 1)
            text = text[:at] + self.r.choice(["", *signs]) + text[at + self.r.randrange(2) :]
        return text

    def is_faulty(self, share):
        """Whether to make a fault here, of which most cases have none."""
        return self.faulty and self.chance(share)


class Workflows(Chances):
    def workflow(self):
        r = self.r
        self.by_hash = self.chance(0.2)
        tables = [self.table(name) for name in r.sample(NAMES, r.choices([1, 2, 3], [6, 3, 1])[0])]
        shards = r.sample(["-80", "80-", "0", "", "-40", "ü"], r.choices([1, 2, 3], [5, 4, 1])[0])
        self.lists = {table["name"]: self.list_of(table) for table in tables if self.chance(0.3)}
        streams = [{"shard": it, "filter": {"rules": self.rules(tables)}} for it in shards]
        said = {"keyspace": r.choice(["ks", "ks", "", "k"]), "tables": tables, "streams": streams}
        if self.by_hash or self.chance(0.05):
            said["vindexes"] = self.further()
        if self.is_faulty(0.15):
            self.misshape(said)
        text = json.dumps(said, ensure_ascii=self.chance(0.5), indent=r.choice([None, None, 1]))
        if self.is_faulty(0.1):
            text = text.replace('"INT64"', r.choice(SPELLED_TYPES), 1)
        if self.is_faulty(0.1):
            key = r.choice(["keyspace", "tables", "name", "columns", "key", "vindex", "vindexes", "streams", "shard", "filter", "rules", "match"])
            text = text.replace(f'"{key}":', f'"{key}": {r.choice(SPELLED_TYPES)}, "{key}":', 1)
        return (text if not self.is_faulty(0.05) else self.scratched(text, '{}[],:" \\u0-e.')).encode()

    def table(self, name):
        r = self.r
        columns = [[it, self.type()] for it in r.sample(COLUMN_NAMES, r.choices([1, 2, 3, 5], [1, 5, 3, 1])[0])]
        keys = [it for it, kind in columns if kind in WHOLE or TYPE.get(kind, kind) in {*WHOLE, 6163 + 2, 6167, 10262, 10264}]
        key = r.sample(keys, min(len(keys), r.choices([1, 2, 3], [6, 3, 1])[0])) if keys and not self.is_faulty(0.02) else [columns[0][0]]
        said = {"name": name, "columns": columns, "key": key}
        if self.chance(0.8):
            column, kind = r.choice(columns)
            said["vindex"] = [column, self.vindex(kind)]
        return said

    def type(self):
        r = self.r
        name = r.choices(["INT64", "VARCHAR", r.choice([*TYPE])], [4, 3, 4])[0]
        return TYPE[name] if self.chance(0.1) else r.choice([1, 300]) if self.is_faulty(0.02) else name

    def vindex(self, kind):
        is_whole = TYPE.get(kind, kind) in WHOLE
        if is_whole and self.by_hash and self.chance(0.7) or self.is_faulty(0.03):
            return "hash"
        return self.r.choice(["numeric", "reverse_bits"] if is_whole and self.chance(0.7) or self.is_faulty(0.05) else ["binary", "binary_md5"])

    def further(self):
        """The vindexes that a file says it uses beyond the four: `hash`, but for a fault."""
        faults = [[], ["xxhash"], ["hash", "numeric"], ["Hash"], "hash", None, {}, [1], ["hash", ["hash"]]]
        return self.r.choice(faults) if self.is_faulty(0.15) else ["hash"] * self.r.choice([1, 1, 2])

    def list_of(self, table):
        """Columns to be kept of a table, in any order: its key and maybe others."""
        r = self.r
        others = [name for name, _ in table["columns"] if name not in table["key"]]
        listed = table["key"] + r.sample(others, r.randrange(len(others) + 1))
        return r.sample(listed, len(listed))

    def rules(self, tables):
        """Rules for some tables; a table of which columns are listed has its own before all others, in nearly every stream."""
        r = self.r
        said = [{"match": it["name"], "filter": self.select(it)} for it in tables if it["name"] in self.lists and self.chance(0.97)]
        for _ in range(r.choices([0, 1, 2, 3], [1, 12, 4, 2])[0]):
            table = r.choice(tables)
            match = r.choice(["/.*", table["name"]])
            rule = {"match": match}
            kind = r.random()
            if kind < 0.5:
                rule |= r.choice([{}, {"filter": ""}])
            elif kind < 0.65 and (self.is_faulty(0.1) or all("vindex" in it for it in tables)):
                rule["filter"] = self.range()
            else:
                rule["match"] = table["name"] if not self.is_faulty(0.1) else match
                rule["filter"] = self.select(table)
            said.append(rule)
        return said

    def range(self):
        return self.r.choice(BAD_RANGES if self.is_faulty(0.1) else RANGES)

    def blanks(self, least=0):
        return "".join(self.r.choice(" \t\n\r" if self.chance(0.2) else " ") for _ in range(max(least, self.r.randrange(2))))

    def word(self, text):
        return self.r.choice([text, text.upper(), text.title()])

    def name(self, text):
        is_plain = all(it.isascii() and (it.isalnum() or it in "_$") for it in text)
        return text if is_plain and self.chance(0.7) else f"`{text}`"

    def column(self, text):
        return self.name(text) if text != "from" or self.is_faulty(0.3) else f"`{text}`"

    def columns(self, table):
        """What stands between `select` and `from`."""
        r = self.r
        if table["name"] not in self.lists or self.chance(0.02):
            return ["*"]
        listed = list(self.lists[table["name"]])
        if self.is_faulty(0.3):
            listed[r.randrange(len(listed))] = r.choice(["id", "x", "ID", listed[0]])
        if self.is_faulty(0.1):
            listed.pop(r.randrange(len(listed)))
        if self.chance(0.02):
            r.shuffle(listed)
        return [it for name in listed for it in (",", self.column(name))][1:]

    def select(self, table):
        said = [self.word("select"), *self.columns(table), self.word("from"), self.name(table["name"])]
        if self.chance(0.75):
            said += [self.word("where"), self.word("in_keyrange"), "("]
            if self.chance(0.75) or "vindex" not in table and not self.is_faulty(0.1):
                column, kind = self.r.choice(table["columns"])
                said += [self.name(column), ",", f"'{self.vindex(kind)}'", ","]
            said += [f"'{self.range()}'", ")"]
        if self.is_faulty(0.05):
            said.insert(self.r.randrange(len(said) + 1), self.r.choice([",", "x", "'", "*", "(", "``"]))
        text = self.blanks() if self.chance(0.1) else ""
        for before, it in zip([""] + said, said):
            apart = before[-1:].isalnum() and it[:1].isalnum()
            text += (self.blanks(1) if apart or self.chance(0.7) else "") + it if text.strip() else it
        text += self.blanks()
        return text if not self.is_faulty(0.2) else self.scratched(text, "`'*(), \t\v$_aA0-é")

    def misshape(self, said):
        r = self.r
        at, key = said, None
        while True:
            keys = list(at) if isinstance(at, dict) else list(range(len(at)))
            if not keys:
                return
            key = r.choice(keys)
            if not isinstance(at[key], (dict, list)) or self.chance(0.3):
                break
            at = at[key]
        kind = r.randrange(4)
        if kind == 0:
            del at[key]
        elif kind == 1:
            at[key] = r.choice([None, 1, -1, 2**32, 2**32 - 1, 1.5, "", "x", "\x7f", [], {}, True, "y" * 257, "z" * 256])
        elif kind == 2 and isinstance(at, list):
            at.extend([at[key]] * r.choice([1, 1, 7, 64, 256]))
        elif isinstance(at, dict):
            at["other"] = [None, {"name": 1}]
