"""Reads what is below a word: the definition of a file, or the type or constant that a source, crates/NAME/src/*.rt, declares."""
import os
import re

from definitions import CRATES, Definition, Fault, Module, Target, names_of, tokens_of
from words import Words

# Constructors of the library that a pattern names.
CONSTRUCTORS = set("Some None Ok Err Less Equal Greater zero suc [] ◌∷◌ true false pos negsuc".split())
# Crates whose words are told as the library's are: what they define is prose.
WORDED = {"refusal_words"}
# Types that a source has without an import.
PRELUDE = {"Option", "Vec", "String", "Box", "Result", "Self"}


class Source:
    """The types and constants that a source declares, what it imports, and the models of its types."""

    ITEM = re.compile(r"(?:pub(?:\([^)]*\))? )?(enum|struct|type|const) (\w+)")
    MODEL = re.compile(r"^impl(?:<[^>]*>)? Model for (\w+).*?^}", re.M | re.S)
    GHOST = re.compile(r"^ *ghost use (\S+?)\.\{(.*?)\};", re.M | re.S)

    def __init__(self, crate, place):
        self.crate, self.path = crate, os.path.join(crate, "src", *place) + ".rt"
        with open(os.path.join(CRATES, self.path), encoding="utf-8") as file:
            text = file.read()
        self.module = ".".join(("Rattle", crate, "specs", "declared", *place))
        self.ghosts = {here: (module, there) for module, names in self.GHOST.findall(text) for here, there in names_of(names)}
        self.uses = {}
        for path, names in re.findall(r"^(?:pub(?:\([^)]*\))? )?use ([\w:]+?)::(\{.*?\}|\w+(?: as \w+)?);", text, re.M | re.S):
            for here, there in names_of(names.strip("{}")):
                self.uses[here] = (path.split("::"), there)
        self.models = {}
        for found in self.MODEL.finditer(text):
            value = re.search(r"ghost Value = \{ (.*?) \};", found[0], re.S)
            self.models[found[1]] = " ".join(value[1].split())
        self.items = {}
        self.read(text.split("\n"))

    def read(self, lines):
        at, start = 0, None
        while at < len(lines):
            line = lines[at]
            item = self.ITEM.match(line)
            if line.startswith("///") or line.startswith("#[") and start is not None:
                start = at if start is None else start
            elif item:
                comment = [it for it in lines[at if start is None else start:at] if it.startswith("///")]
                end = at
                while lines[at:end + 1] and (sum(it.count("{") - it.count("}") for it in lines[at:end + 1]) or not lines[end].endswith(("}", ";"))):
                    end += 1
                body = self.shortened(lines[at:end + 1])
                number = (at if start is None else start) + 1
                self.items[item[2]] = Definition(item[2], self.module, self.path, number, item[1], comment, [body])
                at, start = end, None
            else:
                start = None
            at += 1

    @staticmethod
    def shortened(lines):
        """An item on one line, without the comments and attributes of its parts, and without what is true of them."""
        text = " ".join(it.strip() for it in lines if not re.match(r"\s*(//|#\[)", it))
        text = re.sub(r"ghost \w+: \{(?:[^{}]|\{[^{}]*\})*\},? ?", "", text)
        return re.sub(r",? ([)}])", r" \1", re.sub(r"\bpub(?:\([^)]*\))? ", "", text)).replace("( ", "(").strip()


class Library:
    """All that is read of the crates, each file once."""

    def __init__(self):
        self.modules, self.sources = {}, {}

    @staticmethod
    def is_own(module):
        parts = module.split(".")
        return parts[0] == "Rattle" and parts[1] not in WORDED and os.path.isdir(os.path.join(CRATES, parts[1]))

    def module(self, name):
        if name not in self.modules:
            parts = name.split(".")
            place = os.path.join(parts[1], *parts[2:]) + ".antt"
            if not os.path.exists(os.path.join(CRATES, place)):
                raise Fault(f"{name}: there is no {place}")
            self.modules[name] = Module(name, place)
        return self.modules[name]

    def source(self, crate, place):
        key = (crate, *place)
        if key not in self.sources:
            if not os.path.exists(os.path.join(CRATES, crate, "src", *place) + ".rt"):
                raise Fault(f"{crate} has no source {'/'.join(place)}.rt")
            self.sources[key] = Source(crate, place)
        return self.sources[key]

    def target(self, module, name):
        """Where a name of a module is defined, through what modules pass on."""
        if not self.is_own(module):
            return Target(module, name, name, False)
        parts = module.split(".")
        if "declared" in parts:
            return self.declared(parts[1], parts[parts.index("declared") + 1:], name)
        found = self.module(module)
        owner = found.definitions.get(name) or found.data_with(name)
        if owner:
            return Target(module, owner.name, name, True)
        if name in found.passed:
            return self.target(*found.passed[name])
        raise Fault(f"{module} has no {name}")

    def declared(self, crate, path, name):
        """A type of a source, one of its variants, or a constant."""
        *place, last = path[:-1] if path[-1] == "TheVariants" else path
        items = self.source(crate, place).items
        found = items.get(name if last == "TheConstants" else last)
        if not found or path[-1] == "TheVariants" and not re.search(rf"\b{name}\b", found.body[0]):
            raise Fault(f"{crate}: src/{'/'.join(place)}.rt has no {'.'.join((last, name))}")
        return Target(found.module, found.name, name, True)

    def definition(self, target):
        parts = target.module.split(".")
        if "declared" in parts:
            return self.source(parts[1], parts[parts.index("declared") + 1:]).items[target.name]
        return self.module(target.module).definitions[target.name]

    def is_constructor(self, target):
        if not target.is_own:
            return target.word in CONSTRUCTORS or target.module.endswith((".TheVariants", ".Data"))
        return self.definition(target).kind in ("data", "enum") and target.word != target.name

    def used_by(self, target):
        """The definition of a word, with the words that it uses."""
        found = self.definition(target)
        if found.used is None:
            if found.kind in ("record", "data", "value"):
                found.used = Words(self, self.module(target.module), found).used
            else:
                found.used = list(dict.fromkeys(self.types_of(found)))
        return found

    def types_of(self, item):
        """What the parts of a declared type are: other types, or where one has a model the words of that; a line below
        the type says which."""
        parts = item.module.split(".")
        source = self.source(parts[1], parts[parts.index("declared") + 1:])
        body = re.sub(r'"[^"]*"', "", item.body[0].split("{", 1)[-1] if item.kind in ("enum", "struct") else item.body[0])
        if item.kind == "enum":
            body = re.sub(r"(^|, |\{ )\s*\w+(?= *[,({}])", r"\1", body)
        seen = []
        for name in dict.fromkeys(re.findall(r"\b[A-Z]\w+", body)):
            home = self.home(source, name)
            if not home or name == item.name:
                continue
            if name in home.models:
                seen.append(f"{name} as {home.models[name]}")
                yield from (self.target(*home.ghosts[it]) for it in re.findall(r"[^\s(){}]+", home.models[name]) if it in home.ghosts)
            else:
                yield Target(home.module, name, name, True)
        if seen:
            item.body.append("// seen " + ", ".join(seen))

    def home(self, source, name):
        """The source that declares a type by the name that it has in this one; none for the library's."""
        if name in source.items:
            return source
        if name in PRELUDE:
            return None
        if name not in source.uses:
            raise Fault(f"{source.path}: the type {name} can't be resolved")
        (head, *path), there = source.uses[name]
        is_here = os.path.exists(os.path.join(CRATES, source.crate, "src", head + ".rt"))
        if head == "crate" or is_here:
            return self.home(self.source(source.crate, [head, *path] if is_here else path or ["lib"]), there)
        return self.home(self.source(head, path or ["lib"]), there) if os.path.isdir(os.path.join(CRATES, head)) else None

    def clause(self, place, function, name):
        """A clause of a function's contract: its text and line, and the words of definitions in it."""
        crate, _, *path = place.removesuffix(".rt").split("/")
        with open(os.path.join(CRATES, place), encoding="utf-8") as file:
            text = file.read()
        found = re.search(rf"\bfn {function}\b(?:(?!\bfn ).)*?(ensures {name} \{{.*? \}})\n", text, re.S)
        if not found:
            raise Fault(f"{place}: {function} has no clause {name}")
        ghosts = self.source(crate, path).ghosts
        words = [it.text for it in tokens_of([found[1]]) if it.text in ghosts]
        return found[1], text.count("\n", 0, found.start(1)) + 1, [self.target(*ghosts[it]) for it in dict.fromkeys(words)]
