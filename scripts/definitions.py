"""Reads the files of definitions of the crates, crates/NAME/specs/*.antt: their imports, and where each definition begins
and ends."""
import os
import re
from dataclasses import dataclass

ROOT = os.path.dirname(os.path.dirname(os.path.abspath(__file__)))
CRATES = os.path.join(ROOT, "crates")

# A text, a bracket, another sign, or a name: what stands between blanks and these.
TOKEN = re.compile(r'"(?:\\.|[^"\\])*"|[(){}.;,]|[^\s(){}.;,"]+')
MARKS = {"abbrev", "pub", "unfoldable", "pattern", "private", "record", "data"}
USE = re.compile(r"(?:unfoldable )?(pub )?use ([^\s{}]+?)(?:\.\{(.*)\}| as (\S+))?")


class Fault(Exception):
    """What can't be read, or a word that can't be resolved."""


@dataclass(frozen=True)
class Token:
    text: str
    column: int
    is_first: bool  # of its line
    is_glued: bool  # to what stands before it


@dataclass
class Group:
    """What stands between two brackets."""

    opening: Token
    items: list
    is_glued = False

    @property
    def text(self):
        return self.opening.text

    @property
    def is_first(self):
        return self.opening.is_first

    @property
    def column(self):
        return self.opening.column


@dataclass
class Definition:
    name: str
    module: str
    place: str  # its file, below crates/
    line: int
    kind: str  # record, data, value, and of sources enum, struct, type, const
    comment: list
    body: list
    around: tuple = ()  # the lines of the modules without a name, and of the mutual blocks, that it stands in
    used: list = None  # the words that it uses, in the order of their first mention, once they are found

    @property
    def lines(self):
        return self.comment + self.body


@dataclass(frozen=True)
class Target:
    """Where a word is defined: its module, the definition there, and the word itself, which may be a constructor."""

    module: str
    name: str
    word: str
    is_own: bool  # not the library's


def indent_of(line):
    return len(line) - len(line.lstrip(" "))


def is_comment(line):
    return line.strip().startswith("--")


def tokens_of(lines):
    found = []
    for line in lines:
        end, is_first = None, True
        for it in TOKEN.finditer(line):
            if it[0].startswith("--"):
                break
            found.append(Token(it[0], it.start(), is_first, it.start() == end))
            end, is_first = it.end(), False
    return found


def grouped(tokens):
    """Tokens with what stands in brackets as one group each."""
    stack = [Group(Token("", 0, True, False), [])]
    for it in tokens:
        if it.text in ("(", "{"):
            stack.append(Group(it, []))
        elif it.text in (")", "}"):
            group = stack.pop()
            if not stack:
                raise Fault("a bracket is closed that wasn't opened")
            stack[-1].items.append(group)
        else:
            stack[-1].items.append(it)
    if len(stack) > 1:
        raise Fault("a bracket isn't closed")
    return stack[0].items


def parts_of(items, *signs):
    """Items between these signs."""
    found = [[]]
    for it in items:
        if isinstance(it, Token) and it.text in signs:
            found.append([])
        else:
            found[-1].append(it)
    return found


def cut_at(items, *signs):
    """What stands before the first of these signs, and what behind it: None without one."""
    for at, it in enumerate(items):
        if isinstance(it, Token) and it.text in signs:
            return items[:at], items[at + 1:]
    return items, None


def entries_of(lines, indent):
    """Lines as the entries of one level, each with the deeper ones behind it, without comments."""
    found = []
    for line in lines:
        if is_comment(line):
            continue
        if found and (indent_of(line) > indent or line.strip() == "}"):
            found[-1].append(line)
        else:
            found.append([line])
    return found


def names_of(text):
    """The names of an import's list, each with the name that it has here."""
    for one in filter(None, map(str.strip, text.split(","))):
        name, _, other = one.partition(" as ")
        yield (other or name).strip(), name.strip()


class Module:
    """A file of definitions."""

    def __init__(self, name, place):
        self.name, self.place = name, place
        self.imports, self.passed, self.aliases, self.definitions = {}, {}, {}, {}
        with open(os.path.join(CRATES, place), encoding="utf-8") as file:
            lines = file.read().split("\n")
        ends = next((at for at, line in enumerate(lines) if not is_comment(line)), len(lines))
        self.head = lines[:ends] if not lines[ends:ends + 1] or lines[ends].strip() == "" or re.match(r"(unfoldable |pub )*(use|mod) ", lines[ends]) else []
        self.read(lines, 0, 0, len(lines), ())
        self.operators = {}
        for one in (*self.imports, *self.definitions):
            for part in filter(None, one.split("◌")) if "◌" in one else ():
                self.operators.setdefault(part, []).append(one)

    def read(self, lines, indent, start, end, around):
        """Reads the declarations of one level."""
        comment, current, at = [], None, start
        while at < end:
            line, text = lines[at], lines[at].strip()
            if not text:
                comment, current = [], None
            elif indent_of(line) > indent or text == "}":
                if current is None:
                    raise Fault(f"{self.place}:{at + 1}: a line that belongs to nothing")
                current.body.append(line)
            elif is_comment(line):
                comment.append(line)
            elif re.match(r"(?:unfoldable )?(?:pub )?(?:use|mod)\b", text):
                while text.count("{") > text.count("}"):
                    at += 1
                    text += " " + lines[at].strip()
                self.take_use(text)
                comment, current = [], None
            elif re.match(r"infix[lr]? ", text):
                comment, current = [], None
            elif re.fullmatch(r"module _ .*where|(?:unfoldable )?mutual", text):
                last = at + 1
                while last < end and (not lines[last].strip() or indent_of(lines[last]) > indent):
                    last += 1
                inner = indent_of(next(it for it in lines[at + 1:last] if it.strip()))
                self.read(lines, inner, at + 1, last, (*around, *comment, line))
                at, comment, current = last, [], None
                continue
            else:
                current = self.take_line(line, at, comment, current, around)
                comment = []
            at += 1

    def take_use(self, text):
        found = USE.fullmatch(text)
        if not found:
            if not re.fullmatch(r"(pub )?mod \S+", text):
                raise Fault(f"{self.place}: {text}: an import that isn't read")
            return
        public, module, names, alias = found.groups()
        if names is None:
            self.aliases[alias or module.rsplit(".", 1)[-1]] = module
        for here, there in names_of(names or ""):
            self.imports[here] = (module, there)
            if public:
                self.passed[here] = (module, there)

    def take_line(self, line, at, comment, current, around):
        """A signature or a head begins a definition, a clause goes on with one."""
        words = line.split()
        marks = next(it for it, word in enumerate(words) if word not in MARKS)
        name = re.match(r"[^\s(){}.;,]*", words[marks])[0]
        if not marks and not re.match(r"\s*[^\s(){}.;,]+ (?:\{[^}=:]*\} )?: ", line):
            if current is None or current.kind != "value":
                raise Fault(f"{self.place}:{at + 1}: a line that belongs to nothing")
            current.body += [*comment, line]
            return current
        if name in self.definitions:
            raise Fault(f"{self.place}:{at + 1}: {name} stands twice")
        kind = next((it for it in words[:marks] if it in ("record", "data")), "value")
        found = Definition(name, self.name, self.place, at + 1 - len(comment), kind, list(comment), [line], around)
        self.definitions[name] = found
        return found

    def data_with(self, constructor):
        """The data type that has this constructor."""
        return next((it for it in self.definitions.values() if it.kind == "data" and constructor in constructors_of(it)), None)


def constructors_of(definition):
    found = set()
    for one in entries_of(definition.body[1:], indent_of(definition.body[0]) + 2):
        found |= {it.text for it in cut_at(tokens_of(one), ":")[0]}
    return found
