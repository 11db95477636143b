"""Finds the words that a definition uses: what stands in its terms and isn't bound there.

A head, a pattern, a `λ`, a `let` and the lines of a `do` bind names. Any other word is one of the definition's file, one that
an import names, a constructor of a data type, or one of the language's own; what is none of these is a fault.
"""
import re

from definitions import MARKS, Fault, Group, Token, cut_at, entries_of, grouped, indent_of, parts_of, tokens_of

# The language's own words, and its signs.
OWN = set("→ × = : | ↦ ← _ λ Type where record tt Unit ⊥ ¬ absurd refl".split())
NUMBER = re.compile(r"\d[\d_]*|0x\w+|\".*")


class Words:
    """The words that a definition uses, in the order of their first mention."""

    def __init__(self, library, module, definition):
        self.library, self.module, self.definition = library, module, definition
        self.used, self.level = [], indent_of(definition.body[0])
        names = frozenset()
        for head in definition.around:
            if head.strip().startswith("module _"):
                names = self.telescope(grouped(tokens_of([head.replace("module _", "", 1)]))[:-1], names)
        if definition.kind == "value":
            self.values(definition.body, names, self.level)
        else:
            self.parts(definition.body, names)

    def use(self, target):
        if target not in self.used:
            self.used.append(target)

    def fault(self, text):
        raise Fault(f"{self.definition.place}: {self.definition.name}: {text}")

    # ---- declarations

    def parts(self, lines, names):
        """The parameters of a record or a data type and the types of its parts; a field may speak of those above."""
        head, *parts = entries_of(lines, self.level + 2)
        items = grouped(tokens_of(head))
        at = next(at for at, it in enumerate(items) if it.text not in MARKS)
        front, behind = cut_at(items[at + 1:-1], ":")
        if items[-1].text != "where" or behind is None:
            self.fault("a head that isn't read")
        names = self.telescope(front, names)
        self.terms(behind, names)
        for one in parts:
            front, behind = cut_at(grouped(tokens_of(one)), ":")
            if behind is None:
                self.fault(f"{one[0].strip()}: a part that isn't read")
            self.terms(behind, names)
            if self.definition.kind == "record":
                names |= {it.text for it in front} - MARKS

    def values(self, lines, names, level):
        """The signatures and clauses of one level."""
        for one in entries_of(lines, level):
            items = grouped(tokens_of(one))
            while items[0].text in MARKS:
                items = items[1:]
            if isinstance(items[1], Group) and items[1].text == "{" and len(items) > 2 and items[2].text == ":":
                del items[1]  # levels of universes
            if items[0].text == "unfolding":
                continue
            if items[1].text == ":":
                self.terms(items[2:], names)
            else:
                self.clause(one, items, names, level)

    def clause(self, lines, items, names, level):
        where = next((at for at, line in enumerate(lines) if line.strip() == "where"), None)
        inner = lines[where + 1:] if where is not None else []
        left, right = cut_at(grouped(tokens_of(lines[:where])), "=")
        if right is None:
            self.fault(f"{lines[0].strip()}: neither a signature nor a clause")
        is_outer = level == self.level
        names = self.pattern(left if is_outer else left[1:], names, self.definition.name if is_outer else "")
        if inner:
            names |= {tokens_of(one)[0].text for one in entries_of(inner, indent_of(inner[0]))}
            self.values(inner, names, indent_of(inner[0]))
        self.terms(right, names)

    # ---- binders

    def telescope(self, items, names):
        for it in items:
            if not isinstance(it, Group):
                self.fault(f"{it.text}: a binder that isn't read")
            names = self.binder(it, names)
        return names

    def binder(self, group, names):
        front, behind = cut_at(group.items, ":")
        self.terms(behind or [], names)
        return names | {it.text for it in front}

    def pattern(self, items, names, own=""):
        """The names with those that a pattern binds; its constructors are used. `own` is the function's name."""
        parts = own.split("◌")
        for at, it in enumerate(items):
            before = items[at - 1] if at else None
            if isinstance(it, Group):
                for part in parts_of(it.items, ",", ";"):
                    left, right = cut_at(part, "=")
                    names = self.pattern(left if right is None else right, names)
            elif it.text in (own, "_", ".", "record") or it.text in parts or NUMBER.fullmatch(it.text):
                continue
            elif before is not None and before.text == "." and it.is_glued:
                self.use(self.library.target(self.module.aliases[items[at - 2].text], it.text))
            elif self.is_path(items, at + 1) and it.text in self.module.aliases:
                continue
            elif it.text in self.module.operators:
                self.operator(it.text)
            else:
                target = self.target(it.text)
                if target and self.library.is_constructor(target):
                    self.use(target)
                else:
                    names |= {it.text}
        return names

    # ---- terms

    def terms(self, items, names):
        for part in parts_of(items, ",", ";"):
            self.term(part, names)

    def term(self, items, names):
        """Reads a term from left to right: what is bound on the way stands to the end of its brackets."""
        at = 0
        while at < len(items):
            it = items[at]
            if isinstance(it, Group):
                names = self.group(it, items[:at], names)
            elif it.text == "λ":
                dot = next((k for k in range(at + 1, len(items)) if items[k].text == "." and not self.is_path(items, k)), None)
                if dot is None:
                    self.fault("a λ without its dot")
                return self.term(items[dot + 1:], self.bound(items[at + 1:dot], names))
            elif it.text == "let":
                front, behind = cut_at(items[at + 1:], "in")
                left, right = cut_at(front, "=")
                left, kind = cut_at(left, ":")
                if behind is None or right is None:
                    self.fault("a let that isn't read")
                self.term(kind or [], names)
                self.term(right, names)
                return self.term(behind, self.pattern(left, names))
            elif it.text == "do":
                return self.block(items[at + 1:], names)
            elif it.text in ("elim", "open", "unfold", "unfolding"):
                self.fault(f"{it.text} isn't read")
            elif it.text == ".":
                at += 1  # a projection
            elif it.text in self.module.aliases and it.text not in names and self.is_path(items, at + 1):
                self.use(self.library.target(self.module.aliases[it.text], items[at + 2].text))
                at += 2
            else:
                self.word(it.text, names)
            at += 1
        return names

    @staticmethod
    def is_path(items, at):
        """A dot between a name and one below it, without blanks."""
        return at + 1 < len(items) and items[at].text == "." and items[at].is_glued and items[at + 1].is_glued

    def bound(self, items, names):
        for it in items:
            is_typed = isinstance(it, Group) and cut_at(it.items, ":")[1] is not None
            names = self.binder(it, names) if is_typed else self.pattern([it], names)
        return names

    def group(self, group, before, names):
        """What stands in brackets; the names with those that it binds, if it is a binder."""
        front, behind = cut_at(group.items, ":")
        is_record = [it.text for it in before[-1:]] == ["record"] or [it.text for it in before[-2:-1]] == ["record"]
        if group.text == "{" and is_record:
            inner = names
            for part in filter(None, parts_of(group.items, ";")):
                left, right = cut_at(part, "=", ":")
                if right is None:
                    self.fault("a part of a record without its value")
                self.term(right, inner)
                if part[len(left)].text == ":":
                    inner |= {it.text for it in left}
        elif behind is not None and all(isinstance(it, Token) for it in front):
            return self.binder(group, names)
        elif group.text == "{":
            for part in parts_of(group.items, ",", ";"):  # arguments by their names, or levels
                left, right = cut_at(part, "=")
                self.term(left if right is None else right, names)
        else:
            self.terms(group.items, names)
        return names

    def block(self, items, names):
        """The lines of a `do`, each of which may bind names for those behind it."""
        lines = []
        for it in items:
            if not lines or it.is_first and it.column <= items[0].column:
                lines.append([])
            lines[-1].append(it)
        for one in lines:
            left, right = cut_at(one, "←")
            self.term(left if right is None else right, names)
            if right is not None:
                self.operator(">>=")
                names = self.pattern(left, names)

    def word(self, text, names):
        if text in names or NUMBER.fullmatch(text):
            return
        if text in self.module.operators:
            self.operator(text)
        elif text not in OWN:
            target = self.target(text)
            if target is None:
                self.fault(f"the word {text} can't be resolved")
            self.use(target)

    def operator(self, part):
        """All operators in scope that have this part."""
        if part not in self.module.operators:
            self.fault(f"the operator {part} can't be resolved")
        for one in self.module.operators[part]:
            self.use(self.target(one))

    def target(self, name):
        if name in self.module.definitions or self.module.data_with(name):
            return self.library.target(self.module.name, name)
        if name in self.module.imports:
            return self.library.target(*self.module.imports[name])
        return None
