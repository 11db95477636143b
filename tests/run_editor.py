#!/usr/bin/env python3
"""Holds the colours that share/editor gives Rattle and antt to the sources of this tree.

usage: tests/run_editor.py

The grammars of share/editor/vscode are run over every source: what a rule begins in a file has to end in it, so
no quote, lifetime or brace of this tree leads one astray. Then words of two samples have to have the colour that
the table below says, by these grammars and, where vim is installed, by the syntax of share/editor/vim. The last
line is 'N passed, M failed': one for each kind of file, one for each line of the table and editor.
"""
import glob
import json
import os
import re
import shutil
import subprocess
import sys
import tempfile

ROOT = os.path.dirname(os.path.dirname(os.path.abspath(__file__)))
EDITOR = os.path.join(ROOT, "share/editor")
SCOPES = {"rt": "source.rattle", "antt": "source.antt"}
# What is written in this tree, a line of each kind.
SAMPLES = {
    "sample.rt": """\
//! Sets of pairs.
ghost use Rattle.std.specs.Prelude.{◌≡◌, IfErr};

/// The empty set of nothing.
#[derive(Drop)]
pub struct GtidSet<'b> {
    ghost Value = { List Interval };
    const _: () = prove!(size_of::<GtidSet>() == 48);
    pub fn contains(&self, uuid: &[u8; 16], number: u64) -> bool
        // Each pair once.
        ensures exact { GivesUnless meant (λ set. set) result (record { text = text.now }) W.written }
        ensures memory { result ≡ Err Memory → NamesSeveral text.now }
    {
        out.push(b';', "a // text").unwrap()
    }
""",
    "sample.antt": """\
-- What any reader gives.
use Rattle.std.specs.Prelude.{◌≡◌, ℕ}
abbrev pub Next : {A : Type 0} → A → Type 0
unfoldable pub reading_of : {A : Type 0} → ℕ → Reading A 10
reading_of at bytes = let e : ℕ = omega arith in c.if-not-same.true
""",
}

# A sample, a word of it, at which of its places it stands, and what it is: by its scope, and by vim's group.
WORDS = [
    ("sample.rt", "Sets", 0, "comment.line.documentation.rattle", "rattleDoc"),
    ("sample.rt", "ghost use", 0, "keyword.other.ghost.rattle", "rattleGhost"),
    ("sample.rt", "IfErr", 0, "entity.name.type.antt", "anttType"),
    ("sample.rt", "derive", 0, "meta.attribute.rattle", "rattleAttribute"),
    ("sample.rt", "GtidSet", 0, "entity.name.type.rattle", "rattleType"),
    ("sample.rt", "'b", 0, "storage.modifier.lifetime.rattle", "rattleLifetime"),
    ("sample.rt", "ghost", 1, "keyword.other.ghost.rattle", "rattleGhost"),
    ("sample.rt", "Value", 0, "entity.name.label.rattle", "rattleGhostName"),
    ("sample.rt", "Interval", 0, "entity.name.type.antt", "anttType"),
    ("sample.rt", "prove!", 0, "entity.name.function.macro.rattle", "rattleMacro"),
    ("sample.rt", "48", 0, "constant.numeric.rattle", "rattleNumber"),
    ("sample.rt", "pub", 1, "keyword.other.rattle", "rattleKeyword"),
    ("sample.rt", "contains", 0, "entity.name.function.rattle", "rattleDefined"),
    ("sample.rt", "u64", 0, "support.type.rattle", "rattlePrimitive"),
    ("sample.rt", "Each", 0, "comment.line.double-slash.rattle", "rattleComment"),
    ("sample.rt", "ensures", 0, "keyword.other.contract.rattle", "rattleClause"),
    ("sample.rt", "exact", 0, "entity.name.label.rattle", "rattleClauseName"),
    ("sample.rt", "λ", 0, "keyword.other.antt", "anttKeyword"),
    ("sample.rt", "W", 0, "entity.name.type.antt", "anttType"),
    ("sample.rt", "→", 0, "keyword.operator.antt", "anttOperator"),
    ("sample.rt", "b';'", 0, "string.quoted.single.rattle", "rattleCharacter"),
    ("sample.rt", "// text", 0, "string.quoted.double.rattle", "rattleString"),
    ("sample.rt", "unwrap", 0, "entity.name.function.call.rattle", "rattleCall"),
    ("sample.antt", "reader", 0, "comment.line.double-dash.antt", "anttComment"),
    ("sample.antt", "Next", 0, "entity.name.type.antt", "anttType"),
    ("sample.antt", "unfoldable", 0, "keyword.other.antt", "anttKeyword"),
    ("sample.antt", "reading_of", 0, "entity.name.function.antt", "anttDefined"),
    ("sample.antt", "10", 0, "constant.numeric.antt", "anttNumber"),
    ("sample.antt", "omega", 0, "support.function.tactic.antt", "anttTactic"),
    ("sample.antt", "if-not-same", 0, None, "anttName"),
]


def read(path):
    with open(os.path.join(ROOT, path), encoding="utf-8") as file:
        return file.read()


class Rule:
    """A rule of a grammar with its expressions compiled."""

    def __init__(self, grammar, told):
        self.grammar, self.name, self.end = grammar, told.get("name"), told.get("end")
        self.starts = re.compile(told["match"] if "match" in told else told.get("begin", "(?!)"))
        self.captures = told.get("captures", told.get("beginCaptures", {}))
        self.told, self.inner = told.get("patterns", ()), None

    def rules(self, grammars):
        """The rules that are looked for inside of this one, with what they include."""
        if self.inner is None:
            self.inner = [it for told in self.told for it in included(grammars, self.grammar, told)]
        return self.inner


def included(grammars, grammar, told):
    """The rules that an entry of a list of patterns stands for."""
    if "include" not in told:
        if "match" in told or "begin" in told:
            key = id(told)
            if key not in grammar["made"]:
                grammar["made"][key] = Rule(grammar, told)
            return [grammar["made"][key]]
        return [it for part in told["patterns"] for it in included(grammars, grammar, part)]
    scope, _, part = told["include"].rpartition("#")
    grammar = grammars[scope] if scope else grammar
    return included(grammars, grammar, grammar["repository"][part])


def next_match(rules, line, at, kept):
    """The rule that matches first behind a place, and its match; of two at one place the earlier one in the list."""
    best = None
    for rule in rules:
        found = kept.get(rule, False)
        if found is False or found and found.start() < at:
            found = kept[rule] = rule.starts.search(line, at)
        if found and (best is None or found.start() < best[1].start()):
            best = rule, found
    return best


def walk(grammars, scope, text):
    """The pieces of a text that a rule names, as line, columns and name; then the rules that don't end."""
    root = Rule(grammars[scope], {"patterns": grammars[scope]["patterns"]})
    pieces, open_rules = [], [(root, re.compile("(?!)"))]
    for number, line in enumerate(text.splitlines()):
        at, kept, begun = 0, {}, [0] * len(open_rules)
        while at <= len(line):
            rule, end = open_rules[-1]
            closing = end.search(line, at)
            found = next_match(rule.rules(grammars), line, at, kept)
            if closing and (not found or closing.start() <= found[1].start()):
                pieces.append((number, begun.pop(), closing.end(), rule.name))
                open_rules.pop()
                at = closing.end()
            elif found:
                start, match = found
                if start.end:
                    last = re.sub(r"\\(\d)", lambda group, match=match: re.escape(match[int(group[1])]), start.end)
                    open_rules.append((start, re.compile(last)))
                    begun.append(match.start())
                else:
                    pieces.append((number, *match.span(), start.name))
                pieces += [(number, *match.span(int(group)), told["name"]) for group, told in start.captures.items() if match[int(group)]]
                at = match.end() + (match.end() == match.start())
            else:
                break
        pieces += [(number, start, len(line), rule.name) for (rule, _), start in zip(open_rules[1:], begun[1:])]
    return pieces, [rule.name or "a brace" for rule, _ in open_rules[1:]]


def place_of(sample, word, which):
    """The line and the column of a word, from 0."""
    text = SAMPLES[sample]
    at = [it.start() for it in re.finditer(r"(?<![\w'!-])" + re.escape(word) + r"(?![\w'])", text)][which]
    return text.count("\n", 0, at), at - text.rfind("\n", 0, at) - 1


def grammars_of_vscode():
    """The grammars by their scopes; a rule for each pattern is made once."""
    package = json.loads(read("share/editor/vscode/package.json"))
    found = {}
    for told in package["contributes"]["grammars"]:
        grammar = json.loads(read(os.path.join("share/editor/vscode", told["path"])))
        found[told["scopeName"]] = grammar | {"made": {}}
    return found


def scope_at(walked, number, column):
    """The narrowest name that a place has."""
    over = [(end - start, name) for line, start, end, name in walked if line == number and start <= column < end and name]
    return min(over, default=(0, None), key=lambda it: it[0])[1]


def groups_of_vim(places):
    """The groups that vim gives to places of the samples, which stand in their order."""
    with tempfile.TemporaryDirectory() as folder:
        said, script, opened = os.path.join(folder, "said"), os.path.join(folder, "script.vim"), None
        lines = [f"set runtimepath^={EDITOR}/vim", "set encoding=utf-8", "filetype plugin on", "syntax on", "let said = []"]
        for sample, number, column in places:
            if sample != opened:
                opened = sample
                with open(os.path.join(folder, sample), "w", encoding="utf-8") as file:
                    file.write(SAMPLES[sample])
                lines += [f"edit {os.path.join(folder, sample)}", "syntax sync fromstart"]
            at = len(SAMPLES[sample].splitlines()[number][:column].encode()) + 1
            lines.append(f"call add(said, synIDattr(synID({number + 1}, {at}, 1), 'name'))")
        lines += [f"call writefile(said, '{said}')", "qall!"]
        with open(script, "w", encoding="utf-8") as file:
            file.write("\n".join(lines) + "\n")
        environment = os.environ | {"LC_ALL": "C.UTF-8", "HOME": folder, "TERM": "dumb"}
        subprocess.run(["vim", "-Nnu", "NONE", "-es", "-S", script], env=environment, stdin=subprocess.DEVNULL, stdout=subprocess.DEVNULL, stderr=subprocess.DEVNULL, timeout=300, check=False)
        with open(said, encoding="utf-8") as file:
            return file.read().splitlines()


def has_vim():
    """Whether there is a vim that knows syntax: Debian's smallest doesn't."""
    if not shutil.which("vim"):
        return False
    return " +syntax" in subprocess.run(["vim", "--version"], capture_output=True, text=True, check=False).stdout


def unended(grammars, scope, ending):
    """The files in which a rule begins and doesn't end."""
    for path in sorted(glob.glob(f"crates/**/*.{ending}", root_dir=ROOT, recursive=True)):
        if "/out/" not in path:
            left = walk(grammars, scope, read(path))[1]
            if left:
                yield f"{path}: {', '.join(left)} doesn't end"


def main():
    grammars, faults, count = grammars_of_vscode(), [], len(SCOPES) + len(WORDS)
    for ending, scope in SCOPES.items():
        faults += list(unended(grammars, scope, ending))[:1]
    places = [(sample, *place_of(sample, word, which)) for sample, word, which, _, _ in WORDS]
    walked = {sample: walk(grammars, SCOPES[sample.rpartition(".")[2]], text)[0] for sample, text in SAMPLES.items()}
    for (sample, number, column), (_, word, _, wanted, _) in zip(places, WORDS):
        found = scope_at(walked[sample], number, column)
        faults += [f"vscode: {word} of {sample} is {found}, not {wanted}"] if found != wanted else []
    if has_vim():
        for found, (sample, word, _, _, wanted) in zip(groups_of_vim(places), WORDS, strict=True):
            faults += [f"vim: {word} of {sample} is {found}, not {wanted}"] if found != wanted else []
        count += len(WORDS)
    else:
        print("vim: not tried, since none with syntax is installed")
    for it in faults:
        print(it)
    print(f"{count - len(faults)} passed, {len(faults)} failed")
    return 1 if faults else 0


if __name__ == "__main__":
    sys.exit(main())
