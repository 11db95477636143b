#!/usr/bin/env python3
"""Holds what is printed under `--json` to what is printed without it: `show` over feeds that are made at random, refusals over
all cases, and `explain` over all numbers.

usage: tests/run_json.py PROGRAM [--seconds N] [--seed N]

A refusal is one line of JSON on standard error, in place of the line `refused N` and of that of the place behind it, with the
same status: of each case of tests/cases of `show`, `check`, `status` and `vdiff` that is refused without `--json`, and of each
feed of those at random. `vdiff` names a bad dump in JSON alone. `explain --json` has the parts of a number's text, of which this is
written anew byte by byte, and the list the list's lines.

Of random feeds both forms end alike. Where a feed is shown, each line of JSON is read by
Python's reader, as an object of a group's members and no others, none of which stands twice; and of these objects the lines
of `show` are written anew, byte by byte: the number, the position, the tables, and each row's values in their order. So
nothing is lost. A column's name is one that a FIELD of the feed has, or else its number. The last line is
'N passed, M failed'.
"""
import argparse
import json
import os
import random
import subprocess
import sys
import tempfile
import time

import run_cases
from model import cell, random_case, refusal
from model.feed import Feed, bytes_of_hex

SECONDS = 60
REFUSED = 1
BOTH = (b"show", b"check", b"status", b"vdiff")
"""The commands that are refused in both forms."""


def members(pairs):
    """An object whose names stand once."""
    names = [name for name, _ in pairs]
    if len(set(names)) != len(names):
        raise ValueError(f"a name stands twice: {names}")
    return dict(pairs)


def value_of(said):
    if isinstance(said, dict):
        (name, text), = said.items()
        if name != "bytes" or text[:1] != "x":
            raise ValueError(f"no value: {said}")
        return bytes.fromhex(text[1:])
    return said if said is None else said.encode()


def line_of(sign, table, row):
    return b"\t".join([sign + b" " + table, *(cell(value_of(it)) for it in row.values())]) + b"\n"


def shown(line):
    """What `show` prints of the group that a line of JSON says."""
    said = json.loads(line, object_pairs_hook=members)
    if list(said) != ["changes", "group", "position"]:
        raise ValueError(f"other members: {list(said)}")
    yield b"group %d %s\n" % (said["group"], said["position"].encode())
    for change in said["changes"]:
        if list(change) != ["after", "before", "table"]:
            raise ValueError(f"other members: {list(change)}")
        for sign, row in ((b"-", change["before"]), (b"+", change["after"])):
            if row is not None:
                yield line_of(sign, change["table"].encode(), row)


def names_of(line):
    """The tables of a line with the names of each row's columns."""
    for change in json.loads(line)["changes"]:
        yield from ((change["table"].encode(), list(row)) for row in (change["before"], change["after"]) if row is not None)


def name_faults(lines, feed):
    """Rows whose columns have other names than those of the feed's FIELDs, or their numbers."""
    for line in lines:
        for table, names in names_of(line):
            most = [it.decode() for it in feed.told[table][0]]
            if names not in (most[: len(names)], [str(i + 1) for i in range(len(names))]):
                yield f"{table} has columns {names}"


def judge(built, place, case):
    for name, data in case.files.items():
        with open(os.path.join(place, name), "wb") as file:
            file.write(data)
    words = [it for it in case.words if it != "--json"]
    ran = [subprocess.run([built, words[0], *more, *words[1:]], capture_output=True, cwd=place, timeout=SECONDS, close_fds=False) for more in ([], ["--json"])]
    plain, told = ran
    if plain.returncode == REFUSED:
        fault = refusal_fault(plain.stderr, told.returncode, told.stderr)
        return fault or ("a refused feed is shown" if told.stdout else "")
    if (plain.returncode, plain.stderr) != (told.returncode, told.stderr):
        return f"{plain.returncode} {plain.stderr} and {told.returncode} {told.stderr}"
    *lines, last = told.stdout.split(b"\n")
    if last:
        return f"no end of a line: {told.stdout}"
    if b"".join(part for line in lines for part in shown(line)) != plain.stdout:
        return f"other groups: {told.stdout} of {plain.stdout}"
    values = dict(it[2:].split("=", 1) for it in words if "=" in it)
    data = bytes_of_hex(case.files["feed"]) if "--hex" in words else case.files["feed"]
    return "; ".join(name_faults(lines, Feed(data, values.get("keyspace", "").encode(), values.get("shard", "").encode())))


def refusal_fault(plain, status, told):
    """How what is told of a refusal as JSON differs from what is told of it otherwise."""
    if status != REFUSED:
        return f"status {status}"
    said = json.loads(told, object_pairs_hook=members)
    if refusal.line(said) != told or list(said) != ["details", "place", "refused", "text"]:
        return f"no such line: {told}"
    is_named = said["refused"] == 121 and said["place"].startswith("file ")
    wanted = refusal.as_json(plain)
    return "" if (refusal.without_place(told) if is_named else told) == wanted else f"{told}, wanted {wanted}"


def refused_cases(built):
    """Each case of a command that has both forms, refused without `--json`: its name, and how the other form differs."""
    for name in run_cases.names():
        case = run_cases.Case(name)
        if case.words[:1] and case.words[0] in BOTH and case.status == REFUSED and b"--json" not in case.words:
            case.words.insert(1, b"--json")
            with case.place() as place:
                status, _, told = case.run(built, place)
            yield name, refusal_fault(case.stderr, status, told)


def text_of(said):
    """What `explain` prints of the number of which its JSON says this."""
    head = f"{said['refused']:<5}{said['text']}"
    return f"{head}\n\n{said['means']}\nUsual causes: {said['causes']}\nWhat to do: {said['do']}\n"


def explained(built):
    """Each number, and how what is said of it as JSON differs; and at last the same of the list."""
    run = lambda *words: subprocess.run([built, "explain", *words], capture_output=True, check=True, encoding="utf-8").stdout  # noqa: E731
    for number in refusal.meanings():
        told = run("--json", str(number))
        said = json.loads(told, object_pairs_hook=members)
        is_same = refusal.line(said).decode() == told and list(said) == sorted(said) and text_of(said) == run(str(number))
        yield f"explain {number}", "" if is_same else told
    lines = [json.loads(line, object_pairs_hook=members) for line in run("--json").splitlines()]
    is_same = "".join(f"{it['refused']:<5}{it['text']}\n" for it in lines) == run()
    yield "explain", "" if is_same else f"{lines}"


def main(given):
    built = os.path.abspath(given.program)
    named = [*refused_cases(built), *explained(built)]
    seed = random.SystemRandom().randrange(10**9) if given.seed is None else given.seed
    end, count, faults = time.monotonic() + given.seconds, 0, []
    with tempfile.TemporaryDirectory(prefix="vrepl-json-") as place:
        number = 0
        while time.monotonic() < end and len(faults) < 10:
            case = random_case.Case(random.Random(f"{seed}/{number}"))
            number += 1
            if case.words[0] != "show":
                continue
            count += 1
            try:
                fault = judge(built, place, case)
            except (ValueError, KeyError) as wrong:
                fault = f"{type(wrong).__name__}: {wrong}"
            faults += [f"--seed {seed}, case {number - 1}: {fault}"] if fault else []
    faults += [f"{name}: {fault}" for name, fault in named if fault]
    for it in faults:
        print(f"json: {it}")
    print(f"seed {seed}: {count} feeds, {len(named)} refusals and numbers")
    print(f"{0 if faults or not count else 1} passed, {len(faults) or int(not count)} failed")
    return 1 if faults or not count else 0


if __name__ == "__main__":
    words = argparse.ArgumentParser()
    words.add_argument("program")
    words.add_argument("--seconds", type=float, default=10)
    words.add_argument("--seed", type=int)
    sys.exit(main(words.parse_args()))
