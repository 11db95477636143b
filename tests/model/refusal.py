"""A refusal as `--json` tells it: one object on one line, in place of the line and of the place behind it."""
import functools
import json
import os
import re

LIST = os.path.join(os.path.dirname(os.path.dirname(os.path.abspath(__file__))), "cases", "explain_lists_all_numbers", "stdout")
"""What `explain` lists, which a case holds."""
LINE = re.compile(rb"refused (\d+)(.*)\n(?:place (.*)\n)?")
NAMED = {53: rb" (table) (.*) (column) (.*)", 54: rb" (table) (.*) (column) (.*)", 57: rb" (table) (.*)", 129: rb" (file) (.*)", 131: rb" (file) (.*)", 132: rb" (file) (.*)"}
"""The details that are names, which may have spaces."""
PLACE = re.compile(rb'"place":(?:null|"(?:[^"\\]|\\.)*")')


@functools.cache
def meanings():
    with open(LIST, encoding="utf-8") as file:
        return {int(number): words.strip() for number, _, words in (line.rstrip("\n").partition(" ") for line in file)}


def line(said):
    return json.dumps(said, ensure_ascii=False, separators=(",", ":")).encode() + b"\n"


def details(number, text):
    """What stands behind a number, by its words."""
    if number in NAMED:
        words = [it.decode() for it in re.fullmatch(NAMED[number], text).groups()]
        return dict(zip(words[::2], words[1::2]))
    words = text.decode().split()
    return {word: int(said) for word, said in zip(words[::2], words[1::2])}


def as_json(error):
    """The line of JSON that stands in place of what is said of a refusal otherwise."""
    number, text, place = LINE.fullmatch(error).groups()
    number = int(number)
    return line({"details": details(number, text), "place": None if place is None else place.decode(), "refused": number, "text": meanings()[number]})


def without_place(error):
    """A refusal of either form without its place."""
    return PLACE.sub(b'"place":null', re.sub(rb"\nplace .*\n", b"\n", error))


def number_of(error):
    """The number of a refusal of either form, or a hyphen."""
    found = re.match(rb'refused (\d+)|{"details":.*"refused":(\d+),', error)
    return (found[1] or found[2]).decode() if found else "-"
