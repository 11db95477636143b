"""The page of record/differences: its counts, its picture and its first differences, with texts that would be markup, and
nothing from outside."""
import json
import random
from html.parser import HTMLParser

TABLE = '<b>"t" & \'x\''
COLUMNS = [["id", "INT64"], ["<script>alert(1)</script>", "VARCHAR"]]
WORKFLOW = {"keyspace": "ks", "tables": [{"name": TABLE, "columns": COLUMNS, "key": ["id"]}],
            "streams": [{"shard": "-", "filter": {"rules": [{"match": "/.*", "filter": ""}]}}]}  # fmt: skip
TAGS = {"html", "meta", "title", "style", "h1", "h2", "ul", "li", "b", "svg", "rect", "p", "table", "tr", "th", "td", "small", "code"}
MANY = 100000


class Page(HTMLParser):
    """What a browser would make of a page: its tags, its attributes and its text."""

    def __init__(self, text: str) -> None:
        super().__init__()
        self.tags, self.attributes, self.text, self.cells = set(), set(), [], 0
        self.feed(text)
        self.close()

    def handle_starttag(self, tag: str, attributes: list) -> None:
        self.tags.add(tag)
        self.attributes.update(name for name, _ in attributes)
        self.cells += ("fill", "transparent") in attributes

    def handle_data(self, data: str) -> None:
        self.text.append(data)


def written(path: str, rows: list[tuple[int, str | None]]) -> str:
    with open(path, "w", encoding="utf-8") as file:
        file.write(f"table {TABLE}\n")
        file.writelines(f"x{str(key).encode().hex()}\t{'N' if value is None else 'x' + value.encode().hex()}\n" for key, value in rows)
    return path


def fault_of(trial, source: list, target: list, counts: dict[str, int]) -> str | None:
    """Why the page of two lists of rows isn't as it has to be."""
    words = [trial.path("pages.json"), written(trial.path("pages.source"), source), written(trial.path("pages.target"), target)]
    with open(words[0], "w", encoding="utf-8") as file:
        json.dump(WORKFLOW, file)
    done = trial.run("record/differences", "--html", trial.path("page.html"), *words)
    if done.returncode or done.stdout or done.stderr:
        return f"status {done.returncode}, {done.stderr.decode()[:300]}"
    with open(trial.path("page.html"), encoding="utf-8") as file:
        text = file.read()
    page, differing = Page(text), sum(counts.values())
    said = "".join(page.text)
    missing = [told for told in [TABLE, *(f"{kind} {many}" for kind, many in counts.items())] if told not in said]
    if missing or ("No differences." in said) != (not differing):
        return f"{missing} isn't told"
    if page.tags - TAGS or page.attributes & {"src", "href", "onload", "onclick"} or "url(" in text or "http" in text:
        return f"it has {sorted(page.tags - TAGS)} or something from outside"
    if page.cells != min(200, len({key for key, _ in source + target})):
        return f"{page.cells} cells"
    return None if len(text) < 400000 else f"{len(text)} characters"


def pages(trial) -> None:
    """Pages of no difference, of three, and of a hundred thousand."""
    rows = [(key, f"v{key}") for key in range(1000)]
    none = {"mismatched": 0, "extra source": 0, "extra target": 0}
    trial.check("page of no row", fault_of(trial, [], [], none))
    trial.check("page of no difference", fault_of(trial, rows, rows, none))
    three = [*((key, "<img src=x onerror=alert(1)>" if key == 7 else value) for key, value in rows if key != 500), (2000, None)]
    trial.check("page of three differences", fault_of(trial, rows, three, {"mismatched": 1, "extra source": 1, "extra target": 1}))
    chance = random.Random(5)
    many = [(key, f"v{key}") for key in range(3 * MANY)]
    others = [(key, value) if not MANY <= key < 2 * MANY else (key, value + "|") for key, value in many if not (MANY <= key < 2 * MANY and chance.random() < 0.25)]
    lost = len(many) - len(others)
    trial.check("page of many differences", fault_of(trial, many, others, {"mismatched": MANY - lost, "extra source": lost, "extra target": 0}))
