"""A statement's text as words, cut as MariaDB cuts it, and a walk over them."""
import re
from dataclasses import dataclass

from recorder.catalogue import Name

# executable comments count as what stands in them, others as nothing
_COMMENT = re.compile(r"/\*M?!\d*(.*?)\*/|/\*.*?\*/|--[ \t\n][^\n]*|--$|#[^\n]*", re.S)
_STRING = r"'(?:[^'\\]|\\.|'')*'"
_TOKEN = re.compile(rf"`((?:[^`]|``)*)`|\"((?:[^\"]|\"\")*)\"|({_STRING})|([\w$\u0080-\U0010ffff]+)|(\S)", re.S)
_COMMENT_OR_STRING = re.compile(rf"(`(?:[^`]|``)*`|\"(?:[^\"]|\"\")*\"|{_STRING})|" + _COMMENT.pattern, re.S)


@dataclass(frozen=True)
class Word:
    text: str
    quoted: bool = False

    @property
    def key(self) -> str:
        return "" if self.quoted else self.text.upper()


def words_of(text: str) -> list[Word]:
    plain = _COMMENT_OR_STRING.sub(lambda found: found[1] or f" {found[2] or ''} ", text)
    words = []
    for back, double, string, word, sign in _TOKEN.findall(plain):
        if back or double:
            words.append(Word((back or double).replace("``", "`").replace('""', '"'), True))
        else:
            words.append(Word(string or word or sign, bool(string)))
    return words


class Walk:
    """Walks the words of one statement."""

    def __init__(self, words: list[Word], schema: str) -> None:
        self.words, self.schema, self.at = words, schema, 0

    def skip(self, *keys: str) -> bool:
        """Steps over these key words, if all of them stand here."""
        if [word.key for word in self.words[self.at:self.at + len(keys)]] == list(keys):
            self.at += len(keys)
            return True
        return False

    def skip_any(self, *keys: str) -> None:
        while self.at < len(self.words) and self.words[self.at].key in keys:
            self.at += 1

    @property
    def is_at_end(self) -> bool:
        return self.at >= len(self.words)

    def is_at(self, key: str) -> bool:
        return not self.is_at_end and self.words[self.at].key == key

    def take(self) -> Word:
        """The word that stands here, stepped over; an empty one at the text's end."""
        self.at += 1
        return self.words[self.at - 1] if self.at <= len(self.words) else Word("")

    def take_one(self, *keys: str) -> bool:
        """Steps over one of these key words, if it stands here."""
        found = not self.is_at_end and self.words[self.at].key in keys
        self.at += found
        return found

    def take_text(self) -> bool:
        """Steps over a word in quotes, if one stands here."""
        found = not self.is_at_end and (self.words[self.at].quoted or not self.words[self.at].text)
        self.at += found
        return found

    def take_number(self) -> bool:
        """Steps over a whole number, if one stands here."""
        found = not self.is_at_end and self.words[self.at].text.isdecimal()
        self.at += found
        return found

    def skip_parenthesis(self) -> bool:
        """Steps over what stands between a parenthesis here and the one that closes it, if there are such."""
        if not self.is_at("("):
            return False
        depth = 0
        while not self.is_at_end:
            key = self.take().key
            depth += (key == "(") - (key == ")")
            if not depth:
                return True
        return False

    def name(self) -> list[Name]:
        """The name that stands here, or none at the text's end."""
        here = self.words[self.at:self.at + 3]
        if len(here) == 3 and here[1].key == ".":
            self.at += 3
            return [(here[0].text, here[2].text)]
        self.at += 1
        return [(self.schema, here[0].text)] if here else []

    def names_behind(self, *keys: str) -> list[Name]:
        """The name behind each place further on where these key words stand."""
        found = []
        while self.at < len(self.words):
            if self.skip(*keys):
                self.skip_any("TO", "AS", "IF", "EXISTS", "=")
                found += self.name()
            else:
                self.at += 1
        return found
