"""Why something isn't answered."""


class NoLibrary(OSError):
    """The shared library isn't there."""


class NoProgram(OSError):
    """The program isn't there."""


class Refused(ValueError):
    """What vrepl refuses: `number`, of docs/FORMATS.md, `line`, what the program printed of it, `place`, where in what was given
    the library found it, and `words`."""

    def __init__(self, number: int, line: str = "", place: str = ""):
        super().__init__(number, line, place)
        self.number, self.line, self.place = number, line, place

    @property
    def words(self) -> str:
        """What the number means: one line, or nothing where neither library nor program is there."""
        try:
            return explain(self.number).split("\n", 1)[0].partition(" ")[2].strip()
        except OSError:
            return ""

    def __str__(self) -> str:
        return ": ".join(it for it in (self.line or f"refused {self.number}", self.place, self.words) if it)


def explain(number: int) -> str:
    """What a refusal's number means, its usual causes and what to do next. KeyError for another number."""
    from .library import words_of
    from .program import words_of as words_by_program

    try:
        words = words_of(number)
    except NoLibrary:
        words = words_by_program(number)
    if not words:
        raise KeyError(number)
    return words
