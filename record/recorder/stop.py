"""Why a recording ends early."""


class Stop(Exception):
    """What was met, where, and what to do: one line on standard error, status 1.

    Nothing is recorded behind the transaction before it; what a feed has stays as it is.
    """

    def __init__(self, what: str, where: str, todo: str) -> None:
        super().__init__(on_one_line(f"{what} {where}: {todo}" if where else f"{what}: {todo}"))


class Lost(Stop):
    """A stop that may pass by itself: the server ended, or the connection to it did."""


class Prepared(Stop):
    """A stop at an XA transaction that is prepared: it passes with that."""


class Beyond(Stop):
    """A stop at a position that a feed has passed, though its note doesn't say so."""


class Taken(Stop):
    """A stop at a feed that another recording writes."""


class Refused(Stop):
    """A stop at what the program refuses, by its number; none where it can't be run."""

    def __init__(self, what: str, where: str, todo: str, number: int | None) -> None:
        super().__init__(what, where, todo)
        self.number = number

    def with_todo(self, todo: str, where: str = "") -> "Refused":
        """The same, with where that is and what to do behind it."""
        return Refused(f"{self}," if where else str(self), where, todo, self.number)


ANEW = "record anew with --from-snapshot"
BEHIND = f"go on with --anew-behind, or {ANEW}"
"""Where a feed is that can go on with a snapshot."""
AGAIN = "record again"


def on_one_line(text: str) -> str:
    """The text with `?` for each character that a terminal wouldn't print as one."""
    return "".join(sign if sign.isprintable() else "?" for sign in text)
