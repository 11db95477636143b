"""What `feed` refuses of a text: the first line, and the byte of it, at which it isn't as `show` prints it."""
import re

from .feed import BadPosition, is_within, print_position, read_position

CELL = re.compile(rb"N|x(?:[0-9a-f]{2})*")
COLUMNS, ROW_BYTES = 256, 1 << 24


def shared(one, other):
    """How many bytes at the beginning of two texts are the same."""
    return next((i for i, (a, b) in enumerate(zip(one, other)) if a != b), min(len(one), len(other)))


def bad_cell(cell):
    """The byte of a cell at which it isn't one, if it is none."""
    if CELL.fullmatch(cell):
        return None
    if not cell.startswith(b"x"):
        return 0
    return re.match(rb"x[0-9a-f]*", cell).end()


def size_of(cells):
    """How many bytes the message of a row has."""
    values = [None if it == b"N" else (len(it) - 1) // 2 for it in cells]

    def varint(n):
        return max(1, (n.bit_length() + 6) // 7)

    lengths = sum(varint(1 if it is None else 2 * it) for it in values)
    whole = sum(it or 0 for it in values)
    head = lengths + (1 if len(values) == 1 else 1 + varint(lengths)) if values else 0
    return head + (1 + varint(whole) + whole if whole else 0)


class Text:
    """A text, line by line; `fault` is the place of its first fault, a line and a byte of it from 1, or None."""

    def __init__(self, text, widths=None):
        """`widths` has the number of columns of each table of the workflow, where there is one."""
        self.widths, self.number, self.reached = widths, 0, None
        self.fault = None
        *lines, rest = text.split(b"\n")
        for line, said in enumerate(lines, 1):
            at = self.line(said)
            if at is not None:
                self.fault = line, at + 1
                return
        if rest:
            self.fault = len(lines) + 1, len(rest) + 1

    def line(self, said):
        for mark in b"group ", b"- ", b"+ ":
            if said.startswith(mark):
                return self.group(said) if mark == b"group " else self.row(said)
        return 0

    def group(self, said):
        self.number += 1
        head = b"group %d " % self.number
        if not said.startswith(head):
            return shared(said, head)
        text = said[len(head) :]
        try:
            position = read_position(text)
        except BadPosition:
            return len(head)
        if print_position(position) != text:
            return len(head) + shared(text, print_position(position))
        if not is_within(self.reached or {}, position) or is_within(position, self.reached or {}):
            return len(head)
        self.reached = position
        return None

    def row(self, said):
        if self.reached is None:
            return 0
        name, *cells = said[2:].split(b"\t")
        try:
            name.decode()
        except UnicodeDecodeError:
            return 2
        at = 2 + len(name)
        for cell in cells:
            bad = bad_cell(cell)
            if bad is not None:
                return at + 1 + bad
            at += 1 + len(cell)
        if self.widths is not None and self.widths.get(name, len(cells) or 1) != len(cells):
            return 2
        if len(cells) > COLUMNS or size_of(cells) > ROW_BYTES:
            return 2
        return None
