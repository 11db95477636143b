"""The rows of one stream in a checkpoint (docs/FORMATS.md, 'Checkpoint'), as a dump."""
from collections.abc import Iterator

from .messages import fields, frames

MARK = b"VREPLCP2"
TABLE, ANSWER, NAME, POSITION, ROWS = 2, 2, 3, 3, 4
"""The numbers of a part's tables, of a table's answer and name, and of an answer's position and rows."""


def stream_of(checkpoint: memoryview, stream: int) -> tuple[str, Iterator[bytes]]:
    """A stream's position, and the lines of its rows as the program prints rows. ValueError or LookupError where the bytes
    are no checkpoint that it has written."""
    if checkpoint[:len(MARK)] != MARK:
        raise ValueError("it has another beginning")
    parts = checkpoint[len(MARK):]
    start, end = list(frames(parts))[stream]
    tables = [dict(fields(said)) for number, said in fields(parts[start:end]) if number == TABLE]
    positions = {bytes(value).decode() for table in tables for number, value in fields(table.get(ANSWER, b"")) if number == POSITION}
    if len(positions) > 1:
        raise ValueError("its tables are of several positions")
    return next(iter(positions), "").removeprefix("MySQL56/"), (line for table in tables for line in _dump(table))


def _dump(table: dict) -> Iterator[bytes]:
    yield b"table " + bytes(table[NAME]) + b"\n"
    for number, row in fields(table.get(ANSWER, b"")):
        if number == ROWS:
            yield _line(row)


def _line(row: memoryview) -> bytes:
    said = dict(fields(row))
    values, at, cells = said.get(2, b""), 0, []
    for length in _lengths(said.get(1, b"")):
        if length < 0:
            cells.append("N")
        else:
            cells.append("x" + values[at:at + length].hex())
            at += length
    return "\t".join(cells).encode() + b"\n"


def _lengths(packed: memoryview) -> Iterator[int]:
    """The packed numbers, each with its sign in the last bit."""
    number = shift = 0
    for byte in packed:
        number |= (byte & 0x7F) << shift
        shift += 7
        if byte < 0x80:
            yield number >> 1 ^ -(number & 1)
            number = shift = 0
