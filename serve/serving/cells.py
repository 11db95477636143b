"""Cells of the session, as bytes and as what a person reads (docs/LIVE.md, 'The session's protocol')."""
from collections.abc import Iterable

from recorder.stop import Stop

Value = bytes | None
BLANKS = b"\t\n\r"


def bytes_of(cell: str | None) -> Value:
    """The bytes of a cell, none of NULL. Stops where it is no cell."""
    if cell is None or cell == "N":
        return None
    try:
        if cell[:1] == "x":
            return bytes.fromhex(cell[1:])
    except ValueError:
        pass
    raise Stop("a cell that is none", f"({cell[:60]})", "the program answers otherwise than docs/LIVE.md says")


def values_of(cells: Iterable[str | None]) -> list[Value]:
    return [bytes_of(cell) for cell in cells]


def cell_of(value: Value) -> str:
    return "N" if value is None else "x" + value.hex()


def readable(value: Value, most: int | None = None) -> object:
    """A value as JSON, as `vrepl show --json` has it: a text where it is one without control characters but blanks, else its
    bytes. Of one of more than `most` bytes the beginning, and its size."""
    if value is None:
        return None
    if most is not None and len(value) > most:
        begun = _text(value[:most].decode(errors="ignore").encode()) if _is_text(value) else {"bytes": cell_of(value[:most])}
        return {"begins": begun, "size": len(value)}
    return _text(value)


def _is_text(value: bytes) -> bool:
    try:
        value.decode()
    except UnicodeDecodeError:
        return False
    return all(byte >= 32 and byte != 127 or byte in BLANKS for byte in value)


def _text(value: bytes) -> object:
    return value.decode() if _is_text(value) else {"bytes": cell_of(value)}


def in_words(values: Iterable[Value]) -> str:
    """A key, or another list of values, as a line has it."""
    return ", ".join(said if isinstance(said := readable(value), str) else "NULL" if said is None else said["bytes"] for value in values)
