"""The rows of targets, and what two of them have in common."""
from __future__ import annotations

from dataclasses import dataclass, field


def cell(text: str) -> bytes | None:
    """A column of a dump's line, or None for NULL."""
    return None if text == "N" else bytes.fromhex(text[1:])


Row = tuple[bytes | None, ...]


@dataclass(frozen=True)
class Dump:
    """The rows of a target, as `run` prints them: `text` is the dump's own bytes."""

    text: bytes

    @property
    def tables(self) -> dict[str, list[Row]]:
        """Each table's rows by rising key: the bytes of each column, None for NULL."""
        found: dict[str, list[Row]] = {}
        for line in self.text.split(b"\n")[:-1]:
            if line.startswith(b"table "):
                rows = found.setdefault(line[6:].decode(errors="surrogateescape"), [])
            else:
                rows.append(tuple(cell(it) for it in line.decode().split("\t")))
        return found

    def __bytes__(self) -> bytes:
        return self.text


@dataclass(frozen=True)
class Difference:
    """A key at which two dumps differ, with the rows that stand there."""

    table: str
    key: tuple[bytes, ...]
    source: Row | None
    target: Row | None


@dataclass(frozen=True)
class Comparison:
    """What two dumps have in common, as counts of keys, and the first keys at which they differ."""

    processed: int
    matching: int
    mismatched: int
    extra_source: int
    extra_target: int
    differences: list[Difference] = field(default_factory=list)
    tables: dict[str, dict[str, int]] = field(default_factory=dict)

    def __bool__(self) -> bool:
        """Whether the dumps are of the same rows."""
        return self.processed == self.matching
