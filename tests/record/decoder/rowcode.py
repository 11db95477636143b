"""Rows of row events to row changes of a feed, by code that is made for the columns of one table.

A row of the log is a bit for each column that is NULL, and then the values of the others (`cells`). What is made of
it is a Row message: lengths and values. The code for rows without a NULL reads at places that are known as it is
made; the one for all rows asks each column's bit. Of a row of a megabyte or more no second copy is made: its message
is in parts, which lie where the row does.
"""
import struct
from collections.abc import Callable, Iterator
from itertools import chain
from typing import NamedTuple

from recorder.catalogue import Printing
from recorder.events import Bytes
from recorder.kinds import Kind
from recorder.messages import MOST_OF_ROW, LongRow
from recorder.wire import SIZES, sized

from .cells import CLOCK, DATES, DAYS, INTEGERS, MONTHS, SECONDS, LogType, Reader, Texts, counted_size, fraction_bytes, fractions, reader, real_type
from .numbers import decimal_reader, decimal_size

LARGE = 2**20
"""The bytes of a row from which on its message is in parts."""


class Parts(list[Bytes]):
    """Bytes in parts. `size` is how many there are in all."""

    def __init__(self, parts: list[Bytes], size: int) -> None:
        super().__init__(parts)
        self.size = size


Image = Callable[[Bytes, int], tuple[bytes | Parts, int]]
"""Reads a row of the log: answers its Row message, and where it ends."""
Changes = Callable[[bytes, int], bytes]
"""Reads all rows of an event, from a place on: answers their row changes."""
TEXTS = [[b"%d" % number for number in range(256)], [b"%d" % (number - (number > 127) * 256) for number in range(256)]]
"""The texts of a byte as a number, without a sign and with one."""
BYTES = {"B": TEXTS[False], "b": [b"%d" % number for number in (*range(128), *range(-128, 0))]}
"""The same of a byte that was read as a number, which is negative in Python's way."""
FORMATS = {(1, True): "b", (1, False): "B", (2, True): "h", (2, False): "H", (4, True): "i", (4, False): "I", (8, True): "q", (8, False): "Q"}
SMALL, ONE_BYTE = 2**6, 2**7
"""Cells of fewer bytes than the first have lengths of one byte, and sizes below the second have one."""
ROOM = 2**13
"""Of rows of fewer bytes the messages' sizes are among `SIZES`."""
BEFORE, AFTER = 0x0A, 0x12
"""The tags of a row change's images."""
CHANGE, LENGTHS, VALUES = 0x12, 0x0A, 0x12
"""The tags of a row change, and of what a Row message has."""
SPANS = [1 + len(SIZES[size]) + size for size in range(ROOM)]
"""The bytes of a field that has so many, with its tag and its size."""


def heads(sign: int, size: int) -> bytes:
    """What stands before a Row message of so many bytes, in a row change that has it alone."""
    said = bytes([sign]) + sized(size)
    return bytes([CHANGE]) + sized(len(said) + size) + said


def change(before: bytes | Parts | None, after: bytes | Parts | None) -> list[Bytes]:
    """The row change of these Row messages, in parts."""
    parts, size = [], 0
    for sign, row in (BEFORE, before), (AFTER, after):
        if row is not None:
            many = row.size if isinstance(row, Parts) else len(row)
            said = bytes([sign]) + sized(many)
            parts += [said, *(row if isinstance(row, Parts) else [row])]
            size += len(said) + many
    return [bytes([CHANGE]) + sized(size), *parts]


class _Code:
    """Lines of a function of bytes and a place in them, and the values that they name."""

    def __init__(self, **names: object) -> None:
        self.lines: list[str] = []
        self.names: dict[str, object] = {"SIZES": SIZES, "SPANS": SPANS, "sized": sized, "from_bytes": int.from_bytes} | names
        self.base, self.more, self.depth = "at", 0, 1

    def add(self, text: str, deeper: int = 0) -> None:
        self.lines.append("    " * (self.depth + deeper) + text)

    @property
    def here(self) -> str:
        return f"{self.base} + {self.more}" if self.more else self.base

    def name(self, kind: str, value: object) -> str:
        name = f"{kind}{len(self.names)}"
        self.names[name] = value
        return name

    def number(self, size: int, order: str) -> str:
        """The number in so many bytes from here on."""
        start = self.more
        if size == 1:
            return f"data[{self.base} + {start}]"
        if size == 2:
            low, high = (start, start + 1) if order == "little" else (start + 1, start)
            return f"(data[{self.base} + {low}] | data[{self.base} + {high}] << 8)"
        return f"from_bytes(data[{self.base} + {start}:{self.base} + {start + size}], '{order}')"

    def go_to(self, name: str) -> None:
        self.base, self.more = name, 0

    def go_on(self) -> None:
        """The loop's next turn, from here on."""
        self.add(f"at = {self.here}", 1)
        self.add("continue", 1)

    def made(self) -> Callable:
        names = dict(self.names)
        exec("def made(data, at):\n" + "\n".join(self.lines), names)  # noqa: S102
        return names["made"]


class _Read(NamedTuple):
    """What the code has of a row that it has read: the cells c.., their sizes n.., and the `size` of them all. As text: the cells
    parted by commas, the numbers of a small row's message before them, the line that makes `lengths`, and the message's parts."""

    cells: str
    small: str
    lengths: str
    message: str

    @classmethod
    def of(cls, count: int, mark: str) -> "_Read":
        cells = ", ".join(f"c{at}{mark}" for at in range(count))
        doubled = ", ".join(f"n{at}{mark} + n{at}{mark}" for at in range(count))
        sizes = ", ".join(f"SIZES[n{at}{mark} + n{at}{mark}]" for at in range(count))
        return cls(cells, f"{LENGTHS}, {count}, {doubled}, {VALUES}, size{mark}", f"lengths{mark} = b''.join(({sizes},))",
                   f"b'\\n', SIZES[len(lengths{mark})], lengths{mark}, b'\\x12', SIZES[size{mark}], {cells}")  # fmt: skip


class Rows:
    """How rows of some columns are read."""

    def __init__(self, columns: list[tuple[LogType, Printing]], check: Callable[[list[Bytes | None]], None] | None = None) -> None:
        """UnknownType where a type isn't one that its column may have. Where each row has to be looked at, `check` does that."""
        self._columns, self._readers = columns, [reader(*column) for column in columns]
        self._size = (len(columns) + 7) // 8
        self._made: dict[tuple[int, ...], Changes] = {}
        self._check = check
        self.image = _of_any_row(self._readers, check) if check else self._image()

    def changes(self, *signs: int) -> Changes:
        """Reads events of which each row has these images: before (of deletes), after (of inserts), or both (of updates)."""
        if signs not in self._made:
            self._made[signs] = self._one_by_one(signs) if self._check else self._of_both() if len(signs) > 1 else self._of_one(*signs)
        return self._made[signs]

    def one_by_one(self, signs: tuple[int, ...], data: Bytes, at: int) -> Iterator[list[Bytes]]:
        """The row changes of an event, each in parts, of which the large ones lie where the event does."""
        while at < len(data):
            before = after = None
            if BEFORE in signs:
                before, at = self.image(data, at)
            if AFTER in signs:
                after, at = self.image(data, at)
            yield change(before, after)

    def _one_by_one(self, signs: tuple[int, ...]) -> Changes:
        return lambda data, at: b"".join(chain.from_iterable(self.one_by_one(signs, data, at)))

    def _image(self) -> Image:
        code = _Code(nullable=_of_any_row(self._readers), put=put_together)
        code.add(f"if {self._nulls(code)}:")
        code.add("return nullable(data, at)", 1)
        row = self._row(code, "")
        # the server has sent fewer bytes than a value is said to have
        code.add(f"if {code.here} > len(data):")
        code.add("raise IndexError('a row is cut short')", 1)
        code.add(f"if 0 < size < {ROOM}:")
        code.add(row.lengths, 1)
        code.add(f"return b''.join(({row.message})), {code.here}", 1)
        code.add(f"return put([{row.cells}]), {code.here}")
        return code.made()

    def _of_one(self, sign: int) -> Changes:
        count, code = len(self._columns), self._loop()
        code.names["heads"] = Texts(lambda size: heads(sign, size))
        code.add(f"if not {self._nulls(code)}:")
        code.depth += 1
        row = self._row(code, "")
        if count < SMALL:
            pack = code.name("pack", struct.Struct(f"{8 + count}B").pack)
            code.add(f"if 0 < size < {min(SMALL, ONE_BYTE - count - 6)}:")
            code.add(f"changes += {pack}({CHANGE}, size + {count + 6}, {sign}, size + {count + 4}, {row.small}), {row.cells}", 1)
            code.go_on()
        code.add(f"if 0 < size < {ROOM}:")
        code.add(row.lengths, 1)
        code.add(f"changes += heads[SPANS[len(lengths)] + SPANS[size]], {row.message}", 1)
        code.go_on()
        code.depth -= 1
        code.add("row, at = image(data, at)")
        code.add(f"changes += change({'row, None' if sign == BEFORE else 'None, row'})")
        return self._ended(code)

    def _of_both(self) -> Changes:
        count, code = len(self._columns), self._loop()
        code.add(f"if not {self._nulls(code)}:")
        code.depth += 1
        old = self._row(code, "b")
        code.add(f"then = {code.here}")
        code.go_to("then")
        code.add(f"if not {self._nulls(code)}:")
        code.depth += 1
        new = self._row(code, "")
        if count < SMALL // 2:
            first, second = (code.name("pack", struct.Struct(f"{more + count}B").pack) for more in (8, 6))
            code.add(f"if 0 < sizeb < {SMALL} and 0 < size < {SMALL} and sizeb + size < {ONE_BYTE - 2 * count - 12}:")
            code.add(f"changes += {first}({CHANGE}, sizeb + size + {2 * count + 12}, {BEFORE}, sizeb + {count + 4}, {old.small}), {old.cells},"
                     f" {second}({AFTER}, size + {count + 4}, {new.small}), {new.cells}", 1)  # fmt: skip
            code.go_on()
        code.add(f"if 0 < sizeb < {ROOM} and 0 < size < {ROOM}:")
        for row in old, new:
            code.add(row.lengths, 1)
        code.add("sizeof, sizeofb = SPANS[len(lengths)] + SPANS[size], SPANS[len(lengthsb)] + SPANS[sizeb]", 1)
        code.add("saidb, said = sized(sizeofb), sized(sizeof)", 1)
        code.add(f"changes += b'\\x12', sized(sizeofb + sizeof + len(saidb) + len(said) + 2), b'\\n', saidb, {old.message}, b'\\x12', said, {new.message}", 1)
        code.go_on()
        code.depth -= 2
        code.add("before, at = image(data, at)")
        code.add("after, at = image(data, at)")
        code.add("changes += change(before, after)")
        return self._ended(code)

    def _loop(self) -> _Code:
        code = _Code(image=self.image, change=change)
        code.add("changes, end = [], len(data)")
        code.add("while at < end:")
        code.depth += 1
        return code

    def _ended(self, code: _Code) -> Changes:
        code.depth = 1
        # what is cut short was read behind the end
        code.add("if at > end:")
        code.add("raise IndexError('a row is cut short')", 1)
        code.add("return b''.join(changes)")
        return code.made()

    def _nulls(self, code: _Code) -> str:
        """Whether the row here has a NULL."""
        nulls = f"data[{code.here}]" if self._size == 1 else f"from_bytes(data[{code.here}:{code.here} + {self._size}], 'little')"
        return f"{nulls} & {(1 << len(self._columns)) - 1}"

    def _row(self, code: _Code, mark: str) -> _Read:
        """Reads the row here, which has no NULL."""
        count = len(self._columns)
        code.more += self._size
        at = 0
        while at < count:
            run = _together(self._columns[at:])
            if len(run) > 1:
                _read_together(code, at, mark, run)
                at += len(run)
            else:
                _read(code, f"{at}{mark}", *self._columns[at], self._readers[at])
                at += 1
        for at in range(count):
            code.add(f"n{at}{mark} = len(c{at}{mark})")
        code.add(f"size{mark} = {' + '.join(f'n{at}{mark}' for at in range(count))}")
        return _Read.of(count, mark)


def _read(code: _Code, at: str, log: LogType, printing: Printing, read: Reader) -> None:
    """Reads column `at` into c{at}."""
    counts = counted_size(log, printing)
    if log.number in INTEGERS and not printing.width:
        size, signed, _ = INTEGERS[log.number]
        _read_integer(code, at, size, printing.kind == signed)
    elif counts:
        code.add(f"a{at} = {code.base} + {code.more + counts}")
        code.add(f"e{at} = a{at} + {code.number(counts, 'little')}")
        code.add(f"c{at} = data[a{at}:e{at}]")
        code.go_to(f"e{at}")
    elif size := _read_in_place(code, at, log, printing):
        code.more += size
    else:
        code.add(f"c{at}, e{at} = {code.name('read', read)}(data, {code.here})")
        code.go_to(f"e{at}")


def _read_in_place(code: _Code, at: str, log: LogType, printing: Printing) -> int:
    """Reads column `at` into c{at}, if it is of one of these types; answers how many bytes it has. As `reader` does it."""
    if log.number == 10 and printing.kind == Kind.DATE:
        code.add(f"c{at} = {code.name('dates', DATES)}[{code.number(3, 'little')}]")
        return 3
    if log.number == 18 and printing.kind == Kind.DATETIME:
        code.add(f"v = {code.number(5, 'big')} - {0x8000000000}")
        code.add(f"c{at} = {code.name('months', MONTHS)}[v >> 17] + {code.name('clock', CLOCK)}[v & {0x1FFFF}]{_fraction(code, log.meta[0], 5)}")
        return 5 + fraction_bytes(log.meta[0])
    if log.number == 17 and printing.kind == Kind.TIMESTAMP:
        code.add(f"v = {code.number(4, 'big')}")
        # no second may be a date of zeros, which the reader knows
        text = f"{code.name('days', DAYS)}[v // 86400] + {code.name('seconds', SECONDS)}[v % 86400]{_fraction(code, log.meta[0], 4)}"
        code.add(f"c{at} = {text} if v else {code.name('read', reader(log, printing))}(data, {code.here})[0]")
        return 4 + fraction_bytes(log.meta[0])
    if log.number == 246 and printing.kind == Kind.DECIMAL and not printing.width:
        size = decimal_size(*log.meta)
        code.add(f"c{at} = {code.name('decimal', decimal_reader(*log.meta))}(data[{code.here}:{code.base} + {code.more + size}])")
        return size
    if log.number == 5 and printing.kind == Kind.FLOAT64 and printing.places is None and not printing.width:
        code.add(f"v, = {code.name('unpack', struct.Struct('<d').unpack_from)}(data, {code.here})")
        # between these Python prints what the server does
        code.add(f"c{at} = repr(v).removesuffix('.0').encode() if 1e-4 <= v < 1e15 else {code.name('read', reader(log, printing))}(data, {code.here})[0]")
        return 8
    if log.number == 254 and printing.kind == Kind.ENUM and real_type(log)[0] == 247:
        size = real_type(log)[1]
        code.add(f"c{at} = {code.name('labels', (b'', *printing.labels))}[{code.number(size, 'little')}]")
        return size
    return 0


def _fraction(code: _Code, digits: int, behind: int) -> str:
    """What adds the digits behind the point, which stand so many bytes from here on."""
    if not digits:
        return ""
    code.more += behind
    text = f" + {code.name('fractions', fractions(digits))}[{code.number(fraction_bytes(digits), 'big')}]"
    code.more -= behind
    return text


def _read_integer(code: _Code, at: str, size: int, signed: bool) -> None:
    if size == 1:
        code.add(f"c{at} = {code.name('texts', TEXTS[signed])}[data[{code.here}]]")
    elif size == 3:
        code.add(f"c{at} = b'%d' % from_bytes(data[{code.here}:{code.base} + {code.more + 3}], 'little', signed={signed})")
    else:
        code.add(f"v, = {code.name('unpack', struct.Struct('<' + FORMATS[size, signed]).unpack_from)}(data, {code.here})")
        # (no bytes are made of a number as fast as of its text)
        code.add(f"c{at} = f'{{v}}'.encode()")
    code.more += size


COUNTS = {1: "B", 2: "H", 4: "I"}
"""The formats of the counts before bytes."""


def _together(columns: list[tuple[LogType, Printing]]) -> list[tuple[str, int]]:
    """How the first of these columns are read at once, each by its format and size: integers, and the count of bytes behind them."""
    run = []
    for log, printing in columns:
        size, signed, _ = INTEGERS.get(log.number, (0, None, None))
        if (size, True) in FORMATS and not printing.width:
            run.append((FORMATS[size, printing.kind == signed], size))
            continue
        if (size := counted_size(log, printing)) in COUNTS:
            run.append(("", size))
        break
    return run


def _read_together(code: _Code, at: int, mark: str, run: list[tuple[str, int]]) -> None:
    """Reads columns that stand together."""
    pack = struct.Struct("<" + "".join(form or COUNTS[size] for form, size in run))
    code.add(f"{', '.join(f'v{place}' for place in range(len(run)))} = {code.name('unpack', pack.unpack_from)}(data, {code.here})")
    code.more += pack.size
    for place, (form, size) in enumerate(run):
        name = f"{at + place}{mark}"
        if not form:
            code.add(f"a{name} = {code.here}")
            code.add(f"e{name} = a{name} + v{place}")
            code.add(f"c{name} = data[a{name}:e{name}]")
            code.go_to(f"e{name}")
        else:
            code.add(f"c{name} = {code.name('texts', BYTES[form])}[v{place}]" if size == 1 else f"c{name} = f'{{v{place}}}'.encode()")


def put_together(cells: list[Bytes | None]) -> bytes | Parts:
    """The Row message of these cells: in parts where it is large. LongRow where it is above the limit."""
    lengths = b"".join([b"\1" if cell is None else sized(2 * len(cell)) for cell in cells])
    size = sum([len(cell) for cell in cells if cell])
    parts = [bytes([LENGTHS]) + sized(len(lengths)) + lengths + (bytes([VALUES]) + sized(size) if size else b""), *filter(None, cells)]
    whole = size + len(parts[0])
    if whole > MOST_OF_ROW:
        raise LongRow
    return Parts(parts, whole) if whole >= LARGE else b"".join(parts)


def _of_any_row(readers: list[Reader], check: Callable[[list[Bytes | None]], None] = lambda _: None) -> Image:
    size = (len(readers) + 7) // 8

    def image(data: Bytes, at: int) -> tuple[bytes | Parts, int]:
        nulls = int.from_bytes(data[at:at + size], "little")
        at += size
        cells = []
        for read in readers:
            if nulls & 1:
                cells.append(None)
            else:
                cell, at = read(data, at)
                cells.append(cell)
            nulls >>= 1
        if at > len(data):
            raise IndexError("a row is cut short")
        check(cells)
        return put_together(cells), at

    return image
