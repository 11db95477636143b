"""A column's value in a row event, to the bytes that the server prints for it.

Sources: MariaDB's sql/log_event.cc (`log_event_print_value`) and sql/field.cc (`pack`, `val_str`), and
"Rows_event" of MariaDB's replication protocol. TIMESTAMP is printed in UTC.
"""
import struct
from collections.abc import Callable
from dataclasses import dataclass
from datetime import UTC, datetime

from recorder.catalogue import Printing
from recorder.events import Bytes
from recorder.kinds import Kind

from .numbers import decimal_reader, decimal_size, fixed_text, float_text

Reader = Callable[[Bytes, int], tuple[Bytes, int]]
"""Reads a value that isn't NULL: answers what the server prints, and where the value ends.
IndexError or struct.error where the bytes end inside the value."""


class UnknownType(Exception):
    """The log has a type that this column's kind isn't read from; the text says which."""


@dataclass(frozen=True)
class LogType:
    """A column's type in a table map: its number (field types of MySQL's protocol) and its metadata bytes."""

    number: int
    meta: bytes


INTEGERS = {
    1: (1, Kind.INT8, Kind.UINT8),
    2: (2, Kind.INT16, Kind.UINT16),
    9: (3, Kind.INT24, Kind.UINT24),
    3: (4, Kind.INT32, Kind.UINT32),
    8: (8, Kind.INT64, Kind.UINT64),
}
"""By the log's type the bytes, and the kinds with a sign and without."""


def _integer(size: int, signed: bool, width: int) -> Reader:
    def read(data: Bytes, at: int) -> tuple[Bytes, int]:
        end = at + size
        number = int.from_bytes(data[at:end], "little", signed=signed)
        return b"%0*d" % (width, number) if width else b"%d" % number, end

    return read


def _counted(size: int, least: int = 0) -> Reader:
    """Bytes behind their count, which has `size` bytes; made up with 00 to `least`."""

    def read(data: Bytes, at: int) -> tuple[Bytes, int]:
        start = at + size
        end = start + int.from_bytes(data[at:start], "little")
        if end > len(data):
            raise IndexError("a value is cut short")
        return bytes(data[start:end]).ljust(least, b"\0") if least else data[start:end], end

    return read


def fraction_bytes(digits: int) -> int:
    return (digits + 1) // 2


def _fraction(value: int, digits: int) -> bytes:
    """The digits behind the point, of a value whose unit is that of the stored bytes."""
    return b"." + (b"%0*d" % (fraction_bytes(digits) * 2, value))[:digits] if digits else b""


class Texts(dict):
    """Texts by what they are of, of which the same come again and again: no more are kept than these."""

    MOST = 2**16

    def __init__(self, made: Callable[[int], bytes]) -> None:
        self._made = made

    def __missing__(self, of: int) -> bytes:
        if len(self) >= self.MOST:
            self.clear()
        self[of] = text = self._made(of)
        return text


def fractions(digits: int) -> Texts:
    """The digits behind the point, with it, of what is stored of them."""
    return Texts(lambda value: _fraction(value, digits))


CLOCK = Texts(lambda bits: b"%02d:%02d:%02d" % (bits >> 12, bits >> 6 & 63, bits & 63))
"""Of hours, and minutes and seconds of six bits each."""
SECONDS = Texts(lambda seconds: b"%02d:%02d:%02d" % (seconds // 3600, seconds // 60 % 60, seconds % 60))
DAYS = Texts(lambda days: f"{datetime.fromtimestamp(days * 86400, UTC):%Y-%m-%d} ".encode())
"""Of the days since 1970."""
DATES = Texts(lambda bits: b"%04d-%02d-%02d" % (bits >> 9, bits >> 5 & 15, bits & 31))
MONTHS = Texts(lambda bits: b"%04d-%02d-%02d " % (bits // 32 // 13, bits // 32 % 13, bits & 31))
"""Of months since the year 0, of which a year has thirteen, and days of five bits."""


def _date(data: Bytes, at: int) -> tuple[bytes, int]:
    return DATES[int.from_bytes(data[at:at + 3], "little")], at + 3


def _year(digits: int) -> Reader:
    def read(data: Bytes, at: int) -> tuple[Bytes, int]:
        year = 1900 + data[at] if data[at] else 0
        return (b"%02d" % (year % 100) if digits == 2 else b"%04d" % year), at + 1

    return read


def _time(digits: int) -> Reader:
    size, more = 3 + fraction_bytes(digits), 8 * fraction_bytes(digits)

    def read(data: Bytes, at: int) -> tuple[Bytes, int]:
        value = int.from_bytes(data[at:at + size], "big") - (0x800000 << more)
        sign, value = (b"-", -value) if value < 0 else (b"", value)
        return sign + CLOCK[value >> more & 0x3FFFFF] + _fraction(value & (1 << more) - 1, digits), at + size

    return read


def _datetime(digits: int) -> Reader:
    more = fraction_bytes(digits)

    def read(data: Bytes, at: int) -> tuple[Bytes, int]:
        value = int.from_bytes(data[at:at + 5], "big") - 0x8000000000
        text = MONTHS[value >> 17] + CLOCK[value & 0x1FFFF]
        if not digits:
            return text, at + 5
        end = at + 5 + more
        return text + _fraction(int.from_bytes(data[at + 5:end], "big"), digits), end

    return read


def _timestamp(digits: int) -> Reader:
    more = fraction_bytes(digits)

    def read(data: Bytes, at: int) -> tuple[Bytes, int]:
        seconds = int.from_bytes(data[at:at + 4], "big")
        end = at + 4 + more
        fraction = int.from_bytes(data[at + 4:end], "big")
        text = DAYS[seconds // 86400] + SECONDS[seconds % 86400] if seconds or fraction else b"0000-00-00 00:00:00"
        return text + _fraction(fraction, digits) if digits else text, end

    return read


def _float(pattern: str, digits: int, printing: Printing) -> Reader:
    form, places, width = struct.Struct(pattern), printing.places, printing.width
    size = form.size

    def read(data: Bytes, at: int) -> tuple[Bytes, int]:
        (number,) = form.unpack_from(data, at)
        return float_text(number, digits), at + size

    def read_fixed(data: Bytes, at: int) -> tuple[Bytes, int]:
        (number,) = form.unpack_from(data, at)
        text = float_text(number, digits) if places is None else fixed_text(number, places)
        return text.zfill(width), at + size

    return read if places is None and not width else read_fixed


def _decimal(precision: int, scale: int, width: int) -> Reader:
    size, text_of = decimal_size(precision, scale), decimal_reader(precision, scale)
    if width:
        return lambda data, at: (text_of(data[at:at + size]).zfill(width), at + size)
    return lambda data, at: (text_of(data[at:at + size]), at + size)


def _label(size: int, labels: tuple[bytes, ...]) -> Reader:
    def read(data: Bytes, at: int) -> tuple[Bytes, int]:
        number = int.from_bytes(data[at:at + size], "little")
        return (labels[number - 1] if number else b""), at + size

    return read


def _labels(size: int, labels: tuple[bytes, ...], comma: bytes) -> Reader:
    def read(data: Bytes, at: int) -> tuple[Bytes, int]:
        bits, text = int.from_bytes(data[at:at + size], "little"), b""
        for bit, label in enumerate(labels):
            if bits >> bit & 1:
                # the server writes no comma behind nothing, so an empty label at the beginning has none
                text += comma + label if text else label
        return text, at + size

    return read


def real_type(log: LogType) -> tuple[int, int]:
    """The type that stands behind STRING (254), and its length: CHAR, BINARY, ENUM or SET."""
    first, length = log.meta
    if first & 0x30 != 0x30:
        return first | 0x30, length | ((first & 0x30) ^ 0x30) << 4
    return first, length


def counted_size(log: LogType, printing: Printing) -> int:
    """How many bytes the count of a value has whose bytes behind it are what the server prints; 0 of other types."""
    kind, meta = printing.kind, log.meta
    if log.number == 15 and kind in (Kind.VARCHAR, Kind.VARBINARY):
        return 2 if int.from_bytes(meta, "little") > 255 else 1
    if log.number == 252 and kind in (Kind.TEXT, Kind.BLOB):
        return meta[0]
    if log.number == 254 and kind == Kind.CHAR and real_type(log)[0] == 254:
        return 2 if real_type(log)[1] > 255 else 1
    return 0


def reader(log: LogType, printing: Printing) -> Reader:
    """How values of this log type and kind are read. UnknownType where the two don't fit."""
    kind, meta = printing.kind, log.meta
    match log.number:
        case number if number in INTEGERS:
            size, signed, unsigned = INTEGERS[number]
            if kind in (signed, unsigned):
                return _integer(size, kind == signed, printing.width)
        case 15 if kind in (Kind.VARCHAR, Kind.VARBINARY):
            return _counted(2 if int.from_bytes(meta, "little") > 255 else 1)
        case 252 if kind in (Kind.TEXT, Kind.BLOB):
            return _counted(meta[0])
        case 255 if kind == Kind.GEOMETRY:
            return _counted(meta[0])
        case 254:
            real, length = real_type(log)
            if real == 254 and kind in (Kind.CHAR, Kind.BINARY):
                return _counted(2 if length > 255 else 1, printing.width)
            if real == 247 and kind == Kind.ENUM:
                return _label(length, printing.labels)
            if real == 248 and kind == Kind.SET:
                return _labels(length, printing.labels, printing.comma)
        case 246 if kind == Kind.DECIMAL:
            return _decimal(*meta, printing.width)
        case 4 if kind == Kind.FLOAT32:
            return _float("<f", 6, printing)
        case 5 if kind == Kind.FLOAT64:
            return _float("<d", 17, printing)
        case 10 if kind == Kind.DATE:
            return _date
        case 13 if kind == Kind.YEAR:
            return _year(printing.width)
        case 16 if kind == Kind.BIT:
            size = meta[1] + (meta[0] > 0)
            return lambda data, at: (data[at:at + size], at + size)
        case 19 if kind == Kind.TIME:
            return _time(meta[0])
        case 18 if kind == Kind.DATETIME:
            return _datetime(meta[0])
        case 17 if kind == Kind.TIMESTAMP:
            return _timestamp(meta[0])
    raise UnknownType(f"type {log.number} where a {kind.name} was expected")
