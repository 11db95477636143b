"""Decimal numbers and floats, from the log's bytes to the text that the server prints.

Sources: MariaDB's strings/decimal.c (decimal2bin) and strings/dtoa.c (my_gcvt, my_fcvt).
"""
from collections.abc import Callable
from decimal import Decimal

# how many bytes hold the first 0 to 9 digits of a group
GROUP_BYTES = (0, 1, 1, 2, 2, 3, 3, 4, 4, 4)


def decimal_size(precision: int, scale: int) -> int:
    """How many bytes a DECIMAL(precision, scale) has in the log."""
    whole = precision - scale
    return whole // 9 * 4 + GROUP_BYTES[whole % 9] + scale // 9 * 4 + GROUP_BYTES[scale % 9]


def decimal_reader(precision: int, scale: int) -> Callable[[bytes], bytes]:
    """Makes the text of a DECIMAL from its `decimal_size` bytes: big-endian groups of nine digits, those with fewer at the ends,
    the first bit the sign's inverse, and all bits inverted where the number is negative."""
    whole, size = precision - scale, decimal_size(precision, scale)
    fraction, bits = _sum([*[9] * (scale // 9), scale % 9], 0)
    units, _ = _sum([whole % 9, *[9] * (whole // 9)], bits)
    top, every = 1 << 8 * size - 1, (1 << 8 * size) - 1
    digits = eval(f"lambda stored: f'{{{units}}}{f'.{{{fraction}:0{scale}d}}' if scale else ''}'.encode()")  # noqa: S307
    from_bytes = int.from_bytes

    def text_of(data: bytes) -> bytes:
        stored = from_bytes(data, "big") ^ top
        return b"-" + digits(stored ^ every) if stored & top else digits(stored)

    return text_of


def _sum(groups: list[int], bits: int) -> tuple[str, int]:
    """The number that groups of so many digits are, of which the last one stands before so many bits; and before how many the first
    one begins."""
    parts, digits = [], 0
    for group in filter(None, reversed(groups)):
        parts.append(f"(stored >> {bits} & {(1 << 8 * GROUP_BYTES[group]) - 1}) * {10**digits}")
        bits, digits = bits + 8 * GROUP_BYTES[group], digits + group
    return " + ".join(parts) or "0", bits


def float_text(number: float, digits: int) -> bytes:
    """The text of a float: its shortest digits, at most so many (6 of a FLOAT, 17 of a DOUBLE), without an
    exponent where the point stands at most 15 digits away, or amid the digits."""
    # between these Python prints what the server does
    if 1e-4 <= number < 1e15 or -1e15 < number <= -1e-4:
        plain = repr(number) if digits >= 17 else f"{number:.{digits}g}"
        if "e" not in plain:
            return plain.removesuffix(".0").encode()
    if number == 0:
        return b"-0" if str(number).startswith("-") else b"0"
    shortest = repr(number) if digits >= 17 else f"{number:.{digits - 1}e}"
    sign, places, exponent = Decimal(shortest).normalize().as_tuple()
    text = "".join(map(str, places))
    point = len(text) + int(exponent)
    if -15 < point <= 15 or 0 < point < len(text):
        if point <= 0:
            text = "0." + "0" * -point + text
        elif point >= len(text):
            text += "0" * (point - len(text))
        else:
            text = f"{text[:point]}.{text[point:]}"
    else:
        text = text[0] + (f".{text[1:]}" if len(text) > 1 else "") + f"e{point - 1}"
    return (b"-" if sign else b"") + text.encode()


def fixed_text(number: float, places: int) -> bytes:
    """The text of a float with so many places, as of FLOAT(7,2): its shortest digits, filled with zeros, where
    they have no more places than these; else the number itself, rounded to them. A FLOAT's digits are those
    of the DOUBLE that it equals."""
    shortest = Decimal(repr(number)).normalize()
    return f"{number if -int(shortest.as_tuple().exponent) > places else shortest:.{places}f}".encode()
