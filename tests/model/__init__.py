"""What docs/FORMATS.md says, written plainly: the model that the program is compared with.

Rows are found by looking back at the list of changes, and nothing is kept sorted or merged in between.
"""
import sys

if hasattr(sys, "set_int_max_str_digits"):
    # numbers may have leading zeros of any length
    sys.set_int_max_str_digits(0)


class Refused(Exception):
    """A refusal, with the line that the program prints of it."""

    def __init__(self, number, details=b""):
        super().__init__(number)
        self.line = b"refused %d%s\n" % (number, details)


def cell(value):
    """A column as a dump prints it."""
    return b"N" if value is None else b"x" + value.hex().encode()
