"""Texts of a file as they are printed for a person: a name can neither forge a line nor speak to a terminal."""


def printable(text):
    """Each byte that isn't printable in ASCII as a question mark."""
    return bytes(byte if 32 <= byte <= 126 else 63 for byte in text)


def shown(text):
    """The first 200 bytes so."""
    return printable(text[:200])
