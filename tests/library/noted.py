"""Notes each call of the library that the module makes, with its inputs and what came of it, in a file that tests/library/walk.c
goes through, without the interpreter."""
import ctypes
import os
import re
import struct

from vrepl import library
from vrepl.refused import Refused

HERE = os.path.dirname(os.path.abspath(__file__))
BAD_DUMP = 121


def forms():
    """By call what it takes and gives, as walk.c says it."""
    with open(os.path.join(HERE, "walk.c"), encoding="utf-8") as file:
        return {name: (takes, gives) for name, takes, gives in re.findall(r'\{"(vrepl_\w+)", "(\w+)", "(\w+)"', file.read())}


class Notes:
    """The file of the calls."""

    def __init__(self, path):
        self._file, self._texts, self._forms = open(path, "wb"), {}, forms()
        if set(self._forms) != set(library._CALLS):
            raise AssertionError(f"walk.c has the calls {sorted(self._forms)}")

    def close(self):
        self._file.close()

    def _text(self, there):
        """The number of a text, which is written before its first use."""
        if there not in self._texts:
            self._texts[there] = len(self._texts) + 1
            self._file.write(struct.pack("<QQ", 0, len(there)) + there)
        return self._texts[there]

    def made(self, name, *given):
        """Makes a call as the module does, and notes it."""
        answer = getattr(library.library(), name)(*given)
        numbers = self._numbers(name, list(given), answer)
        if numbers:
            self._file.write(struct.pack(f"<{len(numbers)}Q", *numbers))
        if answer:
            raise Refused(answer)

    def _numbers(self, name, given, answer):
        """A call in numbers; None where a room was too small, behind which it is made again."""
        (takes, gives), numbers = self._forms[name], [self._text(name.encode())]
        for kind in takes:
            one = given.pop(0)
            if kind == "n":
                numbers.append(int(one) % 2**64)
            else:
                numbers.append(self._text(ctypes.string_at(one, 16 if kind == "u" else given.pop(0))))
        numbers.append(answer)
        for kind in gives:
            room, size = (given.pop(0), given.pop(0)) if kind == "r" else (None, 0)
            found = given.pop(0)._obj
            if answer != (BAD_DUMP if kind in "li" else 0):
                continue
            if kind == "c":
                numbers += [getattr(found, it) for it in library.COUNTS]
            elif kind == "r" and found.value > size:
                return None
            else:
                numbers.append(self._text(ctypes.string_at(room, found.value)) if kind == "r" else int(found.value))
        return numbers


def note_calls(path):
    """From now on the module's calls are noted in a file; answers it, to be closed."""
    notes = Notes(path)
    library._made = notes.made
    return notes
