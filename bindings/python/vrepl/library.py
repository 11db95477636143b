"""The shared library, and how its calls are made. Every call is handed its memory and keeps none."""
import ctypes
import functools
import os
from collections.abc import Callable

from .refused import NoLibrary, Refused

_BYTES, _SIZE, _PLACE = ctypes.c_void_p, ctypes.c_size_t, ctypes.POINTER(ctypes.c_size_t)
_TEXT = _ROOM = (_BYTES, _SIZE)
_YES = ctypes.POINTER(ctypes.c_bool)
COUNTS = ("processed", "matching", "mismatched", "extra_source", "extra_target")


class Counts(ctypes.Structure):
    """vrepl_counts of include/vrepl.h."""

    _fields_ = [(name, ctypes.c_size_t) for name in COUNTS]


# The calls of include/vrepl.h that answer 0 or the number of a refusal.
_CALLS = {
    "vrepl_gtid_set": (*_TEXT, *_ROOM, _PLACE),
    "vrepl_gtid_contains": (*_TEXT, _BYTES, ctypes.c_uint64, _YES),
    "vrepl_gtid_is_within": (*_TEXT, *_TEXT, _YES),
    "vrepl_gtid_union": (*_TEXT, *_TEXT, *_ROOM, _PLACE),
    "vrepl_key_range": (*_TEXT, *_ROOM, _PLACE, *_ROOM, _PLACE),
    "vrepl_key_ranges_tile": (*_TEXT, _YES),
    "vrepl_key_range_holds": (*_TEXT, *_TEXT, _YES),
    "vrepl_vindex_id": (*_TEXT, ctypes.c_bool, *_TEXT, *_ROOM, _PLACE),
    "vrepl_message": (*_TEXT, _PLACE, _PLACE),
    "vrepl_workflow": (*_TEXT, _PLACE),
    "vrepl_workflow_check": (*_TEXT, ctypes.POINTER(ctypes.c_uint32), *_ROOM, _PLACE),
    "vrepl_workflow_rules": (*_TEXT, *_ROOM, _PLACE),
    "vrepl_plan": (*_TEXT, _SIZE, *_ROOM, _PLACE),
    "vrepl_row_passes": (*_TEXT, _SIZE, *_TEXT, *_TEXT, _YES),
    "vrepl_row_key": (*_TEXT, _SIZE, *_TEXT, *_TEXT, *_ROOM, _PLACE),
    "vrepl_dump": (*_TEXT, *_TEXT, _PLACE, _PLACE, *_ROOM, _PLACE),
    "vrepl_compare": (*_TEXT, *_TEXT, *_TEXT, _SIZE, ctypes.POINTER(Counts), _PLACE, _YES, *_ROOM, _PLACE),
    "vrepl_groups": (*_TEXT, *_TEXT, *_TEXT, *_ROOM, _PLACE),
}

_HERE = os.path.dirname(os.path.abspath(__file__))
_PLACES = [
    os.path.join(_HERE, "libvrepl.so"),
    os.path.join(_HERE, "..", "..", "..", "out", "library", "libvrepl.so"),
    "libvrepl.so",
]


@functools.cache
def library() -> ctypes.CDLL:
    """The library: that of VREPL_LIBRARY, else the one beside this module, in the checkout, or of the system."""
    given = os.environ.get("VREPL_LIBRARY")
    for place in [given] if given else _PLACES:
        if os.path.sep in place and not os.path.exists(place):
            continue
        try:
            found = ctypes.CDLL(place)
        except OSError:
            continue
        for name, arguments in _CALLS.items():
            call = getattr(found, name)
            call.argtypes, call.restype = list(arguments), ctypes.c_uint32
        found.vrepl_explain.argtypes, found.vrepl_explain.restype = [ctypes.c_uint64, *_ROOM], ctypes.c_size_t
        return found
    raise NoLibrary("libvrepl.so isn't there: `./release --library` builds it, and VREPL_LIBRARY names another place")


def _made(name: str, *given: object) -> None:
    number = getattr(library(), name)(*given)
    if number:
        raise Refused(number)


def text(given: str | bytes) -> tuple[bytes, int]:
    """A text or bytes as a call takes them."""
    there = given.encode() if isinstance(given, str) else bytes(given)
    return there, len(there)


def address(there: bytes) -> int:
    """Where bytes stand, as long as they are kept."""
    return ctypes.cast(ctypes.c_char_p(there), ctypes.c_void_p).value or 0


def yes(name: str, *given: object) -> bool:
    """What a call answers by yes or no."""
    found = ctypes.c_bool()
    _made(name, *given, ctypes.byref(found))
    return found.value


def number(name: str, *given: object) -> int:
    """A number that a call gives."""
    found = ctypes.c_size_t()
    _made(name, *given, ctypes.byref(found))
    return found.value


def numbers(name: str, *given: object) -> tuple[int, int]:
    """Two numbers that a call gives."""
    one, other = ctypes.c_size_t(), ctypes.c_size_t()
    _made(name, *given, ctypes.byref(one), ctypes.byref(other))
    return one.value, other.value


def _gives(call: Callable[..., None], rooms: int, size: int) -> list[bytes]:
    """What a call puts into rooms, which are made larger where they are too small."""
    while True:
        made = [(ctypes.create_string_buffer(size), ctypes.c_size_t()) for _ in range(rooms)]
        call(*[it for room, length in made for it in (ctypes.addressof(room), size, ctypes.byref(length))])
        most = max(length.value for _, length in made)
        if most <= size:
            return [room.raw[: length.value] for room, length in made]
        size = most


def rooms(name: str, *given: object, count: int = 1, size: int = 256) -> list[bytes]:
    """What a call puts into rooms behind its other arguments."""
    return _gives(functools.partial(_made, name, *given), count, size)


def words_of(number: int) -> str:
    """What is said of a refusal's number, or nothing."""
    size = 4096
    while True:
        room = ctypes.create_string_buffer(size)
        length = library().vrepl_explain(number, ctypes.addressof(room), size)
        if length <= size:
            return room.raw[:length].decode()
        size = length
