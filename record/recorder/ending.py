"""How a command of the recorder ends: with one line and a status, whatever happens to it.

SIGINT, SIGTERM and SIGHUP raise Ended where the program then is, but not within `Held`: what stands there is
done as a whole, and they are raised behind it; and where Python drops what is raised, in a callback of its own, they are raised
once more a moment later. This module is imported before all others of the recorder,
none of which it needs, so that a signal finds it also while they are read. An import is such a whole: a module of
C that is ended amid its beginning can take Python down with it.
"""
import builtins
import os
import signal
import sys
from collections.abc import Callable
from types import FrameType

from .stop import Stop, on_one_line

SIGNALS = (signal.SIGINT, signal.SIGTERM, signal.SIGHUP)
AGAIN = 0.01
"""The seconds behind which a signal is raised again that was dropped."""


class Ended(BaseException):
    """A signal asked for the end; the text is its name."""


class _Signals:
    def __init__(self) -> None:
        self.asked, self.held, self.over, self.is_lost = "", 0, False, False

    def begin(self) -> None:
        for number in SIGNALS:
            # nohup and shells without job control leave some ignored, and so they stay
            if signal.getsignal(number) != signal.SIG_IGN:
                signal.signal(number, self._meet)
        bring = builtins.__import__

        def brought(*words: object, **named: object) -> object:
            with Held():
                return bring(*words, **named)

        builtins.__import__ = brought
        beside = sys.unraisablehook

        def lost(told: object) -> None:
            # Python drops what is raised in a callback of its own: it is raised again a moment later
            if isinstance(told.exc_value, Ended):
                self.is_lost = True
                signal.setitimer(signal.ITIMER_REAL, AGAIN)
            else:
                beside(told)

        sys.unraisablehook = lost
        signal.signal(signal.SIGALRM, self._again)

    def _meet(self, number: int, _: FrameType | None) -> None:
        self.asked = signal.Signals(number).name
        self.check()

    def _again(self, *_: object) -> None:
        if self.is_lost:
            self.check()

    def end(self) -> None:
        """From here on all is done: Python's own end, which gives each signal back its first meaning, has none to meet."""
        self.over = True
        signal.signal(signal.SIGALRM, signal.SIG_IGN)
        for number in SIGNALS:
            if signal.getsignal(number) == self._meet:
                signal.signal(number, signal.SIG_IGN)

    def check(self) -> None:
        if self.asked and self.held <= 0 and not self.over:
            self.is_lost = False
            raise Ended(self.asked)


_SIGNALS = _Signals()


class Held:
    """Use it with `with`: no signal ends what stands in it. Behind it, one that came is raised."""

    def __enter__(self) -> None:
        _SIGNALS.held += 1

    def __exit__(self, kind: type | None, *_: object) -> None:
        _SIGNALS.held -= 1
        if kind is None:
            _SIGNALS.check()


class Waiting(Held):
    """Use it with `with`, for a wait in a library that a signal may not leave in its midst: another thread ends the wait where
    `is_over`, and behind it the signal is raised."""

    def __enter__(self) -> "Waiting":
        super().__enter__()
        return self

    def is_over(self) -> bool:
        """Whether a signal asked for the end, and nothing around this is done as a whole."""
        return bool(_SIGNALS.asked) and _SIGNALS.held <= 1


class Free:
    """Use it with `with`, within `Held`: what stands in it a signal ends, and all that is done behind it is done as a whole."""

    def __enter__(self) -> None:
        _SIGNALS.held -= 1
        try:
            _SIGNALS.check()
        except Ended:
            _SIGNALS.held += 1
            raise

    def __exit__(self, *_: object) -> None:
        _SIGNALS.held += 1


class Last(Held):
    """The last thing that a command does: a signal that comes within or behind it is too late."""

    def __exit__(self, kind: type | None, *_: object) -> None:
        _SIGNALS.over = _SIGNALS.over or kind is None
        _SIGNALS.held -= 1


def tell(text: str) -> None:
    """Prints a line to standard error, if there still is one."""
    show(on_one_line(text) + "\n")


def show(text: str) -> None:
    """Prints to standard error what stands, if there still is one."""
    try:
        if sys.stderr:
            print(text, end="", file=sys.stderr, flush=True)
    except OSError:
        _drop(sys.stderr)


def say(text: str) -> None:
    """Prints to standard output. Stops where that can't be written."""
    try:
        if sys.stdout:
            print(text, end="", flush=True)
    except OSError as fault:
        _drop(sys.stdout)
        raise Stop("standard output can't be written", "", fault.strerror) from None


def _drop(stream) -> None:
    """What the stream still holds goes nowhere, so that Python's own end doesn't meet the fault again."""
    os.dup2(os.open(os.devnull, os.O_WRONLY), stream.fileno())


def run(name: str, main: Callable[[], int]) -> int:
    """The status of a command, which ends with one line where it can't do what was asked."""
    try:
        _SIGNALS.begin()
        for number in range(3):
            _fill(number)
        for stream in filter(None, (sys.stdout, sys.stderr)):
            stream.reconfigure(errors="backslashreplace")
        status = _answered(main)
        say("")
        _SIGNALS.end()
        return status
    except Stop as stop:
        line = str(stop)
    except Ended as ended:
        line = f"ended by {ended}"
    except OSError as fault:
        line = f"{fault.filename or 'a file'}: {fault.strerror or fault}"
    except MemoryError:
        line = "no memory is left"
    except ModuleNotFoundError as missing:
        line = f"Python has no module {missing.name}: install Debian's python3-pymysql and python3-protobuf"
    except Exception as fault:  # noqa: BLE001
        line = f"a fault of record/{name} itself ({_place(fault)}: {fault!r}): report it"
    _SIGNALS.end()
    tell(f"{name}: {line}")
    return 1


def _answered(main: Callable[[], int]) -> int:
    try:
        return main()
    except SystemExit as end:
        # of argparse, which has said why
        return end.code


def _fill(number: int) -> None:
    """Standard input, output or error, where it is closed, so that no file of ours takes its number."""
    try:
        os.fstat(number)
    except OSError:
        os.open(os.devnull, os.O_RDWR)


def _place(fault: Exception) -> str:
    trace = fault.__traceback__
    while trace and trace.tb_next:
        trace = trace.tb_next
    return f"{os.path.basename(trace.tb_frame.f_code.co_filename)}:{trace.tb_lineno}" if trace else "nowhere"
