"""How a command of this folder ends: with one line and a status."""
import os
import sys
from collections.abc import Callable

from recorder.ending import tell
from recorder.stop import Stop

PACKAGES = "python3-aiohttp, python3-prometheus-client and python3-pymysql"


def run(name: str, main: Callable[[], int]) -> int:
    """The status of a command, which ends with one line where it can't do what was asked."""
    for stream in filter(None, (sys.stdout, sys.stderr)):
        stream.reconfigure(errors="backslashreplace")
    try:
        return main()
    except Stop as stop:
        line = str(stop)
    except OSError as fault:
        line = f"{fault.filename or 'a file'}: {fault.strerror or fault}"
    except ModuleNotFoundError as missing:
        line = f"Python has no module {missing.name}: install Debian's {PACKAGES}"
    except KeyboardInterrupt:
        line = "ended by SIGINT"
    except MemoryError:
        line = "no memory is left"
    except Exception as fault:  # noqa: BLE001
        line = f"a fault of serve/{name} itself ({_place(fault)}: {fault!r}): report it"
    tell(f"{name}: {line}")
    return 1


def _place(fault: Exception) -> str:
    trace = fault.__traceback__
    while trace and trace.tb_next:
        trace = trace.tb_next
    return f"{os.path.basename(trace.tb_frame.f_code.co_filename)}:{trace.tb_lineno}" if trace else "nowhere"
