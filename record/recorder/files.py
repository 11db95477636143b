"""Files that nobody loses: one lock a file, and new ones that take their place whole.

A new file is made in its folder under a name of its own, .NAME.PID-NUMBER.new, exclusively and through no
link; it is written, synced, put in its place, and the folder is synced. Whoever holds a file's lock may take
away what killed ones left under such names.
"""
import errno
import fcntl
import itertools
import os
import re
import stat
from collections.abc import Iterator
from contextlib import contextmanager, suppress

from .ending import Held
from .stop import Stop, Taken

_NUMBERS = itertools.count(1)
_NO_LINKS = {errno.EPERM, errno.EOPNOTSUPP, errno.ENOSYS, errno.EMLINK}
"""How a file system says that a file may have one name only."""
PIECE = 2**20


@contextmanager
def writing(path: str, todo: str = "") -> Iterator[None]:
    """Stops where what stands within can't be done to a file."""
    try:
        yield
    except OSError as fault:
        raise not_written(path, fault, todo) from None


def not_written(path: str, fault: OSError, todo: str = "") -> Stop:
    return Stop("no file can be written", f"at {path}", f"{fault.strerror or fault}{todo and '; ' + todo}")


class Lock:
    """The one lock of a file: flock on FILE.lock beside it, which is made where it isn't there, and stays as long as the
    file does. Use it with `with`, and begin it in `Held`."""

    def __init__(self, path: str) -> None:
        self._path, self._name = path, f"{path}.lock"

    def __enter__(self) -> "Lock":
        with writing(self._name):
            while not self._take():
                pass
        return self

    def _take(self) -> bool:
        """Whether the lock was taken of the file that has the name, and not of one that lost it meanwhile."""
        self._file = os.open(self._name, os.O_RDWR | os.O_CREAT | os.O_NOFOLLOW | os.O_NONBLOCK | os.O_CLOEXEC, 0o666)
        taken = False
        try:
            self._lock()
            taken = is_at(self._file, self._name)
        except BlockingIOError:
            raise Taken("another recording writes this feed", f"at {self._path}", f"it holds {self._name}; let it end, or end it") from None
        finally:
            if not taken:
                os.close(self._file)
        return taken

    def _lock(self) -> None:
        """Locks the file. BlockingIOError where another one has it."""
        fcntl.flock(self._file, fcntl.LOCK_EX | fcntl.LOCK_NB)

    def __exit__(self, *_: object) -> None:
        with Held(), suppress(OSError):
            if kind_at(self._path) == "nothing" and is_at(self._file, self._name):
                os.unlink(self._name)
            os.close(self._file)


def is_at(file: int, path: str) -> bool:
    """Whether an open file is the one that has this name."""
    try:
        there = os.stat(path, follow_symlinks=False)
    except FileNotFoundError:
        return False
    return os.path.samestat(there, os.fstat(file))


def kind_at(path: str) -> str:
    """What has this name: a file, a link, a folder or device, or nothing."""
    try:
        mode = os.stat(path, follow_symlinks=False).st_mode
    except FileNotFoundError:
        return "nothing"
    return "a file" if stat.S_ISREG(mode) else "a link" if stat.S_ISLNK(mode) else "a folder or device"


def open_file(path: str, mode: int) -> int:
    """Opens a regular file that is there. OSError where it is none, or a link."""
    file = os.open(path, mode | os.O_NOFOLLOW | os.O_NONBLOCK | os.O_CLOEXEC)
    if not stat.S_ISREG(os.fstat(file).st_mode):
        os.close(file)
        raise OSError(errno.EINVAL, "it is no regular file")
    return file


def read_file(path: str) -> bytes:
    """The bytes of a regular file."""
    file = open_file(path, os.O_RDONLY)
    try:
        with open(file, "rb", closefd=False) as read:
            return read.read()
    finally:
        os.close(file)


def _parts(path: str) -> tuple[str, str]:
    folder, name = os.path.split(path)
    return folder or ".", name


def new_file(path: str) -> tuple[int, str]:
    """A new file that is to take a file's place, open, and its own name. It has the rights of the one that is there."""
    folder, name = _parts(path)
    while True:
        own = os.path.join(folder, f".{name}.{os.getpid()}-{next(_NUMBERS)}.new")
        with suppress(FileExistsError):
            file = os.open(own, os.O_RDWR | os.O_CREAT | os.O_EXCL | os.O_NOFOLLOW | os.O_CLOEXEC, 0o666)
            break
    try:
        _be_as(file, path)
    except BaseException:
        os.close(file)
        os.unlink(own)
        raise
    return file, own


def _be_as(file: int, path: str) -> None:
    """Gives a new file the rights of the one that is there, and its owner where this user may."""
    with suppress(FileNotFoundError):
        there = os.stat(path, follow_symlinks=False)
        with suppress(PermissionError):
            os.fchown(file, there.st_uid, there.st_gid)
        os.fchmod(file, stat.S_IMODE(there.st_mode))


def held_path(feed: str) -> str:
    """The file that holds rows while they are copied or compared, beside a feed whose lock is held."""
    return feed + ".copy"


def left_files(path: str) -> list[str]:
    """The new files that were to take a file's place and were left by killed ones; its lock is held."""
    folder, name = _parts(path)
    form = re.compile(rf"\.{re.escape(name)}\.\d+-\w+\.new")
    return [os.path.join(folder, one) for one in sorted(os.listdir(folder)) if form.fullmatch(one) and kind_at(os.path.join(folder, one)) == "a file"]


def write_at(file: int, data: bytes, at: int) -> None:
    """Writes all of it at a place of a file."""
    left = memoryview(data)
    while left:
        wrote = os.pwrite(file, left, at)
        at, left = at + wrote, left[wrote:]


def put(own: str, path: str, over: bool) -> None:
    """Gives a synced new file its name, which another one has only where `over` says so. FileExistsError otherwise."""
    if over:
        os.rename(own, path)
    else:
        try:
            os.link(own, path, follow_symlinks=False)
        except OSError as fault:
            if fault.errno not in _NO_LINKS:
                raise
            if os.path.lexists(path):
                raise FileExistsError(errno.EEXIST, os.strerror(errno.EEXIST)) from None
            os.rename(own, path)
        else:
            os.unlink(own)
    sync_folder(path)


def sync_folder(path: str) -> None:
    """Makes the names in a file's folder last."""
    folder = os.open(_parts(path)[0], os.O_RDONLY | os.O_DIRECTORY | os.O_CLOEXEC)
    try:
        os.fsync(folder)
    finally:
        os.close(folder)
