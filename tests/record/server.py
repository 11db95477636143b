"""A private MariaDB server in a temporary folder: its own socket, no network, its binary log on."""
import ctypes
import os
import pwd
import shutil
import signal
import subprocess
import tempfile
import time

PLACES = os.environ.get("PATH", "") + ":/usr/sbin:/usr/local/sbin:/sbin"
SETTINGS = ["--skip-networking", "--log-slave-updates", "--log-bin=binlog", "--binlog-format=ROW", "--binlog-row-image=FULL",
            "--binlog-row-metadata=FULL", "--max-binlog-size=256K", "--innodb-buffer-pool-size=32M", "--innodb-log-file-size=16M",
            "--innodb-flush-log-at-trx-commit=0", "--sync-binlog=0", "--innodb-lock-wait-timeout=60", "--performance-schema=OFF",
            "--innodb-print-all-deadlocks=OFF", "--character-set-server=utf8mb4"]  # fmt: skip
DIE_WITH_PARENT = 1
PATIENCE = 600
"""The seconds that anything may take: a machine that is busy otherwise isn't a fault."""


def command(name: str) -> str | None:
    return shutil.which(name, path=PLACES)


def is_installed() -> bool:
    return all(command(name) for name in ("mariadbd", "mariadb-install-db", "mariadb"))


def _unprivileged() -> str | None:
    """As whom the server runs where this is root, which it refuses to run as."""
    if os.geteuid():
        return None
    names = {one.pw_name for one in pwd.getpwall()}
    return next(name for name in ("mysql", "nobody") if name in names)


def die_with_parent() -> None:
    """For a process that is begun: it ends where this one is killed."""
    ctypes.CDLL(None).prctl(DIE_WITH_PARENT, signal.SIGKILL)


class Server:
    """Use it with `with`: the server and its folder are gone afterwards, the server also where the test is killed. `number` is the
    one by which it is known among others; `more` are further settings of it."""

    def __init__(self, number: int = 7, *more: str) -> None:
        self._number, self._more = number, more

    def __enter__(self) -> "Server":
        # a socket's path is short, and the server, which may run as another user, has to reach it
        self.folder = tempfile.mkdtemp(prefix="vrepl-record-", dir="/tmp")
        self.socket = os.path.join(self.folder, "s")
        # a server that begins takes away what another one has among the temporary files
        self._told = {**os.environ, "TMPDIR": self.folder}
        self._process = None
        try:
            self._start()
        except BaseException:
            self.__exit__()
            raise
        return self

    def _start(self) -> None:
        user = _unprivileged()
        data = os.path.join(self.folder, "data")
        os.mkdir(data)
        if user:
            os.chmod(self.folder, 0o755)
            for path in (self.folder, data):
                shutil.chown(path, user)
        words = [command("mariadb-install-db"), "--no-defaults", f"--datadir={data}", "--auth-root-authentication-method=normal", "--skip-test-db"]
        made = subprocess.run([*words, *([f"--user={user}"] if user else [])], stdin=subprocess.DEVNULL, capture_output=True, text=True, timeout=PATIENCE,
                              env=self._told)  # fmt: skip
        if made.returncode:
            raise RuntimeError(f"mariadb-install-db: {made.stdout[-500:]}{made.stderr[-500:]}")
        self._log = open(os.path.join(self.folder, "log"), "wb")  # noqa: SIM115
        self._begin()

    def restart(self) -> None:
        """Kills the server, and begins it again."""
        self._process.kill()
        self._process.wait()
        self._begin()

    def _begin(self) -> None:
        user, data = _unprivileged(), os.path.join(self.folder, "data")
        # (a server that begins takes away what others have in a folder of theirs that it has too)
        how = {"user": user, "group": pwd.getpwnam(user).pw_gid, "extra_groups": []} if user else {}
        self._process = subprocess.Popen(
            [command("mariadbd"), "--no-defaults", f"--datadir={data}", f"--socket={self.socket}", f"--pid-file={self.folder}/pid", f"--tmpdir={data}",
             f"--server-id={self._number}", *SETTINGS, *self._more],
            stdin=subprocess.DEVNULL, stdout=self._log, stderr=self._log, preexec_fn=die_with_parent, env=self._told, **how)  # fmt: skip
        begun = time.monotonic()
        while self._process.poll() is None and time.monotonic() - begun < PATIENCE:
            if self.sql("SELECT 1", check=False).returncode == 0:
                return
            time.sleep(0.05)
        with open(self._log.name, encoding="utf-8", errors="replace") as log:
            raise RuntimeError(f"mariadbd doesn't answer: {log.read()[-800:]}")

    def number(self) -> int:
        """The process's."""
        return self._process.pid

    def sql(self, text: str, check: bool = True) -> subprocess.CompletedProcess:
        """Runs statements with the client, as `record/select` wants it; stdout is bytes."""
        done = subprocess.run([command("mariadb"), "--no-defaults", f"--socket={self.socket}", "--user=root", "--batch", "--raw", "--skip-column-names"],
                              input=text.encode(), capture_output=True, timeout=PATIENCE)  # fmt: skip
        if check and done.returncode:
            raise RuntimeError(f"{text[:200]}: {done.stderr.decode()}")
        return done

    def purge(self, log: str) -> None:
        """Begins another log and purges those before the named one, which the server does only some time after they were last needed."""
        self.sql("FLUSH BINARY LOGS")
        begun = time.monotonic()
        while time.monotonic() - begun < PATIENCE:
            if self.sql(f"PURGE BINARY LOGS TO '{log}'; SHOW BINARY LOGS").stdout.startswith(log.encode()):
                return
            time.sleep(0.1)
        raise RuntimeError(f"the logs before {log} aren't purged")

    def __exit__(self, *_: object) -> None:
        if self._process:
            # nothing of it is wanted again, so it needn't close its files
            self._process.kill()
            self._process.wait()
            self._log.close()
        shutil.rmtree(self.folder, ignore_errors=True)
