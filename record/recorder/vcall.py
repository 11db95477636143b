"""The call that asks VTGate for a stream: TLS, a user's name and password, and whether the other side is still there."""
import json
import os
import ssl
from collections.abc import Iterator
from dataclasses import dataclass
from threading import Event, Thread

from .ending import Held, Waiting
from .files import read_file
from .protos import Request
from .stop import Stop

# the library's own lines would stand among those of the command
os.environ.setdefault("GRPC_VERBOSITY", "NONE")
import grpc  # noqa: E402

METHOD = "/vtgateservice.Vitess/VStream"
OPTIONS = [("grpc.max_receive_message_length", -1), ("grpc.max_metadata_size", 1 << 20), ("grpc.keepalive_time_ms", 30_000),
           ("grpc.keepalive_timeout_ms", 20_000), ("grpc.http2.max_pings_without_data", 0)]  # fmt: skip
BEATS = 4
"""How many signs of life have to be missing in a row before the other side is taken for gone."""
LOOK = 0.1
"""The seconds between two looks at whether something came."""
MOST_OF_DETAILS = 300


class Over(Exception):
    """A stream that is over; whether it may be there again when it is asked for again."""

    def __init__(self, why: str, is_lost: bool) -> None:
        super().__init__(why)
        self.is_lost = is_lost


@dataclass(frozen=True)
class Server:
    """VTGate's address, how often it is to give a sign of life, in seconds, and what a client needs to be let in."""

    address: str
    heartbeat: int
    ca: str | None = None
    cert: str | None = None
    key: str | None = None
    login: str | None = None

    def check(self) -> None:
        """Stops where a file can't be what it has to be, of which the library would say less."""
        _read(self.ca, lambda context: context.load_verify_locations(cafile=self.ca))
        _read(self.cert, lambda context: context.load_cert_chain(self.cert, self.key, password=lambda: ""))
        self._credentials()

    def _channel(self) -> grpc.Channel:
        if not (self.ca or self.cert):
            return grpc.insecure_channel(self.address, OPTIONS)
        ca, key, cert = (path and _bytes_of(path) for path in (self.ca, self.key, self.cert))
        return grpc.secure_channel(self.address, grpc.ssl_channel_credentials(ca, key, cert), OPTIONS)

    def _credentials(self) -> list[tuple[str, str]]:
        """The user and the password, as VTGate's static authentication reads them, from a file as Vitess's own clients have it."""
        if not self.login:
            return []
        try:
            data = json.loads(_bytes_of(self.login))
            said = [("username", data["Username"]), ("password", data["Password"])]
        except (ValueError, KeyError, TypeError, RecursionError):
            said = []
        if not said or not all(isinstance(text, str) and text.isascii() and text.isprintable() for _, text in said):
            raise Stop("no user and password", f"in {self.login}", '{"Username": "..", "Password": ".."} is wanted, in printable ASCII')
        return said

    def answers(self, asked: Request) -> Iterator[bytes]:
        """What VTGate answers, each a VStreamResponse, until the stream is over."""
        channel = call = watch = why = None
        try:
            # a call that a signal ends amid its beginning can't be closed: the library would wait for it for ever
            with Held():
                channel = self._channel()
                call = channel.unary_stream(METHOD, Request.SerializeToString)(asked, metadata=self._credentials())
                watch = _Watch(call, BEATS * self.heartbeat)
            while True:
                # the library's own thread would stumble over a call that is left between two of its steps
                with Waiting() as waiting:
                    watch.begin(waiting)
                    data = next(call, None)
                    watch.end()
                if data is None:
                    raise Over("VTGate ended it", False)
                yield data
        except grpc.RpcError as fault:
            # (which is the call)
            why = watch.why(fault)
        finally:
            with Held():
                for end in watch and watch.close, call and call.cancel, channel and channel.close:
                    if end:
                        end()
                # a finalizer that a signal ends would say so itself
                end = watch = call = channel = None
        raise why


def _read(path: str | None, load) -> None:
    """Stops where a certificate or a key can't be read."""
    if not path:
        return
    try:
        load(ssl.SSLContext(ssl.PROTOCOL_TLS_CLIENT))
    except (OSError, ValueError) as fault:
        raise Stop("no certificate, or not its key", f"in {path}", fault.strerror if isinstance(fault, OSError) and fault.strerror else str(fault)) from None


def _bytes_of(path: str) -> bytes:
    try:
        return read_file(path)
    except OSError as fault:
        raise Stop("a file can't be read", f"at {path}", str(fault.strerror)) from None


class _Watch:
    """Ends a call for which was waited too long, or that a signal is to end. What counts is how often was looked, so that a machine
    that stood still isn't silence."""

    def __init__(self, call: grpc.Call, patience: float) -> None:
        self._call, self._patience, self._over = call, patience, Event()
        self._waited = -1.0
        self._waiting: Waiting | None = None
        self._is_silent = False
        self._thread = Thread(target=self._look, daemon=True)
        self._thread.start()

    def begin(self, waiting: Waiting) -> None:
        self._waited, self._waiting = 0.0, waiting

    def end(self) -> None:
        self._waited, self._waiting = -1.0, None

    def _look(self) -> None:
        while not self._over.wait(LOOK):
            if self._waited >= 0:
                self._waited += LOOK
            waiting, self._is_silent = self._waiting, self._waited > self._patience
            if self._is_silent or waiting and waiting.is_over():
                self._call.cancel()
                return

    def why(self, fault: grpc.RpcError) -> Over:
        """What the end of a call means."""
        if self._is_silent:
            return Over(f"silence for {self._patience:.0f} s", True)
        return Over(f"{fault.code().name}, {(fault.details() or '')[:MOST_OF_DETAILS]}", fault.code() is grpc.StatusCode.UNAVAILABLE)

    def close(self) -> None:
        self._over.set()
        self._thread.join()
