"""Connections to a MariaDB server, and the stream of events that it sends.

Source of the stream: "Replication Protocol" of MariaDB's knowledge base. A client that names server 0 and
asks not to wait gets all events up to the log's end, as mariadb-binlog does.
"""
import getpass
import os
import random
import ssl
import struct
import zlib
from collections.abc import Callable, Iterator
from dataclasses import dataclass, field

import pymysql
from pymysql.constants import COMMAND
from pymysql.cursors import SSCursor

from .events import Bytes, Event, LogEvent, event_of
from .stop import AGAIN, BEHIND, Lost, Stop

WITHOUT_WAITING, WITH_TEXTS = 1, 2
"""What a client asks for: the events up to the log's end alone; those too that have the texts of statements."""
CRC32 = 1
HEADER_KIND = 4
PATIENCE = 600
"""The seconds in which a server has to answer with a byte."""
HEARTBEAT = 0.5
"""The seconds without an event after which a server that is waited for says that there is none."""
SILENCE = 60
"""The seconds without a greeting, or a heartbeat, after which there is none."""
LOST = {1040, 1053, 1077, 1080, 1152, 1153, 1158, 1159, 1160, 1161, 1184, 1203, 1317, 1927, 2002, 2003, 2006, 2013, 2055}
"""The numbers of faults that may pass by themselves: a server that ends, begins or has too many connections, and lost connections."""
NOT_IN_THE_LOG = 1236
MOST_ALLOWED = 2**30
LOST_ONE = 2013
MOST_OF_PACKET = 2**24 - 1
END_MARK, FAULT_MARK = 0xFE, 0xFF
"""The first bytes of packets that aren't events."""
LARGE = 2**20
"""The bytes of an event from which on no second copy of it is made."""
CHUNK = 2**17
"""The bytes that are asked for at once."""
MOST_AT_ONCE = 2**24
PACKET = struct.Struct("<HBxBIBIIIH")
PACKET_SIZE = PACKET.size
"""What an event's packet begins with: the packet's size in three bytes, its number, a mark, and the event's header."""
OF_A_LOG = frozenset(map(int, (LogEvent.FORMAT_DESCRIPTION, LogEvent.ROTATE)))
"""The events that say how those behind them are read."""
WHOLE = 0x2144DF1C
"""The checksum of whatever stands before its own checksum, together with that."""
NO_SERVER = (struct.error, LookupError, ValueError, TypeError, AttributeError, AssertionError)
"""What the library meets where something else than a server answers."""


@dataclass(frozen=True)
class Login:
    """A server and a user; where no password is said it is the variable MYSQL_PWD of the environment."""

    socket: str
    user: str
    host: str = ""
    """Where there is no socket."""
    port: int = 0
    ssl_ca: str = ""
    """The file of the certificates by one of which the host's has to be signed; without it nothing is encrypted."""
    password: str = field(default="", repr=False)

    @classmethod
    def of(cls, socket: str, user: str | None) -> "Login":
        try:
            return cls(socket, user or getpass.getuser())
        except (KeyError, ImportError, OSError):
            raise Stop("no user", "", "the login has no name here; give --user") from None

    @property
    def place(self) -> str:
        return self.socket or f"{self.host}:{self.port}"

    def _way(self) -> dict:
        """Where the library connects to."""
        if self.socket:
            return {"unix_socket": self.socket}
        return {"host": self.host, "port": self.port} | ({"ssl": {"ca": self.ssl_ca}} if self.ssl_ca else {})

    def connect(self, raw: bool = False) -> pymysql.Connection:
        """A connection in UTC and without modes of SQL; `raw` ones answer each cell as the bytes that the server prints, unconverted."""
        how = {"use_unicode": False, "conv": {}} if raw else {}
        try:
            connection = pymysql.connect(**self._way(), user=self.user, password=self.password or os.environ.get("MYSQL_PWD", ""),
                                         charset="utf8mb4", autocommit=True, read_timeout=SILENCE, **how)  # fmt: skip
        except pymysql.err.MySQLError as fault:
            raise fault_of(fault, "no connection", f"at {self.place}") from None
        except NO_SERVER as fault:
            raise Stop("no connection", f"at {self.place}", f"what answers there is no MariaDB server ({fault})") from None
        if self.ssl_ca and not isinstance(connection._sock, ssl.SSLSocket):
            # the library goes on in the clear where the server has no TLS
            connection.close()
            raise Stop("no TLS", f"at {self.place}", "the server has none; leave --ssl-ca out, or give it a certificate")
        connection._read_timeout = PATIENCE
        ask(connection, "SET time_zone='+00:00', sql_mode='', sql_quote_show_create=1" + (", character_set_results=NULL" if raw else ""))
        return connection


def fault_of(fault: pymysql.err.MySQLError, what: str, where: str) -> Stop:
    """The stop that a server's fault, or a lost connection, is."""
    number, text = fault.args[0] if fault.args else 0, str(fault.args[-1] if fault.args else fault) or "the connection is closed"
    if number in LOST or isinstance(fault, pymysql.err.InterfaceError) or not isinstance(number, int):
        return Lost(what, where, f"{text}; {AGAIN}")
    return Stop(what, where, text)


def ask(connection: pymysql.Connection, query: str, *values) -> list[tuple]:
    """The rows that a query answers. Stops where the server refuses it."""
    try:
        with connection.cursor() as cursor:
            cursor.execute(query, values or None)
            return list(cursor.fetchall())
    except pymysql.err.MySQLError as fault:
        raise fault_of(fault, "the server refuses a query", f"({query})") from None
    except UnicodeError:
        raise Stop("a name that is no text", f"({values})", "name it as the server does") from None


def rows(connection: pymysql.Connection, query: str, where: str) -> Iterator[tuple]:
    """The rows that a query answers, as they come. The connection is of no use behind rows that aren't all taken."""
    cursor = SSCursor(connection)
    try:
        cursor.execute(query)
        while row := cursor.fetchone():
            yield row
    except pymysql.err.MySQLError as fault:
        raise fault_of(fault, "the rows can't be read", where) from None
    finally:
        # the library would read the rest of the answer, also from a server that is gone
        if cursor._result:
            cursor._result.unbuffered_active = False
        cursor.connection = None


@dataclass(frozen=True)
class Place:
    """A place in the log: a file's name, and a byte of it."""

    log: str
    offset: int

    def __str__(self) -> str:
        return f"{self.log}:{self.offset}"


def check_settings(connection: pymysql.Connection) -> str:
    """Stops where this server's log isn't to be read; answers the server's version."""
    version, log, form, image = ask(connection, "SELECT VERSION(), @@log_bin, @@global.binlog_format, @@global.binlog_row_image")[0]
    if "MariaDB" not in version:
        raise Stop("another server than MariaDB", f"({version})", "its GTIDs aren't read yet")
    if not log:
        raise Stop("the binary log is off", "", "start the server with --log-bin, and record from a snapshot")
    for name, value, wanted in (("binlog_format", form, "ROW"), ("binlog_row_image", image, "FULL")):
        if value != wanted:
            raise Stop(f"{name} is {value}", "", f"SET GLOBAL {name}={wanted}, let clients connect anew, and {BEHIND}")
    return version


def server_id(connection: pymysql.Connection) -> int:
    return ask(connection, "SELECT @@global.server_id")[0][0]


def first_place(connection: pymysql.Connection) -> Place:
    return Place(ask(connection, "SHOW BINARY LOGS")[0][0], 4)


def end_place(connection: pymysql.Connection) -> Place:
    return Place(*ask(connection, "SHOW MASTER STATUS")[0][:2])


def check_schemas(connection: pymysql.Connection, schemas: set[str]) -> None:
    """Stops at a schema that the server keeps out of its log."""
    only, without = (text.split(",") if text else [] for text in ask(connection, "SHOW MASTER STATUS")[0][2:4])
    for schema in sorted(schemas):
        if schema in without or only and schema not in only:
            raise Stop(f"schema {schema} isn't in the log", "(binlog_do_db, binlog_ignore_db)", f"start the server without these, and {BEHIND}")


def gtids_at(connection: pymysql.Connection, place: Place) -> str | None:
    """The last GTID of each domain before a place; None where the log has no such place."""
    return ask(connection, "SELECT BINLOG_GTID_POS(%s, %s)", place.log, place.offset)[0][0]


def why_unread(connection: pymysql.Connection, place: Place) -> str:
    """What to do first where the server doesn't say what is before a place of a log that it has: it reads no event that is larger
    than it lets packets be, but for those that it sends as a log."""
    ((most,),) = ask(connection, "SELECT @@global.max_allowed_packet")
    if log_sizes(connection).get(place.log, 0) < place.offset or most >= MOST_ALLOWED:
        return ""
    return f"where it wasn't, an event there is larger than max_allowed_packet: SET GLOBAL max_allowed_packet={MOST_ALLOWED}, and {AGAIN}; "


def log_sizes(connection: pymysql.Connection) -> dict[str, int]:
    return {name: size for name, size, *_ in ask(connection, "SHOW BINARY LOGS")}


def events(connection: pymysql.Connection, start: Place, waits: bool = False) -> Iterator[Event]:
    """The events from a place to the log's end; or where it `waits` all that ever come, with a heartbeat wherever there is
    none. Stops where the server refuses."""
    return _sent(connection, start, waits, "NONE", 0, _Reading.events)


def copied(connection: pymysql.Connection, start: Place, waits: bool = False) -> Iterator[tuple[str, Bytes]]:
    """The same events as the log's file has them, with their heads and checksums, each behind the file's name."""
    return _sent(connection, start, waits, "CRC32", WITH_TEXTS, _Reading.copied)


def _sent(connection: pymysql.Connection, start: Place, waits: bool, checksums: str, asked: int, read: Callable[["_Reading"], Iterator]) -> Iterator:
    ask(connection, f"SET @master_binlog_checksum='{checksums}', @mariadb_slave_capability=4, @master_heartbeat_period={int(HEARTBEAT * 1e9)}")
    # a server ends the older one of two that have one number, and lets nobody wait who has none
    number = random.getrandbits(31) | 1 << 31 if waits else 0
    request = struct.pack("<IHI", start.offset, asked | WITHOUT_WAITING * (not waits), number)
    try:
        connection._execute_command(COMMAND.COM_BINLOG_DUMP, request + start.log.encode())
    except pymysql.err.MySQLError as fault:
        raise fault_of(fault, "the log can't be read", f"behind {start.log}") from None
    connection._sock.settimeout(SILENCE if waits else PATIENCE)
    reading = _Reading(connection._sock, start.log)
    try:
        yield from read(reading)
    except pymysql.err.MySQLError as fault:
        if fault.args[:1] == (NOT_IN_THE_LOG,):
            raise Stop("the log can't be read", f"behind {reading.log}", f"{fault.args[-1]}; {BEHIND}") from None
        raise fault_of(fault, "the log can't be read", f"behind {reading.log}") from None


class _Reading:
    """What a server sends of a log: packets, of which each is a byte and an event, up to its end mark. `log` is the file's name."""

    def __init__(self, socket, log: str) -> None:
        self.log, self._socket, self._checksums = log, socket, False

    def events(self) -> Iterator[Event]:
        """MySQLError where the server sends a fault, or the connection is lost."""
        data, at, new, unpack, crc = b"", 0, tuple.__new__, PACKET.unpack_from, zlib.crc32
        log, checksums, there = self.log, self._checksums, 0
        while True:
            if at + PACKET_SIZE <= there:
                low, high, mark, time, kind, server, _size, end, flags = unpack(data, at)
                behind = at + 4 + (low | high << 16)
                if behind <= there and not mark and kind not in OF_A_LOG and behind - at >= PACKET_SIZE:
                    if checksums:
                        if crc(data[at + 5:behind]) != WHOLE:
                            raise self._damaged()
                        yield new(Event, (log, time, kind, server, end, flags, data[at + PACKET_SIZE:behind - 4]))
                    else:
                        yield new(Event, (log, time, kind, server, end, flags, data[at + PACKET_SIZE:behind]))
                    at = behind
                    continue
            packet, data = self._packet(data[at:])
            at, there = 0, len(data)
            if packet is None:
                return
            event = self._event(packet)
            packet = b""
            yield event
            if event.kind == LogEvent.ROTATE:
                # it stands at the old log's end
                self.log = event.body[8:].decode()
            log, checksums = self.log, self._checksums
            # a large one goes before another one comes
            event = None

    def copied(self) -> Iterator[tuple[str, Bytes]]:
        """The events with their heads and checksums, each behind its file's name. MySQLError as above."""
        data, at = b"", 0
        while True:
            if at + PACKET_SIZE <= len(data):
                low, high, mark, _time, kind, *_ = PACKET.unpack_from(data, at)
                behind = at + 4 + (low | high << 16)
                if behind <= len(data) and not mark and kind not in OF_A_LOG and behind - at >= PACKET_SIZE:
                    yield self.log, data[at + 5:behind]
                    at = behind
                    continue
            packet, data = self._packet(data[at:])
            at = 0
            if packet is None:
                return
            yield self.log, packet
            if packet[HEADER_KIND] == LogEvent.ROTATE:
                self.log = self._event(packet).body[8:].decode()

    def _damaged(self) -> Stop:
        return Stop("an event whose checksum is another", f"in {self.log}", f"the log is damaged there; {BEHIND}")

    def _event(self, packet: Bytes) -> Event:
        """The event that a packet is, without its checksum."""
        end, kind = len(packet), packet[HEADER_KIND]
        if kind == LogEvent.FORMAT_DESCRIPTION:
            self._checksums = packet[end - 5] == CRC32
        elif kind == LogEvent.ROTATE:
            # the server makes some of these up, with or without a checksum
            end -= 4 * (zlib.crc32(packet) == WHOLE)
        elif self._checksums:
            if zlib.crc32(packet) != WHOLE:
                raise self._damaged()
            end -= 4
        return event_of(self.log, packet, end)

    def _packet(self, data: bytes) -> tuple[Bytes | None, bytes]:
        """The next packet without its first byte, of which these bytes are the beginning, and what came behind it; none at
        the server's end mark."""
        data = self._filled(data, 5)
        size, first = int.from_bytes(data[:3], "little"), data[4]
        if first == 0 and size >= LARGE:
            return self._large(data)
        data = self._filled(data, 4 + size)
        packet, rest = data[4:4 + size], data[4 + size:]
        if first == 0:
            return packet[1:], rest
        if first == END_MARK and size < 9:
            return None, rest
        if first == FAULT_MARK:
            pymysql.err.raise_mysql_exception(packet)
        raise pymysql.err.OperationalError(LOST_ONE, f"a packet that begins with {first}")

    def _large(self, data: bytes) -> tuple[Bytes, bytes]:
        """The same of a large packet, of which no second copy is ever there. One of more bytes than a packet may have comes in several."""
        data = self._filled(data, PACKET_SIZE)
        there, got = memoryview(bytearray(PACKET.unpack_from(data)[6])), 0
        while True:
            size = int.from_bytes(data[:3], "little")
            skipped = 4 if got else 5
            left = size + 4 - skipped
            here = data[skipped:skipped + left]
            if got + left > len(there):
                raise pymysql.err.OperationalError(LOST_ONE, "a packet that is longer than its event")
            there[got:got + len(here)] = here
            data = data[skipped + left:]
            self._fill(there[got + len(here):got + left])
            got += left
            if size < MOST_OF_PACKET:
                return there[:got].toreadonly(), data
            data = self._filled(data, 4)

    def _filled(self, data: bytes, least: int) -> bytes:
        """These bytes, and what the server sends behind them up to so many at least."""
        if len(data) >= least:
            return data
        parts, size = [data], len(data)
        while size < least:
            parts.append(self._received(lambda: self._socket.recv(max(CHUNK, least - size))))
            size += len(parts[-1])
        return b"".join(parts)

    def _fill(self, there: memoryview) -> None:
        """Fills this with what the server sends."""
        while there:
            there = there[self._received(lambda: self._socket.recv_into(there, min(len(there), MOST_AT_ONCE))):]

    def _received(self, receive: Callable):
        """What is received. MySQLError where nothing is any more."""
        try:
            received = receive()
        except OSError as fault:
            raise pymysql.err.OperationalError(LOST_ONE, f"Lost connection to server during query ({fault})") from None
        if not received:
            raise pymysql.err.OperationalError(LOST_ONE, "Lost connection to server during query")
        return received
