"""A feed that goes on with another server's log, by GTID: the transactions that it has are found there, each with the name that
it has everywhere, and passed over; those behind them are gone on with."""
from pymysql import Connection

from .position import Gtid, Position
from .server import Place, gtids_at, log_sizes
from .stop import BEHIND, Stop

HEADER = 4


class Elsewhere:
    """The transactions that a feed has, in a log that may have them in another order of domains."""

    def __init__(self, connection: Connection, reached: Position) -> None:
        """Stops where the log begins behind some of them."""
        self._reached = reached
        for log in reversed(log_sizes(connection)):
            begun = Position.read(gtids_at(connection, Place(log, HEADER)) or "")
            if reached.has(begun):
                self.start, self._begun = Place(log, HEADER), begun
                return
        raise Stop("the log was purged", f"behind {reached.gtids()}, where the feed ends", BEHIND)

    def check(self, passed: dict[int, Gtid]) -> None:
        """Stops unless the last transaction of each domain that the feed has is the last one of the log that was passed over, once that
        was read."""
        for domain, last in self._reached.last.items():
            there = passed.get(domain, self._begun.last.get(domain))
            if there != last:
                raise Stop("the log of another server, which hasn't what the feed ends with", f"({last}, but {there or 'nothing'} there)", BEHIND)
