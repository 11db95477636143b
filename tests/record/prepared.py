"""Which XA transactions are prepared at a place of the log, and of which tables: as the log says it, wherever a snapshot stands."""
from contextlib import closing

from recorder.catalogue import read_tables
from recorder.prepared import prepared_at
from recorder.server import Login, Place, end_place, first_place
from recorder.stop import Stop

STEPS = [
    "CREATE TABLE x.t (id INT PRIMARY KEY); CREATE TABLE x.o (id INT PRIMARY KEY); CREATE TABLE x.z (id INT PRIMARY KEY); ",
    "XA START 'o'; INSERT INTO x.o VALUES (1); XA END 'o'; XA PREPARE 'o'; ",
    "XA START 'm','b',3; INSERT INTO x.o VALUES (2); INSERT INTO x.t VALUES (1); XA END 'm','b',3; XA PREPARE 'm','b',3; ",
    "XA COMMIT 'o'; ",
    "FLUSH BINARY LOGS; INSERT INTO x.z VALUES (1); ",
    "XA START 'r'; SELECT * FROM x.z; XA END 'r'; XA PREPARE 'r'; ",
]
O, M = b"\1\0\0\0\1\0o", b"\3\0\0\0\1\1mb"
STOPPED = "XA transaction 6d62 of {} is prepared in the snapshot: XA COMMIT or XA ROLLBACK it (XA RECOVER lists it), and record again"
# for the recorded table what is answered behind each step, when all of them were taken: `o` is committed by then
WANTED = {
    "x.t": [set(), {O}, *[STOPPED.format("x.t")] * 4],
    "x.o": [set(), set(), *[STOPPED.format("x.o")] * 4],
    "x.z": [set(), {O}, {O, M}, {M}, {M}, {M}],
}


PURGED = STOPPED.replace(" of {} is prepared in the snapshot", " is prepared, and what it changes was purged from the log before {}")


def at_places(trial) -> None:
    """What is answered at each place of a whole log, and of one whose beginning is purged."""
    trial.server.sql("CREATE DATABASE x; RESET MASTER")
    login = Login.of(trial.server.socket, "root")

    def answer(connection, table: str, place: Place) -> set[bytes] | str:
        try:
            return prepared_at(login, connection, read_tables(connection, [tuple(table.split("."))]), place)
        except Stop as stop:
            return str(stop)

    with closing(login.connect()) as connection:
        places = [(trial.server.sql(step), end_place(connection))[1] for step in STEPS]
        for table, wanted in WANTED.items():
            found = [answer(connection, table, place) for place in places]
            trial.check(f"prepared, with {table} recorded", None if found == wanted else f"{found}")
        # one without a change ends with an error, and is gone
        trial.server.sql("XA ROLLBACK 'r'", check=False)
        trial.server.purge("binlog.000003")
        found, last = answer(connection, "x.z", end_place(connection)), first_place(connection).log
        trial.check("prepared before what was purged", None if found == PURGED.format(last) else f"{found}")
        trial.server.sql("XA ROLLBACK 'm','b',3")
        before = end_place(connection)
        trial.server.sql("XA START 'm','b',3; INSERT INTO x.t VALUES (3); XA END 'm','b',3; XA PREPARE 'm','b',3")
        found = [answer(connection, "x.t", place) for place in (before, end_place(connection))]
        trial.check("prepared behind what was purged", None if found == [set(), STOPPED.format("x.t")] else f"{found}")
    trial.server.sql("XA ROLLBACK 'm','b',3; DROP DATABASE x; RESET MASTER")
