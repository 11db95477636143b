"""The statements of `vdiff --sql`, run on a server: random tables with columns of every type and with other rows in a copy,
ten thousand differences at once, and names that end a statement where they aren't quoted."""
import random
from contextlib import closing

import pymysql

from .random_tables import MODES, Maker

SOURCE, COPY = "r", "q"
BATCH, ROUNDS = 20, 20
MANY = 10000
HOSTILE = ["ti`ck", "o'; DROP TABLE x; --x", 'qu"ote', "back\\slash", "``", "ünï/*!*/", "a b"]


class Labelled(Maker):
    """As Maker, but for labels of ENUM and SET that the server prints apart, and reads again as what they are: of labels that are
    empty, or equal in their character set, it takes the first for each of them."""

    def __init__(self, number: int) -> None:
        super().__init__(number)
        self.labels = 0

    def label(self, charset: str, is_set: bool) -> str:
        self.labels += 1
        return f"'l{self.labels}'"


def repairs(trial) -> None:
    for step in random_repairs, many_repairs, hostile_repairs:
        step(trial)


def repaired(trial, name: str, workflow: str, schemas: tuple[str, str]) -> int:
    """Compares the rows of two schemas, runs the statements that make the second one's the first one's, and compares anew.
    Answers how many statements there were."""
    paths = [trial.path("repair.source"), trial.path("repair.target"), trial.path("repair.again")]
    for path, schema in zip(paths, schemas):
        with open(path, "wb") as file:
            file.write(trial.selected(workflow, schema))
    done = trial.run(trial.program, "vdiff", "--sql", schemas[1], workflow, *paths[:2])
    statements = done.stdout.count(b";\n") - 3
    if done.returncode not in (0, 3) or done.stderr or (done.returncode == 3) != (statements > 0):
        trial.check(name, f"status {done.returncode} with {statements} statements: {done.stderr.decode()[:300]}")
        return statements
    ran = trial.server.sql(done.stdout.decode(), check=False)
    with open(paths[2], "wb") as file:
        file.write(trial.selected(workflow, schemas[1]))
    again = trial.run(trial.program, "vdiff", "--first", "1", workflow, paths[0], paths[2])
    told = ran.stderr or again.returncode and again.stdout
    trial.check(name, f"status {again.returncode} behind {statements} statements: {told.decode(errors='replace')[:600]}" if told else None)
    return statements


def other_rows(number: int) -> list[str]:
    """The statements of a round for its copy: some rows are left out, some aren't changed, and some are put that weren't."""
    made, *others = Labelled(number).statements()
    chance = random.Random(f"copy {number}")
    return [made, *(one for one in others if chance.random() < 0.6)]


def random_repairs(trial, first: int = 0, count: int = ROUNDS) -> None:
    """Rounds `first` and on of random tables. A check for each batch of them."""
    statements_ran = 0
    for begin in range(first, first + count, BATCH):
        numbers = range(begin, min(begin + BATCH, first + count))
        trial.server.sql(f"CREATE DATABASE {SOURCE}; CREATE DATABASE {COPY}")
        with closing(pymysql.connect(unix_socket=trial.server.socket, user="root", charset="utf8mb4", autocommit=True)) as connection:
            with closing(connection.cursor()) as cursor:
                for number in numbers:
                    for statement in (MODES, *Labelled(number).statements()):
                        cursor.execute(statement)
                    for statement in other_rows(number):
                        cursor.execute(statement.replace(f"{SOURCE}.t{number}", f"{COPY}.t{number}"))
        workflow = trial.workflow("repairs.json", ["-"], [f"{SOURCE}.t{number}" for number in numbers])
        statements_ran += repaired(trial, f"repairs {begin}", workflow, (SOURCE, COPY))
        trial.server.sql(f"DROP DATABASE {SOURCE}; DROP DATABASE {COPY}; RESET MASTER")
    trial.check("random repairs", None if statements_ran > count else f"only {statements_ran}")


def many_repairs(trial) -> None:
    """Ten thousand differences of one table in one transaction: rows that differ, rows that are missing and rows too many."""
    table = "(id BIGINT AUTO_INCREMENT PRIMARY KEY, name VARCHAR(40) COLLATE utf8mb4_nopad_bin, price DECIMAL(9,2), seen TIMESTAMP(3) NULL)"
    rows = f"SELECT seq, CONCAT('n', seq), seq / 7, FROM_UNIXTIME(seq * 1000) FROM {SOURCE}.numbers"
    trial.server.sql(
        f"CREATE DATABASE {SOURCE}; CREATE DATABASE {COPY}; USE {SOURCE}; CREATE TABLE {SOURCE}.numbers (seq BIGINT PRIMARY KEY); SET sql_mode='NO_AUTO_VALUE_ON_ZERO';"
        f"INSERT INTO {SOURCE}.numbers SELECT seq FROM seq_0_to_{2 * MANY}; CREATE TABLE {SOURCE}.m {table}; CREATE TABLE {COPY}.m {table};"
        f"INSERT INTO {SOURCE}.m {rows} WHERE seq < {3 * MANY // 2}; INSERT INTO {COPY}.m {rows} WHERE seq >= {MANY // 4};"
        f"UPDATE {COPY}.m SET name = CONCAT(name, '\\''), seen = NULL WHERE id % 5 = 0 AND id < {3 * MANY // 2}; DELETE FROM {COPY}.m WHERE id > {2 * MANY}")  # fmt: skip
    workflow = trial.workflow("many.json", ["-"], [f"{SOURCE}.m"])
    ran = repaired(trial, "many repairs", workflow, (SOURCE, COPY))
    trial.check("ten thousand differences", None if ran >= MANY else f"only {ran}")
    trial.server.sql(f"DROP DATABASE {SOURCE}; DROP DATABASE {COPY}; RESET MASTER")


def hostile_repairs(trial) -> None:
    """Names of tables, columns and schemas that would end a statement where they stood in it as they are, and values that
    would."""
    named = lambda name: "`" + name.replace("`", "``") + "`"  # noqa: E731
    for at, name in enumerate(HOSTILE):
        source, copy = f"s{at} {name}", f"q{at} {name}"
        columns = ", ".join(f"{named(other + str(place))} VARBINARY(60)" for place, other in enumerate(HOSTILE))
        values = lambda sign: ", ".join(f"X'{(sign + other + chr(10) + chr(0)).encode().hex()}'" for other in HOSTILE)  # noqa: E731
        statements = []
        for schema, sign in (source, "a"), (copy, "b"):
            table = f"{named(schema)}.{named(name)}"
            statements += [f"CREATE DATABASE {named(schema)}", f"CREATE TABLE {table} ({named('k ' + name)} VARBINARY(60) PRIMARY KEY, {columns})",
                           *(f"INSERT INTO {table} VALUES (X'{(key + other).encode().hex()}', {values(sign)})" for key in ("k", sign) for other in HOSTILE)]  # fmt: skip
        with closing(pymysql.connect(unix_socket=trial.server.socket, user="root", charset="utf8mb4", autocommit=True)) as connection:
            with closing(connection.cursor()) as cursor:
                for statement in statements:
                    cursor.execute(statement)
        workflow = trial.workflow("hostile.json", ["-"], [f"{source}.{name}"])
        ran = repaired(trial, f"hostile {at}", workflow, (source, copy))
        trial.check(f"hostile {at}: statements", None if ran == 3 * len(HOSTILE) else f"{ran}")
        trial.server.sql(f"DROP DATABASE {named(source)}; DROP DATABASE {named(copy)}; RESET MASTER")
