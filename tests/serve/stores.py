"""A target's database beside a test: its rows and positions in one snapshot, and the rows that the program makes up to these."""
import json
import os
import subprocess
from contextlib import closing

import pymysql
from recorder.filters import dump_statements, of_target

PATIENCE = 600


class Store:
    """A schema of a server."""

    def __init__(self, trial, server, schema: str, workflow: str) -> None:
        self._trial, self._server, self.schema, self.workflow = trial, server, schema, workflow
        self.name = os.path.basename(workflow).removesuffix(".json")
        with open(workflow, encoding="utf-8") as file:
            self._said = json.load(file)

    @property
    def url(self) -> str:
        return f"mysql://root@/{self.schema}?socket={self._server.socket}"

    def sql(self, text: str) -> str:
        return self._server.sql(f"USE `{self.schema}`; {text}").stdout.decode()

    def _connected(self, schema: str):
        return closing(pymysql.connect(unix_socket=self._server.socket, user="root", database=schema, use_unicode=False, conv={}))

    def held(self) -> tuple[list[str], bytes, bool]:
        """The streams' positions, the rows as a dump, and whether all is copied, as of one moment."""
        begin, *statements = dump_statements(of_target(self._said), [self.schema])
        with self._connected(self.schema) as connection, connection.cursor() as cursor:
            cursor.execute(begin)
            cursor.execute("START TRANSACTION WITH CONSISTENT SNAPSHOT")
            cursor.execute(f"SELECT position FROM vrepl_streams WHERE workflow='{self.name}' ORDER BY stream")
            positions = [position.decode() for (position,) in cursor.fetchall()]
            cursor.execute(f"SELECT COUNT(*) FROM vrepl_copies WHERE workflow='{self.name}' AND what<>'done'")
            is_copied = bool(positions) and cursor.fetchall() == ((b"0",),)
            lines = []
            for statement in statements:
                cursor.execute(statement)
                lines += [line for (line,) in cursor.fetchall()]
        return positions, b"".join(line + b"\n" for line in lines), is_copied

    def why_not_exact(self, feeds: list[str]) -> str | None:
        """Nothing if the rows are those of `run --until` the positions. The feeds end with whole groups."""
        try:
            positions, dump, is_copied = self.held()
        except pymysql.err.ProgrammingError as fault:
            # (it was killed before its tables were made)
            positions, dump, is_copied = [str(fault)], b"", False
        if not is_copied:
            return f"not all is copied: {positions}"
        words = [word for at, position in enumerate(positions) for word in ("--until", f"{at}={position}")]
        ran = subprocess.run([self._trial.program, "run", *words, self.workflow, *feeds], capture_output=True, timeout=PATIENCE)
        if ran.returncode:
            return f"{positions}: {ran}"
        have, want = dump.splitlines(), ran.stdout.splitlines()
        at = next((at for at, (one, other) in enumerate(zip(have, want)) if one != other), min(len(have), len(want)))
        return None if dump == ran.stdout else f"at {positions} line {at + 1} of {len(have)} and {len(want)}: {have[at:at + 1]!r:.200} and not {want[at:at + 1]!r:.200}"
