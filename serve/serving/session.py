"""The program as a process that is asked: a request is a line, and so is its answer (docs/LIVE.md, 'The session's protocol').

One request is under way at a time; the others wait for it in the order in which they came. A process that ends, or says what is
no answer, is lost, and with it all that was not saved: whoever asks has `Gone`.
"""
import asyncio
import contextlib
import json
import os
import signal
from collections import deque
from collections.abc import Sequence

from recorder.program import LARGE_PAGES
from recorder.stop import Stop, on_one_line

LONGEST_REQUEST = 65_536
LONGEST_ANSWER = 2**31
NO_REQUEST, NO_MEMORY = 124, 72
OTHER_FILE, PASSING = 127, (71, 72, 131)
"""The refusals of a stream whose feed's file was replaced, as a compaction does; and of one that is tried again at the next `more`."""
GIVEN_UP = 30
"""The seconds that a process is given to end by itself."""


class Gone(Stop):
    """The process has ended, or doesn't answer as it should: another one has to be begun. `is_refusal` where it said why."""

    is_refusal = False


class Refused(Exception):
    """What the program refuses: the object that says it."""

    def __init__(self, said: dict) -> None:
        super().__init__(f"{said['number']}: {said['words']}")
        self.said, self.number = said, said["number"]


class Replaced(Exception):
    """A feed's file was replaced: the session is to be begun anew from its checkpoint."""


def check_files(streams: list[dict]) -> None:
    """`Replaced` where a stream's feed was."""
    if any(said["refused"] and said["refused"]["number"] == OTHER_FILE for said in streams):
        raise Replaced


class Session:
    """Begun by `begun`; it ends by `end`, or by `kill`."""

    def __init__(self, process: asyncio.subprocess.Process) -> None:
        self._process, self._turn = process, asyncio.Lock()
        self._asking: set[asyncio.Task] = set()
        """The requests that aren't answered yet."""
        self._errors: deque[str] = deque(maxlen=4)
        """The last lines that it said on standard error."""
        assert process.stdin and process.stdout and process.stderr
        self._input, self._output, self._said = process.stdin, process.stdout, process.stderr
        self._hearing = asyncio.create_task(self._hear())

    @classmethod
    async def begun(cls, words: Sequence[str]) -> "Session":
        """A process of these words. Stops where there is no such program."""
        told = {"GLIBC_TUNABLES": LARGE_PAGES, **os.environ}
        pipe = asyncio.subprocess.PIPE
        try:
            # a terminal's Ctrl-C is for this process alone, which ends the other one
            process = await asyncio.create_subprocess_exec(*words, stdin=pipe, stdout=pipe, stderr=pipe, env=told, limit=LONGEST_ANSWER, start_new_session=True)
        except OSError as fault:
            raise Stop("no program", f"at {words[0]}", f"{fault.strerror}; --program names another") from None
        return cls(process)

    @property
    def number(self) -> int:
        """The process's."""
        return self._process.pid

    async def _hear(self) -> None:
        """Takes what the process says on standard error."""
        with contextlib.suppress(ValueError):
            while line := await self._said.readline():
                if said := on_one_line(line.decode(errors="replace").strip()[:400]):
                    self._errors.append(said)

    async def ask(self, *words: str) -> dict:
        """The answer to a request. `Refused` where that is a refusal, `Gone` where the process is lost."""
        # (a request that nobody waits for any more is taken to its end all the same: the next answer is another one's)
        asking = asyncio.create_task(self._ask(words))
        self._asking.add(asking)
        asking.add_done_callback(self._is_answered)
        return await asyncio.shield(asking)

    def _is_answered(self, asking: asyncio.Task) -> None:
        self._asking.discard(asking)
        # (an exception that nobody waits for any more isn't one of this program)
        asking.cancelled() or asking.exception()

    async def told(self) -> None:
        """Takes all that changed as told. A program that doesn't know that request tells it, if it has memory for that."""
        try:
            await self.ask("told")
        except Refused as refused:
            if refused.number != NO_REQUEST:
                raise
            await self.changes()

    async def changes(self) -> list[dict] | None:
        """What changed since it was asked last, none where there is no memory for that: it stays to be told."""
        try:
            return (await self.ask("changes"))["changes"]
        except Refused as refused:
            if refused.number != NO_MEMORY:
                raise
            return None

    async def _ask(self, words: Sequence[str]) -> dict:
        line = "\t".join(words).encode() + b"\n"
        if len(line) > LONGEST_REQUEST or line.count(b"\n") != 1:
            raise Refused({"number": NO_REQUEST, "words": "a line that is no request"})
        async with self._turn:
            try:
                self._input.write(line)
                await self._input.drain()
                answer = await self._output.readuntil(b"\n")
            except (OSError, asyncio.IncompleteReadError, asyncio.LimitOverrunError):
                raise await self._gone() from None
            try:
                said = json.loads(answer)
                ok, refused = said.get("ok"), said.get("refused")
            except (ValueError, AttributeError, RecursionError):
                raise await self._gone(f"it answers {answer[:80]!r}") from None
        if isinstance(ok, dict):
            return ok
        if isinstance(refused, dict) and isinstance(refused.get("number"), int) and isinstance(refused.get("words"), str):
            raise Refused(refused)
        raise await self._gone(f"it answers {answer[:80]!r}")

    async def _gone(self, why: str = "") -> Gone:
        if not why:
            # (its output has ended, and so has it, mostly)
            await self._ends_within(1)
        await self.kill()
        # (why the input was closed is known by now, and the library would print it)
        with contextlib.suppress(OSError, TimeoutError):
            self._input.close()
            await asyncio.wait_for(self._input.wait_closed(), 1)
        status = self._process.returncode or 0
        said = "; ".join(self._errors)
        gone = Gone("the program has ended", f"({f'status {status}' if status >= 0 else f'signal {-status}'})", why or said or "it said nothing")
        gone.is_refusal = status > 0
        return gone

    async def end(self) -> None:
        """Has the process end, and waits for that."""
        with contextlib.suppress(Gone, Refused):
            await self.ask("end")
        with contextlib.suppress(OSError):
            self._input.close()
        await self._ends_within(GIVEN_UP)
        await self.kill()

    async def _ends_within(self, seconds: float) -> None:
        # (the library's `wait` waits for the pipes too, which what the process began may hold)
        loop = asyncio.get_running_loop()
        last = loop.time() + seconds
        while self._process.returncode is None and loop.time() < last:
            await asyncio.sleep(0.01)

    async def close(self) -> None:
        """Kills the process, if it hasn't ended; no request is under way then."""
        await self.kill()
        if self._asking:
            await asyncio.wait(set(self._asking), timeout=GIVEN_UP)

    async def kill(self) -> None:
        """Kills the process, if it hasn't ended, and what it has begun."""
        if self._process.returncode is None:
            # (the library's own `kill` may take the status away that it waits for elsewhere; the group is the process's own)
            with contextlib.suppress(ProcessLookupError):
                os.killpg(self._process.pid, signal.SIGKILL)
        await self._ends_within(GIVEN_UP)
        with contextlib.suppress(asyncio.TimeoutError):
            await asyncio.wait_for(asyncio.shield(self._hearing), 1)
        with contextlib.suppress(AttributeError):
            # (what has left the group may hold the pipes, and the library would close them behind the loop's end)
            self._process._transport.close()
