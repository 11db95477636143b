"""The loop: feeds are read on, rows go into the database, checkpoints are saved, and the program is begun again where it is lost.

What may pass by itself (a program that was killed, a server that doesn't answer, a row that the server refuses) is told in one line and
tried again after half a second, one, two, and at most thirty; the page and /healthz show it meanwhile.
"""
import os
import signal
import time
from contextlib import suppress

from recorder.stop import Stop

from .filling import Filling
from .growth import LOOK
from .session import PASSING, Gone, Refused, Replaced, Session, check_files
from .state import BEGINNING, ENDED, RUNNING, WAITING, State
from .waiting import LONGEST_PAUSE, End, Ending, Fatal, Pause
from .words import Asked

AGAIN = 1.0
"""The seconds after which a stream is tried again whose refusal may pass."""
COUNTING, LEAST = 20, 0.3
"""At most one of so many seconds goes by with the counting of rows; and the seconds between two countings, at least."""
FEW = 2**25
"""Fewer bytes than a request reads of a feed at most."""
SAVED_BEFORE = "what was saved before is there still"


class Keeper:
    """`run` goes on until `end`."""

    def __init__(self, asked: Asked, state: State) -> None:
        self._asked, self.state, self._end = asked, state, End()
        self._filling = Filling(asked.place, asked.name, asked.is_adopting, asked.groups, state, self._end) if asked.place else None
        self.session: Session | None = None
        """The session that answers questions, none where there is none."""
        self._moves, self._saved, self._counted = 0, -1, -1
        """How often the board was moved, and how often it had been when it was saved and when its rows were counted."""
        self._save_at = self._count_at = 0.0

    def end(self) -> None:
        """Asks for the end: what is under way is done before. Asked twice, it isn't waited for."""
        if self._end.is_asked():
            with suppress(ProcessLookupError):
                if self.state.pid:
                    os.killpg(self.state.pid, signal.SIGKILL)
            if self._filling:
                self._filling.abort()
        self._end.ask()

    async def run(self) -> None:
        """`Fatal` where nothing can be begun (a workflow that is refused, a database that can't be the target's), or not all could be saved."""
        pause = Pause()
        try:
            while True:
                begun = time.monotonic()
                try:
                    await self._over_one_session()
                except Fatal:
                    raise
                except Replaced:
                    self.state.tell("a feed's file was replaced: the program is begun again from the checkpoint")
                    if time.monotonic() - begun < LONGEST_PAUSE:
                        await self._end.wait(pause.take())
                except Stop as stop:
                    if self._end.is_asked():
                        raise Fatal(str(stop), "", SAVED_BEFORE) from None
                    pause = Pause() if time.monotonic() - begun > LONGEST_PAUSE else pause
                    await self._trouble(str(stop), pause.take())
        except Ending:
            return
        finally:
            self.state.program = ENDED
            if self._filling:
                await self._filling.close()
            await self.state.publish()

    async def _trouble(self, line: str, seconds: float) -> None:
        self.state.program, self.state.trouble = WAITING, line
        self.state.tell(f"{line}; again in {seconds:g} seconds")
        await self.state.publish()
        await self._end.wait(seconds)

    async def _over_one_session(self) -> None:
        """From a program's beginning to its end, which an exception tells."""
        state = self.state
        state.program = BEGINNING
        if state.into:
            # (of another file of the feed it would be another count)
            state.into.applied = []
        for stream in state.streams:
            stream.feed.begin()
            stream.feed.look()
        await state.publish()
        session = await self._begun()
        state.pid = session.number
        try:
            answer = await self._end.unless(self._first(session))
            state.take(answer["streams"])
            self.session, state.program, state.trouble, state.starts = session, RUNNING, None, state.starts + 1
            self._save_at, self._counted = time.monotonic() + self._asked.every, -1
            if self._filling:
                answer = await self._filling.meet(session, answer)
            else:
                await session.told()
            await self._count(session)
            await state.publish()
            await self._go_on(session, answer)
        except Refused as refused:
            raise Stop("the program refuses what it is asked", "", str(refused)) from None
        except (KeyError, TypeError, IndexError, AttributeError) as fault:
            raise Gone("the program answers otherwise than docs/LIVE.md says", f"({fault!r})", "is it of this release?") from fault
        finally:
            self.session, state.pid = None, None
            await session.close()

    async def _begun(self) -> Session:
        try:
            return await Session.begun(self._asked.words())
        except Stop as stop:
            raise (stop if self.state.starts else Fatal(str(stop), "", "nothing is begun")) from None

    async def _first(self, session: Session) -> dict:
        """The first answer, which comes once the checkpoint is read and its rows are made."""
        try:
            return await session.ask("state")
        except Gone as gone:
            raise (Fatal(str(gone), "", "nothing is begun") if gone.is_refusal and not self.state.starts else gone) from None

    async def _go_on(self, session: Session, answer: dict) -> None:
        """Turns, until a signal or a feed's new file ends them: then the board is saved, and the session ended."""
        try:
            await self._turns(session, answer)
        except (Ending, Replaced) as end:
            is_saved = await self._save(session)
            await session.end()
            if not is_saved and isinstance(end, Ending):
                raise Fatal(self.state.trouble or "", "", SAVED_BEFORE) from None
            raise

    async def _turns(self, session: Session, answer: dict) -> None:
        again_at, is_done = 0.0, False
        while True:
            now = time.monotonic()
            has_grown = any([stream.feed.look() for stream in self.state.streams])
            if has_grown or not is_done or now >= again_at:
                before, answer = answer, await session.ask("more", str(self._asked.groups))
                await self._turn(session, answer)
                check_files(answer["streams"])
                may_pass = any(said["refused"] and said["refused"]["number"] in PASSING for said in answer["streams"])
                again_at = time.monotonic() + AGAIN if may_pass else float("inf")
                is_done = answer["streams"] == before["streams"] or answer["bytes"] < FEW and all(map(self._is_at_end, answer["streams"]))
            await self._count(session)
            if now >= self._save_at and self._saved != self._moves:
                await self._save(session)
                await self.state.publish()
            await self._end.wait(LOOK if is_done else 0)

    def _is_at_end(self, said: dict) -> bool:
        """Whether a stream has nothing to do until its feed grows. (Of a large one a request reads a part.)"""
        has_read = said["bytes"] + said["tail"] >= self.state.streams[said["stream"]].feed.size and said["tail"] < FEW
        return bool(said["refused"]) or has_read and said["phase"] == "Running" and said["applied"] == said["groups"]

    async def _turn(self, session: Session, answer: dict) -> None:
        """What a `more` changed goes into the database, or is taken as told."""
        state = self.state
        has_moved = bool(answer["changes"]) or any(said != stream.said for said, stream in zip(answer["streams"], state.streams))
        self._moves += has_moved
        state.changes += answer["changes"]
        state.take(answer["streams"])
        if self._filling:
            await self._filling.write(session, answer)
        elif answer["changes"]:
            await session.told()
        if has_moved:
            await state.publish()

    async def _count(self, session: Session) -> None:
        """How many rows there are, where these changed, and it isn't too often."""
        now = time.monotonic()
        if self._counted == self._moves or now < self._count_at:
            return
        moves, tables = self._moves, (await session.ask("counts"))["tables"]
        self.state.counts, self._counted = {said["table"]: said["rows"] for said in tables}, moves
        self._count_at = time.monotonic() + max(LEAST, COUNTING * (time.monotonic() - now))
        await self.state.publish()

    async def _save(self, session: Session) -> bool:
        """Saves the board; whether that could be done."""
        state, moves = self.state, self._moves
        self._save_at = time.monotonic() + self._asked.every
        try:
            said = await session.ask("save")
        except Refused as refused:
            state.trouble = f"the checkpoint {self._asked.checkpoint} can't be saved: refused {refused}"
            state.tell(state.trouble)
            return False
        state.saved, state.saved_bytes, state.trouble, self._saved = time.time(), said["bytes"], None, moves
        return True
