"""The database's side of the loop: it is opened, brought together with the board, and filled, however often that has to be tried.

Each turn is one `changes` and one transaction. Where database and board stand apart (another checkpoint, a server that lost its last
transactions, positions that another one wrote) the feeds come as far as the database, and then each row is held to the board's.
"""
import asyncio
from collections.abc import Callable, Iterator
from concurrent.futures import ThreadPoolExecutor
from typing import TypeVar

from recorder.gtids import GtidSet
from recorder.stop import AGAIN, Lost, Stop

from .cells import Value, values_of
from .database import Change, Database, Mended, Moved, Standing
from .growth import LOOK
from .login import Place
from .session import Gone, Session, check_files
from .state import Into, State
from .tables import Halted
from .waiting import End, Fatal, Pause

PAGE = 10_000
"""The rows that are asked for at once."""
Answer = TypeVar("Answer")


class Filling:
    def __init__(self, place: Place, name: str, is_adopting: bool, groups: int, state: State, end: End) -> None:
        self._state, self._into, self._end, self._groups = state, Into(str(place)), end, str(groups)
        state.into = self._into
        self._loop, self._thread, self._is_adopting = asyncio.get_running_loop(), ThreadPoolExecutor(1), is_adopting
        self._database = Database(place, state.plan, name, is_adopting, lambda line: self._loop.call_soon_threadsafe(state.tell, line))

    async def _in_thread(self, work: Callable[..., Answer], *what: object) -> Answer:
        return await self._loop.run_in_executor(self._thread, work, *what)

    async def close(self) -> None:
        await self._in_thread(self._database.close)

    def abort(self) -> None:
        """What the server is waited for is lost."""
        self._database.abort()

    async def meet(self, session: Session, answer: dict) -> dict:
        """Opens the database and brings it together with the board; what the program says then of its streams. `Fatal` where it
        can't be a target's, and nothing was written yet."""
        standings = await self._opened()
        if standings != [Standing.of(said) for said in answer["streams"]]:
            return await self._held(session, answer, standings)
        await session.told()
        self._note_positions(answer["streams"])
        return answer

    async def write(self, session: Session, answer: dict) -> None:
        """What a `more` changed, and where the streams stand."""
        streams = answer["streams"]
        wanted = [Standing.of(said) for said in streams]
        if not answer["changes"] and wanted == self._database.standings():
            return
        said = await session.changes() if answer["changes"] else []
        if said is None:
            await self._held(session, answer, self._database.standings())
            return
        changes, pause = [Change.of(one) for one in said], Pause()
        while True:
            before = self._database.standings()
            try:
                await self._in_thread(self._database.apply, changes, streams)
                break
            except Moved as moved:
                self._state.tell(str(moved))
                await self._held(session, answer, await self._opened())
                return
            except (Lost, Halted) as stop:
                # (also a server that refused may have been changed since, which a connection anew knows)
                await self._trouble(str(stop), pause.take())
                found = await self._opened(is_told=True)
                if found == wanted:
                    # (it was lost behind the commit)
                    break
                if found != before:
                    await self._held(session, answer, found)
                    return
        into = self._into
        into.trouble, into.transactions, into.rows = None, into.transactions + 1, into.rows + len(changes)
        self._note_positions(streams)

    async def _opened(self, is_told: bool = False) -> list[Standing] | None:
        """Where the streams stand in the database, once that answers. The trouble that `is_told` goes on until something is written."""
        pause = Pause()
        while True:
            try:
                standings = await self._in_thread(self._database.open)
                self._into.trouble = self._into.trouble if is_told else None
                return standings
            except Lost as lost:
                await self._trouble(str(lost), pause.take())
            except Stop as stop:
                if not self._into.transactions:
                    raise Fatal(str(stop), "", "nothing is begun") from None
                await self._trouble(str(stop), pause.take())

    async def _trouble(self, line: str, seconds: float) -> None:
        line = line.removesuffix(f"; {AGAIN}")
        if self._into.trouble != line:
            self._state.tell(f"{line}; again in {seconds:g} seconds, and so on")
        self._into.trouble = line
        await self._state.publish()
        await self._end.wait(seconds)

    async def _held(self, session: Session, answer: dict, standings: list[Standing] | None) -> dict:
        """Holds the database's rows to the board's, once that has come so far, and makes them equal."""
        way = None if standings is None else "ahead of" if _is_beyond(standings, answer) else "behind"
        while standings is not None and _is_beyond(standings, answer):
            before, answer = answer, await session.ask("more", self._groups)
            self._state.take(answer["streams"])
            check_files(answer["streams"])
            if answer["streams"] == before["streams"]:
                await self._trouble(f"{self._into.place} is ahead of the feeds: they have to come so far", LOOK)
            else:
                await self._state.publish()
        mended, pause = None, Pause()
        while mended is None:
            try:
                mended = await self._in_thread(self._database.hold, self._pages_of(session), answer["streams"])
            except Gone:
                raise
            except Moved:
                await self._opened()
            except Stop as stop:
                await self._trouble(str(stop), pause.take())
                await self._opened()
        await session.told()
        self._note_held(way, mended)
        self._note_positions(answer["streams"])
        return answer

    def _note_held(self, way: str | None, mended: Mended) -> None:
        into = self._into
        into.trouble, into.transactions = None, into.transactions + 1
        if not way and not self._is_adopting:
            # (tables without a row were filled)
            into.rows += mended.mended
            return
        into.held, into.mended = into.held + mended.held, into.mended + mended.mended
        if way or mended.held:
            stood = f"was {way} what is applied here" if way else "had no positions"
            self._state.tell(f"{into.place} {stood}: {mended.held} rows were held to those here, {mended.mended} made equal")

    def _note_positions(self, streams: list[dict]) -> None:
        self._into.positions, self._into.applied = [said["position"] for said in streams], [said["applied"] for said in streams]

    def _pages_of(self, session: Session) -> Callable[[str], Iterator[list[Value]]]:
        """For the other thread: the board's rows of a table, by rising key."""

        def rows(table: str) -> Iterator[list[Value]]:
            words: tuple[str, ...] = ()
            while True:
                said = asyncio.run_coroutine_threadsafe(session.ask("rows", table, str(PAGE), *words), self._loop).result()
                yield from (values_of(row["row"]) for row in said["rows"])
                if said["next"] is None:
                    return
                words = (",".join(said["next"]),)

        return rows


def _is_beyond(standings: list[Standing], answer: dict) -> bool:
    """Whether a stream stands further on in the database than on the board."""
    return any(not _set(its.position).is_within(_set(said["position"] or "")) or its.done() > Standing.of(said).done() for its, said in zip(standings, answer["streams"]))


def _set(position: str) -> GtidSet:
    try:
        return GtidSet.read(position) if position.strip() else GtidSet()
    except ValueError as fault:
        raise Stop("no position of a stream", f"in the database ({position[:80]})", str(fault)) from None
