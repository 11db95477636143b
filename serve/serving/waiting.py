"""Waiting, until the end is asked for; and how long before something is tried again."""
import asyncio
from collections.abc import Awaitable
from typing import TypeVar

from recorder.stop import Stop

FIRST_PAUSE, LONGEST_PAUSE = 0.5, 30.0
Answer = TypeVar("Answer")


class Ending(Exception):
    """The end was asked for."""


class Fatal(Stop):
    """Nothing can be begun, or not all could be saved at the end: the command's own line."""


class Pause:
    """How long is waited before something is tried again: half a second, one, two, and at most thirty."""

    def __init__(self) -> None:
        self._next = FIRST_PAUSE

    def take(self) -> float:
        now, self._next = self._next, min(2 * self._next, LONGEST_PAUSE)
        return now


class End:
    """The end, which a signal asks for."""

    def __init__(self) -> None:
        self._event = asyncio.Event()

    def ask(self) -> None:
        self._event.set()

    def is_asked(self) -> bool:
        return self._event.is_set()

    async def wait(self, seconds: float) -> None:
        """Waits so long. `Ending` where the end is asked for before."""
        try:
            await asyncio.wait_for(self._event.wait(), seconds)
        except asyncio.TimeoutError:
            return
        raise Ending

    async def unless(self, what: Awaitable[Answer]) -> Answer:
        """What is answered. `Ending` where the end is asked for before."""
        task, ending = asyncio.ensure_future(what), asyncio.ensure_future(self._event.wait())
        try:
            await asyncio.wait((task, ending), return_when=asyncio.FIRST_COMPLETED)
            if not task.done():
                raise Ending
            return task.result()
        finally:
            task.cancel()
            ending.cancel()
