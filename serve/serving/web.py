"""The requests that are answered (docs/LIVE.md, 'What it answers').

Whoever isn't known by the token has /healthz alone. A request whose Host is a name that isn't the address's own is refused, so
that no page from elsewhere reads rows by a name that it has led here. The page runs nothing but its own script, by its hash.
"""
import asyncio
import base64
import hashlib
import hmac
import ipaddress
import json
import os
import re
from collections.abc import Awaitable, Callable
from contextlib import suppress

from aiohttp import web
from recorder.stop import Stop

from .cells import cell_of, readable, values_of
from .keeping import Keeper
from .metrics import Metrics
from .plan import Table
from .reached import BadPosition, reached, wanted
from .session import Gone, Refused
from .state import State
from .words import Asked

PAGE = os.path.join(os.path.dirname(os.path.abspath(__file__)), "page.html")
COOKIE = "vrepl_token"
SHORTEST_TURN, LONGEST_TURN = 0.2, 2.0
"""The seconds between two events, at least and at most."""
MOST_EVENTS = 64
"""How many pages may look at once."""
LONGEST_TIMEOUT, USUAL_TIMEOUT = 3600.0, 60.0
MOST_ROWS, USUAL_ROWS = 10_000, 100
HEADERS = {"X-Content-Type-Options": "nosniff", "Referrer-Policy": "no-referrer", "X-Frame-Options": "DENY", "Cache-Control": "no-store",
           "Cross-Origin-Resource-Policy": "same-origin", "Server": "vrepl"}  # fmt: skip
Handler = Callable[[web.Request], Awaitable[web.StreamResponse]]


class Bad(Exception):
    """A request that can't be answered: the status, and why in words."""

    def __init__(self, status: int, words: str, **more: object) -> None:
        super().__init__(words)
        self.status, self.said = status, {"error": words, **more}


def answer(said: object, status: int = 200) -> web.Response:
    # (a file's name may be no text)
    return web.Response(body=json.dumps(said, ensure_ascii=False).encode(errors="replace"), status=status, content_type="application/json", charset="utf-8")


class Pages:
    """What is answered of a state and its keeper."""

    def __init__(self, asked: Asked, state: State, keeper: Keeper) -> None:
        self._token, self._host, self._state, self._keeper, self._metrics = asked.token, asked.host, state, keeper, Metrics(state)
        with open(PAGE, encoding="utf-8") as file:
            self._page = file.read()
        self._policy = f"default-src 'none'; script-src {_hashes(self._page, 'script')}; style-src {_hashes(self._page, 'style')}; connect-src 'self'; img-src data:; base-uri 'none'; form-action 'none'; frame-ancestors 'none'"
        self._looking, self._over = 0, asyncio.Event()

    def application(self) -> web.Application:
        made = web.Application(middlewares=[self._guarded])
        gets = {"/": self._index, "/state": self._get_state, "/rows/{table}": self._rows, "/row/{table}": self._row, "/events": self._events,
                "/metrics": self._get_metrics, "/healthz": self._health, "/reached": self._reached}  # fmt: skip
        made.add_routes([web.get(path, handler) for path, handler in gets.items()])
        made.on_shutdown.append(self._end)
        return made

    async def _end(self, _: web.Application) -> None:
        self._over.set()
        async with self._state.changed:
            self._state.changed.notify_all()

    # Who may ask.

    @web.middleware
    async def _guarded(self, request: web.Request, handler: Handler) -> web.StreamResponse:
        try:
            if not self._is_own_name(request.host):
                raise Bad(421, "another name than that of this address")
            unknown = self._unknown(request)
            response = await handler(request) if unknown is None else unknown
        except Bad as bad:
            response = answer(bad.said, bad.status)
        except web.HTTPException as fault:
            response = answer({"error": fault.reason}, fault.status)
        if not response.prepared:
            response.headers.update(HEADERS)
        return response

    def _is_own_name(self, host: str) -> bool:
        """Whether a request's Host is an address, or the name that this one listens at."""
        name = re.sub(r":\d+$", "", host).removeprefix("[").removesuffix("]")
        with suppress(ValueError):
            return bool(ipaddress.ip_address(name))
        return name.lower() in ("localhost", self._host.lower()) or bool(self._token)

    def _unknown(self, request: web.Request) -> web.Response | None:
        """The answer to who doesn't bring the token, and to who brings it in a link."""
        if not self._token or request.path == "/healthz":
            return None
        scheme, _, said = request.headers.get("Authorization", "").partition(" ")
        if self._is_token(said if scheme.lower() == "bearer" else request.cookies.get(COOKIE, "")):
            return None
        if request.path == "/" and self._is_token(request.query.get("token", "")):
            # (it goes out of the address, where others would see it)
            response = web.Response(status=303, headers={"Location": "/"})
            response.set_cookie(COOKIE, self._token, httponly=True, samesite="Strict", path="/")
            return response
        raise Bad(401, "the token is wanted: Authorization: Bearer TOKEN, or /?token=TOKEN")

    def _is_token(self, said: str) -> bool:
        return hmac.compare_digest(said.encode(), self._token.encode())

    # What is answered.

    async def _index(self, _: web.Request) -> web.Response:
        return web.Response(text=self._page, content_type="text/html", headers={"Content-Security-Policy": self._policy})

    async def _get_state(self, _: web.Request) -> web.Response:
        return answer(self._state.as_json())

    async def _get_metrics(self, _: web.Request) -> web.Response:
        return web.Response(body=self._metrics.text(), headers={"Content-Type": "text/plain; version=0.0.4; charset=utf-8"})

    async def _health(self, _: web.Request) -> web.Response:
        """Nothing of what is served is told here, since nobody has to be known."""
        is_healthy = self._state.is_healthy()
        return web.Response(text="ok\n" if is_healthy else f"{'not well' if self._state.program == 'running' else self._state.program}\n", status=200 if is_healthy else 503)

    async def _events(self, request: web.Request) -> web.StreamResponse:
        """The state at each change, and every two seconds."""
        if self._looking >= MOST_EVENTS:
            raise Bad(503, f"{MOST_EVENTS} pages look already")
        response = web.StreamResponse(headers={**HEADERS, "Content-Type": "text/event-stream", "X-Accel-Buffering": "no"})
        self._looking += 1
        try:
            await response.prepare(request)
            while not self._over.is_set():
                version = self._state.version
                await response.write(b"data: " + json.dumps(self._state.as_json()).encode() + b"\n\n")
                await asyncio.sleep(SHORTEST_TURN)
                await self._awaits(lambda version=version: self._state.version != version, LONGEST_TURN)
        except (ConnectionError, asyncio.CancelledError):
            pass
        finally:
            self._looking -= 1
        return response

    async def _awaits(self, what: Callable[[], bool], seconds: float) -> bool:
        """Waits for a change behind which something is so, or for the end; whether it is so."""
        changed = self._state.changed
        with suppress(asyncio.TimeoutError):
            async with asyncio.timeout(seconds), changed:
                await changed.wait_for(lambda: self._over.is_set() or what())
        return what()

    async def _reached(self, request: web.Request) -> web.Response:
        state, seconds = self._state, _number(request.query.get("timeout", str(USUAL_TIMEOUT)), LONGEST_TIMEOUT, "timeout")
        begun = asyncio.get_running_loop().time()
        try:
            positions = wanted(request.query.getall("position", []), len(state.streams))
            reached(state, positions)
            while not all(found := reached(state, positions)):
                left = begun + seconds - asyncio.get_running_loop().time()
                if left <= 0 or self._over.is_set():
                    break
                # (a note of the recorder's may say more without a change here)
                await self._awaits(lambda version=state.version: state.version != version, min(left, 0.5))
        except BadPosition as bad:
            raise Bad(400, str(bad)) from None
        streams = [{"stream": at, "shard": stream.shard, "position": position, "applied": applied, "reached": has}
                   for at, (stream, position, applied, has) in enumerate(zip(state.streams, positions, state.applied_positions(), found))]  # fmt: skip
        said = {"reached": all(found), "seconds": round(asyncio.get_running_loop().time() - begun, 3), "streams": streams}
        return answer(said, 200 if said["reached"] else 504)

    # Rows.

    async def _rows(self, request: web.Request) -> web.Response:
        table, query = self._table(request), request.query
        limit, most = int(_number(query.get("limit", str(USUAL_ROWS)), MOST_ROWS, "limit", 1)), _most(query)
        key = self._key(table, request)
        said = await self._ask("rows", table.name, str(limit), *([key] if key is not None else []))
        rows = [{"key": _readable(row["key"], most), "cells": row["key"], "row": _readable(row["row"], most), "stream": row["stream"]} for row in said["rows"]]
        following = said["next"] and {"key": _readable(said["next"], most), "cells": said["next"]}
        return answer({"table": table.name, "columns": table.columns, "key": table.key_columns(), "rows": rows, "next": following, "version": self._state.version})

    async def _row(self, request: web.Request) -> web.Response:
        table, most = self._table(request), _most(request.query)
        key = self._key(table, request)
        if key is None:
            raise Bad(400, "a key is wanted: key=7, a word for each column of it, or from=x37")
        said = await self._ask("row", table.name, key)
        return answer({"table": table.name, "columns": table.columns, "row": said["row"] and _readable(said["row"], most), "stream": said["stream"]})

    def _table(self, request: web.Request) -> Table:
        table = self._state.plan.tables.get(request.match_info["table"])
        if not table:
            raise Bad(404, "no such table")
        return table

    def _key(self, table: Table, request: web.Request) -> str | None:
        """The key that is asked for, as cells: those of `from`, or the texts of `key`, a word a column."""
        texts, cells = request.query.getall("key", []), request.query.get("from")
        if texts and len(texts) != len(table.key):
            raise Bad(400, f"the key of {table.name} has {len(table.key)} columns: {', '.join(table.key_columns())}")
        if cells is None and not texts:
            return None
        found = cells if cells is not None else ",".join(cell_of(text.encode(errors="replace")) for text in texts)
        if any(byte < " " for byte in found):
            raise Bad(400, "no key")
        return found

    async def _ask(self, *words: str) -> dict:
        session = self._keeper.session
        if not session:
            raise Bad(503, "the program isn't there yet")
        try:
            return await session.ask(*words)
        except Refused as refused:
            raise Bad(404 if refused.number == 125 else 400, str(refused), refused=refused.said) from None
        except Gone as gone:
            raise Bad(503, str(gone)) from None


def _readable(cells: list[str], most: int | None) -> list[object]:
    try:
        return [readable(value, most) for value in values_of(cells)]
    except Stop as stop:
        raise Bad(502, str(stop)) from None


def _number(text: str, most: float, name: str, least: float = 0) -> float:
    try:
        number = float(text)
    except ValueError:
        number = -1.0
    if not least <= number <= most:
        raise Bad(400, f"{name} is a number from {least:g} to {most:g}")
    return number


def _most(query) -> int | None:
    """The bytes that are told of a value, all where that isn't said."""
    return int(_number(query["width"], 2**24, "width", 1)) if "width" in query else None


def _hashes(page: str, element: str) -> str:
    """The hashes of a page's own scripts or styles, as a policy names them."""
    found = re.findall(rf"<{element}>(.*?)</{element}>", page, re.S)
    return " ".join(f"'sha256-{base64.b64encode(hashlib.sha256(text.encode()).digest()).decode()}'" for text in found)
