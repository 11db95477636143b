"""A headless Chromium, spoken to by its own protocol (DevTools), in an event loop of this test's."""
import asyncio
import base64
import json
import os
import shutil
import subprocess
import tempfile

from record.server import die_with_parent

NAMES = ("chromium-headless-shell", "chromium", "chromium-browser", "google-chrome")
PATIENCE = int(os.environ.get("SERVE_PATIENCE", "60"))


def command() -> str | None:
    return next((found for name in NAMES if (found := shutil.which(name))), None)


class Browser:
    """Use it with `async with`; one page."""

    async def __aenter__(self) -> "Browser":
        import aiohttp

        self._folder = tempfile.mkdtemp(prefix="vrepl-browser-")
        words = [command(), "--headless", "--remote-debugging-port=0", f"--user-data-dir={self._folder}", "--no-first-run", "--disable-gpu", "--disable-dev-shm-usage",
                 "--disable-background-networking", "--disable-component-update", "--no-sandbox", "--hide-scrollbars", "about:blank"]  # fmt: skip
        told = {**os.environ, "HOME": self._folder}
        self._process = subprocess.Popen(words, stdin=subprocess.DEVNULL, stdout=subprocess.DEVNULL, stderr=subprocess.DEVNULL, preexec_fn=die_with_parent, env=told)
        self._session, self._answers, self._number, self.faults = aiohttp.ClientSession(), {}, 0, []
        try:
            port = await self._port()
            async with self._session.get(f"http://127.0.0.1:{port}/json/list") as answer:
                page = next(one for one in await answer.json() if one["type"] == "page")
            self._socket = await self._session.ws_connect(page["webSocketDebuggerUrl"], max_msg_size=2**28)
            self._reading = asyncio.create_task(self._read())
            for domain in "Page", "Runtime", "Log":
                await self.ask(f"{domain}.enable")
        except BaseException:
            await self.__aexit__()
            raise
        return self

    async def _port(self) -> str:
        name = os.path.join(self._folder, "DevToolsActivePort")
        for _ in range(PATIENCE * 20):
            if os.path.exists(name):
                with open(name, encoding="utf-8") as file:
                    if lines := file.read().splitlines():
                        return lines[0]
            await asyncio.sleep(0.05)
        raise RuntimeError("Chromium doesn't begin")

    async def _read(self) -> None:
        async for message in self._socket:
            said = json.loads(message.data)
            if "id" in said:
                self._answers.pop(said["id"]).set_result(said)
            elif said["method"] in ("Runtime.exceptionThrown", "Log.entryAdded", "Page.javascriptDialogOpening"):
                self.faults.append(json.dumps(said["params"])[:400])

    async def ask(self, method: str, **words: object) -> dict:
        self._number += 1
        answer = self._answers[self._number] = asyncio.get_running_loop().create_future()
        await self._socket.send_json({"id": self._number, "method": method, "params": words})
        said = await asyncio.wait_for(answer, PATIENCE)
        if "error" in said:
            raise RuntimeError(f"{method}: {said['error']}")
        return said["result"]

    async def open(self, address: str) -> None:
        await self.ask("Page.navigate", url=address)

    async def value(self, script: str) -> object:
        """What an expression is."""
        said = await self.ask("Runtime.evaluate", expression=script, returnByValue=True, awaitPromise=True)
        if "exceptionDetails" in said:
            raise RuntimeError(f"{script}: {said['exceptionDetails']}")
        return said["result"].get("value")

    async def awaits(self, script: str, seconds: float = PATIENCE) -> float:
        """Waits until an expression is true; answers the seconds."""
        begun = asyncio.get_running_loop().time()
        while not await self.value(f"!!({script})"):
            if asyncio.get_running_loop().time() - begun > seconds:
                raise RuntimeError(f"{script}: not within {seconds} seconds; {self.faults}; the page: {await self.value('document.body.innerText.slice(0, 1500)')!r}")
            await asyncio.sleep(0.03)
        return asyncio.get_running_loop().time() - begun

    async def be(self, width: int, height: int, scheme: str) -> None:
        """The window's size, and light or dark."""
        await self.ask("Emulation.setDeviceMetricsOverride", width=width, height=height, deviceScaleFactor=1, mobile=width < 600)
        await self.ask("Emulation.setEmulatedMedia", features=[{"name": "prefers-color-scheme", "value": scheme}])

    async def picture(self, height: int) -> bytes:
        """The page down to this height, as PNG."""
        width = await self.value("innerWidth")
        said = await self.ask("Page.captureScreenshot", format="png", captureBeyondViewport=True, clip={"x": 0, "y": 0, "width": width, "height": height, "scale": 0.75})
        return base64.b64decode(said["data"])

    async def __aexit__(self, *_: object) -> None:
        if reading := getattr(self, "_reading", None):
            reading.cancel()
        await self._session.close()
        self._process.kill()
        self._process.wait()
        shutil.rmtree(self._folder, ignore_errors=True)
