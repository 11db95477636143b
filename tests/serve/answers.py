"""What is asked of a target, and what it answers: as JSON, to Prometheus, and to who may not ask."""
import asyncio
import http.client
import json
import os
import re
import socket
import threading
import time

from model import making

from .browser import Browser, command
from .daemon import Target, awaits

U, V = making.U.decode(), making.V.decode()
SHOWN = "document.querySelectorAll('#rows tbody tr').length"


def feeds(trial, name: str) -> tuple[str, str, str]:
    """A workflow of two streams, and their feeds."""
    return trial.put(f"{name}.json", making.TWO), trial.put(f"{name}.lower", making.LOWER), trial.put(f"{name}.upper", making.UPPER)


def tried(trial) -> None:
    workflow, lower, upper = feeds(trial, "answers")
    trial.put("answers.upper", making.UPPER[:-3])
    with Target(trial.live, trial.path("answers.checkpoint"), workflow, [lower, upper]) as target:
        target.awaits_well()
        awaits(lambda: target.state()["streams"][1]["applied"] == 1 and target.state()["tables"][0]["rows"] == [2, 1], "the first groups")
        one, other = target.state()["streams"]
        cut = len(making.UPPER) - 3
        trial.check("phases, positions and groups", (one["phase"], one["position"], one["applied"], one["groups"]) == ("Running", f"MySQL56/{U}:1-2", 2, 2), one)
        trial.check("a group that isn't whole is behind", other["behind"]["bytes"] == cut - 109 and other["behind"]["seconds"] > 0 and other["applied"] == 1, other)
        trial.check("nothing else is", one["behind"] == {"groups": 0, "bytes": 0, "seconds": 0}, one)
        trial.check("copies are told a table", one["copied"] == [{"table": "t", "what": "done", "key": None, "rows": 2}], one)
        trial.check("rows by stream", target.state()["tables"] == [{"table": "t", "columns": ["id", "v"], "key": ["id"], "rows": [2, 1]}], target.state()["tables"])
        reach(trial, target)
        rows(trial, target)
        metrics(trial, target)
        events(trial, target, upper)
        begun, answers = time.monotonic(), []
        asking = threading.Thread(target=lambda: answers.append(target.get("/reached", position=[f"0={U}:1-2", f"1={V}:1-3"], timeout=30)))
        asking.start()
        time.sleep(0.3)
        trial.put("answers.upper", making.feed([making.added((11, b"k")), making.added((12, b"l")), making.added((1300, b"m"))], making.V))
        asking.join()
        trial.check("a position is waited for", answers[0].status == 200 and answers[0].json()["reached"] and 0.2 < answers[0].json()["seconds"] <= time.monotonic() - begun, answers[0].body)
        trial.check("SIGTERM saves and ends it", target.end() == 0 and os.path.getsize(trial.path("answers.checkpoint")) > 100, target.lines)


def reach(trial, target: Target) -> None:
    """Positions that are reached, that aren't, and that are none."""
    said = target.get("/reached", position=[f"0={U}:1-2", f"1={V}:1"], timeout=0)
    trial.check("positions that are reached", said.status == 200 and said.json()["reached"] and [one["reached"] for one in said.json()["streams"]] == [True, True], said.body)
    said = target.get("/reached", position=[f"0={U}:1-2", f"1=MySQL56/{V}:1-2"], timeout=0.2)
    trial.check("one that isn't, after the time-out", said.status == 504 and [one["reached"] for one in said.json()["streams"]] == [True, False] and said.json()["seconds"] >= 0.2, said.body)
    for name, query in {
        "no position": {}, "a stream without one": {"position": f"0={U}:1"}, "a stream that isn't there": {"position": f"2={U}:1"}, "another text": {"position": "so"},
        "a time-out that is none": {"position": f"{U}:1", "timeout": "soon"}, "another flavour": {"position": "FilePos/a:1"},
    }.items():  # fmt: skip
        said = target.get("/reached", **query)
        trial.check(f"reached: {name}", said.status == 400 and said.json()["error"], said.body)


def rows(trial, target: Target) -> None:
    said = target.rows("t", limit=2)
    trial.check("rows by key", [one["row"] for one in said["rows"]] == [["1", "a"], ["2", "b"]] and said["columns"] == ["id", "v"] and said["next"]["key"] == ["11"], said)
    there = target.rows("t", **{"from": ",".join(said["next"]["cells"])})
    trial.check("rows from a key's cells on", [(one["key"], one["stream"]) for one in there["rows"]] == [(["11"], 1)] and there["next"] is None, there)
    trial.check("rows from a key's texts on", [one["row"] for one in target.rows("t", key="2")["rows"]] == [["2", "b"], ["11", "k"]], target.rows("t", key="2"))
    trial.check("long values are cut where that is asked", target.rows("t", limit=1, width=1)["rows"][0]["row"] == ["1", "a"])
    said = target.get("/row/t", key="11")
    trial.check("one row", said.json()["row"] == ["11", "k"] and said.json()["stream"] == 1, said.body)
    trial.check("one that isn't there", target.get("/row/t", key="12").json()["row"] is None)
    wanted = {"/rows/u": 404, "/row/t": 400, "/rows/t?limit=0": 400, "/rows/t?limit=10001": 400, "/rows/t?key=a": 400, "/rows/t?key=1&key=2": 400, "/rows/t?from=x3": 400,
              "/rows/t?from=x31%09x32": 400, "/rows/t?from=x31%0Aend": 400, "/nothing": 404, "/rows/": 404}  # fmt: skip
    for path, status in wanted.items():
        said = target.get(path)
        trial.check(f"{path} is {status}", said.status == status and said.json()["error"], (said.status, said.body))
    long = target.get("/rows/t", **{"from": "x" + "31" * 40_000})
    trial.check("a key that is too long", long.status == 400 and b"124: " in long.body, (long.status, long.body[:100]))
    long = target.get("/row/t", **{"from": "x" + "30" * 20_000 + "31"})
    trial.check("a key that is long", long.status == 200 and long.json()["row"] == ["1", "a"], (long.status, long.body[:100]))
    many = ",".join(f"{V[:-4]}{number:04x}:1" for number in range(3000))
    long = target.get("/reached", position=many, timeout=0)
    trial.check("a position of many uuids", long.status == 504, (long.status, long.body[:100]))


def metrics(trial, target: Target) -> None:
    from prometheus_client.parser import text_string_to_metric_families

    text = target.get("/metrics").body.decode()
    found = {(one.name, *sorted(one.labels.items())): one.value for family in text_string_to_metric_families(text) for one in family.samples}
    stream = ("shard", "80-"), ("stream", "1")
    wanted = {
        ("vrepl_stream_applied_groups_total", *stream): 1, ("vrepl_stream_lag_groups", *stream): 0, ("vrepl_stream_lag_bytes", *stream): len(making.UPPER) - 3 - 109,
        ("vrepl_stream_position", *stream, ("uuid", V)): 1, ("vrepl_table_rows", ("shard", "-80"), ("stream", "0"), ("table", "t")): 2, ("vrepl_healthy",): 1,
        ("vrepl_stream_phase", ("phase", "Running"), *stream): 1, ("vrepl_changes_total",): 0, ("vrepl_program_starts_total",): 1, ("vrepl_stream_copied_tables", *stream): 1,
    }  # fmt: skip
    wrong = {name: (found.get(name), value) for name, value in wanted.items() if found.get(name) != value}
    trial.check("metrics have what Prometheus is told", not wrong and found[("vrepl_stream_lag_seconds", *stream)] > 0, wrong)


def events(trial, target: Target, upper: str) -> None:
    """An event for each change, at once."""
    host, port = re.fullmatch(r"http://(.*):(\d+)/", target.address).groups()
    with socket.create_connection((host, int(port)), timeout=30) as asking:
        asking.sendall(b"GET /events HTTP/1.1\r\nHost: localhost\r\n\r\n")
        read = asking.makefile("rb")

        def event() -> dict:
            while not (line := read.readline()).startswith(b"data: "):
                if not line:
                    raise RuntimeError("the events have ended")
            return json.loads(line[6:])

        first = event()
        with open(upper, "ab") as file:
            file.write(making.UPPER[-3:])
        begun = time.monotonic()
        while (last := event())["streams"][1]["applied"] != 2:
            pass
        trial.check("an event at each change", first["streams"][1]["applied"] == 1 and time.monotonic() - begun < 10 and last["version"] > first["version"], last)


def guarded(trial) -> None:
    """Where it listens, and who may ask."""
    workflow, lower, upper = feeds(trial, "guarded")
    token = "0123456789abcdef-token"
    file = trial.put("token", token.encode() + b"\n")
    with Target(trial.live, trial.path("guarded.checkpoint"), workflow, [lower, upper]) as target:
        target.awaits_well()
        port = int(target.address.rstrip("/").rpartition(":")[2])
        trial.check("it listens on the loopback alone", listening(target.process.pid) == {f"0100007F:{port:04X}"}, listening(target.process.pid))
        for host, status in {"localhost": 200, "127.0.0.1": 200, "[::1]:80": 200, "evil.example": 421, f"evil.example:{port}": 421, "127.0.0.1.evil.example": 421}.items():
            trial.check(f"Host {host} is {status}", target.get("/state", {"Host": host}).status == status)
        said = target.get("/")
        names = ("Content-Security-Policy", "X-Content-Type-Options", "X-Frame-Options", "Cache-Control")
        trial.check("the page runs its own script alone", all(name in said.headers for name in names) and "default-src 'none'" in said.headers[names[0]], said.headers)
        from_elsewhere = re.findall(rb"""(?:src|href)\s*=\s*["']?(?!data:,)[^"'>\s]+|https?://|@import|url\(""", said.body)
        trial.check("and has nothing from elsewhere", not from_elsewhere, from_elsewhere)
        connection = http.client.HTTPConnection("127.0.0.1", port)
        connection.request("POST", "/state", b"x")
        trial.check("nothing is taken", connection.getresponse().status == 405)
        connection.close()
    with Target(trial.live, trial.path("guarded.checkpoint"), workflow, [lower, upper], "--token", file) as target:
        awaits(target.is_well, "a target that is well")
        trial.check("/healthz wants no token", target.get("/healthz").body == b"ok\n")
        paths = ["/", "/state", "/rows/t", "/row/t?key=1", "/events", "/metrics", "/reached?position=so", "/nothing", "/healthz/", "//healthz"]
        got = {path: target.get(path).status for path in paths}
        trial.check("all else does", set(got.values()) == {401}, got)
        wrong = {"Bearer " + token[:-1], "Bearer", "Basic " + token, token, "Bearer é"}
        got = {said: target.get("/state", {"Authorization": said.encode().decode("latin-1")}).status for said in wrong}
        trial.check("another word isn't the token", set(got.values()) == {401} and target.get("/state", {"Cookie": "vrepl_token=so"}).status == 401, got)
        trial.check("it is by Authorization", target.get("/state", {"Authorization": "Bearer " + token}).status == 200)
        connection = http.client.HTTPConnection("127.0.0.1", int(target.address.rstrip("/").rpartition(":")[2]))
        connection.request("GET", f"/?token={token}")
        said = connection.getresponse()
        cookie = said.headers["Set-Cookie"]
        trial.check("a link gives it as a cookie", (said.status, said.headers["Location"]) == (303, "/") and "HttpOnly" in cookie and "SameSite=Strict" in cookie, (said.status, cookie))
        trial.check("which is known", target.get("/state", {"Cookie": cookie.partition(";")[0]}).status == 200)
        connection.close()


def listening(pid: int) -> set[str]:
    """The addresses at which a process listens, as /proc/net has them."""
    links = {os.readlink(f"/proc/{pid}/fd/{number}") for number in os.listdir(f"/proc/{pid}/fd")}
    found = set()
    for name in ("tcp", "tcp6"):
        with open(f"/proc/{pid}/net/{name}", encoding="ascii") as file:
            lines = [line.split() for line in file.read().splitlines()[1:]]
        found |= {words[1] for words in lines if words[3] == "0A" and f"socket:[{words[9]}]" in links}
    return found


SCRIPT = "<img src=x onerror=\"document.title='taken'\"><script>document.title='taken'</script>"
TURNED = "a\u202eb\u200bc"
HOSTILE = [b"</td><b>bold</b>", SCRIPT.encode(), b"\xff\x00\x01", "\u202etxt.exe".encode(), b"'\"&amp;`${1}", b"\x1b[31mred", b"x" * 5000, b"", None, "ä€𝄞".encode()]


def hostile(trial) -> None:
    """Names and rows that would be more than text on a page, in a request or in a line."""
    if not command():
        return trial.leave_out("hostile names and rows", "chromium")
    tables = [SCRIPT, "a/b?c#d%2F e", TURNED, "..", "</title><b>"]
    columns = ["<i>id</i>", "'\"><svg onload=document.title='taken'>"]
    said = [{"name": name, "columns": [[columns[0], "VARBINARY"], [columns[1], "BLOB"]], "key": [columns[0]]} for name in tables]
    shard = "<u>-80</u>"
    workflow = trial.put("<b>hostile.json", json.dumps({"keyspace": "<b>", "tables": said, "streams": [{"shard": shard, "filter": {"rules": [{"match": "/.*"}]}}]}).encode())
    kinds = [(columns[0].encode(), 10262), (columns[1].encode(), 10260)]
    groups, n = [], 0
    for name in tables:
        for at, value in enumerate(HOSTILE):
            n += 1
            groups.append(making.group(making.U + (b":1" if n == 1 else b":1-%d" % n), making.added((value if value is not None else b"null", value)), name.encode(), kinds))
    groups.append(making.group(making.U + b":1-%d" % (n + 1), making.added((b"k", b"v")), SCRIPT.encode(), kinds))
    # a refusal with the table's name in it: a NULL in the key
    refused = making.group(making.U + b":1-%d" % (n + 2), making.added((None, b"v")), SCRIPT.encode(), kinds)
    feed = trial.put("<b>hostile.feed", b"".join(groups))

    async def looked(target: Target) -> None:
        async with Browser() as browser:
            await browser.be(400, 900, "dark")
            await browser.open(target.address)
            for name in tables:
                await browser.awaits("document.querySelector('#table option')")
                await browser.value(f"choose({json.dumps(name)})")
                wanted = len(HOSTILE) + (name == SCRIPT)
                await browser.awaits(f"{SHOWN} == {wanted} && !isAsking")
                text = await browser.value("document.getElementById('rows').innerText")
                have = SCRIPT in text and "</td><b>bold</b>" in text and "xff0001" in text and "\\u{202e}txt.exe" in text and columns[0] in text and "NULL" in text and "5.0 kB" in text
                trial.check(f"hostile rows are text, in table {name[:12]!r}", have and "\u202e" not in text, text)
            page = await browser.value("document.body.innerText")
            trial.check("hostile names are text", SCRIPT in page and shard in page and "a\\u{202e}b\\u{200b}c" in page and "<b>hostile" in page, page)
            await browser.awaits("document.querySelector('#streams .refused')")
            line = await browser.value("document.querySelector('#streams .refused').innerText")
            trial.check("a refusal is told in words", "refused 90 (a row has no key" in line and SCRIPT in line and "cause 61" in line, line)
            elements = await browser.value("document.querySelectorAll('img, svg, i, u, b, script[src], main script').length")
            title = await browser.value("document.title")
            trial.check("nothing of them is run or made", not elements and title.startswith("<b>hostile") and not browser.faults, (elements, title, browser.faults))
            wide = await browser.value("document.documentElement.scrollWidth")
            out = await browser.value("[...document.querySelectorAll('body *')].filter((it) => !it.closest('.scroll') && it.getBoundingClientRect().right > 400).map((it) => it.tagName + '.' + it.className).join(' ')")
            trial.check("the page stays within 400 pixels", wide <= 400 and not out, (wide, out))

    with Target(trial.live, trial.path("hostile.checkpoint"), workflow, [feed]) as target:
        awaits(lambda: target.is_well() and target.has_all(), "all rows")
        with open(feed, "ab") as file:
            file.write(refused)
        awaits(lambda: target.state()["streams"][0]["refused"], "the refusal")
        trial.check("a stream that is refused isn't well", target.get("/healthz").status == 503 and target.get("/healthz").body == b"not well\n", target.get("/healthz").body)
        for name in tables:
            said = target.rows(name, limit=20)
            trial.check(f"rows of table {name[:12]!r}", said.get("table") == name and len(said["rows"]) == len(HOSTILE) + (name == SCRIPT), said)
        asyncio.run(looked(target))
        text = target.get("/metrics").body.decode()
        from prometheus_client.parser import text_string_to_metric_families

        found = {one.labels["table"] for family in text_string_to_metric_families(text) for one in family.samples if one.name == "vrepl_table_rows"}
        trial.check("metrics have hostile names as labels", found == set(tables), found)
        lines = target.said()
        trial.check("a line of it stays a line", all(line.startswith("target: ") for line in lines.splitlines()) and "\x1b" not in lines and "\u202e" not in lines, lines)
