"""The page, as somebody sees it: a row that is written to a server shows within two seconds, at two widths, light and dark."""
import asyncio
import json
import time

from record.server import Server, is_installed

from .browser import Browser, command
from .daemon import Target, awaits
from .sources import Recorder, workflow

TABLES = """CREATE DATABASE shop; CREATE TABLE shop.customer (id INT PRIMARY KEY, name VARCHAR(40), since DATE, photo BLOB, credit DECIMAL(8,2));
    CREATE TABLE shop.orders (customer INT, number INT, item VARCHAR(60), at TIMESTAMP(3) NULL, PRIMARY KEY (customer, number));
    INSERT INTO shop.customer SELECT seq, CONCAT('customer ', seq), '2024-02-03', IF(seq % 3, NULL, x'00ff'), seq / 7 FROM shop.seq_1_to_2500;
    INSERT INTO shop.orders SELECT 1 + seq % 50, seq, 'tea', '2024-02-03 04:05:06.789' FROM shop.seq_1_to_300; """
MOST = 2.0
"""The seconds in which a row shows, on a machine with nothing else to do."""


def tried(trial) -> None:
    if not is_installed() or not command():
        return trial.leave_out("the page", "mariadb-server or chromium")
    with Server(41) as server:
        server.sql(TABLES)
        feed, names = trial.path("shop.feed"), ["shop.customer", "shop.orders"]
        with Recorder(server, feed, "-", *names, program=trial.program):
            plan = workflow(server, trial.path("shop.json"), "shop", ["-"], names)
            with Target(trial.live, trial.path("shop.checkpoint"), plan, [feed]) as target:
                awaits(lambda: target.is_well() and target.has_all() and target.state()["tables"][0]["rows"] == [2500], "all rows")
                asyncio.run(looked(trial, target, server))


async def looked(trial, target: Target, server) -> None:
    async with Browser() as browser:
        await browser.be(1400, 900, "light")
        await browser.open(target.address)
        await browser.awaits("document.querySelectorAll('#rows tbody tr').length == 50 && !isAsking")
        row = await browser.value("document.querySelector('#rows tbody tr').innerText")
        trial.check("columns are readable", row.split("\t")[:5] == ["1", "customer 1", "2024-02-03", "NULL", "0.14"], row)
        row = await browser.value("document.querySelectorAll('#rows tbody tr')[2].innerText")
        trial.check("and bytes that are no text", row.split("\t")[3] == "x00ff", row)
        await browser.value("document.querySelector('#keys input').value = '2490'; document.querySelector('#find button').click()")
        await browser.awaits("document.querySelectorAll('#rows tbody tr').length == 11")
        trial.check("a key is looked for", await browser.value("document.querySelector('#rows tbody td').innerText") == "2490")
        await browser.value("document.getElementById('first').click()")
        await browser.awaits("document.querySelectorAll('#rows tbody tr').length == 50 && !document.getElementById('next').disabled")
        await browser.value("document.getElementById('next').click()")
        await browser.awaits("document.querySelector('#rows tbody td').innerText == '51'")
        trial.check("and the rows behind these", True)
        await browser.value("document.querySelector('#keys input').value = '2495'; document.querySelector('#find button').click()")
        await browser.awaits("document.querySelectorAll('#rows tbody tr').length == 6")
        waits, asks = [], []
        shown = {
            "INSERT INTO shop.customer VALUES (2600, 'one more', '2026-11-29', NULL, 1)": "'one more'", "UPDATE shop.customer SET name='another' WHERE id=2600": "'another'",
            "UPDATE shop.customer SET name='äöü€ß' WHERE id=2600": "'äöü€ß'",
        }  # fmt: skip
        for statement, text in shown.items():
            begun = time.monotonic()
            await asyncio.to_thread(server.sql, "SELECT 1")
            asks.append(time.monotonic() - begun)
            begun = time.monotonic()
            await asyncio.to_thread(server.sql, statement)
            await browser.awaits(f"document.querySelector('#rows').innerText.includes({text})")
            waits.append(time.monotonic() - begun)
        # (a machine that is busy otherwise takes longer for a question too)
        trial.check("a row that is written shows within two seconds", max(waits) < MOST + 9 * max(asks), (waits, asks))
        trial.note("it took " + ", ".join(f"{one:.2f} s" for one in waits))
        trial.check("and is marked", await browser.value("document.querySelectorAll('#rows tr.new').length") == 1)
        server.sql("DELETE FROM shop.customer WHERE id=2600")
        await browser.awaits("document.querySelectorAll('#rows tbody tr').length == 6")
        backs = {}
        for width in (400, 1400):
            for scheme in ("light", "dark"):
                await browser.be(width, 900, scheme)
                await browser.value("choose('orders')")
                await browser.awaits("document.querySelectorAll('#rows tbody tr').length == 50 && document.querySelectorAll('#keys input').length == 2")
                wide = await browser.value("document.documentElement.scrollWidth")
                colours = json.loads(await browser.value(COLOURS))
                backs[width, scheme] = colours["back"]
                trial.check(f"readable at {width}, {scheme}", wide <= width and colours["least"] >= 4.5, (wide, colours))
        trial.check("light and dark differ", backs[400, "light"] != backs[400, "dark"] and backs[400, "light"] == backs[1400, "light"], backs)
        trial.check("nothing went wrong in the page", not browser.faults, browser.faults)
        target.end()
        await browser.awaits("document.getElementById('health').innerText == 'no connection'")
        trial.check("and it says where the target is gone", True)


COLOURS = """(() => {
    const bright = (text) => { const [r, g, b] = text.match(/[\\d.]+/g).slice(0, 3).map((it) => it / 255).map((it) => it <= 0.03928 ? it / 12.92 : ((it + 0.055) / 1.055) ** 2.4);
        return 0.2126 * r + 0.7152 * g + 0.0722 * b; };
    const behind = (it) => { for (; it; it = it.parentElement) { const colour = getComputedStyle(it).backgroundColor; if (!/rgba\\(.*, 0\\)/.test(colour)) return colour; } return 'rgb(255, 255, 255)'; };
    let least = 99, which = '';
    for (const it of document.querySelectorAll('h1, h2, h3, dt, dd, td, th, li, p, label, .state, .dim, button:enabled, code')) {
        if (!it.innerText) continue;
        const [one, other] = [bright(getComputedStyle(it).color), bright(behind(it))].sort();
        const ratio = (other + 0.05) / (one + 0.05);
        if (ratio < least) { least = ratio; which = it.tagName + ' ' + it.innerText.slice(0, 20); }
    }
    return JSON.stringify({ least, which, back: getComputedStyle(document.body).backgroundColor });
})()"""
"""The least contrast of the page's texts (WCAG's ratio), and the page's background."""
