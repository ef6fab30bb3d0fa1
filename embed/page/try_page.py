#!/usr/bin/env python3
"""Tries the page in a browser.

    embed/page/try_page.py [--program PROGRAM] BROWSER PAGE     BROWSER is chromium or firefox-esr
    embed/page/try_page.py --pictures FOLDER chromium PAGE      draws each preset at 1400 and 390 pixels, light and dark, to be looked at

Every case of crates/qtree/tests/corpus is played to its report and status. Each preset runs to its end with the tables of its file .out,
which tools/simulate wrote, and with no broken promise. In Chromium its saved sessions are those of tools/simulate, and PROGRAM, by default
qtree-play, plays them to the report that the page has of them; a mistake that is planted is found: a share claimed 2 % too high, polls 2 ms
late, and a bound that is a byte too small. A wrong word is underlined with its sentence, a link brings the same mix back, and nothing is
asked for but the page itself. The status is 3 where the browser is not installed, and 1 where something is wrong.
"""
import argparse
import glob
import hashlib
import json
import os
import re
import shutil
import subprocess
import sys
import tempfile
import time
import urllib.parse

sys.dont_write_bytecode = True
TOP = os.path.dirname(os.path.dirname(os.path.dirname(os.path.realpath(__file__))))
sys.path.insert(0, f"{TOP}/embed/page")
from browsers import KINDS, Broken  # noqa: E402

CASES = ("corpus", "examples")
PRESETS = sorted(glob.glob(f"{TOP}/embed/page/presets/*.mix"))
# What each planted mistake breaks.
PLANTED = {1: "Mbit/s while it has packets", 2: "leaves within", 3: "by the time given on its arrival"}
HEX = "Array.from(new Uint8Array(await crypto.subtle.digest('SHA-256', it)), x => x.toString(16).padStart(2, '0')).join('')"


def read(path):
    with open(path, "rb") as file:
        return file.read()


def cases(path):
    """The cases of a file of them: name, options, status, script and report."""
    found = []
    for line in read(path).split(b"\n"):
        word, _, rest = (b"<|", b"", line[2:]) if line.startswith(b"<|") else line.partition(b" ")
        if word == b"case":
            found.append({"name": rest.decode(), "options": {}, "status": 0, "script": b"", "report": b""})
        elif word == b"options":
            words = rest.decode().split()
            found[-1]["options"] = {name[2:]: int(value) for name, value in zip(words[::2], words[1::2])}
        elif word == b"status":
            found[-1]["status"] = int(rest)
        elif word in (b"<", b"<|"):
            found[-1]["script"] += rest + b"\n" * (word == b"<")
        elif word == b">":
            found[-1]["report"] += rest + b"\n"
    return found


class Page:
    """The page in a browser."""

    def __init__(self, browser, address):
        self.browser, self.address, self.wrong = browser, address, 0

    def run(self, text):
        """What a body of an async function returns."""
        return self.browser.run(text)

    def open(self, more=""):
        self.browser.open("about:blank")
        self.browser.open(self.address + more)
        self.wait("running", "paused", "done", "waiting", "faulty")

    def state(self):
        return self.run("return document.body ? document.body.dataset.state || '' : '';")

    def wait(self, *states):
        for _ in range(1200):
            state = self.state()
            if state in states:
                return state
            if state == "failed":
                raise Broken(self.run("return document.getElementById('failed').textContent;"))
            time.sleep(0.05)
        raise Broken(f"the page is {state}, and not {' or '.join(states)}")

    def check(self, is_right, what):
        if not is_right:
            self.wrong += 1
            print(f"wrong: {what}")


def try_cases(page):
    for name in CASES:
        asked = cases(f"{TOP}/crates/qtree/tests/corpus/{name}.txt")
        given = [[list(it["script"]), it["options"]] for it in asked]
        text = json.dumps(given, separators=(",", ":"))
        got = page.run(f"const all = []; for (const [script, options] of {text}) {{ const it = await ask('play', {{ script, options }}); "
                       "all.push([it.status, Array.from(it.report)]); } return all;")
        for it, (status, report) in zip(asked, got):
            page.check(status == it["status"] and bytes(report) == it["report"], f"{name}: {it['name']} has another report")
        print(f"{name}: {len(asked)} scripts were played")


def tables(path):
    """The tables that tools/simulate writes, without what lays them out."""
    return [re.sub(r"\s+", " ", it).strip() for it in read(path).decode().split("\n") if it.strip()]


def shown_tables(page):
    """The same of the page."""
    rows = page.run("""
        const text = it => [...it.children].map(cell => cell.textContent).join(' ');
        return [...document.querySelectorAll('article')].flatMap(card => [
            '== ' + card.querySelector('h2').textContent.replace(/^[AB]: /, ''),
            ...[...card.querySelectorAll('.flows tr')].map(text),
            ...[...card.querySelectorAll('.promises tr')].slice(1).map(row => row.querySelector('span').className + text(row).slice(1)),
            ...(card.querySelector('.promises tr') ? [] : [card.querySelector('p').textContent.replace(/:.*/, '.')])]);""")
    return [re.sub(r"\s+", " ", it).strip() for it in rows]


def try_session(page, path, tree, program):
    """The saved session of a tree is that of tools/simulate, and the program plays it to the report that the page has of it."""
    script, report = page.run(f"const {{ script }} = await ask('session', {{ tree: {tree} }}); const hex = async it => {HEX}; "
                              "const { report } = await ask('play', { script, options: { record: 0 } }); "
                              "return [await hex(new TextEncoder().encode(script)), await hex(report)];")
    with tempfile.TemporaryDirectory() as room:
        words = [f"{TOP}/embed/page/build/simulate", "--tree", str(tree + 1), "--session", f"{room}/session", path]
        subprocess.run(words, stdout=subprocess.DEVNULL, check=True)
        here = hashlib.sha256(read(f"{room}/session")).hexdigest()
        page.check(here == script, f"{path}: tree {tree} has another session than tools/simulate")
        played = subprocess.run([program, "play", "--record", "0", f"{room}/session"], capture_output=True, check=False).stdout
    page.check(hashlib.sha256(played).hexdigest() == report, f"{path}: tree {tree}: the program plays the session to another report")


def try_presets(page, program):
    for number, path in enumerate(PRESETS):
        page.open(f"?preset={number}")
        page.run("document.getElementById('speed').value = '0';")
        page.wait("done")
        page.check(page.run("return document.querySelectorAll('#trees span.broken').length;") == 0, f"{path}: a promise is broken")
        page.check(shown_tables(page) == tables(path[:-3] + "out"), f"{path}: other tables than those of tools/simulate")
        for tree in range(page.run("return document.querySelectorAll('article').length;") if program else 0):
            try_session(page, path, tree, program)
    print(f"{len(PRESETS)} presets ran to their ends")


def try_planted(page):
    page.open("?preset=1")
    for mistake, what in PLANTED.items():
        page.run(f"await ask('plant', {{ mistake: {mistake} }}); document.getElementById('speed').value = '0'; restart(true);")
        page.wait("running")
        page.wait("done")
        broken = page.run("return [...document.querySelectorAll('#trees span.broken')].map(it => it.closest('tr').textContent);")
        page.check(any(what in it for it in broken), f"planted mistake {mistake} is not found")


def try_editor(page):
    """A wrong word stops the run; once it is corrected, the page runs again. A link brings the mix back."""
    page.open("?preset=0")
    change = "const it = document.querySelector('#editors textarea'); it.value = it.value.replace({}); "
    change += "it.dispatchEvent(new Event('input'));"
    page.run(change.format("'limit 1000', 'limt 1000'"))
    page.wait("faulty")
    page.check(page.run("return document.querySelector('#editors u').textContent;") == "limt", "the wrong word is not underlined")
    told = page.run("return document.querySelector('#editors .told').textContent;")
    page.check("did you mean limit?" in told, "no sentence on the wrong word")
    page.run(change.format("'limt 1000', 'limit 77'"))
    page.wait("running", "done")
    page.run("document.getElementById('link').click();")
    address = page.run("return location.href;")
    page.browser.open("about:blank")
    page.browser.open(address)
    page.wait("running", "done")
    page.check("limit 77" in page.run("return document.querySelector('#editors textarea').value;"), "a link brings another mix")
    costly = {"mix": "seconds 3600\na: rate 100mbit\ntree a\ntc qdisc add dev wan root pfifo\n", "speed": "0"}
    page.browser.open("about:blank")
    page.browser.open(page.address + "#" + urllib.parse.quote(json.dumps(costly)))
    page.check(page.wait("waiting", "running", "done") == "waiting", "a costly run does not say so")


def try_requests(page):
    """Chromium says what was asked for, and which exceptions nobody caught."""
    if hasattr(page.browser, "requests"):
        allowed = (page.address, "blob:", "about:blank")
        others = [it for it in page.browser.requests() if not it.startswith(allowed)]
        page.check(not others, f"something else is asked for: {others[:3]}")
        page.check(not page.browser.errors(), f"an exception: {page.browser.errors()[:3]}")


def draw(page, folder):
    os.makedirs(folder, exist_ok=True)
    for width, dark in ((1400, False), (390, False), (1400, True), (390, True)):
        page.browser.size(width, 900, dark)
        for number in range(len(PRESETS)):
            page.open(f"?preset={number}")
            page.run("document.getElementById('speed').value = '0';")
            page.wait("done")
            wide = page.run("return Math.max(document.documentElement.scrollWidth - innerWidth, "
                            "...[...document.querySelectorAll('article')].map(it => it.scrollWidth - it.clientWidth));")
            page.check(wide <= 0, f"preset {number} is {wide} pixels too wide at {width}")
            page.browser.picture(f"{folder}/preset_{number}_{width}{'_dark' * dark}.png")


def main():
    parser = argparse.ArgumentParser(usage=__doc__.split("\n")[2].strip())
    parser.add_argument("--program", default=f"{TOP}/embed/c/build/play")
    parser.add_argument("--pictures")
    parser.add_argument("browser", choices=KINDS)
    parser.add_argument("page", type=os.path.realpath)
    asked = parser.parse_args()
    program = shutil.which(asked.browser)
    if not program:
        print(f"{asked.browser} is not installed (apt-get install {asked.browser})")
        return 3
    subprocess.run(["make", "-s", "-C", f"{TOP}/embed/page"], check=True)
    with KINDS[asked.browser](program) as browser:
        page = Page(browser, f"file://{asked.page}")
        if asked.pictures:
            draw(page, asked.pictures)
        else:
            page.open()
            try_cases(page)
            try_presets(page, asked.program if asked.browser == "chromium" else None)
            if asked.browser == "chromium":
                try_planted(page)
            try_editor(page)
        try_requests(page)
    return int(page.wrong > 0)


if __name__ == "__main__":
    sys.exit(main())
