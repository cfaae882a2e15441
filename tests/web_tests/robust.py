"""Tests that the page stands what is missing, what dies and what is hostile."""

from __future__ import annotations

import hashlib
import json
import os
import re
import time
import zipfile
from typing import Callable

from .battles import Battle, Settings, samples
from .pages import Page, Tests, changed, console, is_in_time, packed, without

FIELD = "document.querySelector('#writing textarea:not([style*=none])')"
# a link of 78 KB that unpacks to 60 MB
BOMB = 60_000_000
# a source of a byte more than one may have; in lines, since WebKit takes minutes for one of a megabyte
LARGEST = (" " * 999 + "\n") * 1048 + " " * 577
DISGUISED = "live.r\n  1) won 9 tied 0 lost 0 \u202egnp.evil\u2066\x07"
# what a browser loads to play, and what else lies beside it to be read
MOST_BYTES, MOST_PACKED = 850_000, 265_000
MOST_READ, MOST_READ_PACKED = 210_000, 70_000
# pages to read that lie beside the page, and not in the folder of the others
BESIDE = ("manual.html", "about.html")
LOST = ("codemirror/codemirror.js", "codemirror/codemirror.css")


def plain(page: Page, folder: str) -> list[str]:
    """Without a part of CodeMirror there is a plain text field, and all else is as ever; what was written stays in its tab."""
    wrong = console(page)
    for name in LOST:
        with without(folder, name) as address:
            other = Page(page.driver, address)
            other.fresh()
            other.js(f"const it = {FIELD}; it.value = 'main(){{\\nbreak; }}'; it.dispatchEvent(new Event('input'))")
            other.wait("return document.getElementById('diagnostic').textContent.startsWith('Line 2: reserved word.')")
            other.js("document.getElementById('tab-1').click(); document.getElementById('tab-0').click()")
            other.wait("return document.getElementById('diagnostic').textContent.startsWith('Line 2: reserved word.')")
            shown = other.js(f"const it = {FIELD}; return [it.value, it.dataset.line]")
            wrong += [] if shown == ["main(){\nbreak; }", "2"] else [f"without {name}: {shown}"]
            console(other)
    return wrong


def no_data(page: Page, folder: str) -> list[str]:
    """Without its data the page says so."""
    wrong = console(page)
    with without(folder, "data.js") as address:
        page.driver.get(address)
        page.wait("return document.getElementById('lacking').textContent.includes('data.js')")
        seen = page.js("return [document.getElementById('lacking').hidden, document.getElementById('main').hidden]")
        console(page)
    return wrong + ([] if seen == [False, True] else [f"{seen}"])


def one_letter(text: str, at: int) -> str:
    """A text of which one letter is another one, of those that base 64 has."""
    letter = "B" if text[at] == "A" else "A"
    return text[:at] + letter + text[at + 1:]


def in_module(text: str) -> str:
    """Data of which a letter in the middle of the packed module is changed."""
    begin = text.index('"module":"') + 10
    return one_letter(text, (begin + text.index('"', begin)) // 2)


# a file, what happens to it, and what the page says
DAMAGES: dict[str, tuple[str, Callable[[str], str], str]] = {
    "a letter of the module": ("data.js", in_module, "The page is damaged: its file data.js isn't the one that was built."),
    "a letter of a sample": ("data.js", lambda text: text.replace("hunter: finds", "hunter: Finds", 1), "The page is damaged: its file data.js isn't"),
    "data that is cut off": ("data.js", lambda text: text[:len(text) // 2], "The page is not whole: its file data.js is missing, cut off or damaged."),
    "a page that is cut off": ("page.js", lambda text: text[:len(text) // 2], "The page is not whole: its file page.js is missing, cut off or damaged."),
    "a letter of the page": ("page.js", lambda text: text.replace("No fault.", "no fault.", 1), "The page is damaged: its file page.js isn't"),
    "a start that is cut off": ("start.js", lambda text: text[:len(text) // 2], "This page needs JavaScript, "),
}
# a page that isn't served in a safe way has no hashes of the browser's
UNSAFE = "Object.defineProperty(globalThis.crypto, 'subtle', {get() { return undefined; }})"


def damaged(page: Page, folder: str) -> list[str]:
    """The page runs nothing of which a file is damaged, and says which one it is; also where it works out the hashes itself."""
    wrong = console(page)
    for name, (file, change, wanted) in DAMAGES.items():
        with changed(folder, file, change) as address:
            for code in ("", UNSAFE)[:2 if "module" in name else 1]:
                with page.before(code):
                    page.driver.get("about:blank")
                    page.driver.get(address)
                    page.wait("return getComputedStyle(document.getElementById('lacking')).visibility === 'visible'"
                              " && document.getElementById('lacking').textContent.startsWith(arguments[0])", wanted)
                    wrong += [] if page.js("return document.getElementById('main').hidden") else [f"{name}: the page is shown"]
    console(page)
    with page.before(UNSAFE):
        page.fresh()
        wrong += [] if page.names == ["hunter.r", "sniper.r"] else [f"without the browser's hashes: {page.names}"]
    return wrong


# stands in for a module of another version: it has none of the calls
OTHER = "WebAssembly.instantiate = async () => ({instance: {exports: {}}})"


def misfit(page: Page, folder: str) -> list[str]:
    """A module that doesn't fit the page is told, and nothing of it in place of a diagnostic. The worker that is laid has it here."""
    wrong = console(page)
    code = f"const Plain = Blob; globalThis.Blob = class extends Plain {{ constructor(parts, more) {{ super(more?.type === 'text/javascript' ? [{json.dumps(OTHER)}, ';', ...parts] : parts, more); }} }}"
    with page.before(code):
        page.driver.get("about:blank")
        page.driver.get(page.address)
        page.wait("return document.getElementById('lacking').textContent.startsWith(\"The page's engine doesn't start: the module and the page differ\")")
        wrong += [] if page.js("return document.getElementById('main').hidden") else ["the page is shown"]
    console(page)
    return wrong


def dying(page: Page) -> list[str]:
    """The page says that a worker died, and the next battle runs."""
    keep = "window.workers = []; const Plain = Worker; window.Worker = class extends Plain { constructor(...words) { super(...words); workers.push(this); } }"
    with page.before(keep):
        page.open()
    page.show(Battle(samples()[:2], Settings(limit=1_000_000_000)))
    page.show(Battle([("a.r", b"main(){while(1);}"), ("b.r", b"main(){while(1);}")], Settings(limit=1_000_000_000)))
    page.click("run")
    page.js("workers.forEach(it => it.dispatchEvent(new ErrorEvent('error', {message: 'out of memory', cancelable: true})))")
    page.wait("return document.getElementById('said').textContent !== 'The battle runs.'")
    said = page.text("said")
    page.set("limit", "99")
    report = page.run()
    page.write("main() { break; }")
    told = page.text("diagnostic")
    right = said.startswith("The engine ended.") and report.startswith("Match 1: cycles = 99\n") and told.startswith("Line 1: reserved word.")
    return [] if right else [f"{said!r} {report!r} {told!r}"]


def bomb(page: Page) -> list[str]:
    """A link that unpacks to more than a battle can have is refused at once; one that a battle fills is not."""
    page.fresh()
    text = json.dumps({"robots": [{"name": "a.r", "source": "/*" + "a" * BOMB}]}).encode()
    link = packed(text)
    begun = time.monotonic()
    page.open(link)
    page.wait("return document.getElementById('noted').textContent.startsWith('The link carries no battle')")
    took = time.monotonic() - begun
    largest = [{"name": f"{n}.r", "source": LARGEST} for n in range(4)]
    page.open(packed(json.dumps({"robots": largest}).encode()))
    names = page.names
    return [] if is_in_time(took, 5) and len(link) < 90_000 and names == [f"{n}.r" for n in range(4)] else [f"{len(link)} bytes, {took:.1f} s, {names}"]


def disguises(page: Page) -> list[str]:
    """Names that come with a link have no ends of lines, no control characters and no marks of direction."""
    page.show(Battle([(DISGUISED, b"main(){}")], Settings(limit=1)))
    lines = page.run().split("\n")
    name = page.names[0]
    wanted = "live.r  1) won 9 tied 0 lost 0 gnp.evil"
    return [] if name == wanted and len(lines) == 7 else [f"{name!r} {lines}"]


def strange_settings(page: Page) -> list[str]:
    """Settings of a link that aren't within their limits are the usual ones."""
    page.open(packed(json.dumps({"robots": [{"name": "a.r", "source": "main(){}"}], "settings":
                                 {"matches": {}, "limit": -1, "seed": "9" * 30, "first": "x", "profile": 3}}).encode()))
    shown = page.js("return ['matches', 'limit', 'seed', 'first', 'profile'].map(it => document.getElementById(it).value)")
    return [] if shown == ["1", "500000", "1", "1", "1"] else [f"{shown}"]


def policy(page: Page, folder: str) -> list[str]:
    """The page runs no code that is generated or comes from elsewhere, and works so as a file and from a server."""
    with open(os.path.join(folder, "index.html"), encoding="utf-8") as file:
        told = re.search(r'Content-Security-Policy" content="([^"]*)"', file.read())
    scripts = re.search(r"script-src ([^;]*)", told[1])[1].split() if told else []  # type: ignore[index]
    wrong = console(page)
    wrong += [] if told and "default-src 'none'" in told[1] and not {"'unsafe-inline'", "'unsafe-eval'", "*"} & set(scripts) else [f"{told}"]
    for address in (page.address, "file://" + os.path.join(os.path.abspath(folder), "index.html")):
        other = Page(page.driver, address)
        # a test before may have kept a battle that no match is played of
        other.fresh()
        # the driver's own call may generate code, so this is tried after it
        tries = {"eval": "return new Promise(done => setTimeout(() => { try { (0, eval)('1'); done('ran'); } catch { done('refused'); } }))",
                 "inline": "window.ran = 'refused'; const it = document.createElement('script'); it.textContent = 'window.ran = \"ran\"'; document.body.append(it); return window.ran",
                 "elsewhere": "return fetch('https://example.org/').then(() => 'ran', () => 'refused')"}
        wrong += [f"{address}: {name} ran" for name, code in tries.items() if other.js(code) != "refused"]
        report = other.run()
        other.watch(1)
        other.inside("it.getElementById('play-pause').click()")
        other.wait("return Number(document.getElementById('film').contentDocument.getElementById('slider').value) > 0")
        wrong += [] if report.startswith("Match 1: ") else [f"{address}: {report!r}"]
    said = [line for line in console(page) if "Content Security Policy" not in line and "Content-Security-Policy" not in line]
    return wrong + said


def size(folder: str) -> list[str]:
    """What a browser loads is small, so are the pages beside it, and the zip has all of the folder."""
    paths = [os.path.join(place, name) for place, _, names in os.walk(folder) for name in names]
    with zipfile.ZipFile(f"{folder}.zip") as pack:
        files = pack.infolist()
    wrong = [] if {os.path.join(folder, it.filename) for it in files} == set(paths) else ["the zip has other files than the folder"]
    for name, is_read, most in (("page", False, (MOST_BYTES, MOST_PACKED)), ("pages to read", True, (MOST_READ, MOST_READ_PACKED))):
        part = [it for it in files if (it.filename.startswith("pages/") or it.filename in BESIDE) == is_read]
        sizes = sum(it.file_size for it in part), sum(it.compress_size for it in part)
        print(f"{name}: {sizes[0]:,} bytes, and {sizes[1]:,} packed")
        wrong += [] if sizes[0] <= most[0] and sizes[1] <= most[1] else [f"{name}: {sizes[0]} bytes, {sizes[1]} packed"]
    return wrong


def about(folder: str) -> list[str]:
    """The page on what it is has the module's hash, and the zip unpacks to a page that has it too."""
    with open(f"{folder}.wasm", "rb") as file:
        digest = hashlib.sha256(file.read()).hexdigest()
    with open(os.path.join(folder, "about.html"), encoding="utf-8") as file:
        text = file.read()
    wrong = [] if digest in text and re.search(r"<dt>Version</dt><dd>\S+</dd>", text) else ["the hash or the version is missing"]
    told = ("What is proved", "What is not proved", "icence", "CodeMirror, by Marijn Haverbeke and others, under the MIT licence")
    return wrong + [f"nothing of {it}" for it in told if it not in text]


def missing(folder: str) -> Tests:
    """The tests of files that are missing by their names."""
    yield "robust: a missing part of the editor", lambda page: plain(page, folder)
    yield "robust: missing data", lambda page: no_data(page, folder)


def hostile_links() -> Tests:
    """The tests of links that are no good by their names."""
    yield "robust: a link that is a bomb", bomb
    yield "robust: names in disguise", disguises
    yield "robust: strange settings", strange_settings


def tests(folder: str) -> Tests:
    """The tests by their names."""
    yield from missing(folder)
    yield "robust: damaged files", lambda page: damaged(page, folder)
    yield "robust: a module that doesn't fit", lambda page: misfit(page, folder)
    yield "robust: a worker that dies", dying
    yield from hostile_links()
    yield "robust: the policy", lambda page: policy(page, folder)
    yield "robust: size and zip", lambda _: size(folder)
    yield "robust: about", lambda _: about(folder)
