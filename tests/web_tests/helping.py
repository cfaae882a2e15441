"""Tests of the help: the panel on the language, completion, what a call takes, the five steps, the other pages."""

from __future__ import annotations

import glob
import html
import json
import os
import re
from .battles import Battle, Settings, samples
from .pages import Page, Tests

MIRROR = "document.querySelector('.CodeMirror').CodeMirror"
MANUAL = os.path.join(os.path.dirname(os.path.abspath(__file__)), "..", "..", "man", "crobots-robots.6")
# as docs/field.md has them
PARAMETERS: dict[str, list[str]] = {"scan": ["degree", "resolution"], "cannon": ["degree", "range"], "drive": ["degree", "speed"], "damage": [], "speed": [],
              "loc_x": [], "loc_y": [], "rand": ["n"], "sqrt": ["n"], "sin": ["degree"], "cos": ["degree"], "tan": ["degree"], "atan": ["ratio"]}
LADDER = os.path.join(os.path.dirname(os.path.abspath(__file__)), "..", "..", "robots", "README.md")
# the pages to read to which the page links
READ = ("robots", "exercises", "mistakes", "language", "field", "web")
# sentences of the manual, one for each thing that the panel shows
SENTENCES = ("A robot wins a match if it is the only one that is left alive.", "A condition holds if it isn't 0.",
             "The second profile leaves out the right side if the left side decides, as C does.", "A robot never fails: it restarts.",
             "if (e) statement else statement", "Of the three rings of a burst only the smallest that holds the robot counts.")
# how many of ten matches the robot of the last step wins at least
MOST_LOST = 4


def panel(page: Page, crobots: str) -> list[str]:
    """The panel has the manual's own text, and each function with an example that compiles."""
    page.fresh()
    text = " ".join(page.js("const it = document.getElementById('language').cloneNode(true); return it.textContent").split())
    wrong = [f"the panel lacks: {sentence}" for sentence in SENTENCES if sentence not in text]
    items = page.js("return [...document.querySelectorAll('#language dt')].map(it => [it.textContent, it.nextElementSibling.querySelector('pre')?.textContent])")
    shown = {name: example for head, example in items for name in re.findall(r"(\w+)\(", head) if name in PARAMETERS}
    wrong += [] if shown.keys() == PARAMETERS.keys() else [f"functions: {sorted(shown)}"]
    for name, example in shown.items():
        battle = Battle([("a.r", f"main(){{ {example} }}".encode())], call="list")
        wrong += [] if battle.told(crobots)[0] == 0 and f"{name}(" in example else [f"{name}: {example}"]
    return wrong


def arguments(page: Page) -> list[str]:
    """While a call is written the page shows what it takes; the present argument is marked."""
    page.fresh()
    wrong = []
    for name, parameters in PARAMETERS.items():
        page.write(f"main() {{ {name}(")
        page.js(f"{MIRROR}.focus(); {MIRROR}.setCursor(0, 1000)")
        told = page.seen("signature")
        wrong += [] if told.startswith(f"{name}({', '.join(parameters)}): ") and len(told) > len(name) + 20 else [f"{name}: {told!r}"]
    page.write("main() { scan(rand(3), ")
    page.js(f"{MIRROR}.setCursor(0, 1000)")
    present = page.seen("signature")[:4], page.js("return document.querySelector('#signature b')?.textContent")
    wrong += [] if present == ("scan", "resolution") else [f"{present}"]
    page.press("ESCAPE")
    return wrong + ([] if page.seen("signature") == "" else ["Escape doesn't end it"])


def tooltip(page: Page) -> list[str]:
    """The name of a function that the pointer is on is explained, as long as it is there."""
    page.fresh()
    page.write("main() { cannon(1, 2); }")
    page.js("document.querySelector('.cm-builtin').dispatchEvent(new MouseEvent('mouseover', {bubbles: true}))")
    told = page.seen("signature")
    page.js("document.querySelector('.cm-number').dispatchEvent(new MouseEvent('mouseover', {bubbles: true}))")
    left = page.seen("signature")
    return [] if told.startswith("cannon(degree, range): ") and left == "" else [f"{told!r}, then {left!r}"]


def completion(page: Page) -> list[str]:
    """A word that is begun is completed, by keys: functions with their brackets, names of the source."""
    page.fresh()
    page.write("main() { int distance; }")
    page.js(f"{MIRROR}.focus(); {MIRROR}.setCursor(0, 22)")
    page.press("sca")
    page.wait("return document.querySelector('.CodeMirror-hint')")
    shown = page.js("return [...document.querySelectorAll('.CodeMirror-hint')].map(it => it.textContent)")
    page.press("ENTER", "1")
    wrong = [] if shown == ["scan(degree, resolution)"] and "scan(1)" in page.source else [f"{shown} {page.source}"]
    page.press("END", "; dist")
    page.wait("return document.querySelector('.CodeMirror-hint')")
    page.press("ENTER")
    return wrong + ([] if page.source.count("distance") == 2 else [page.source])


def steps(page: Page, crobots: str, folder: str) -> list[str]:
    """Five steps lead from the smallest robot to one that wins; each of them can be tried, and compiles."""
    with open(os.path.join(folder, "data.js"), encoding="utf-8") as file:
        found: list[dict[str, str]] = json.loads(file.read().partition("=")[2].rstrip(";\n"))["steps"]
    wrong = [] if len(found) == 5 else [f"{len(found)} steps"]
    known = dict(samples())
    won = []
    for step in found:
        battle = Battle([(step["name"], step["source"].encode()), (step["against"], known[step["against"]])], Settings(10))
        won.append([int(it) for it in re.findall(r"won (\d+)", battle.told(crobots)[1].decode())])
    wrong += [] if won[0][0] == 0 and won[-1][0] >= 10 - MOST_LOST else [f"won: {won}"]
    page.fresh()
    page.js("document.querySelectorAll('#steps button')[4].click()")
    report = page.run()
    return wrong + ([] if page.names == ["step5.r", found[4]["against"]] and f"won {won[4][0]} " in report else [f"{page.names} {report[-200:]}"])


def lost_links(folder: str) -> list[str]:
    """The links of the pages to read that lead to no page, or to no heading of one."""
    texts = {}
    for path in glob.glob(os.path.join(folder, "pages", "*.html")):
        with open(path, encoding="utf-8") as file:
            texts[os.path.basename(path)] = file.read()
    names = {page: set(re.findall(r' id="([^"]*)"', text)) | {""} for page, text in texts.items()}
    names |= {f"../{page}": {""} for page in ("index.html", "manual.html")}
    links = [(page, *link.partition("#")[::2]) for page, text in texts.items() for link in re.findall(r'<a href="([^"]*)"', text)]
    return [f"{page} leads to {to}#{name}" for page, to, name in links if name not in names.get(to, ())]


def levels(page: Page) -> list[str]:
    """The samples stand by levels, the easiest first, as the ladder of robots/README.md has them; each can be added."""
    page.fresh()
    with open(LADDER, encoding="utf-8") as file:
        rows = re.findall(r"^\| (\d) \| \[(\w+\.r)\]", file.read(), re.MULTILINE)
    shown = page.js("return [...document.querySelectorAll('#sample option')].map(it => [it.parentElement.label, it.value])")
    wrong = [] if shown == [[f"Level {level}", name] for level, name in rows] and len(shown) == len(samples()) else [f"{shown}"]
    page.js("document.getElementById('sample').value = 'jouster.r'")
    page.click("add-sample")
    page.wait("return document.querySelector('.CodeMirror').CodeMirror.getValue().startsWith('/* jouster: ')")
    return wrong + ([] if page.names[-1] == "jouster.r" else [f"{page.names}"])


def other_pages(page: Page, folder: str) -> list[str]:
    """The page links to the manual and to what it is; both are there, and say what they have to."""
    page.fresh()
    links = page.js("return [...document.querySelectorAll('a[href]')].map(it => it.getAttribute('href')).filter(it => !it.startsWith('#'))")
    wrong = [f"no file {link}" for link in links if not os.path.isfile(os.path.join(folder, link))]
    wrong += [] if {"manual.html", "about.html", *(f"pages/{name}.html" for name in READ)} <= set(links) else [f"links: {links}"]
    wrong += lost_links(folder)
    with open(os.path.join(folder, "manual.html"), encoding="utf-8") as file:
        text = " ".join(html.unescape(re.sub("<[^>]*>", "", file.read())).split())
    with open(MANUAL, encoding="utf-8") as file:
        plain = [line for line in file.read().split("\n") if re.fullmatch(r"[A-Z][^\\]{30,}", line)]
    return wrong + [f"the manual lacks: {line}" for line in plain if " ".join(line.split()) not in text]


def tests(crobots: str, folder: str) -> Tests:
    """The tests by their names."""
    yield "help: panel", lambda page: panel(page, crobots)
    yield "help: arguments", arguments
    yield "help: tooltip", tooltip
    yield "help: completion", completion
    yield "help: steps", lambda page: steps(page, crobots, folder)
    yield "help: levels", levels
    yield "help: other pages", lambda page: other_pages(page, folder)
