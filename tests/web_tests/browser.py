"""Tests of the whole page, by Chromium: what it shows is what crobots writes."""

from __future__ import annotations

import importlib.util
import os
import re
import shutil
import sys
from typing import Any, Callable, ContextManager, Iterator

from harness import loaded

from . import embeds, everyone, firsts, helping, inside, keeping, paths, players, reels, robust, seeing, seen, worths
from .battles import Battle, Mistake, Settings, mistakes, outcome, random_battles, sample_battles, samples, vectors
from .pages import Page, Tests, chromium, console, is_in_time, judged, without

DEBIAN = "/usr/lib/python3/dist-packages"
# the key as the protocol of drivers has it
BACKSPACE = "\ue003"
# of a source
MOST_BYTES = 1_048_576


def has_selenium() -> bool:
    """Whether selenium is there. Debian's modules are found by another Python too."""
    if not importlib.util.find_spec("selenium") and os.path.isdir(DEBIAN):
        sys.path.append(DEBIAN)
    return importlib.util.find_spec("selenium") is not None


def without_editor(folder: str) -> list[str]:
    """The package of the page's editor, if the page was built without it."""
    return [] if os.listdir(os.path.join(folder, "codemirror")) else ["libjs-codemirror"]


def lacking(folder: str) -> str:
    """What is lacking for these tests, the page's editor too."""
    missing = [name for name in ("chromium", "chromedriver") if not shutil.which(name)]
    missing += ([] if has_selenium() else ["python3-selenium"]) + without_editor(folder)
    return f"there is no {' and no '.join(missing)}" if missing else ""


def reports(page: Page, crobots: str, battles: list[Battle]) -> list[str]:
    """Where the page's reports and crobots differ."""
    wrong = []
    for battle in battles:
        page.show(battle)
        got, wanted = page.run(), battle.told(crobots)[1].decode()
        if got != wanted:
            wrong.append(f"{[name for name, _ in battle.robots]}: {got[:200]!r}, and crobots {wanted[:200]!r}")
    return wrong


def diagnostics() -> dict[str, tuple[bytes, int]]:
    """For each diagnostic a source that has it, as short as can be, and its line."""
    found: dict[str, tuple[bytes, int]] = {}
    for case in loaded("hostile_sources").CASES:
        if case.is_faulty and case.profile == 1 and case.source.isascii():
            _, line, text = case.lines[0].split(":")
            known = found.get(text.strip())
            if not known or (1 < int(line) < 1000, -len(case.source)) > (1 < known[1] < 1000, -len(known[0])):
                found[text.strip()] = (case.source, int(line))
    return {text: in_lines(*it) for text, it in found.items()}


def in_lines(source: bytes, line: int) -> tuple[bytes, int]:
    """A source with its line, and no blanks for more than a thousand bytes of a line: WebKit takes minutes for a megabyte of them."""
    cut = source.replace(b" " * 1000, b" " * 999 + b"\n")
    return cut, line + cut[:MOST_BYTES].count(b"\n") - source[:MOST_BYTES].count(b"\n")


def marked(page: Page) -> tuple[str, list[str]]:
    """The diagnostic, and the numbers of the marked lines in sight."""
    page.js("document.querySelector('#diagnostic button').click()")
    lines = page.js("return [...document.querySelectorAll('.CodeMirror .faulty')].map(it =>"
                    " it.parentElement.querySelector('.CodeMirror-linenumber').textContent)")
    return page.text("diagnostic"), lines


def marks(page: Page) -> list[str]:
    """Each diagnostic is shown and marked at its line, with a sentence of advice there."""
    wrong, advice = [], set()
    found = diagnostics()
    for text, (source, line) in found.items():
        page.show(Battle([("a.r", source)]))
        told, lines = marked(page)
        words = page.js("return [...document.querySelectorAll('.CodeMirror .fault-words')].map(it => it.textContent)")
        shown = re.fullmatch(rf"Line {line}: {text}\. (\S.*\.+) Go there", told)
        if not shown or lines != [str(line)] or words != [f"{text}. {shown[1]}"]:
            wrong.append(f"{source[:60]!r}: {told}, {lines}, {words}, not {text} in line {line}")
        else:
            advice.add(shown[1])
    return wrong + ([] if len(found) == len(advice) == 16 else [f"{len(found)} diagnostics, {len(advice)} pieces of advice"])


SAID = """return [[...document.querySelectorAll('#explanation pre, #explanation p, #explanation li')].map(it => it.textContent),
    [...document.querySelectorAll('.CodeMirror .warning-sign')].map(it => it.title)]"""


def said(it: Mistake) -> tuple[list[str], list[str]]:
    """What stands below the diagnostic, and the words of the marks, by what crobots-why says. A line with a fault has another mark."""
    first, *lines = it.fault.decode().splitlines() or [""]
    marked_lines = [line[4:] for line in lines if line.startswith("    ")]
    texts = ["\n".join(marked_lines)] * bool(marked_lines) + [line.strip() for line in lines if not line.startswith("    ")]
    places = {line for line, _ in it.warnings if not first.startswith(f"{line}:")}
    marks_ = ["\n".join(text for at, text in it.warnings if at == line) for line in sorted(places)]
    return texts + [f"Line {line} {text}" for line, text in it.warnings], marks_


def is_said(it: Mistake, got: list[list[str]]) -> bool:
    """Whether this is what is said of it. Without --lint the warnings of the page aren't known."""
    texts, marks_ = said(it)
    known = [text for text in got[0] if not text.startswith("Line ")]
    return got == [texts, marks_] if it.is_linted else known == texts


def explanations(page: Page) -> list[str]:
    """Below the diagnostic stands what crobots-why says, as its page has it, and warnings are marks too."""
    wrong = []
    for it in mistakes():
        page.show(Battle([("a.r", it.source)], Settings(profile=it.profile)))
        got = page.js(SAID)
        wrong += [] if is_said(it, got) else [f"{it.source!r}: {got}, not {said(it)}"]
    page.js("document.querySelector('#explanation button').click()")
    at = page.js("return document.querySelector('.CodeMirror').CodeMirror.getCursor().line + 1")
    wanted_line = int(mistakes()[-1].told.split(b":")[0])
    page.show(Battle(samples()[:1]))
    left = page.js(SAID)
    return wrong + ([] if (at, left) == (wanted_line, [[], []]) else [f"line {at}, not {wanted_line}; then {left}"])


def alive(page: Page, crobots: str, most: int = 1_048_577) -> list[str]:
    """After hostile sources up to a size, the page runs a battle as before."""
    battle = Battle(samples()[:2], Settings(limit=5_000))
    wrong = []
    hostile = (b"main(){" + b"(" * (1_048_576 - 7), b"main(){}\x1a(((", b"", b"/*" * 10_000, b"main(){" + b"1;" * 100_000, b"(" * 1_048_577)
    for source in (it for it in hostile if len(it) <= most):
        page.show(Battle([("a.r", source)]))
        report = page.run()
        if source == b"main(){}\x1a(((" and not report.startswith("Match 1: cycles = 500000\n"):
            wrong.append(f"byte 26: {report}")
        wrong += [f"after {source[:20]!r}: {line}" for line in reports(page, crobots, [battle])]
    return wrong


def links(page: Page, crobots: str) -> list[str]:
    """A link that the page makes shows the same battle, and what is edited stays in the browser."""
    battle = Battle(samples()[:3] + [("ärger & co.r", b"main(){ /* \xc3\xa4 */ while(1) drive(90, 50); }")], Settings(2, 3_000, 2**64 - 1, 2, 77))
    page.show(battle)
    page.js("document.getElementById('link').click()")
    page.wait("return document.getElementById('said').textContent.startsWith('The link')")
    link = page.js("return location.hash")
    page.fresh(link)
    wanted = battle.told(crobots)[1].decode()
    wrong = [] if page.run() == wanted else ["the link shows another battle"]
    page.set("limit", "4000")
    page.driver.refresh()
    page.wait("return document.getElementById('diagnostic')?.textContent")
    battle.settings.limit = 4_000
    return wrong + ([] if page.run() == battle.told(crobots)[1].decode() else ["the battle was not kept"])


def second_tab(page: Page) -> list[str]:
    """A link is made without a change to what is seen; the page says so if one can't be read, at the start and later."""
    page.show(Battle(samples()[:2]))
    page.js("document.getElementById('tab-1').click(); document.getElementById('link').click()")
    page.wait("return document.getElementById('said').textContent.startsWith('The link')")
    shown = page.js("return document.querySelector('[role=tab][aria-selected=true]').id")
    wrong = [] if shown == "tab-1" else [f"after a link is made the robot shown is that of {shown}"]
    cut = page.js("return location.hash")[:-9]
    page.js("document.getElementById('noted').textContent = ''; location.hash = arguments[0]", cut)
    page.wait("return document.getElementById('noted').textContent")
    told = [page.seen("noted")]
    page.open(cut)
    page.wait("return document.getElementById('noted').textContent")
    return wrong + [it for it in [*told, page.seen("noted")] if not it.startswith("The link carries no battle")]


def unset(page: Page) -> list[str]:
    """A setting that is being written, and is none yet, is nothing to a robot that is compiled."""
    page.show(Battle(samples()[:2]))
    wrong = []
    for name in ("matches", "limit", "seed", "first"):
        page.set(name, "")
        page.js("document.getElementById('tab-0').click(); document.getElementById('diagnostic').textContent = '';"
                "document.getElementById('tab-1').click()")
        page.wait("return document.getElementById('diagnostic').textContent")
        wrong += [] if page.text("diagnostic") == "No fault." else [f"without {name}: {page.text('diagnostic')}"]
        page.set(name, "1")
    return wrong


def watched(page: Page, crobots: str) -> list[str]:
    """A match that is watched ends as its report says."""
    page.open()
    if page.js("return document.getElementById('replay').hidden"):
        print("no match is watched: the page has no player")
        return []
    wrong = []
    inside = "document.getElementById('film').contentDocument"
    for battle in sample_battles()[10:13]:
        page.show(battle)
        page.watch(2, 150)
        begun = page.js(f"return {inside}.getElementById('clock').textContent")
        wrong += [] if begun.startswith("cycle 150 of") else [f"it begins at {begun}"]
        page.js(f"{inside}.getElementById('to-end').click()")
        battle.settings.first = 2
        cycles, damages = outcome(battle.told(crobots)[1])
        clock = page.js(f"return {inside}.getElementById('clock').textContent")
        shown = page.js(f"return [...{inside}.querySelectorAll('[role=meter]')].map(it => Number(it.getAttribute('aria-valuenow')))")
        if clock != f"cycle {cycles:,} of {cycles:,}" or shown != damages:
            wrong.append(f"{clock} {shown}, and crobots {cycles} {damages}")
    return wrong + restarts(page)


def restarts(page: Page) -> list[str]:
    """A long match in which a robot restarts all the time: each restart has its line, up to the last cycle."""
    page.show(Battle([("idle.r", b"main(){while(1);}"), ("done.r", b"main()\n{\n}\n")], Settings(limit=300_000)))
    page.watch(1, 300_000)
    inside = "document.getElementById('film').contentDocument"
    clock, events = page.js(f"return [{inside}.getElementById('clock').textContent, {inside}.getElementById('events').textContent]")
    if clock != "cycle 300,000 of 300,000" or "restarts: main returned, in main, line 3" not in events:
        return [f"{clock}: {events}"]
    return []


def far(page: Page) -> list[str]:
    """Of a match that is longer than a film can be, a cycle beyond that is watched by its windows, and none from before."""
    page.show(Battle([("a.r", b"main(){}"), ("b.r", b"main(){}")], Settings(limit=2_000_000)))
    page.watch(1, 1_500_000)
    inside = "document.getElementById('film').contentDocument"
    clock, said = page.js(f"return [{inside}.getElementById('clock').textContent, document.getElementById('told').textContent]")
    page.js(f"{inside}.getElementById('to-start').click()")
    begin = page.js(f"return {inside}.getElementById('clock').textContent")
    page.js(f"{inside}.getElementById('to-end').click()")
    events = page.js(f"return {inside}.getElementById('events').textContent")
    wrong = [] if clock == begin == "cycle 1,500,000 of 1,515,000" else [f"{clock}, {begin}"]
    wrong += [] if said.startswith("Match 1 can be watched below from cycle 1500000 to 1515000.") else [said]
    return wrong + ([] if "is alive then" in events and "at the end" not in events else [events])


LOOKOUT = b"""int hits;
main()
{
  int dx;
  while (1) {
    dx = scan(45, 10);
    if (dx > 0) hits += cannon(45, dx);
  }
}
"""
# the lines of its instructions, by their addresses: as docs/stages.md has them
LOOKOUT_LINES = [5, 5, *[6] * 6, *[7] * 10, 5, 5, 9, 9, 10]


def listing(page: Page) -> list[str]:
    """The listing has the line of each instruction, and leads to it; the line of the cursor is marked in it."""
    page.show(Battle([("lookout.r", LOOKOUT)]))
    page.wait("return document.querySelector('#code .address')")
    lines = page.js("return [...document.querySelectorAll('#code > :not(.heading)')].map(it => Number(it.dataset.line))")
    wrong = [] if lines == LOOKOUT_LINES else [f"lines {lines}"]
    page.js("document.querySelectorAll('#code > :not(.heading)')[10].click()")
    at = page.js("return document.querySelector('.CodeMirror').CodeMirror.getCursor().line")
    marked = page.js("return [...document.querySelectorAll('#code .marked')].map(it => it.textContent)")
    first = page.text("code")[:40]
    if at != 6 or len(marked) != 10 or marked[0] != "7    8FETCH L0":
        wrong.append(f"line {at + 1}, marked {marked}, {first}")
    wrong += turn(page)
    page.show(Battle([("a.r", b"main(){\nbreak; }")]))
    return wrong + ([f"a faulty source has code: {page.text('code')}"] if page.text("code") else [])


def turn(page: Page) -> list[str]:
    """What a turn of the loop takes stands before its first instruction: two of line 5, six of line 6, four of line 7 and two back,
    or six more with the shot; it leads to its line."""
    rows = page.js("return [...document.querySelectorAll('#code > *')].map(it => it.textContent)")
    at = rows.index("Line 5: a turn takes 14 to 20 cycles") if "Line 5: a turn takes 14 to 20 cycles" in rows else -1
    page.js("document.querySelectorAll('#code > *')[arguments[0]].click()", max(at, 0))
    line = page.js("return document.querySelector('.CodeMirror').CodeMirror.getCursor().line + 1")
    return [] if at >= 0 and rows[at + 1] == "5    0CONST 1" and line == 5 else [f"no turn in {rows[:6]}, or it leads to line {line}"]


def keys(page: Page) -> list[str]:
    """By keys alone: a row of the listing leads to its line and changes nothing; after Run the focus is where it was, after
    Watch it is in the film."""
    source = samples()[2][1].decode()
    page.show(Battle(samples()[2:4]))
    page.js("document.getElementById('listing').open = true; document.getElementById('code').focus()")
    page.press("ARROW_DOWN", *["ARROW_DOWN"] * 20, "ENTER")
    chosen = page.js("return document.querySelector('#code [aria-selected=true]').dataset.line")
    mirror = "document.querySelector('.CodeMirror').CodeMirror"
    at, text = page.js(f"return [{mirror}.getCursor().line + 1, {mirror}.getValue()]")
    wrong = [] if chosen == str(at) and text == source else [f"from a row of line {chosen} to line {at}"]
    for button, line, said, wanted in (("run", "said", "Done", "run"), ("watch", "told", "Match 1 can", "film")):
        page.js("document.getElementById(arguments[0]).focus()", button)
        page.press("ENTER")
        page.wait("return document.getElementById(arguments[0]).textContent.startsWith(arguments[1])", line, said)
        page.wait("return !document.getElementById('run').disabled")
        focus = page.js("return document.activeElement.id")
        wrong += [] if focus == wanted else [f"after {button} the focus is at {focus!r}"]
    return wrong


def typed(page: Page, keys: str, diagnostic: str) -> None:
    """Types at the place of the focus, until the robot is compiled."""
    page.driver.switch_to.active_element.send_keys(keys)
    page.wait("return document.getElementById('diagnostic').textContent.startsWith(arguments[0])", diagnostic)


def fought(page: Page, crobots: str, robots: list[tuple[str, bytes]], end: str) -> list[str]:
    """The battle of these robots, of which the first one ends so, is run and watched."""
    wanted, report = Battle(robots).told(crobots)[1].decode(), page.run()
    page.watch(1)
    return [] if report == wanted and f"  1) {end} {robots[0][0]}" in report else [f"{report!r}, not {wanted!r} with {end}"]


def story(page: Page, crobots: str, folder: str, fresh: Callable[[], ContextManager[Any]]) -> list[str]:
    """What someone does who has only a browser, with the page as a file: a robot is changed, its fault seen and mended; it
    loses, another one wins; and the battle is sent as a file, which someone else opens."""
    other = Page(page.driver, "file://" + os.path.join(os.path.abspath(folder), "index.html"))
    other.open()
    other.fresh()
    robots, weak = dict(samples()), "main() { while (1) drive(0, 100); "
    other.js("const it = document.querySelector('.CodeMirror').CodeMirror; it.setValue(''); it.focus()")
    # each bracket brings its other one, which the next key goes past
    typed(other, weak + "for", "Line 1: reserved word.")
    other.run()
    wrong = [] if other.text("said") == "No match was played: a robot has a fault." else [other.text("said")]
    typed(other, BACKSPACE * 3 + "}", "No fault.")
    wrong += fought(other, crobots, [("hunter.r", f"{weak}}}".encode()), ("sniper.r", robots["sniper.r"])], "won 0 tied 0 lost 1")
    other.js("document.getElementById('sample').value = 'centre.r'; document.getElementById('replace').click()")
    battle = [(name, robots[name]) for name in ("centre.r", "sniper.r")]
    wrong += fought(other, crobots, battle, "won 1 tied 0 lost 0")
    other.js("window.texts = []; const Plain = Blob; window.Blob = class extends Plain { constructor(parts, ...more) { super(parts, ...more);"
             "window.texts.push(parts[0]); } }; HTMLAnchorElement.prototype.click = () => {}; document.getElementById('link').click()")
    other.wait("return document.getElementById('said').textContent.startsWith('This page is a file')")
    other.choose("noted", "Save the battle as a file")
    text = other.js("return window.texts.at(-1)")
    with fresh() as driver:
        reader = Page(driver, other.address)
        reader.open()
        keeping.dropped(reader, {"battle.json": text})
        reader.wait("return !document.getElementById('linked').hidden")
        return wrong + fought(reader, crobots, battle, "won 1 tied 0 lost 0") + console(reader)


def stopped(page: Page, crobots: str) -> list[str]:
    """A long series is stopped, and the next battle runs as ever."""
    page.show(Battle(samples()[:2], Settings(1_000_000, 1_000_000)))
    page.js("document.getElementById('run').click(); document.getElementById('stop').click()")
    page.wait("return document.getElementById('said').textContent.startsWith('Stopped. ')")
    return reports(page, crobots, sample_battles()[20:21])


# what an older browser lacks: all of WebAssembly, bulk memory or sign extension, numbers of 64 bits, streams that unpack
OLDER = ("delete globalThis.WebAssembly", "WebAssembly.Module = function () { throw new WebAssembly.CompileError(); }", "delete globalThis.BigInt",
         "delete globalThis.DecompressionStream", "delete globalThis.Worker")
NEEDS = r"This page needs [^.]*\. Chrome and Edge have these from version \d+, Firefox from version \d+, and Safari from version \d+\. " \
    r"This browser lacks [\w ,]+\."


def needs(page: Page, address: str) -> list[str]:
    """What is wrong if the page can't run and says what it needs."""
    page.driver.get("about:blank")
    page.driver.get(address)
    page.wait("return document.readyState === 'complete' && getComputedStyle(document.getElementById('lacking')).visibility === 'visible'")
    seen = page.js("return [document.getElementById('lacking').innerText, document.getElementById('lacking').hidden, document.getElementById('main').hidden]")
    return [] if re.fullmatch(NEEDS, seen[0]) and seen[1:] == [False, True] else [f"{seen}"]


def older(page: Page, folder: str) -> list[str]:
    """A browser that can't run the module is told what it lacks. One that can't read the script, or doesn't get it, is told of both."""
    wrong = console(page)
    for lacks in OLDER:
        with page.before(lacks):
            wrong += [f"{lacks}: {line}" for line in needs(page, page.address)]
    with without(folder, "start.js") as address:
        page.driver.get(address)
        page.wait("return getComputedStyle(document.getElementById('lacking')).visibility === 'visible'")
        told = page.text("lacking")
        wrong += [] if told.endswith("a file of the page is missing or damaged: unpack or copy all of them once more.") else [told]
    console(page)
    return wrong


# the most milliseconds until the first draw on a machine with nothing else to do: of some openings the fastest counts
MOST_TO_DRAW, OPENINGS = 300, 5


def first_draw(page: Page) -> float:
    """After how many milliseconds something is drawn, by the browser's own account; of some openings the fastest."""
    least = float("inf")
    for _ in range(OPENINGS):
        page.open()
        drawn = page.wait("return performance.getEntriesByName('first-contentful-paint')[0]?.startTime")
        least = min(least, drawn)
        if least <= MOST_TO_DRAW:
            break
    return least


def drawn_soon(page: Page) -> list[str]:
    """The first draw comes within 0.3 seconds, by hand."""
    drawn = first_draw(page)
    print(f"the page is drawn in {page.driver.name} after {drawn:.0f} ms")
    return [f"first draw after {drawn:.0f} ms"] if not is_in_time(drawn, MOST_TO_DRAW) else []


def speed(page: Page) -> list[str]:
    """A match of 100,000 cycles takes a second at most, by hand."""
    scanner = b"main(){int d;while(1){scan(d,10);d+=10;}}"
    page.show(Battle([("a.r", scanner), ("b.r", scanner)], Settings(limit=100_000)))
    report = page.run()
    took = float(page.text("said").split()[2])
    print(f"100,000 cycles take {took} s")
    return [] if is_in_time(took, 1) and report.startswith("Match 1: cycles = 100000\n") else [f"100,000 cycles in {took} s: {report}"]


def tests(crobots: str, stages: str, folder: str) -> Tests:
    """The tests by their names."""
    yield "first draw", drawn_soon
    yield "speed", speed
    yield "samples", lambda page: reports(page, crobots, sample_battles())
    yield "vectors", lambda page: reports(page, crobots, [it for it in vectors("battles", "profiles") if it.call == "run"])
    yield "random robots", lambda page: reports(page, crobots, random_battles(100, 6))
    yield "diagnostics", marks
    yield "explanations", explanations
    yield "hostile sources", lambda page: alive(page, crobots)
    yield "listing", listing
    yield "links", lambda page: links(page, crobots)
    yield "a link from the second tab", second_tab
    yield "settings that are none", unset
    yield "watched matches", lambda page: watched(page, crobots)
    yield "a cycle beyond a film", far
    yield "a stopped series", lambda page: stopped(page, crobots)
    yield "keys", keys
    yield "the page as a file", lambda page: story(page, crobots, folder, chromium)
    yield from firsts.tests(is_chromium=True)
    yield from embeds.tests(folder)
    yield from reels.tests()
    yield from players.tests()
    yield from keeping.tests()
    yield from seen.tests(folder)
    yield from seeing.tests(crobots)
    yield from inside.tests()
    yield from helping.tests(crobots, folder)
    yield from worths.tests(crobots, folder)
    yield from robust.tests(folder)
    yield from everyone.tests()
    yield from paths.tests("Chromium", folder)
    yield "an older browser", lambda page: older(page, folder)


def others(name: str, crobots: str, stages: str, folder: str) -> Tests:
    """The tests that each browser but Chromium runs."""
    yield "widths", everyone.widths
    yield from firsts.tests()
    yield from embeds.tests(folder)
    yield from reels.tests()
    yield from inside.tests()
    yield from worths.few(crobots, folder)
    yield from paths.tests(name, folder)


def results(crobots: str, stages: str, folder: str, place: str) -> Iterator[tuple[str, list[str]]]:
    """The names of those tests that are taken here, and what is wrong."""
    return judged("browser", chromium, folder, tests(crobots, stages, folder), place)
