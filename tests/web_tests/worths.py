"""Tests of what the page says a change is worth, of its sweeps, and of two films in step."""

from __future__ import annotations

import re
from collections import Counter, defaultdict
from . import contests, module
from .battles import Battle, Settings
from .pages import Page, Tests, is_in_time

OPPONENT = "jumpy.r"
LIMIT, SEED = 20_000, 3
CHANGE = ("angle = angle + 20;", "angle = angle + 30;")
MARK = ("> 40)", "> 40 /* tune 0..400 step 100 name near */)")
# how long the page may not answer while it plays, and after how long it has stopped, in milliseconds
MOST_SILENCE, MOST_TO_STOP = 250, 1500


def begin(page: Page, source: str) -> None:
    """A battle of a robot and its opponent."""
    robots = [("mine.r", source.encode()), (OPPONENT, contests.robot(OPPONENT).encode())]
    page.show(Battle(robots, Settings(limit=LIMIT, seed=SEED)))


def weigh(page: Page, matches: int) -> None:
    """Plays the newest version that differs and the robot as it is now."""
    page.js("document.getElementById('versions').open = true")
    page.set_matches("contest-choice", matches)
    page.wait("return [...document.querySelectorAll('#robot-versions button')].some(it => it.textContent === 'Play both' && !it.disabled)")
    page.js("[...document.querySelectorAll('#robot-versions button')].find(it => it.textContent === 'Play both' && !it.disabled).click()")


def mine() -> str:
    """A robot of one's own: of a sample as it is no version is kept."""
    return "/* mine */\n" + contests.robot("sweeper.r")


def changed(page: Page) -> None:
    """A robot is run, which keeps it as a version, and then changed."""
    source = mine()
    begin(page, source)
    page.run()
    page.write(source.replace(*CHANGE))


def weighed(page: Page, crobots: str) -> list[str]:
    """What a change is worth, and which matches it changed, is what crobots-challenge says by the same words."""
    page.fresh()
    changed(page)
    weigh(page, 40)
    page.wait("return document.querySelector('#contest table')")
    source = mine()
    files = {"mine.r": source.replace(*CHANGE), "old.r": source, OPPONENT: contests.robot(OPPONENT)}
    right = contests.answered("challenge", ["--all", "--crobots", crobots, "-m40", f"-l{LIMIT}", f"-s{SEED}", "mine.r", "--old", "old.r", OPPONENT], files)
    rows = page.js("return [...document.querySelectorAll('#contest tbody tr')].map(row => [...row.children].map(it => it.textContent))")
    signed = {name: {key: contests.signed(it[key], 2) for key in ("change", "low", "high")} for name, it in ((OPPONENT, right["opponents"][0]), ("all", right["all"]))}
    wanted = [[name, f"{it['new']:.2f}", f"{it['old']:.2f}", signed[name]["change"], f"{signed[name]['low']} to {signed[name]['high']}"]
              for name, it in ((OPPONENT, right["opponents"][0]), ("all", right["all"]))]
    shown = page.js("return [...document.querySelectorAll('.flipped button')].map(it => it.textContent)")
    matches = [f"Match {it['match']} against {OPPONENT}, seat {it['seat']}: the version {it['old']['did']}, now {it['new']['did']}" for it in right["changed"]]
    wrong = [] if rows == wanted else [f"{rows}, not {wanted}"]
    wrong += [] if sorted(shown) == sorted(matches)[:40] and shown else [f"{shown[:3]}, not {matches[:3]}"]
    told = page.text("contest-told")
    start = f"mine.r as it is now, in place of its version: {wanted[1][3]} points a match, 95 % interval {wanted[1][4]}, by 40 matches against each of 1."
    return wrong + ([] if told.startswith(start) else [f"{told}, not {start}"])


def rows_of(film: bytes) -> dict[int, Counter[str]]:
    """The rows of a film by their cycles."""
    found: defaultdict[int, Counter[str]] = defaultdict(Counter)
    for row in film.decode().splitlines()[1:]:
        found[int(row.partition("\t")[0])][row] += 1
    return found


def parting(page: Page, folder: str) -> int:
    """Where both films of the first match that is listed differ first, by the films that the module makes without the page."""
    label = page.js("return document.querySelector('.flipped button').textContent")
    found = re.match(r"Match (\d+) .* seat (\d)", label)
    number, seat = (int(found[1]), int(found[2])) if found else (0, 0)
    source, other = mine(), contests.robot(OPPONENT)
    both = contests.seatings(SEED, other)
    battles = []
    for text in (source, source.replace(*CHANGE)):
        pair = [("1", text.encode()), ("2", other.encode())]
        battles.append(Battle(pair if seat == 1 else pair[::-1], Settings(1, LIMIT, both[seat - 1].seed, 1, number), "film"))
    one, two = (rows_of(film) for _, film, _ in module.answers(folder, battles))
    return min(cycle for cycle in one.keys() | two.keys() if one[cycle] != two[cycle])


PLAYERS = "['duo-old', 'duo-fresh'].map(id => document.getElementById(id).contentWindow.player)"


def in_step(page: Page) -> list[str]:
    """While both films play they show the same cycle, or stand at their ends, and they go on."""
    wrong, furthest = [], -1
    for _ in range(6):
        # at the end they begin anew
        page.js("if (document.getElementById('duo-play').textContent === 'Play') document.getElementById('duo-play').click()")
        cycles = page.wait(f"const all = {PLAYERS}.map(it => [it.cycle, it.match.cycles, it.isPlaying]);"
                           "return Math.max(...all.map(([cycle]) => cycle)) !== arguments[0] && all", furthest)
        furthest = max(cycle for cycle, _, _ in cycles)
        wrong += [f"{cycles}"] if any(cycle != min(furthest, last) or plays for cycle, last, plays in cycles) else []
    return wrong


def together(page: Page, folder: str) -> list[str]:
    """Both films of a match that changed are shown in step, and a mark stands where they first differ."""
    cycle = parting(page, folder)
    page.js("document.querySelector('.flipped button').click()")
    page.wait("return document.getElementById('duo').open && !document.getElementById('duo').classList.contains('waiting') && document.getElementById('duo-parting').textContent")
    wrong = in_step(page)
    page.click("duo-parting")
    last, at, part = page.js(f"return [Math.max(...{PLAYERS}.map(it => it.match.cycles)), {PLAYERS}.map(it => it.cycle),"
                             " Number(document.getElementById('duo-mark').style.getPropertyValue('--part'))]")
    label = page.text("duo-parting")
    wrong += [] if label == f"To the first difference: cycle {cycle:,}" and at == [cycle, cycle] and abs(part - cycle / last) < 1e-9 else [f"{label} {at} {part}, not {cycle}"]
    told = [page.text("duo-told")]
    page.js("const it = document.getElementById('duo-slider'); it.value = arguments[0]; it.dispatchEvent(new Event('input'))", cycle - 1)
    told.append(page.text("duo-told"))
    wanted = [f"cycle {cycle:,} of {last:,}: apart since cycle {cycle:,}", f"cycle {cycle - 1:,} of {last:,}: the same so far"]
    return wrong + ([] if told == wanted else [f"{told}, not {wanted}"]) + sizes(page) + closed(page)


def sizes(page: Page) -> list[str]:
    """In windows of all sizes both fields and the buttons are in sight at once."""
    wrong = []
    for width, height in ((1366, 768), (1920, 1080), (740, 360), (360, 740)):
        page.size(width, height)
        page.wait("return new Promise(done => requestAnimationFrame(() => requestAnimationFrame(() => done(true))))")
        boxes = page.js("const box = it => it.getBoundingClientRect(); const frames = ['duo-old', 'duo-fresh'].map(id => document.getElementById(id));"
                        "return [...frames.map(it => box(it).top + box(it.contentDocument.getElementById('field')).bottom),"
                        "box(document.getElementById('duo-play')).bottom, innerHeight, document.getElementById('duo').scrollWidth - document.getElementById('duo').clientWidth]")
        wrong += [] if max(boxes[:3]) <= boxes[3] and boxes[4] <= 0 else [f"{width} by {height}: {boxes}"]
    page.whole_window()
    return wrong


def closed(page: Page) -> list[str]:
    """Once it is closed nothing plays, and another match can be opened at once."""
    page.js("document.getElementById('duo-close').click(); [...document.querySelectorAll('.flipped button')].at(-1).click()")
    page.wait("return document.getElementById('duo').open && !document.getElementById('duo').classList.contains('waiting')")
    page.click("duo-close")
    page.wait("return !document.getElementById('duo').open && document.getElementById('duo-old').hidden")
    return []


WATCHED = """window.silence = 0; window.frames_ = 0; let last = performance.now();
const look = now => { window.silence = Math.max(window.silence, now - last); last = now; window.frames_ += 1; if (window.looks) requestAnimationFrame(look); };
window.looks = true; requestAnimationFrame(now => { last = now; look(now); });"""


def stopped(page: Page) -> list[str]:
    """While a contest plays the page answers. It stops when that is pressed, and the next one plays."""
    changed(page)
    page.js(WATCHED)
    weigh(page, 10_000)
    page.wait("return /^[1-9]/.test(document.querySelector('#contest-far span').textContent) && window.frames_ > 20")
    silence, far = page.js("window.looks = false; return [window.silence, document.querySelector('#contest-far span').textContent]")
    wrong = [] if is_in_time(silence, MOST_SILENCE) and far.endswith("of 20,000 matches") else [f"{far}: the page was silent for {silence:.0f} ms"]
    took = page.js("const begun = performance.now(); document.querySelector('#contest-far button').click();"
                   "return new Promise(done => { const look = () => document.getElementById('contest-told').textContent === 'Stopped.'"
                   " ? done(performance.now() - begun) : setTimeout(look, 5); look(); })")
    wrong += [] if is_in_time(took, MOST_TO_STOP) and page.js("return document.getElementById('contest-far').hidden") else [f"stopping took {took:.0f} ms"]
    weigh(page, 4)
    page.wait("return document.querySelector('#contest table')")
    return wrong + ([] if page.text("contest-told").startswith("mine.r as it is now") else [page.text("contest-told")])


def nobody(page: Page) -> list[str]:
    """Without another robot to play against, and by a number that is none, nothing plays."""
    page.show(Battle([("mine.r", b"main(){}")], Settings(limit=LIMIT)))
    page.run()
    page.write("main(){ }")
    page.set_matches("contest-choice", 3)
    page.js("document.getElementById('versions').open = true")
    page.wait("return [...document.querySelectorAll('#robot-versions button')].some(it => it.textContent === 'Play both' && !it.disabled)")
    play = "[...document.querySelectorAll('#robot-versions button')].find(it => it.textContent === 'Play both' && !it.disabled).click();"
    told = page.js(f"{play} return [document.querySelector('#contest-choice select').value, document.getElementById('contest-told').textContent]")
    return [] if told == ["samples of level 1", ""] else [f"{told}"]


def swept(page: Page, crobots: str) -> list[str]:
    """A number with a mark is swept, by its button in the editor and by that below it; the rows are those of crobots-tune."""
    source = contests.robot("sweeper.r").replace(*MARK)
    begin(page, source)
    page.wait("return document.querySelector('#sweep-numbers button') && document.querySelector('.CodeMirror .sweep')")
    named = page.js("return [[...document.querySelectorAll('#sweep-numbers button')].map(it => it.textContent), document.querySelectorAll('.CodeMirror .sweep').length,"
                    "document.querySelector('#sweep-choice select').value]")
    wrong = [] if named == [["Sweep near: line 30, 40 in 0..400"], 1, "samples of level 1"] else [f"{named}"]
    page.set_matches("sweep-choice", 20)
    page.js("const it = document.querySelector('#sweep-choice select'); it.value = 'the others of this battle';")
    words = ["--sweep", "--crobots", crobots, "-m20", f"-l{LIMIT}", f"-s{SEED}", "mine.r", OPPONENT]
    right = contests.answered("tune", words, {"mine.r": source, OPPONENT: contests.robot(OPPONENT)})["sweep"]
    three = [[contests.difference(it[name]) for name in ("change", "low", "high")] for it in right]
    wanted = [[str(it["values"][0]), f"{it['points']:.3f}", *told, str(it["matches"]), it["verdict"]] for it, told in zip(right, three)]
    for button in ("#sweep-numbers button", ".CodeMirror .sweep"):
        page.js("document.getElementById('sweep').replaceChildren(); document.querySelector(arguments[0]).click()", button)
        page.wait("return document.querySelector('#sweep table')")
        rows = page.js("return [...document.querySelectorAll('#sweep tbody tr')].map(row => [...row.children].map(it => it.textContent))")
        wrong += [] if rows == wanted else [f"{button}: {rows}, not {wanted}"]
    drawn = page.js("return [document.querySelectorAll('#sweep circle').length, document.querySelectorAll('#sweep circle.today').length,"
                    "document.querySelector('#sweep .band').points.length, document.querySelector('#sweep text.now').textContent]")
    # five values of the range, and today's
    return wrong + ([] if drawn == [6, 1, 12, "today's 40"] else [f"{drawn}"])


def cancelled(page: Page) -> list[str]:
    """What is typed ends a sweep; the curve so far stays, and the numbers are those of the new text."""
    # a link to the battle that is open does nothing
    source = contests.robot("sweeper.r").replace(*MARK) + "\n"
    begin(page, source)
    page.set_matches("sweep-choice", 10_000)
    page.js("document.querySelector('#sweep-numbers button').click()")
    page.wait("return document.querySelector('#sweep .curve')")
    page.write(source.replace("> 40 ", "> 50 "))
    told, is_hidden = page.js("return [document.getElementById('sweep-told').textContent, document.getElementById('sweep-far').hidden]")
    named = page.wait("const it = document.querySelector('#sweep-numbers button').textContent; return it.includes('50') && it")
    wrong = [] if told == "The sweep was stopped: the source has changed." and is_hidden else [f"{told} {is_hidden}"]
    return wrong + ([] if named == "Sweep near: line 30, 50 in 0..400" else [named])


def refused(page: Page) -> list[str]:
    """A mark that is wrong is refused by its place; a source with a fault has no numbers."""
    begin(page, "main(){ drive(1 /* tune 9..0 */, 2); }")
    page.wait("return document.getElementById('sweep-numbers').textContent")
    said = [page.seen("sweep-numbers")]
    page.write("main(){ drive(1 /* tune 0..2147483647 step 1 */, 2); }")
    said.append(page.js("document.querySelector('#sweep-numbers button').click(); return document.getElementById('sweep-told').textContent"))
    page.write("main(){ drive(1 /* tune 0..9 */, 2); break; }")
    said.append(str(page.js("return document.getElementById('sweeps').hidden")))
    wanted = ["A mark is wrong: 1:17: 9..0 has to rise, up to 2147483647 at most.",
              "1:15 has 2,147,483,648 values, and 100 are the most here: give its mark a greater step.", "True"]
    return [] if said == wanted else [f"{said}, not {wanted}"]


def few(crobots: str, folder: str) -> Tests:
    """The tests of each browser by their names."""
    yield "what a change is worth, and two films in step", lambda page: weighed(page, crobots) + together(page, folder)
    yield "a sweep", lambda page: swept(page, crobots)
    yield "a sweep that is typed into", cancelled


def tests(crobots: str, folder: str) -> Tests:
    """The tests by their names."""
    yield from few(crobots, folder)
    yield "a contest that is stopped", stopped
    yield "nobody to play against", nobody
    yield "marks that are refused", refused
