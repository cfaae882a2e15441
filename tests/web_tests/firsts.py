"""Tests of the first second: what sees who comes for the first time, who comes by a link, and who comes back."""

from __future__ import annotations

from typing import Callable

from .battles import Battle, Settings, samples
from .pages import MOST_NARROW, Page, Tests, fragment, is_in_time

SIZES = ((1366, 768), (1920, 1080), (740, 360), (360, 740))
PLAYER = "document.getElementById('film').contentWindow?.player"
# of the match that plays: its heading, the robot that is followed, its cycle, and the most cycles that it has played since the page was opened
STANDS = f"""const {{chosen, cycle, pace}} = {PLAYER};
    return [document.getElementById('film').contentDocument.getElementById('heading').textContent, chosen, cycle, pace * performance.now() / 1000]"""
MOVES = f"return {PLAYER}?.isPlaying && {PLAYER}.cycle > {PLAYER}.match.first"
# where things are in the window, scrolled nowhere
BOXES = """const film = document.getElementById('film'), top = film.getBoundingClientRect().top;
    const of = it => { const {top, bottom} = it.getBoundingClientRect(); return [top, bottom]; };
    const inside = id => of(film.contentDocument.getElementById(id)).map(it => it + top);
    return {field: inside('field'), play: inside('play-pause'), run: of(document.getElementById('run')), beat: of(document.getElementById('beat')),
        window: [scrollY, innerHeight]}"""
# notes when a picture of a match that moves was drawn first
WATCH = """if (top === window) { const look = () => { const player = document.getElementById('film')?.contentWindow?.player;
    if (player?.isPlaying && player.cycle > player.match.first) window.firstMoved = performance.now(); else requestAnimationFrame(look); };
    document.addEventListener('DOMContentLoaded', look); }"""
# the editor's script doesn't come
NO_EDITOR = """const append = Element.prototype.append;
    Element.prototype.append = function (...parts) { if (!parts[0]?.src?.endsWith('/codemirror.js')) append.apply(this, parts); }"""
# the engine hears nothing until it is let go
HELD = """const {postMessage} = Worker.prototype, held = [];
    Worker.prototype.postMessage = function (...words) { const post = () => postMessage.apply(this, words); if (window.isFree) post(); else held.push(post); };
    window.free = () => { window.isFree = true; held.splice(0).forEach(post => post()); }"""
# notes what listens, and which buttons and fields of the page that is first shown do nothing: neither they nor their form listens. Each by its
# name, or by the words on it
LISTENING = """if (top === window) { const add = EventTarget.prototype.addEventListener, heard = new Map();
    EventTarget.prototype.addEventListener = function (kind, ...rest) { heard.set(this, [...heard.get(this) ?? [], kind]); add.call(this, kind, ...rest); };
    const hears = (it, kinds) => kinds.some(kind => heard.get(it)?.includes(kind));
    window.idle = () => [...document.querySelectorAll('#main button, #main input')].filter(it => !it.disabled && !it.closest('[hidden]')
        && !hears(it, it.tagName === 'INPUT' ? ['input', 'change'] : ['click']) && !(it.form && hears(it.form, ['submit', 'input'])))
        .map(it => it.id || (it.labels?.[0] ?? it).textContent.trim());
    document.addEventListener('DOMContentLoaded', () => new MutationObserver(() => { window.firstIdle ??= window.idle(); })
        .observe(document.getElementById('main'), {attributeFilter: ['hidden']})); }"""
# notes what happens in which order until the editor comes: that the engine's worker is started, the database opened, the page made, the film's
# frame made, the match drawn at two cycles, the editor asked for, the rest of the page shown; and how many frames there are then
ORDER = """if (top === window) { const order = window.order = [], note = it => order.includes(it) || order.push(it);
    const Plain = Worker; window.Worker = class extends Plain { constructor(...words) { super(...words); note('worker'); } };
    const {open} = IDBFactory.prototype; IDBFactory.prototype.open = function (...words) { note('database'); return open.apply(this, words); };
    let hash; Object.defineProperty(window, 'CROBOTS_HASH', {get: () => hash, set(it) { hash = it; note('page'); }});
    const make = Document.prototype.createElement;
    Document.prototype.createElement = function (tag) { if (tag === 'iframe') note('frame'); return make.call(this, tag); };
    const append = Element.prototype.append;
    Element.prototype.append = function (...parts) { if (parts[0]?.src?.endsWith('/codemirror.js')) note('editor'); append.apply(this, parts); };
    const look = () => { const player = document.getElementById('film')?.contentWindow?.player;
        if (player?.isPlaying && player.cycle > player.match.first) { note('moves'); window.frameCount = frames.length; } else requestAnimationFrame(look); };
    document.addEventListener('DOMContentLoaded', () => { look(); new MutationObserver(() => document.getElementById('left').offsetWidth && note('rest'))
        .observe(document.getElementById('main'), {attributeFilter: ['class']}); }); }"""
IN_ORDER = ["database", "worker", "page", "frame", "moves", "editor", "rest"]
# the most milliseconds until then, by hand, on a processor that is slowed down four times; and the most that the page's thread
# takes of one that isn't. Of some openings the fastest counts
MOST, SLOWDOWN, MOST_BUSY, OPENINGS = 1000, 4, 250, 5
# what is read when a button is pressed: how many matches 'Play both' plays, as tests/web_tests/worths.py has it
READ_LATER = ["Matches against each"]
MOVER = ("mover.r", b"main() { while (1) drive(90, 50); }")
STILL = ("still.r", b"main() { }")


def is_from(begin: int, cycle: float, most: float) -> bool:
    """Whether a match may have been played from a cycle on, if it has come to this one, by at most so many since the page was opened."""
    return begin <= cycle <= begin + most


def in_sight(page: Page) -> list[str]:
    """Who comes for the first time sees a match that plays, with its field, its play button, Run and what there is to do about it in the
    window at once; what has the focus keeps it."""
    wrong = []
    for size in SIZES:
        page.size(*size)
        page.fresh()
        page.wait(MOVES)
        boxes, focus = page.js(BOXES), page.js("return document.activeElement.tagName")
        _, height = boxes["window"]
        wrong += [f"{size}: {name} at {box}" for name, box in boxes.items() if box[0] < 0 or box[1] > height or box[1] <= box[0]]
        wrong += [] if boxes["window"][0] == 0 and focus == "BODY" else [f"{size}: scrolled to {boxes['window'][0]}, the focus is at {focus}"]
    page.whole_window()
    return wrong


def drawers(page: Page) -> list[str]:
    """Listing, Inside and all else that opens are closed at first; on a wide window the three places stand side by side."""
    page.size(1920, 1080)
    page.fresh()
    page.wait(MOVES)
    left = page.js("return ['workbench', 'replay', 'battle'].map(id => document.getElementById(id).getBoundingClientRect()).map(it => [it.left, it.right, it.top])")
    opened = page.js("return [...document.querySelectorAll('details')].filter(it => it.open).map(it => it.id)")
    page.whole_window()
    beside = left[0][1] <= left[1][0] < left[1][1] <= left[2][0] and len({top for _, _, top in left}) == 1
    return [] if beside and not opened else [f"{left}, open: {opened}"]


# the places that are seen, by the elements that are in them, and whether one that is seen answers nothing
SEEN = """return [...document.querySelectorAll('.place')].filter(it => it.offsetWidth).map(it =>
    `${[...it.classList].find(name => name !== 'place')}${it.inert ? ', which answers nothing' : ''}`)"""


def places(page: Page) -> list[str]:
    """In a narrow window one place is seen at a time, the one that is pressed, and in a wide one all of them; what is seen answers."""
    wrong = []
    for size in SIZES:
        page.size(*size)
        page.fresh()
        page.wait(MOVES)
        for name in ("write", "fight", "watch"):
            page.click(f"to-{name}")
            seen = set(page.js(SEEN))
            wrong += [] if seen == ({"write", "fight", "watch"} if size[0] > MOST_NARROW else {name}) else [f"{size}, {name}: {sorted(seen)}"]
    page.whole_window()
    return wrong


def beat(page: Page) -> list[str]:
    """To write a robot that beats the match begins a battle of a new robot against its winner, and leads to the editor."""
    page.fresh()
    page.wait(MOVES)
    page.inside("it.getElementById('to-end').click()")
    alive = page.js(f"return {PLAYER}.match.robots.filter(it => it.death === null).map(it => it.name)")
    page.click("beat")
    page.wait("return document.querySelector('.CodeMirror').contains(document.activeElement)")
    names, shown = page.names, page.js("return [document.getElementById('welcome').hidden, document.getElementById('controls').hidden]")
    right = len(alive) == 1 and names == ["robot1.r", alive[0]] and page.source.startswith("main()") and shown == [True, False]
    return [] if right and f"{alive[0]} is against it" in page.seen("noted") else [f"{alive} {names} {shown} {page.seen('noted')}"]


def at_once(page: Page) -> list[str]:
    """Run and Watch work at once, whatever the page plays of its own accord then."""
    wrong = []
    for _ in range(3):
        page.fresh()
        if not page.run().startswith("Match 1: ") or page.seen("welcome"):
            wrong.append(page.text("said"))
        page.fresh()
        page.watch(3)
        heading = page.inside("return it.getElementById('heading').textContent")
        wrong += [] if heading == "Match 3: hunter.r and sniper.r" and not page.seen("welcome") else [heading]
    return wrong


def by_link(page: Page) -> list[str]:
    """Who comes by a link sees its battle play: the moment that it names, with the robot that is followed, or else its first match."""
    battle = Battle([MOVER, STILL], Settings(limit=3_000, first=4))
    wrong = []
    for tail, number, least, robot in (("", 4, 0, 0), ("&match=3&cycle=900", 3, 600, 0), ("&match=3&cycle=900&robot=2", 3, 600, 2),
                                       ("&match=3&cycle=900&robot=3", 4, 0, 0)):
        page.fresh(fragment(battle) + tail)
        page.wait(MOVES)
        heading, chosen, *cycles = page.js(STANDS)
        right = heading == f"Match {number}: mover.r and still.r" and is_from(least, *cycles) and chosen == robot
        wrong += [] if right and page.seen("welcome") == "" else [f"{tail}: {heading}, cycles {cycles}, robot {chosen}"]
    return wrong + sent(page)


def sent(page: Page) -> list[str]:
    """A link to a moment names the robot that is followed."""
    page.show(Battle([MOVER, STILL], Settings(limit=3_000)))
    page.watch(1, 600)
    links = []
    for _ in range(2):
        page.click("link-moment")
        page.wait("return document.getElementById('told').textContent.startsWith('The link')")
        links.append(page.js("return location.hash.split('&').slice(1)"))
        page.inside("it.querySelectorAll('.number')[1].click()")
        page.js("document.getElementById('told').textContent = ''")
    return [] if links == [["match=1", "cycle=600"], ["match=1", "cycle=600", "robot=2"]] else [f"{links}"]


def faulty_link(page: Page) -> list[str]:
    """A link to a battle that can't be played leads to where its robots are written."""
    page.size(360, 740)
    page.fresh(fragment(Battle([("a.r", b"main() { break; }"), STILL])))
    page.wait("return document.getElementById('told').textContent.startsWith('No match was played')")
    page.wait("return document.getElementById('workbench').offsetWidth > 0")
    page.whole_window()
    return []


def back(page: Page) -> list[str]:
    """Who comes back sees the robots as they were left, and no match."""
    page.fresh()
    page.write(MOVER[1].decode())
    page.open()
    page.wait("return !document.getElementById('run').disabled")
    shown = page.js("return [document.getElementById('welcome').hidden, document.getElementById('film').hidden, document.getElementById('main').dataset.place]")
    return [] if page.source == MOVER[1].decode() and shown == [True, True, "write"] else [f"{shown} {page.source[:40]}"]


def calm(page: Page) -> list[str]:
    """Who wants no motion sees the match's first picture, and its play button."""
    page.media(reduced_motion="reduce")
    page.fresh()
    page.wait(f"return Boolean({PLAYER})")
    stands = page.js(f"return [{PLAYER}.isPlaying, {PLAYER}.cycle, document.getElementById('film').contentDocument.getElementById('play-pause').ariaLabel]")
    page.media()
    return [] if stands == [False, 0, "play"] else [f"{stands}"]


def soon(page: Page) -> list[str]:
    """On a slow processor the first picture of a match that moves comes within a second: the page's thread has little to do until then."""
    with page.before(WATCH):
        busy = min(moved(page)[1] for _ in range(OPENINGS))
        page.driver.execute_cdp_cmd("Emulation.setCPUThrottlingRate", {"rate": SLOWDOWN})
        times = sorted(moved(page)[0] for _ in range(OPENINGS))
    page.driver.execute_cdp_cmd("Emulation.setCPUThrottlingRate", {"rate": 1})
    shown = ", ".join(f"{it:.0f}" for it in times)
    print(f"the first match moves in {page.driver.name}, slowed down {SLOWDOWN} times, after {shown} ms, and the thread is busy for {busy:.0f} ms")
    right = is_in_time(times[len(times) // 2], MOST) and is_in_time(busy, MOST_BUSY)
    return [] if right else [f"the first match moves after {shown} ms, and the thread is busy for {busy:.0f} ms"]


def in_order(page: Page) -> list[str]:
    """What takes longest begins first, and what isn't seen at first comes after the match moves: the page isn't laid out beside it, there is
    no frame but the film's, and in that neither the legend nor the chart out of sight is drawn."""
    page.size(1366, 768)
    page.forget()
    page.driver.get("about:blank")
    with page.before(ORDER):
        page.driver.get(page.address)
        page.wait("return window.order?.includes('editor')")
    order, frames = page.js("return [order, frameCount]")
    drawn = page.inside("return [...it.querySelectorAll('canvas')].map(one => one.width !== 300 || one.height !== 150)")
    page.inside("it.getElementById('more').open = true")
    page.inside("it.getElementById('damage').scrollIntoView()")
    page.settle()
    then = page.inside("return [...it.querySelectorAll('canvas')].map(one => one.width !== 300 || one.height !== 150)")
    page.whole_window()
    right = order == IN_ORDER and frames == 1 and drawn == [True] + [False] * 7 and then == [True] * 8
    return [] if right else [f"{order}, {frames} frames, drawn {drawn}, then {then}"]


def moved(page: Page) -> tuple[float, float]:
    """After how many milliseconds a match moves in a browser that kept nothing, and for how many the page's thread was busy until then."""
    page.forget()
    page.driver.get("about:blank")
    before = page.busy()
    page.driver.get(page.address)
    time = float(page.wait("return window.firstMoved"))
    return time, 1000 * (page.busy() - before)


def before_the_editor(page: Page) -> list[str]:
    """The first match plays even while the editor doesn't load, and Run is there."""
    page.forget()
    with page.before(NO_EDITOR):
        page.driver.get(page.address)
        page.wait(MOVES)
        page.run()
        report, mirrors = page.text("report"), page.js("return document.querySelectorAll('.CodeMirror').length")
    return [] if report.startswith("Match 1: ") and not mirrors else [f"{report[:80]} {mirrors}"]


def before_the_engine(page: Page) -> list[str]:
    """What is asked for before the engine is there comes in place of the match that plays of its own accord, and Stop ends that alone."""
    wrong = []
    page.size(360, 740)
    for presses, (line, said), place in ((["run"], ("said", "Done in "), "fight"), (["run", "stop"], ("said", "Stopped. "), "fight"),
                                         (["watch"], ("told", "Match 1 can be watched"), "watch"), (["to-write"], ("said", ""), "write")):
        page.forget()
        with page.before(HELD):
            page.driver.get(page.address)
            page.wait("return document.getElementById('main')?.hidden === false")
            for name in presses:
                page.click(name)
            page.js("free()")
        page.wait("return document.getElementById(arguments[0]).textContent.startsWith(arguments[1])", line, said)
        page.wait("return document.querySelector('.CodeMirror')")
        seen = page.js("return [document.getElementById('main').hidden, document.getElementById('main').dataset.place, document.getElementById('welcome').hidden]")
        wrong += [] if seen == [False, place, place != "write"] else [f"{presses}: {seen}"]
    page.whole_window()
    return wrong


def heard(page: Page) -> list[str]:
    """No press is lost: what is shown does what it says from the first moment on, or is disabled until it does."""
    page.forget()
    with page.before(LISTENING):
        with page.before(NO_EDITOR):
            page.driver.get(page.address)
            page.wait(MOVES)
            idle = page.js("return [firstIdle, idle()]")
        page.driver.get(page.address)
        page.wait("return document.querySelector('.CodeMirror')")
        idle += page.js("return [firstIdle, idle(), [...document.querySelectorAll('#main button[disabled], #main input[disabled]')].map(it => it.id)]")
    return [] if idle == [[], [], [], READ_LATER, ["stop"]] else [f"{idle}"]


def samples_are_there(page: Page) -> list[str]:
    """The robots of the match are those in the tabs."""
    page.fresh()
    known = dict(samples())
    return [] if page.names == ["hunter.r", "sniper.r"] and page.source == known["hunter.r"].decode() else [f"{page.names}"]


# what each browser shows, and what only Chromium's driver can look at
SHOWN: dict[str, Callable[[Page], list[str]]] = {
    "in sight": in_sight, "drawers": drawers, "places": places, "a robot that beats it": beat, "at once": at_once, "by a link": by_link, "a link that is faulty": faulty_link,
    "coming back": back, "its robots": samples_are_there,
}
DRIVEN: dict[str, Callable[[Page], list[str]]] = {"no motion": calm, "in order": in_order, "before the editor": before_the_editor, "before the engine": before_the_engine, "no press is lost": heard, "soon": soon}


def tests(is_chromium: bool = False) -> Tests:
    """The tests by their names."""
    yield from ((f"the first second: {name}", test) for name, test in (SHOWN | DRIVEN if is_chromium else SHOWN).items())
