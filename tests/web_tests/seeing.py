"""Tests that what matters is in sight: the film, the diagnostic, what is in play, what is found."""

from __future__ import annotations

import re
from typing import Any

from .battles import Battle, Settings, samples
from .keeping import NO_DATABASE
from .pages import Page, Tests

MIRROR = "document.querySelector('.CodeMirror').CodeMirror"
# windows of a usual laptop, a large screen, a phone
WINDOWS = ((1366, 651), (1920, 1000), (360, 640), (683, 651))
# seconds of a processor
MOST_FOR_ROWS = 1.5
FAULTY = "main()\n{\n  while (1)\n    break;\n}\n"


def film_fits(page: Page) -> list[str]:
    """After Watch the film is scrolled to and has the focus, and its button to play is within the window."""
    wrong = []
    for width, height in WINDOWS:
        page.size(width, height)
        page.fresh()
        page.watch(1)
        edge = page.js("const frame = document.getElementById('film').getBoundingClientRect();"
                       "const play = document.getElementById('film').contentDocument.getElementById('play-pause').getBoundingClientRect();"
                       "return [frame.top, frame.top + play.bottom, document.activeElement.id]")
        inner = page.inside("return it.activeElement.id")
        if not (0 <= edge[0] < height / 2 and edge[1] <= height and edge[2] == "film" and inner == "play-pause"):
            wrong.append(f"{width} by {height}: the film begins at {edge[0]:.0f}, its button ends at {edge[1]:.0f}, the focus is at {edge[2]}, {inner}")
    page.whole_window()
    return wrong


# what is pressed, and the line that says something then
PRESSES = {
    "document.getElementById('run')": "said", "document.getElementById('link')": "said", "document.getElementById('replace')": "noted",
    "document.getElementById('watch')": "told", "document.querySelector('#report button')": "told",
    "document.querySelector('#steps button')": "noted",
}


def messages(page: Page) -> list[str]:
    """What the page says once something is pressed is within the window then, wherever on the page that stands."""
    wrong = []
    for width, height in WINDOWS:
        page.size(width, height)
        page.fresh()
        page.js("document.getElementById('start').open = true")
        for pressed, line in PRESSES.items():
            page.js(f"document.getElementById('{line}').textContent = ''; const it = {pressed}; it.scrollIntoView({{block: 'center'}}); it.click()")
            page.wait(f"return document.getElementById('{line}').textContent && !document.getElementById('run').disabled")
            page.wait("return !document.getElementById('watch').disabled")
            place = page.js(f"const box = document.getElementById('{line}').getBoundingClientRect(); return [box.top, box.bottom]")
            wrong += [] if 0 <= place[0] < place[1] <= height else [f"{width} by {height}, {pressed}: its message is at {place}"]
    page.whole_window()
    return wrong + out_of_sight(page)


def out_of_sight(page: Page) -> list[str]:
    """Where one writes, the page says that the storage is full."""
    page.size(360, 640)
    page.forget()
    with page.before(NO_DATABASE):
        page.open()
    page.js("Storage.prototype.setItem = () => { throw new DOMException('full', 'QuotaExceededError'); };"
            "document.querySelector('#writing').scrollIntoView({block: 'start'})")
    page.write("main() { }")
    place = page.js("const box = document.getElementById('unkept').getBoundingClientRect(); return [box.top, box.bottom]")
    page.whole_window()
    return [] if 0 <= place[0] < place[1] <= 640 else [f"that nothing is kept is told at {place}"]


def no_future(page: Page) -> list[str]:
    """After End and Home nothing is seen that is still to come."""
    page.fresh()
    page.watch(1)
    page.inside("it.getElementById('to-end').click(); it.getElementById('to-start').click()")
    seen = page.inside("return it.getElementById('events').innerText").split("\n")
    return [] if [it for it in seen if it] == ["0", "the match begins"] else [f"{seen}"]


def seeds(page: Page) -> list[str]:
    """Watch judges the seed as Run does."""
    page.fresh()
    page.set("seed", str(2**64))
    told = []
    for button, line in (("run", "said"), ("watch", "told")):
        page.click(button)
        told.append(page.text(line))
    page.set("seed", str(2**64 - 1))
    page.watch(1)
    return [] if told == [f"The seed is at most {2**64 - 1}."] * 2 else [f"{told}"]


def first_match(page: Page) -> list[str]:
    """The match to be watched follows the first match of the series; a click on a match of the report watches that one."""
    page.fresh()
    page.set("first", "7")
    watched = page.js("return document.getElementById('watched').value")
    wrong = [] if watched == "7" else [f"watched is {watched}"]
    page.set("matches", "3")
    report = page.run()
    page.js("document.querySelectorAll('#report button')[2].click()")
    page.wait("return document.getElementById('told').textContent.startsWith('Match 9 can be watched')")
    page.wait("return !document.getElementById('watch').disabled")
    page.inside("it.getElementById('to-end').click()")
    cycles = re.findall(r"Match 9: cycles = (\d+)", report)[0]
    clock = page.inside("return it.getElementById('clock').textContent")
    return wrong + ([] if clock == f"cycle {int(cycles):,} of {int(cycles):,}" else [f"{clock}, and the report has {cycles}"])


def ages(page: Page) -> list[str]:
    """A film and a report of an older battle say so, until they are made anew."""
    page.fresh()
    page.run()
    page.watch(1)
    seen = [page.seen("film-age") + page.seen("report-age")]
    page.write("main() { while (1) drive(0, 1); }")
    seen.append(page.seen("film-age")[:12] + page.seen("report-age")[:14])
    page.run()
    page.watch(1)
    seen.append(page.seen("film-age") + page.seen("report-age"))
    return [] if seen == ["", "This film isThis report is", ""] else [f"{seen}"]


def diagnostic(page: Page) -> list[str]:
    """The diagnostic is above the fold of a usual laptop, and at its line; a robot that isn't shown has its mark too."""
    page.size(1366, 651)
    page.fresh()
    page.write(FAULTY)
    bottom = page.js("return document.getElementById('diagnostic').getBoundingClientRect().bottom + scrollY")
    places = page.js("const box = it => document.querySelector(it).getBoundingClientRect();"
                     "return [box('.CodeMirror .faulty ~ .CodeMirror-line, .CodeMirror .faulty ~ * .CodeMirror-line').bottom, box('.CodeMirror .fault-words').top]")
    wrong = [] if 0 < bottom <= 651 else [f"the diagnostic ends at {bottom}"]
    wrong += [] if abs(places[0] - places[1]) < 3 else [f"the line ends at {places[0]}, the words begin at {places[1]}"]
    page.js("document.getElementById('tab-1').click()")
    page.wait("return document.getElementById('diagnostic').textContent === 'No fault.'")
    marked = page.js("return document.getElementById('tab-0').classList.contains('faulty')")
    page.whole_window()
    page.show(Battle([("a.r", b"main(){}"), ("b.r", b"main(){break;}")]))
    page.wait("return document.getElementById('tab-1').classList.contains('faulty')")
    return wrong + ([] if marked else ["the mark of the tab is gone"])


def listing_marks(page: Page) -> list[str]:
    """The instructions of the cursor's line stay marked after an edit."""
    page.show(Battle([("a.r", b"main()\n{\n  drive(1, 2);\n  cannon(3, 4);\n}\n")]))
    page.js(f"{MIRROR}.setCursor(3, 4)")
    before = page.js("return document.querySelectorAll('#code .marked').length")
    page.js("document.getElementById('diagnostic').textContent = '';" + f"{MIRROR}.replaceRange('1 + ', {{line: 3, ch: 9}})")
    page.wait("return document.getElementById('diagnostic').textContent")
    after = page.js("return document.querySelectorAll('#code .marked').length")
    # FRAME, two constants, FCALL, CHOP; and then a constant and a sum more
    return [] if (before, after) == (5, 7) else [f"{before}, {after}"]


def series(page: Page, crobots: str) -> list[str]:
    """A long series is the one that crobots reports, to the byte."""
    battle = Battle(samples()[:3], Settings(60, 3_000, 9, 1, 5))
    page.show(battle)
    return [] if page.run() == battle.told(crobots)[1].decode() else ["a series in pieces differs from crobots"]


def progress(page: Page) -> list[str]:
    """A long series shows how far it is; when it is stopped the page says what was played, and the totals are of that."""
    page.show(Battle(samples()[:2], Settings(1_000_000, 1_000)))
    page.click("run")
    page.wait("return !document.getElementById('going').hidden && document.getElementById('progress').value > 0")
    far = page.seen("far")
    page.click("stop")
    page.wait("return document.getElementById('said').textContent.startsWith('Stopped.')")
    said, report = page.text("said"), page.text("report")
    count = int(re.fullmatch(r"Stopped\. ([\d,]+) of 1,000,000 matches were played\.", said)[1].replace(",", ""))  # type: ignore[index]
    lines = report.split("\n")
    total = [sum(map(int, re.findall(r"(?:won|tied|lost) (\d+)", line))) for line in lines[-3:-1]]
    right = lines[-4] == f"Totals: {count} matches" and total == [count, count] and report.count("Match ") == min(count, report.count("Match "))
    return [] if right and re.fullmatch(r"[\d,]+ of 1,000,000 matches", far) else [f"{far!r} {said!r} {lines[-5:]}"]


def long_text(page: Page) -> list[str]:
    """The totals of a series come, however long its text is."""
    page.show(Battle([("a.r", b"main(){}"), (f"{'b' * 58}.r", b"main(){}")], Settings(50_000, 1)))
    report, said = page.run(), page.text("said")
    tail = report.split("\n")[-5:-1]
    wanted = ["Totals: 50000 matches", "  1) won 0 tied 50000 lost 0 a.r", f"  2) won 0 tied 50000 lost 0 {'b' * 58}.r"]
    left_out = re.fullmatch(r"\((\d+) more matches were played\. Their reports are left out here\.\)", tail[0])
    right = tail[1:] == wanted and left_out and report.count("Match ") == 50_000 - int(left_out[1])
    return [] if right and said.startswith("Done in") else [f"{said} {tail}"]


def rows(page: Page) -> list[str]:
    """A film of 700,000 rows doesn't freeze the page: all that its thread does meanwhile, of which no moment takes longer, is less than 1.5 s."""
    page.show(Battle([("idle.r", b"main(){while(1);}"), ("done.r", b"main()\n{\n}\n")], Settings(limit=1_390_000)))
    before = page.busy()
    page.watch(1)
    took = page.busy() - before
    count = page.js("return document.getElementById('film').contentWindow.player.match.restarts.cycle.length")
    print(f"a film of {count:,} restarts keeps the page's thread for {took:.2f} s of a processor in all")
    return [] if count >= 690_000 and took < MOST_FOR_ROWS else [f"{count} restarts, {took:.2f} s"]


def found(page: Page) -> list[str]:
    """Find finds all places, also in lines that aren't drawn."""
    page.fresh()
    page.write("\n".join(["main() {", *[f"  drive({n}, 50); /* needle {n} */" for n in range(900)], "}"]))
    page.click("find")
    page.set("wanted", "Needle 8")
    told = [page.text("found")]
    at = []
    for _ in range(3):
        page.press("ENTER")
        at.append(page.js(f"return {MIRROR}.getCursor('from').line"))
    told.append(page.text("found"))
    page.press("ESCAPE")
    focus = page.js("return document.activeElement.closest('.CodeMirror') !== null")
    # needle 8, 80 to 89, 800 to 899; and their lines, which count from 0 and have main before them
    right = told == ["111 places", "3 of 111 places"] and at == [9, 81, 82] and focus
    return [] if right else [f"{told} {at} {focus}"]


def one_name(page: Page) -> list[str]:
    """A robot's name is one thing in the field, in the tab and in the report."""
    wrong = []
    for written, wanted in (("a/b.r", "ab.r"), ("  mine.r ", "mine.r"), ("\u202egnp.evil", "gnp.evil"), ("", "robot1.r")):
        page.fresh()
        page.set("name", written)
        page.js("document.getElementById('name').dispatchEvent(new Event('change'))")
        report = page.run()
        shown = {page.js("return document.getElementById('name').value"), page.names[0], report.split("\n")[1][23:]}
        wrong += [] if shown == {wanted} else [f"{written!r}: {shown}"]
    return wrong


def tests(crobots: str) -> Tests:
    """The tests by their names."""
    yield "in sight: series", lambda page: series(page, crobots)
    all_: list[Any] = [film_fits, messages, no_future, seeds, first_match, ages, diagnostic, listing_marks, progress, long_text, rows, found, one_name]
    yield from ((f"in sight: {test.__name__.replace('_', ' ')}", test) for test in all_)
