"""The pages in browsers: the ways of an author, of an organiser and of a teacher by the keyboard alone, and scripts in names."""

from __future__ import annotations

import itertools
import json
import os
from typing import Callable, Iterator

from harness import skip

from .base import IDLE, SHOOTER, Base
from .hostile import SCRIPTS
from .windows import BROWSERS, WIDTH, Driver, Window, tries

SIZES = ((360, 740), (1366, 768))
HUNTER = "main(){int a; while(1) {if (scan(a, 10)) cannon(a, scan(a, 10)); a = a + 20;}}"
PUPILS = 25
# A script that ran, or an element that none of the pages has: what a text would be that isn't escaped.
RAN = ("window.trapped ?? document.querySelector('main script, main img, pre script, body > script, svg[onload], [onerror], [src^=javascript], [href^=javascript]')"
       "?.outerHTML ?? 0")
# The buttons of a page, of each address one; and what fills in all that goes with one and presses it.
SENDING = "[...new Map([...document.querySelectorAll('main form button')].map(it => [it.getAttribute('formaction') ?? it.form.getAttribute('action'), it])).values()]"
FILL = f"""(() => {{
    const button = {SENDING}[%(at)d];
    if (!button) return;
    window.isFilled = true;
    for (const field of button.form.elements)
        if (field.type !== 'file' && field !== button) field.value = %(text)s;
    button.form.noValidate = true;
    button.form.requestSubmit(button);
}})()"""
# The ladder's forms: join, sign up; hand in, compile; invite, withdraw a link; back, withdraw. By hand LADDER_SCRIPTS=1 takes each text in each.
BUTTONS, EACH_NTH = 8, int(os.environ.get("LADDER_SCRIPTS", "4"))
# Drops a file of so many bytes on the form, and says what the form says of it.
DROP = """(() => {
    const form = document.querySelector('form.hand-in'), given = new DataTransfer();
    given.items.add(new File(['%(source)s'.padEnd(%(size)d)], '%(name)s'));
    form.dispatchEvent(new DragEvent('drop', {dataTransfer: given, bubbles: true, cancelable: true}));
    return form.elements.file.validationMessage;
})()"""
# How many colours the cells of one's own row have.
COLOURS = "new Set([...document.querySelectorAll('tr.own > *')].map(it => getComputedStyle(it).backgroundColor)).size"


class Seeing(Base):
    """Tests in browsers, in windows of a telephone and of a laptop."""

    _RULES = ("-l20000", "-m", "4")

    def __init__(self, folder: str) -> None:
        super().__init__(folder)
        # what is made once more has another name
        self._numbers = itertools.count()

    def the_way_of_an_author_by_keys_alone(self) -> Iterator[str]:
        """From the invitation to 'why did I lose', and the film of a lost match."""
        ladder = self._made("author")
        ladder.terms(robots=9)
        ladder.add("hunter", HUNTER)
        ladder.add("idle", IDLE)
        ladder.serve()

        def way(driver: Driver) -> Iterator[str]:
            for width, height in SIZES:
                it, name = Window(driver, ladder, width, height), f"{driver.name}{width}x{next(self._numbers)}"
                yield from (f"{name}: {why}" for why in self._author(it, name, ladder.author(f"Ann {name}")))

        yield from self._browsers("the way of an author", way)

    def _author(self, it: Window, name: str, token: str) -> Iterator[str]:
        """An author joins, hands in, looks at the table, and why it lost."""
        it.go(f"/join#{token}")
        it.at("/mine")
        if "#" in str(it.driver.value("location.href")):
            yield "the token stays in the address"
        it.tab_to("[name=robot]")
        it.driver.type(name)
        it.tab_to("textarea")
        it.driver.type(f"{SHOOTER}/* {name} */")
        yield from fits(it, "hand-in")
        it.follow("form.hand-in button")
        it.until("document.querySelector('.answer')")
        if f"taken: {name}, version 1" not in it.text():
            yield it.text()
        it.follow("nav a[href=\"/\"]")
        it.at("/")
        it.until("document.querySelector('tr.own') && !document.querySelector('tr.own').innerText.includes('new')")
        it.until("document.body.innerText.includes('no match is missing')")
        yield from fits(it, "table")
        if (colours := it.driver.value(COLOURS)) != 1:
            yield f"the own row has {colours} colours"
        it.follow("nav a[href=\"/mine\"]")
        it.at("/mine")
        it.follow(f"[data-robot={name}]")
        it.at(f"/robots/{name}")
        if "Why did I lose?" not in it.text() or "Against" not in it.text():
            yield it.text()
        yield from fits(it, "why")
        it.follow(".links a")
        it.until("globalThis.player")
        it.follow("#play-pause")
        it.until("player.cycle > player.match.first")
        it.picture(f"film-{name}")
        it.go("/wall")
        it.until("document.getElementById('film').src.includes('/replays/')")
        yield from fits(it, "wall")

    def the_ways_of_an_organiser_and_a_teacher(self) -> Iterator[str]:
        """An invitation by the form, its link withdrawn, authors who have handed in, and their checklist as a table to download."""

        def ways(driver: Driver) -> Iterator[str]:
            ladder = self._new(f"teacher{next(self._numbers)}")
            for at in range(PUPILS):
                ladder.ask("PUT", f"/robots/pupil{at}", IDLE, token=ladder.author(f"Pupil {at}"))
            for count, (width, height) in enumerate(SIZES, PUPILS + 1):
                it, name = Window(driver, ladder, width, height), f"{driver.name}{width}"
                yield from (f"{name}: {why}" for why in self._organiser(it, f"Zoë {name}"))
                yield from (f"{name}: {why}" for why in self._teacher(it, count))

        yield from self._browsers("the ways of an organiser and a teacher", ways)

    def _organiser(self, it: Window, author: str) -> Iterator[str]:
        it.go(f"/join#{it.ladder.organiser}")
        it.at("/mine")
        it.follow("nav a[href=\"/organiser\"]")
        it.at("/organiser")
        it.tab_to("[name=name]")
        it.driver.type(author)
        yield from fits(it, "organiser")
        it.driver.press("Enter")
        it.until("document.querySelector('.answer')")
        if f"{it.ladder.here}/join#" not in it.text():
            yield it.text()
        token = it.text().partition("/join#")[2].split()[0]
        it.follow("nav a[href=\"/organiser\"]")
        it.at("/organiser")
        it.follow("tbody tr:last-child form[action$=withdraw] button")
        it.until("document.querySelector('.answer')")
        if f"the link of {author} is withdrawn" not in it.text() or it.ladder.ask("GET", "/mine", token=token).status != 303:
            yield it.text()

    def _teacher(self, it: Window, count: int) -> Iterator[str]:
        it.follow("nav a[href=\"/checklist\"]")
        it.at("/checklist")
        if (rows := it.driver.value("document.querySelectorAll('tbody tr').length")) != count:
            yield f"{rows} rows, not {count}"
        yield from fits(it, "checklist")
        it.tab_to("[href$=\".csv\"]")
        if not str(it.driver.value("document.activeElement.href")).endswith("/checklist.csv"):
            yield "no table to download"
        for path in ("mine", "join", "robots/pupil1", "wall", ""):
            it.go(f"/{path}")
            yield from fits(it, path.replace("/", "-") or "index")

    def no_script_in_a_name_runs(self) -> Iterator[str]:
        ladder = self._new("scripts")
        for at, text in enumerate(SCRIPTS):
            ladder.post("/organiser/invite", {"name": text, "team": text}, token=ladder.organiser)
            ladder.ask("PUT", f"/robots/s{at}", f"/*{text}*/{IDLE}", token=ladder.author(f"{text} 2"))

        def looks(driver: Driver) -> Iterator[str]:
            it = Window(driver, ladder, *SIZES[1])
            it.go(f"/join#{ladder.organiser}")
            it.at("/mine")
            for path in ("/", "/organiser", "/checklist", "/wall", "/robots/s0", "/join#<script>alert(1)</script>", "/nothing/<script>alert(1)</script>"):
                it.go(path)
                if driver.value(RAN):
                    yield f"{driver.name}, {path}: a script ran"

        yield from self._browsers("scripts in names", looks, "a status of 4")

    def no_script_in_a_field_runs(self) -> Iterator[str]:
        """Each field of each form of each page, filled in and sent by the page itself, and what is answered."""

        def sends(driver: Driver) -> Iterator[str]:
            ladder = self._new(f"fields{next(self._numbers)}")
            ladder.terms(sign_up=1000)
            ladder.author("Ann")
            for text in (IDLE, SHOOTER):
                ladder.ask("PUT", "/robots/mine", text, token=ladder.organiser)
            it = Window(driver, ladder, *SIZES[1])
            it.go(f"/join#{ladder.organiser}")
            it.at("/mine")
            sent = [(path, at) for path in ("/join", "/mine", "/organiser", "/robots/mine") for at in range(self._buttons(it, path))]
            if len(sent) != BUTTONS:
                yield f"{driver.name}: {len(sent)} buttons, not {BUTTONS}: {sent}"
            for turn, (path, at) in enumerate(sent):
                for text in SCRIPTS[turn % EACH_NTH::EACH_NTH]:
                    yield from self._filled(it, path, at, text)

        yield from self._browsers("scripts in fields", sends, "a status of 4")

    def a_file_is_dropped(self) -> Iterator[str]:
        """On the form of one's own page: one byte too many is refused there, and else it is sent as it is, under its own name."""
        ladder = self._new("dropped")

        def drops(driver: Driver) -> Iterator[str]:
            it, name = Window(driver, ladder, *SIZES[1]), f"{driver.name}{next(self._numbers)}"
            it.go(f"/join#{ladder.author(f'Ann {name}')}")
            it.at("/mine")
            for size, wanted in ((65_537, "This file has 65537 bytes, and 65536 are taken."), (65_536, "")):
                if (found := driver.value(DROP % {"name": f"{name}.r", "source": IDLE, "size": size})) != wanted:
                    yield f"{name}, {size} bytes: {found}"
            it.follow("form.hand-in button")
            it.until("document.querySelector('.answer')")
            if f"taken: {name}, version 1" not in it.text():
                yield it.text()
            if ladder.rows("SELECT length(bytes) FROM source JOIN entry USING (sha256) WHERE robot = ?", name) != [(65_536,)]:
                yield f"{name}: other bytes were kept"

        yield from self._browsers("dropped files", drops)

    def _buttons(self, it: Window, path: str) -> int:
        """How many addresses the buttons of a page send to."""
        it.go(path)
        return int(it.driver.value(f"{SENDING}.length"))

    def _filled(self, it: Window, path: str, at: int, text: str) -> Iterator[str]:
        """Fills in all fields that a button sends, and presses it. Those that are hidden, too, and whatever limits the page has."""
        it.go(path)
        it.driver.value(FILL % {"at": at, "text": json.dumps(text)})
        it.until("!window.isFilled && document.readyState === 'complete'")
        ran = it.driver.value(RAN)
        it.go("/organiser")
        if found := ran or it.driver.value(RAN):
            yield f"{it.driver.name}, button {at} of {path} with {text}: {found}"

    def _browsers(self, what: str, test: Callable[[Driver], Iterator[str]], harmless: str = "nothing is") -> Iterator[str]:
        """What is wrong by a test in each browser that is there."""
        for package, (find, begin) in BROWSERS.items():
            if not find():
                skip(f"{what} in {package}", f"there is no {package} (Debian: {package})")
                continue
            with tries(begin, harmless) as browsers:
                yield from browsers.wrong(f"{what} in {package}", test)


def fits(it: Window, name: str) -> Iterator[str]:
    """Whether a page is wider than its window was made, as one that is too wide makes the window of a telephone wider; a picture of it,
    if there are to be some."""
    it.driver.settle()
    it.picture(f"{name}-{it.width}")
    if (found := it.driver.value(WIDTH)) > it.width:
        yield f"{name} is {found} wide, and the window {it.width}"
