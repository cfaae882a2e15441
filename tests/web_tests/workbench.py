"""Tests of the page as the workbench of an open ladder, which `crobots-league serve` serves, by Chromium and by Firefox: a robot is tried
against a sample by the module in the page, sent to the league, and tried against a robot of the league."""

from __future__ import annotations

import itertools
import json
import os
import sys
import tempfile
from contextlib import AbstractContextManager
from typing import Callable, Iterator

HERE = os.path.dirname(os.path.abspath(__file__))
DEBIAN = "/usr/lib/python3/dist-packages"
sys.path += [os.path.join(HERE, "..", "..", "scripts"), DEBIAN]
import packages  # noqa: E402
from harness import skip  # noqa: E402
from ladder_tests.base import BAD, IDLE, SHOOTER, Base, Ladder, installed  # noqa: E402
from ladder_tests.windows import BROWSERS, Driver, Window, tries  # noqa: E402

SIZES = ((360, 740), (1366, 768))
# Gives the robot in work a name and a source, one after the other as whoever writes them does.
WRITE = """(() => {
    const {CodeMirror} = document.querySelector('.CodeMirror') ?? {};
    const write = (id, text) => {
        const field = document.getElementById(id);
        field.value = text;
        for (const kind of ['input', 'change']) field.dispatchEvent(new Event(kind, {bubbles: true}));
    };
    write('name', %s);
    if (CodeMirror) CodeMirror.setValue(%s); else write('source', %s);
})()"""


def lacking(_folder: str) -> str:
    """What is lacking for these tests."""
    return packages.lacking([f"{DEBIAN}/flask", f"{DEBIAN}/waitress"])


def results(crobots: str, _stages: str, folder: str) -> Iterator[tuple[str, list[str]]]:
    """The ways of both browsers, in windows of both sizes."""
    with tempfile.TemporaryDirectory() as place:
        for package, (find, begin) in BROWSERS.items():
            if find():
                yield f"by {package}", [*ways(crobots, folder, os.path.join(place, package), begin, package)]
            else:
                skip(f"the workbench in {package}", packages.lacking([package]))


class League(Base):
    """A league that is served with the page as its workbench."""

    _RULES = ("-l20000", "-m", "4")

    def served(self, page: str) -> Ladder:
        """A ladder on which trials may be played, with a robot that loses them."""
        ladder = self._made("workbench")
        ladder.terms(trials=100, robots=9)
        ladder.add("dying", SHOOTER)
        ladder.serve("--workbench", page)
        return ladder


def ways(crobots: str, page: str, place: str, begin: Callable[[], AbstractContextManager[Driver]], package: str) -> Iterator[str]:
    """What is wrong on the way of an author in the workbench, each time of another one."""
    installed(place, [crobots])
    league, numbers = League(place), itertools.count()
    with league, tries(begin, "a status of 4") as browsers:
        ladder = league.served(page)
        for width, height in SIZES:
            wrong = browsers.wrong(f"workbench: by {package} at {width}", lambda driver: way(Window(driver, ladder, width, height), f"still{next(numbers)}"))
            yield from (f"{width}: {why}" for why in wrong)


def way(it: Window, name: str) -> Iterator[str]:
    """Joins, comes to the workbench by its link, fights, sends a fault and a robot, and tries it."""
    it.go(f"/join#{it.ladder.author(name)}")
    it.at("/mine")
    it.follow("nav a[href=\"/workbench/\"]")
    it.at("/workbench/")
    # the editor comes last
    it.until("document.getElementById('source')?.readOnly === false && document.getElementById('send')")
    write(it, name, IDLE)
    it.driver.value("document.getElementById('run').click()")
    it.until(f"/^Totals: .*\\n.*{name}/m.test(document.getElementById('report').textContent)")
    if not it.driver.value("document.getElementById('workbench').offsetWidth"):
        # a narrow window shows the report in place of the editor
        it.follow("#to-write")
    for source, wanted, is_good in ((BAD, f"{name}.r:2:1: reserved word", False), (IDLE, f"taken: {name}, version 1", True)):
        write(it, name, source)
        it.follow("#send")
        it.until(f"document.getElementById('sent').textContent.includes({json.dumps(wanted)})")
        if it.driver.value("document.getElementById('sent').className === ''") != is_good:
            yield f"{wanted}: it doesn't look so"
    it.driver.value("document.getElementById('against').value = 'dying'")
    it.follow("#try")
    it.until(f"/1\\) won 10 tied 0 lost 0 {name}.r\\n.*2\\) won 0 tied 0 lost 10 dying.r/.test(document.getElementById('sent').textContent)")
    it.driver.settle()
    it.picture(f"workbench-{it.width}")
    if (found := it.driver.value("document.scrollingElement.scrollWidth")) > it.width:
        yield f"it is {found} wide"
    it.follow("header nav a[href$=\"/mine\"]")
    it.at("/mine")
    if name not in it.text():
        yield f"{name} isn't there: {it.text()}"


def write(it: Window, name: str, source: str) -> None:
    """Writes the robot in work."""
    it.driver.value(WRITE % (json.dumps(f"{name}.r"), json.dumps(source), json.dumps(source)))
