"""Tests of the whole page, by WebKit, which Safari has: those of Chromium, but for what only Chromium's driver reports."""

from __future__ import annotations

import contextlib
import glob
import importlib
import os
import shutil
import subprocess
import tempfile
from typing import Any, Iterator

from tries import group

from . import browser, robust
from .battles import random_battles, sample_battles
from .pages import Tests, driven, judged

BROWSERS = "/usr/lib/*/webkit2gtk-4.*/MiniBrowser"
DRIVER, DISPLAY = "WebKitWebDriver", "Xvfb"
SCREEN = "2048x1400x24"
# the bar above the page takes so little width that a window can be as narrow as a phone
STYLE = "window * { min-width: 0; min-height: 0; padding: 0; margin: 0; border-width: 0; font-size: 1px; }\n"
# WebKit lays out a line of a megabyte of brackets for a minute; what the engine says of such sources is no matter of WebKit
MOST_HOSTILE = 50_000


def mini_browser() -> str:
    """The small browser that comes with WebKitGTK, if it is installed."""
    return max(glob.glob(BROWSERS), default="")


def lacking(folder: str) -> str:
    """What is lacking for these tests."""
    editor = browser.without_editor(folder)
    missing = [name for name in (DRIVER, DISPLAY) if not shutil.which(name)] + ([] if mini_browser() else ["MiniBrowser"])
    missing += [] if browser.has_selenium() else ["python3-selenium"]
    return f"there is no {' and no '.join(missing + editor)}" if missing + editor else ""


@contextlib.contextmanager
def variable(name: str, value: str) -> Iterator[None]:
    """A variable of the environment, for the programs that are started meanwhile."""
    before = os.environ.get(name)
    os.environ[name] = value
    try:
        yield
    finally:
        os.environ.pop(name)
        os.environ.update({} if before is None else {name: before})


@contextlib.contextmanager
def style() -> Iterator[None]:
    """A style of windows, for the programs that are started meanwhile."""
    with tempfile.TemporaryDirectory() as folder, variable("XDG_CONFIG_HOME", folder):
        os.mkdir(os.path.join(folder, "gtk-3.0"))
        with open(os.path.join(folder, "gtk-3.0", "gtk.css"), "w", encoding="ascii") as file:
            file.write(STYLE)
        yield


@contextlib.contextmanager
def display() -> Iterator[None]:
    """A screen that nobody sees, for the programs that are started meanwhile."""
    words = [DISPLAY, "-displayfd", "1", "-screen", "0", SCREEN, "-nolisten", "tcp"]
    with group(words, stdout=subprocess.PIPE, text=True) as screen:
        assert screen.stdout
        with variable("DISPLAY", f":{screen.stdout.readline().strip()}"):
            yield


@contextlib.contextmanager
def webkit() -> Iterator[Any]:
    """A browser on a screen of its own."""
    webdriver: Any = importlib.import_module("selenium.webdriver")
    options = webdriver.WebKitGTKOptions()
    options.binary_location = mini_browser()
    options.add_argument("--automation")
    with display(), style(), driven(DRIVER) as port:
        driver = webdriver.Remote(f"http://127.0.0.1:{port}", options=options)
        driver.set_window_size(1280, 1000)
        yield driver
        driver.quit()


def tests(crobots: str, stages: str, folder: str) -> Tests:
    """The tests by their names."""
    yield "first draw", browser.drawn_soon
    yield "samples", lambda page: browser.reports(page, crobots, sample_battles())
    yield "random robots", lambda page: browser.reports(page, crobots, random_battles(30, 7))
    yield "diagnostics", browser.marks
    yield "explanations", browser.explanations
    yield "hostile sources", lambda page: browser.alive(page, crobots, MOST_HOSTILE)
    yield "listing", browser.listing
    yield "links", lambda page: browser.links(page, crobots)
    yield "a link from the second tab", browser.second_tab
    yield "settings that are none", browser.unset
    yield "watched matches", lambda page: browser.watched(page, crobots)
    yield "a cycle beyond a film", browser.far
    yield "a stopped series", lambda page: browser.stopped(page, crobots)
    yield "keys", browser.keys
    yield from browser.others("WebKit", crobots, stages, folder)
    yield "the page as a file", lambda page: browser.story(page, crobots, folder, webkit)
    yield from robust.missing(folder)
    yield from robust.hostile_links()


def results(crobots: str, stages: str, folder: str, place: str) -> Iterator[tuple[str, list[str]]]:
    """The names of those tests that are taken here, and what is wrong."""
    return judged("webkit", webkit, folder, tests(crobots, stages, folder), place)
