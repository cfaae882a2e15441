"""Tests of the whole page, by Firefox: what it shows is what crobots writes, and the way of a first reader."""

from __future__ import annotations

import os
from typing import Iterator

from . import browser
from .battles import random_battles, sample_battles
from .marionette import firefox, program
from .pages import Page, Tests, judged


def lacking(folder: str) -> str:
    """What is lacking for these tests."""
    missing = ([] if program() else ["firefox"]) + ([] if browser.has_selenium() else ["python3-selenium"]) + browser.without_editor(folder)
    return f"there is no {' and no '.join(missing)}" if missing else ""


def as_a_file(page: Page, crobots: str, folder: str) -> list[str]:
    """A battle on the page as a file."""
    other = Page(page.driver, "file://" + os.path.join(os.path.abspath(folder), "index.html"))
    other.open()
    return browser.reports(other, crobots, sample_battles()[20:21])


def tests(crobots: str, stages: str, folder: str) -> Tests:
    """The tests by their names."""
    yield "first draw", browser.drawn_soon
    yield "samples", lambda page: browser.reports(page, crobots, sample_battles()[::3])
    yield "random robots", lambda page: browser.reports(page, crobots, random_battles(10, 8))
    yield "explanations", browser.explanations
    yield "links", lambda page: browser.links(page, crobots)
    yield "watched matches", lambda page: browser.watched(page, crobots)
    yield from browser.others("Firefox", crobots, stages, folder)
    yield "the page as a file", lambda page: as_a_file(page, crobots, folder)


def results(crobots: str, stages: str, folder: str, place: str) -> Iterator[tuple[str, list[str]]]:
    """The names of those tests that are taken here, and what is wrong."""
    return judged("firefox", firefox, folder, tests(crobots, stages, folder), place)
