"""Handouts of crobots-stages on paper, page by page: a headless Chromium prints them, and pdftotext reads each page."""

from __future__ import annotations

import base64
import html
import re
import subprocess
from typing import Iterator

from browsers import Browser
from harness import PATIENCE

# The width and the height of papers, in inches.
PAPERS = {"A4": (8.27, 11.69), "Letter": (8.5, 11.0)}
# A page has at least this many lines, also the last one.
LEAST_LINES = 3
# Among so many lines at a page's foot is no heading of a chapter, or of a function, that goes on on the next page.
LOW, LOW_NAMES = 3, 2


def pages(browser: Browser, path: str, paper: str) -> list[list[str]]:
    """The lines of each page of an HTML file on this paper, without their blanks at both ends, and without empty ones."""
    wide, high = PAPERS[paper]
    browser.load(path)
    printed = browser.call("Page.printToPDF", paperWidth=wide, paperHeight=high, preferCSSPageSize=True)["data"]
    ran = subprocess.run(["pdftotext", "-layout", "-", "-"], input=base64.b64decode(printed), capture_output=True, check=True, timeout=PATIENCE)
    texts = ran.stdout.decode().split("\f")[:-1]
    return [[line.strip() for line in text.splitlines() if line.strip()] for text in texts]


def headings(page: str) -> list[str]:
    """The headings of an HTML file, of the page and of its chapters."""
    return [html.unescape(text) for text in re.findall(r"<h[123]>(.*?)</h[123]>", page)]


def names(page: str) -> list[str]:
    """The names of functions that stand above rows of an HTML file: they are one word, without a blank before it."""
    return re.findall(r"<div(?: class=\"f\")?>(\w+)</div>", page)


def misprints(printed: list[list[str]], page: str) -> Iterator[str]:
    """What is wrong with the pages of an HTML file: nearly empty ones, headings with little below them at a page's foot, and those that are
    cut in two."""
    heads, functions = headings(page), names(page)
    following: list[list[str]] = [*printed[1:], []]
    for number, (lines, behind) in enumerate(zip(printed, following), 1):
        if len(lines) < LEAST_LINES:
            yield f"page {number} has {lines} alone"
        goes_on = bool(behind) and not is_heading(behind[0], heads)
        low = [line for line in lines[-LOW if goes_on else -1:] if is_heading(line, heads)] + [line for line in lines[-LOW_NAMES:] if line in functions]
        yield from (f"page {number} has {line!r} at its foot" for line in low)
        if lines and is_heading(lines[0], heads) and not any(it.startswith(lines[0]) for it in heads):
            yield f"page {number} begins with the rest of {lines[0]!r}"


def is_heading(line: str, all_: list[str]) -> bool:
    """Whether a line is a heading, or a long part of one."""
    return any(line == it or len(line) > 15 and line in it for it in all_)


def cut_blocks(printed: list[list[str]]) -> Iterator[str]:
    """Pages of the code that begin with an instruction, and not with the line of the source that it comes from."""
    for number, lines in enumerate(printed, 1):
        if lines and re.match(r"\d+ [A-Z]{2,}\b(?!.*\|)", lines[0]):
            yield f"page {number} begins with {lines[0]!r}"
