"""Tests of how a site is written: what others have there stays, what is gone is removed, and it may be killed."""

from __future__ import annotations

import contextlib
import hashlib
import os
import random
import signal
import subprocess
import sys
import tempfile
import time
from dataclasses import replace
from typing import Iterator

from sites import folders
from sites.facts import Facts
from sites.publishing import publish

from . import made
from .reading import dangling, files, read

Results = Iterator[tuple[str, bool]]
HERE = os.path.dirname(os.path.abspath(__file__))
CUTS, KILLS = 8, 2
# Publishes the site of a league, whose number of robots is the first word, into a folder.
WRITER = """
import sys
sys.dont_write_bytecode = True
sys.path[:0] = sys.argv[3:]
from site_tests import made
from sites.publishing import publish
publish(made.league(int(sys.argv[1])), sys.argv[2])
"""


def results() -> Results:
    """Each test with whether it passed."""
    with tempfile.TemporaryDirectory() as place:
        yield from others(os.path.join(place, "others"))
        yield from lists(os.path.join(place, "lists"))
        yield from again(os.path.join(place, "again"))
        yield from older(place)
        yield from cut(place)
        yield from killed(place)


def state(folder: str) -> dict[str, str]:
    """The files of a folder with the hashes of their bytes."""
    found = {}
    for place in files(folder):
        with open(os.path.join(folder, place), "rb") as file:
            found[place] = hashlib.file_digest(file, "sha256").hexdigest()
    return found


def write(folder: str, place: str, text: str) -> None:
    os.makedirs(os.path.dirname(os.path.join(folder, place)), exist_ok=True)
    with open(os.path.join(folder, place), "w", encoding="utf-8") as file:
        file.write(text)


def others(folder: str) -> Results:
    """Files of others stay, and are in the way if the site has the same name."""
    write(folder, ".git/config", "theirs")
    write(folder, "robots/theirs.txt", "theirs")
    publish(made.league(3), folder)
    publish(made.league(2), folder)
    there = files(folder)
    yield "files of others stay", {".git/config", "robots/theirs.txt"} <= there
    yield "what is gone is removed", not any("quoted" in it for it in there)
    publish(replace(made.league(2), robots=(), standings=(), pairs=()), folder)
    yield "empty folders are removed", sorted(os.listdir(folder)) == [
        ".git", "index.html", "map.html", "pairs.csv", "robots", "settings.html", "site.css", "site.json", "site.list", "table.csv"]
    write(folder, "robots/hunter.r.html", "theirs")
    before = state(folder)
    try:
        publish(made.league(2), folder)
        yield "a file in the way is refused", False
    except folders.Foreign as why:
        yield "a file in the way is refused", "robots/hunter.r.html" in str(why)
    yield "and then nothing is written", state(folder) == before


def lists(folder: str) -> Results:
    """A list that was changed leads out of the folder never."""
    write(folder, "keep/theirs.txt", "theirs")
    site = os.path.join(folder, "site")
    publish(made.league(2), site)
    with open(os.path.join(site, "site.list"), "a", encoding="utf-8") as file:
        file.write("../keep/theirs.txt\n/etc/hostname\n./index.html\n\n")
    publish(made.league(2), site)
    yield "a path out of the folder is not followed", os.path.isfile(os.path.join(folder, "keep", "theirs.txt"))
    with open(os.path.join(site, "site.list"), encoding="utf-8") as file:
        yield "the list has the site's files", {*file.read().split()} == files(site) - {"site.list"}


def again(folder: str) -> Results:
    """What didn't change isn't written again, and files can be read by all."""
    publish(made.league(), folder)
    before = stats(folder)
    publish(made.league(), folder)
    after = stats(folder)
    yield "nothing changes", [it.st_mtime_ns for it in before] == [it.st_mtime_ns for it in after]
    umask = os.umask(0)
    os.umask(umask)
    yield "all can read it", {it.st_mode & 0o777 for it in after} == {0o666 & ~umask}


def stats(folder: str) -> list[os.stat_result]:
    return [os.stat(os.path.join(folder, place)) for place in sorted(files(folder))]


def changed(facts: Facts) -> Facts:
    """The same league a week later, without the second robot: other pages, files that are gone, files that are new."""
    gone = made.NAMES[1]
    return replace(
        facts, day="2026-11-29", robots=tuple(it for it in facts.robots if it.id != gone),
        standings=tuple(it for it in facts.standings if it.robot != gone),
        pairs=tuple(it for it in facts.pairs if gone not in (it.one, it.other)))


class Cut(BaseException):
    """The end, at some instant."""


@contextlib.contextmanager
def ending_after(files_written: int) -> Iterator[list[int]]:
    """Ends a writer when it has written this number of files; counts them."""
    count, real = [0], os.replace

    def replaced(one: str, other: str) -> None:
        if count[0] == files_written:
            raise Cut
        count[0] += 1
        real(one, other)

    os.replace = replaced  # type: ignore[assignment]
    try:
        with contextlib.suppress(Cut):
            yield count
    finally:
        os.replace = real


def older(place: str) -> Results:
    """Archives of before stay, and are listed, the last one first; that of now isn't one of them, however often it is published."""
    folder = os.path.join(place, "older")
    for name in ("1.zip", "2.zip", "3.zip", "3.zip"):
        write(place, name, name)
        publish(made.league(2, archive=os.path.join(place, name)), folder)
    sections = read(os.path.join(folder, "settings.html")).all("section")
    listed = [[it.text() for it in part.all("li")] for part in sections if part.one("h2").text() == "Older archives"]
    yield f"older archives {listed}", listed == [["2.zip", "1.zip"]] and {it for it in files(folder) if it.startswith("archive/")} == {
        f"archive/{at}.zip" for at in (1, 2, 3)}


def cut(place: str) -> Results:
    """A writer that ends after any of its files leaves a site that is whole, and the next one all of it."""
    before, after = made.league(4), changed(made.league(5))
    after = replace(after, robots=tuple(replace(it, lost=()) for it in after.robots))
    folder = os.path.join(place, "cut")
    publish(before, folder)
    with ending_after(-1) as count:
        publish(after, folder)
    wanted = state(folder)
    for many in random.Random(2).sample(range(count[0]), CUTS):
        publish(before, folder)
        with ending_after(many):
            publish(after, folder)
        yield f"cut after {many} of {count[0]} files: something is missing", state(folder) != wanted
        yield f"cut after {many} of {count[0]} files: links lead somewhere", not dangling(folder, False)[1]
        publish(after, folder)
        yield f"cut after {many} of {count[0]} files: the next one has all", state(folder) == wanted


def killed(place: str) -> Results:
    """The same, killed at any instant."""
    source, fresh = random.Random(3), os.path.join(place, "whole")
    publish(made.league(), fresh)
    wanted = state(fresh)
    for at in range(KILLS):
        folder = os.path.join(place, f"killed {at}")
        publish(made.league(4), folder)
        paths = [os.path.dirname(HERE), os.path.join(HERE, "..", "..", "scripts")]
        with subprocess.Popen([sys.executable, "-c", WRITER, str(len(made.NAMES)), folder, *paths]) as child:
            while child.poll() is None and not os.path.exists(os.path.join(folder, folders.NEW)):
                time.sleep(0.001)
            time.sleep(source.random() * 0.2)
            child.send_signal(signal.SIGKILL)
        yield f"killed: links lead somewhere ({at})", not dangling(folder, False)[1]
        publish(made.league(), folder)
        yield f"killed: the next one has all ({at})", state(folder) == wanted
