"""Tests of replays: who is asked for them, how many are made, which are kept. A script stands in for crobots-trace."""

from __future__ import annotations

import contextlib
import os
import tempfile
from dataclasses import replace
from typing import Iterator

from sites.facts import Facts
from sites.films import MOST_CYCLES
from sites.publishing import publish

from . import made
from .reading import dangling, files, links, read

Results = Iterator[tuple[str, bool]]
# Writes down its words, and writes the film of a short match between robots with the names of its last two words.
STAND_IN = r"""#!/bin/sh
printf '%s\0' "$@" END >> '{told}'
while [ $# -gt 2 ]; do shift; done
case "${{1##*/}}${{2##*/}}" in *caf*) exit 1 ;; esac
printf 'cycle\trobot\tkind\ta\tb\tc\td\te\n'
printf '0\t1\tname\t%s\n0\t2\tname\t%s\n' "${{1##*/}}" "${{2##*/}}"
printf '0\t1\tat\t1000\t5000\t0\t0\t0\n0\t2\tat\t6000\t5000\t0\t0\t0\n300\t1\tend\t0\n300\t2\tend\t100\n'
"""


@contextlib.contextmanager
def stand_in(folder: str) -> Iterator[str]:
    """Puts the script on the path; answers the file of its words."""
    path, told = os.path.join(folder, "crobots-trace"), os.path.join(folder, "told")
    with open(path, "w", encoding="utf-8") as file:
        file.write(STAND_IN.format(told=told))
    os.chmod(path, 0o755)
    before = os.environ["PATH"]
    os.environ["PATH"] = f"{folder}:{before}"
    try:
        yield told
    finally:
        os.environ["PATH"] = before


def asked(told: str) -> list[list[str]]:
    """The words of all calls since the last time."""
    if not os.path.exists(told):
        return []
    with open(told, "rb") as file:
        calls = os.fsdecode(file.read()).split("END\0")[:-1]
    os.unlink(told)
    return [it.split("\0")[:-1] for it in calls]


def replays(folder: str) -> set[str]:
    return {it for it in files(folder) if it.startswith("replays/")}


def results() -> Results:
    """Each test with whether it passed."""
    with tempfile.TemporaryDirectory() as place, stand_in(place) as told:
        site = os.path.join(place, "site")
        yield from none(site, told)
        yield from some(site, told)
        yield from kept(site, told)
        yield from given(site)
        yield from failed(os.path.join(place, "failed"), told)


def league(robots: int) -> Facts:
    return made.league(robots)


def none(site: str, told: str) -> Results:
    """Without a wish there are none."""
    publish(league(3), site)
    yield "no replay is made if none is asked for", not replays(site) and not asked(told)


def some(site: str, told: str) -> Results:
    """As many as are asked for, the lost matches of the best robots first."""
    publish(league(3), site, replays=3, jobs=2)
    words = sorted(asked(told))
    yield "so many replays", len(replays(site)) == len(words) == 3
    found = [it[:5] for it in words]
    wanted = [["--film", f"-k{it}", "-l500000", f"-s{2**64 - it}", "-p1"] for it in (2, 4001, 4002)]
    yield "their options", found == wanted
    yield "their robots", [[os.path.basename(file) for file in it[-2:]] for it in words] == [
        ["hunter.r", "script>.r"], ["hunter.r", "script>.r"], ["script>.r", made.NAMES[2]]]
    page = read(os.path.join(site, "robots", "_3cscript_3ealert_281_29_3c_2fscript_3e.r.html"))
    watch = [href for href in links(page) if "replays/" in href]
    yield "a link to it", len(watch) == 1 and not dangling(site)[1]
    # what is after the last '/' is a robot's name for the page
    replay = read(os.path.join(site, "robots", watch[0]))
    yield "its page", replay.one("title").text().startswith("Match ")
    ways = [(it.attributes["href"], it.text()) for it in replay.one("nav").all("a")]
    yield f"its ways back {ways}", ways[1:] == [("../index.html", "All robots")] and ways[0][0].startswith("../pair.html#") and (
        ways[0][1] == "All matches of these two" and "_3cscript_3ealert_281_29_3c_2fscript_3e.r" in ways[0][0].removeprefix("../pair.html#").split("/"))


def kept(site: str, told: str) -> Results:
    """Those that are there aren't made again; the others are, and those of matches that are gone are removed."""
    before = replays(site)
    publish(league(3), site, replays=0)
    yield "replays are kept", replays(site) == before and not asked(told)
    publish(league(3), site, replays=1000, jobs=4)
    # of three pairs three matches each, and two lost matches
    yield "all the others", before < replays(site) and len(replays(site)) == 11 and len(asked(told)) == 8
    publish(league(2), site, replays=1000)
    yield "replays of robots that are gone", len(replays(site)) == 4 and not asked(told)
    other = replace(league(2), program=replace(league(2).program, sha256="cd" * 32))
    publish(other, site, replays=1000)
    yield "another program plays all again", len(replays(site)) == 4 == len(asked(told))


def given(site: str) -> Results:
    """A page that is given needs no program."""
    facts = league(2)
    battle = replace(facts.robots[1].lost[0], replay="<p>a \udce9 page</p>", number=99)
    publish(replace(facts, robots=(facts.robots[0], replace(facts.robots[1], lost=(battle,)))), site)
    found = {content(site, it) for it in replays(site)}
    yield "a page that is given", b"<p>a ? page</p>" in found and not dangling(site)[1]


def content(folder: str, place: str) -> bytes:
    with open(os.path.join(folder, place), "rb") as file:
        return file.read()


def failed(site: str, told: str) -> Results:
    """A match that can't be filmed has no replay, a robot may have any name, and of long matches the end is filmed."""
    facts = league(6)
    long = replace(facts.robots[1].lost[0], cycles=MOST_CYCLES + 4000)
    robots = tuple(replace(it, lost=(long,)) if at == 1 else it for at, it in enumerate(facts.robots))
    pairs = tuple(replace(it, notable=()) for it in facts.pairs)
    publish(replace(facts, robots=robots, pairs=pairs), site, replays=9999, jobs=4)
    words = asked(told)
    # the fifth robot is in two of the five lost matches
    yield "what can't be filmed", len(words) == 5 and len(replays(site)) == 3
    yield "no link leads to it", not dangling(site)[1]
    yield "of a long match the end", [it[5:7] for it in words if "--from" in it] == [["--from", "4000"]]
    yield "any name", {os.fsencode(it[-1].split("/")[-1]) for it in words} >= {b"script>.r", b"caf\xe9.r", b"robot.r"}
