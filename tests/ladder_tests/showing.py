"""What pages show: lost pairs, rungs, films, the audit, and when the table is another one."""

from __future__ import annotations

import itertools
import os
import re
import tempfile
import time
from dataclasses import fields, replace
from decimal import Decimal
from typing import Any, Iterator
from unittest import mock

from ladder import films, judging, serving
from ladder.live import Fought, Live
from ladder.organisers import climbed_by
from ladder.reasons import lost_pairs
from leagues import entries, seasons
from leagues.results import keep
from leagues.schedules import Schedule
from leagues.store import opened
from results.scores import Score
from results.standings import NOTHING, Rating, Standing

from .base import SHOOTER, TODAY, Base, Ladder, other

WON, LOST, TIED = "15:0:100", "15:100:0", "300:0:0"
# What `mine` did in the first seat and in the second: it is even with one, lost more against two others, and won against the last.
FOUGHT = {"even": (f"{WON},{LOST}", f"{WON},{LOST}"), "strong": ("20:100:0,50:100:30,90:0:100", "40:10:100"), "strongest": ("9:100:0,8:100:0", f"{WON},{WON}"),
          "weak": (f"{WON},{TIED}", f"{LOST},{TIED}")}


class Showing(Base):
    """Tests of what is shown, mostly by results that are made up."""

    _RULES = ("-l5000", "-m", "4")

    def lost_pairs_come_worst_first(self) -> Iterator[str]:
        """The worst match is that in which the other was hurt least, and of these the shortest."""
        ladder = self._made("lost")
        self._fought(ladder, FOUGHT)
        with opened(ladder.folder) as store:
            found = [(it.opponents, it.score.won, it.score.tied, it.score.lost, [(one.number, one.seat, one.cycles) for one in it.worst]) for it in lost_pairs(store, "mine")]
        wanted = [(("strongest",), 0, 0, 4, [(2, 0, 8), (1, 0, 9)]), (("strong",), 1, 0, 3, [(1, 0, 20), (1, 1, 40)])]
        if found != wanted:
            yield f"{found}, not {wanted}"

    def each_lost_pair_is_there(self) -> Iterator[str]:
        """Of twelve all, each with its two worst matches; the first five are summed up, if that can be done."""
        ladder = self._made("pairs")
        self._fought(ladder, {f"r{at:02}": (f"{LOST},{LOST},{LOST}", f"{WON},{WON},{WON}") for at in range(12)})
        ladder.begin()
        text = ladder.ask("GET", "/robots/mine", token=ladder.organiser).text
        found = re.findall(r'<h3>Against <bdi>(r\d\d)</bdi></h3><p>0 won, 0 tied, 6 lost. Its worst matches:</p><ul class="links">(.*?)</ul>', text)
        if [name for name, _ in found] != [f"r{at:02}" for at in range(12)] or any(links.count("/replays/") != 2 for _, links in found):
            yield f"{found}"

    def each_version_has_its_results(self) -> Iterator[str]:
        """Of the matches that count, against whomever it met then: played, won, tied, lost, and points a match, worked out by hand."""
        ladder = self._made("results")
        self._fought(ladder, FOUGHT)
        with opened(ladder.folder) as store, store.change():
            entries.change(store, "mine", other(90).encode(), TODAY)
        self._keep(ladder, {"even": (WON, TIED)})
        with opened(ladder.folder) as store, store.change():
            entries.change(store, "mine", other(91).encode(), TODAY)
        ladder.begin()
        part = ladder.ask("GET", "/robots/mine").text.partition("<h2>Versions</h2>")[2].partition("</section>")[0]
        found = [re.findall("<t[dh][^>]*>([^<]*)<", row)[:7] for row in re.findall("<tr>(.*?)</tr>", part)[1:]]
        wanted = [["3", TODAY, "0", "0", "0", "0", ""], ["2", TODAY, "2", "1", "1", "0", "2.000"], ["1", TODAY, "16", "5", "2", "9", "1.062"]]
        if found != wanted:
            yield f"{found}, not {wanted}"

    def a_lost_match_is_told_of_its_robot(self) -> Iterator[str]:
        """The page has the number of damage by its own shots, which the loser alone has, with names in place of hashes."""
        ladder, token = self._shot("told")
        text = ladder.ask("GET", "/robots/mine", token=token).text
        told = re.search('<pre class="sum">(.*?)</pre>', text, re.DOTALL)
        if "Against <bdi>idle</bdi>" not in text or not told or "mine" not in told[1] or re.search("[0-9a-f]{64}", told[1]):
            yield f"{told and told[1]} in {text[:2000]}"
        elif "shots" not in told[1]:
            yield f"it isn't told of the robot that shot: {told[1]}"

    def films_and_sources_have_no_origin(self) -> Iterator[str]:
        """So no script in them has a cookie, or reaches anything. A match that doesn't count by the rules of now has no film."""
        ladder, token = self._shot("films-origin")
        for path, start in (("/replays/1/1", "sandbox allow-scripts;"), ("/robots/mine/versions/1", "sandbox;")):
            answer = ladder.ask("GET", path, token=token)
            policy = answer.heads.get("content-security-policy", "")
            if answer.status != 200 or not policy.startswith(start) or "default-src 'none'" not in policy or "allow-same-origin" in policy:
                yield f"{path}: {answer.status} {answer.heads}"
        for words, wanted in (("", ["/"]), ("?play=1", [])):
            if (found := re.findall('<a [^>]*href="([^"]*)"', ladder.ask("GET", f"/replays/1/1{words}").text)) != wanted:
                yield f"a film{words} leads to {found}"
        ladder.run("rules", "-l", "4000")
        if (status := ladder.ask("GET", "/replays/1/1").status) != 404:
            yield f"a match that doesn't count by these rules: {status}"

    def a_film_is_made_with_limits(self) -> Iterator[str]:
        """Of the processor's time, of memory, and of files, as what compiles and plays has them."""
        ladder = self._made("film-limits")
        ladder.terms()
        self._fought(ladder, {"even": FOUGHT["even"]})
        code = "import resource as it; print(*(it.getrlimit(one)[0] for one in (it.RLIMIT_CPU, it.RLIMIT_AS, it.RLIMIT_FSIZE)))"
        with mock.patch("sites.films.REPLAY", code), opened(ladder.folder) as store:
            found = films.page(store, 1, 1)
        if not found or found.split() != [b"%d" % it for it in (judging.SECONDS, judging.MEMORY * 1024, films.BLOCKS * 512)]:
            yield f"{found!r}"

    def a_rung_is_four_of_five_from_either_seat(self) -> Iterator[str]:
        """Against each robot of a level that plays here; of two levels here, and of four nobody plays."""
        four, three = [WON] * 4 + [LOST], [WON] * 3 + [LOST, TIED]
        all_ = [WON] * 5
        for at, (wanderer, runner, leader, wanted) in enumerate(((four, four, all_, (True, True)), (four, three, four, (False, True)), (three, four, four, (False, True)),
                                                                (all_, all_, three, (True, False)))):
            for seat in (0, 1):
                ladder = self._made(f"rung{at}{seat}")
                sides = {name: tuple(",".join(it if side == seat else all_) if side == 0 else ",".join(map(turned, it if side == seat else all_)) for side in (0, 1))
                         for name, it in (("wanderer", wanderer), ("runner", runner), ("leader", leader))}
                self._fought(ladder, sides)
                with opened(ladder.folder) as store:
                    found = climbed_by(store)["mine"]
                if found != (*wanted, False, False, False, False):
                    yield f"{at} from seat {seat + 1}: {found}"

    def what_was_done_last_stands_first(self) -> Iterator[str]:
        ladder = self._new("audit")
        for name in ("Ann", "Bob"):
            ladder.post("/organiser/invite", {"name": name}, token=ladder.organiser)
        part = ladder.ask("GET", "/organiser", token=ladder.organiser).text.partition("Audit")[2]
        found = re.findall("<bdi>(Ann|Bob)</bdi>", part)
        if found != ["Bob", "Ann"]:
            yield f"{found}"

    def the_tag_is_another_one_if_anything_is(self) -> Iterator[str]:
        row = Standing("a", 1, Score(1, 0, 1), Decimal("1.5"), Rating(3.0, 2.0, 4.0))
        it = Live("1", 2, 3, (row,), (Fought("h", "1", 1, ("a", "b")),))
        others = [replace(it, **{one.name: value}) for one, value in zip(fields(it), ("2", 9, 9, (), ()))]
        changes: list[dict[str, Any]] = [
            {"robot": "x"}, {"rank": 9}, {"division": 9}, {"points": Decimal("1.50001")}, *({"score": Score(*score)} for score in ((2, 0, 1), (1, 1, 1), (1, 0, 2))),
            *({"rating": Rating(*rating)} for rating in ((3.5, 2.0, 4.0), (3.0, 2.5, 4.0), (3.0, 2.0, 4.5))), {"rating": NOTHING}]
        others += [replace(it, rows=(replace(row, **change),)) for change in changes]
        tags = [one.tag for one in (it, *others)]
        if len({*tags}) != len(tags) or replace(it).tag != it.tag:
            yield f"{tags}"

    def of_films_the_newest_are_kept(self) -> Iterator[str]:
        """In any order of their names, which are numbers of seatings and matches; what isn't a film stays."""
        names = ["1-1", "1-10", "1-9", "10-1", "2-1"]
        with mock.patch("ladder.films.KEPT", 3):
            for number, order in enumerate(itertools.permutations(names)):
                folder = self._at(f"films{number}")
                for at, name in enumerate(order):
                    films.keep(f"{folder}/{name}.html", b"x")
                    os.utime(f"{folder}/{name}.html", (at, at))
                    if not at:
                        open(f"{folder}/0.txt", "wb").close()
                wanted = sorted(["0.txt", *(f"{name}.html" for name in order[2:])])
                if (found := sorted(os.listdir(folder))) != wanted:
                    yield f"{order}: {found}"

    def sources_that_a_killed_server_left_are_removed(self) -> Iterator[str]:
        """Old ones, which no other server looks at, and nothing else."""
        folder, before = self._at("temporary"), tempfile.tempdir
        for name, age in (("crobots-ladder-old", 700), ("crobots-ladder-young", 0), ("other", 700)):
            os.makedirs(f"{folder}/{name}")
            os.utime(f"{folder}/{name}", (time.time() - age, time.time() - age))
        try:
            tempfile.tempdir = folder
            serving.clean()
        finally:
            tempfile.tempdir = before
        if (found := sorted(os.listdir(folder))) != ["crobots-ladder-young", "other"]:
            yield f"{found}"

    def _shot(self, name: str) -> tuple[Ladder, str]:
        """A ladder in which an author's robot, which shoots, has played against another; and the author's token."""
        ladder = self._made(name)
        ladder.add("idle", other(1))
        token = self._begun(ladder)
        ladder.ask("PUT", "/robots/mine", SHOOTER, token=token)
        ladder.run("play", "--quiet")
        return ladder, token

    def _fought(self, ladder: Ladder, sides: dict[str, tuple[str, ...]]) -> None:
        """Keeps what `mine` and others did: results in the first seat, and in the second one."""
        ladder.add("mine", other(0))
        for at, name in enumerate(sides, 1):
            ladder.add(name, other(at))
        self._keep(ladder, sides)

    def _keep(self, ladder: Ladder, sides: dict[str, tuple[str, ...]]) -> None:
        """Keeps what `mine` as it is now did against some."""
        with opened(ladder.folder) as store, store.change():
            season = seasons.season(store)
            schedule = Schedule(seasons.field(store, season))
            names = [it.robot for it in schedule.field.robots]
            for group in schedule.groups():
                for seats, seed in schedule.seatings(group):
                    pair = [names[at] for at in seats]
                    if "mine" in pair and sides.keys() & pair:
                        seat = pair.index("mine")
                        keep(store, season.rules, schedule.seated(seats, seed), 1, sides[pair[1 - seat]][seat], "2026-03-01")

    def _begun(self, ladder: Ladder) -> str:
        ladder.begin()
        return ladder.author("Ann")


def turned(result: str) -> str:
    """A result as it is from the other seat."""
    cycles, first, second = result.split(":")
    return f"{cycles}:{second}:{first}"
