"""The order of play: breadth first, in turns of authors; and the table that comes of it."""

from __future__ import annotations

import csv
import io
import re
import time
from typing import Iterator

from ladder.passes import NEW, in_turns
from leagues import seasons
from leagues.results import Results, keep
from leagues.schedules import Schedule
from leagues.store import opened
from tournaments.records import Series

from .base import IDLE, SECONDS, SHOOTER, Base, Ladder, other

WON = "15:0:100"


class Passes(Base):
    """Tests of the player."""

    _RULES = ("-l300", "-m", "40")

    def a_new_robot_comes_first(self) -> Iterator[str]:
        """Of 30 robots all have played but one: its first 24 matches are against twelve, all over the table, from both seats."""
        ladder = self._made("first")
        for at in range(29):
            ladder.add(f"r{at:02}", other(at))
        self._play(ladder, 1)
        ladder.add("new", IDLE)
        robots, order = self._order(ladder, {f"r{at:02}": float(at) for at in range(29)})
        met = [it.seats[0] if robots[it.seats[1]] == "new" else it.seats[1] for it in order[:NEW]]
        if any("new" not in {robots[at] for at in it.seats} or it.matches != 1 for it in order[:NEW]):
            yield f"first: {order[:NEW]}"
        # the opponents of 29 that stand at places 0, 2, 4, 7, .. of the table
        wanted = {f"r{place * 29 // 12:02}" for place in range(12)}
        if {robots[at] for at in met} != wanted or any(met.count(at) != 2 for at in met):
            yield f"opponents: {[robots[at] for at in met]}"
        if {"new"} - {robots[at] for it in order[NEW:58] for at in it.seats} or {it.first for it in order[:58]} != {1} or order[58].first != 2:
            yield f"then: {order[NEW:60]}"

    def nobody_goes_deep_before_all_have_begun(self) -> Iterator[str]:
        """With two of three robots played 12 deep: the third's pairs once, then the pieces up to 20 of all."""
        ladder = self._made("deep")
        for at in range(3):
            ladder.add(f"r{at}", other(at))
        self._play(ladder, 12, of=("r0", "r1"))
        robots, order = self._order(ladder, {})
        found = [("".join(sorted(robots[at][1] for at in it.seats)), it.first, it.matches) for it in order]
        if sorted(found[:4]) != [("02", 1, 1), ("02", 1, 1), ("12", 1, 1), ("12", 1, 1)] or found[4:] != [("01", 13, 8), ("01", 13, 8)]:
            yield f"{found}"

    def authors_take_turns(self) -> Iterator[str]:
        """One has thirty new robots, and another has one: it has half of the first matches, and not one of thirty."""
        ladder = self._made("turns")
        ladder.add("old", SHOOTER)
        for at in range(30):
            ladder.add(f"r{at:02}", other(at))
        ladder.add("one", IDLE)
        authors = {f"r{at:02}": "many" for at in range(30)} | {"one": "alone"}
        robots, order = self._order(ladder, {}, authors)
        alone = ["one" in {robots[at] for at in it.seats} for it in order[:24]]
        if sum(alone) != 12:
            yield f"{alone}"

    def nothing_is_missing_in_the_end_and_nothing_is_twice(self) -> Iterator[str]:
        """Passes come to all matches, each once: by the league's own count."""
        ladder = self._made("whole")
        for at in range(4):
            ladder.add(f"r{at}", other(at))
        seen: list[Series] = []
        for _ in range(10):
            robots, order = self._order(ladder, {})
            seen += order
            self._keep(ladder, order)
        numbers = [(it.seats, number) for it in seen for number in range(it.first, it.last + 1)]
        if len(numbers) != 6 * 40 or len({*numbers}) != len(numbers) or order:
            yield f"{len(numbers)} matches, {len({*numbers})} of them different, {len(order)} series are left"
        status = ladder.run("status")
        if "missing: 0 matches" not in status:
            yield status

    def the_live_table_is_that_of_the_league(self) -> Iterator[str]:
        """The page's table is what `table` prints once nothing is missing; a newcomer is on it; and all of it verifies."""
        ladder = self._made("live")
        ladder.add("sitting", IDLE)
        ladder.add("dying", SHOOTER)
        ladder.serve()
        token = ladder.author("Ann")
        began = time.monotonic()
        ladder.ask("PUT", "/robots/mine", other(30), token=token)
        while "data-robot=\"mine\"" not in ladder.ask("GET", "/table").text and time.monotonic() < began + SECONDS:
            time.sleep(0.1)
        ladder.settled(120)
        shown = [re.sub("<[^>]*>", " ", row).split() for row in re.findall("<tr>(.*?)</tr>", ladder.ask("GET", "/table").text)[1:]]
        table = [*csv.DictReader(io.StringIO(ladder.run("table", "--csv")))]
        wanted = [[it["rank"], it["robot"], *(["Ann"] if it["robot"] == "mine" else []), it["played"], it["won"], it["tied"], it["lost"], it["points"]]
                  for it in table]
        if [row[:len(it)] for row, it in zip(shown, wanted)] != wanted:
            yield f"{shown}, not {wanted}"
        if any("…" in row for row in shown):
            yield f"an interval is missing: {shown}"
        if ladder.run("play", "--quiet", status=3) != f"league: {ladder.folder} is being played already\n":
            yield "a second player isn't refused"

    def _order(self, ladder: Ladder, worth: dict[str, float], authors: dict[str, str] | None = None) -> tuple[list[str], list[Series]]:
        """The robots, and the next pass."""
        with opened(ladder.folder) as store:
            season = seasons.season(store)
            schedule = Schedule(seasons.field(store, season))
            robots = [it.robot for it in schedule.field.robots]
            order = in_turns(schedule, Results(store, season.rules), {at: worth.get(it, 0.0) for at, it in enumerate(robots)}, authors or {})
        return robots, order

    def _play(self, ladder: Ladder, each: int, of: tuple[str, ...] = ()) -> None:
        """Keeps so many matches of each seating, of all robots or of some: the first one wins."""
        with opened(ladder.folder) as store:
            schedule = Schedule(seasons.field(store, seasons.season(store)))
        names = [it.robot for it in schedule.field.robots]
        self._keep(ladder, [Series(seats, seed, 1, each) for group in schedule.groups() if not of or {names[at] for at in group} <= {*of}
                            for seats, seed in schedule.seatings(group)])

    def _keep(self, ladder: Ladder, order: list[Series]) -> None:
        with opened(ladder.folder) as store:
            season = seasons.season(store)
            schedule = Schedule(seasons.field(store, season))
            with store.change():
                for it in order:
                    keep(store, season.rules, schedule.seated(it.seats, it.seed), it.first, ",".join([WON] * it.matches), "2026-03-01")
