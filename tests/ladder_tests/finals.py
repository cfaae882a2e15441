"""The final, the checklist, its table to download, and ranks over days."""

from __future__ import annotations

import csv
import datetime
import hashlib
import io
import re
from typing import Callable, Iterator

from ladder import players, seeds
from leagues import seasons
from leagues.locks import alone
from leagues.sessions import keep_record
from leagues.store import opened
from tools.faults import Fault
from tournaments.programs import program
from tournaments.records import Record, Series
from tournaments.robots import Robot
from tournaments.settings import Settings

from .base import IDLE, SHOOTER, TODAY, Answer, Base, Ladder, other

HEAD = ["author", "group", "robot", "versions", "last hand-in", "late", "rungs", "rank"]
# Ann's robot stands still, Bob's and the sample of the first level shoot themselves: hers wins each match, and theirs are alike.
WANTED = [HEAD, ["Ann", "7b", "still", "2", TODAY, "", "1", "1"], ["Bob", "7a", "dying", "1", TODAY, "", "", "2"], ["Cid", "7a", "", "0", "", "", "", ""]]
CELLS = ["=1+1", "+49 1", "-2", "@SUM(A1)", '"=1"', "a,b", "a;b", 'say "hi"', "'x", "=cmd|' /C calc'!A0", "é\u00a0ü"]


class Finals(Base):
    """Tests of what a teacher ends a term with."""

    _RULES = ("-l5000", "-m", "4")

    def one_command_plays_a_final(self) -> Iterator[str]:
        ladder = self._of_three("one")
        ladder.run("play", "--quiet")
        if (found := rows(ladder.run("final", "--csv", "--quiet"))) != WANTED:
            yield f"{found}"
        with opened(ladder.folder) as store:
            first, last = seasons.seasons(store)
        if last.name != "final" or not first.ended or not last.ended or last.rules.seed in (first.rules.seed, first.rules.seed + 1):
            yield f"{first} {last}"
        said = ladder.run("final", "--csv")
        if rows(said) != WANTED or len(ladder.rows("SELECT 1 FROM season")) != 2:
            yield f"again: {said}"
        table = ladder.run("final").splitlines()
        if table[0].split() != "author group robot versions last hand-in late rungs rank".split() or table[1].split() != ["Ann", "7b", "still", "2", TODAY, "1", "1"]:
            yield f"{table}"

    def matches_of_the_season_before_have_to_be_played(self) -> Iterator[str]:
        ladder = self._of_three("unfinished")
        said = ladder.run("final", "--quiet", status=2)
        if "12 matches are missing" not in said or ladder.rows("SELECT 1 FROM ending") or ladder.rows("SELECT 1 FROM ladder_final"):
            yield said
        if (found := rows(ladder.run("final", "--csv", "--quiet", "--unfinished", "--name", "May", "-m", "8"))) != WANTED:
            yield f"{found}"
        with opened(ladder.folder) as store:
            it = seasons.season(store)
        if (it.name, it.rules.matches) != ("May", 8):
            yield f"{it}"

    def a_served_ladder_plays_its_final(self) -> Iterator[str]:
        ladder = self._of_three("served")
        ladder.port = 0
        ladder.serve()
        ladder.settled(12)
        if (found := rows(ladder.run("final", "--csv", "--quiet"))) != WANTED:
            yield f"{found}"
        if not ladder.process or ladder.process.poll() is not None:
            yield "the server ended"

    def what_is_played_after_the_end_isn_t_kept(self) -> Iterator[str]:
        """A season is ended while it is played: its table is that of the matches that were kept by then, and of no more."""
        ladder = self._made("end")
        ladder.terms()
        ladder.run("rules", "-m", "400")
        for at in range(3):
            ladder.add(f"r{at}", other(at))
        counts: list[int] = []

        def glance() -> None:
            counts.append(len(ladder.rows("SELECT 1 FROM battle")))
            if len(counts) == 3:
                ladder.run("season", "end", "--unfinished")

        with opened(ladder.folder) as store, alone(ladder.folder):
            it = players.LadderPlayer(store, program(self._program()), 2, glance)
            for _ in range(3):
                it.step()
            season = seasons.seasons(store)[0]
            record = Record(Settings(4, 5000, 1, 1, season.rules.program, 2, (2,)), Series((0, 1), 1, 1, 1), [Robot("a", "1" * 64), Robot("b", "2" * 64)], "15:0:100")
            try:
                keep_record(store, season, record, TODAY)
                yield "play keeps a match of a season that ended"
            except Fault:
                pass
        if len(counts) < 4 or {*counts[2:]} != {counts[2]} or len(ladder.rows("SELECT 1 FROM battle")) != counts[2]:
            yield f"{counts}"

    def the_hash_of_a_seed_is_shown_before_it(self) -> Iterator[str]:
        ladder = self._of_three("announced")
        ladder.run("play", "--quiet")
        said = [ladder.run("final", "--announce") for _ in range(2)]
        found = re.fullmatch("the seed of the final is drawn; the SHA-256 of its digits is ([0-9a-f]{64})\n", said[0])
        if not found or said[0] != said[1]:
            yield f"{said}"
            return
        seed = ladder.rows("SELECT seed FROM ladder_final")[0][0]
        if hashlib.sha256(seed.encode()).hexdigest() != found[1]:
            yield f"{seed} hasn't the hash {found[1]}"
        for token in ("", ladder.author("Ann"), ladder.organiser):
            for path in ("/", "/table", "/mine", "/organiser", "/checklist", "/robots/still", "/wall"):
                if seed in (text := ladder.ask("GET", path, token=token).text) or path == "/" and found[1] not in text:
                    yield f"{path}: the seed is shown, or its hash isn't"
        ladder.run("final", "--quiet")
        if not (f"The seed of the final is {seed}." in (text := ladder.ask("GET", "/").text) and f"{found[1]}, was shown before" in text):
            yield text
        with opened(ladder.folder) as store:
            if seasons.season(store).rules.seed != int(seed):
                yield "the final has another seed"

    def who_announces_nothing_has_shown_nothing(self) -> Iterator[str]:
        found = []
        for name in ("first", "second"):
            ladder = self._of_three(name)
            ladder.run("final", "--quiet", "--unfinished")
            found += ladder.rows("SELECT seed FROM ladder_final")
            if "was shown before" in (text := ladder.ask("GET", "/").text) or f"The seed of the final is {found[-1][0]}." not in text:
                yield text
        if found[0] == found[1] or any(int(seed) < 1 << 32 for seed, in found):
            yield f"seeds: {found}"

    def a_final_waits_for_the_last_day(self) -> Iterator[str]:
        for closes, grace, early, waits in ((0, 0, False, True), (1, 0, False, True), (-1, 1, False, True), (-1, 0, False, False), (-2, 1, False, False),
                                            (0, 0, True, False)):
            ladder = self._made(f"day{closes}{grace}{early}")
            ladder.terms(closes=(datetime.date.today() + datetime.timedelta(closes)).isoformat(), grace=grace)
            said = ladder.run("final", "--quiet", *(["--early"] if early else []), status=2 if waits else 0)
            if waits and f"robots are handed in until {(datetime.date.today() + datetime.timedelta(closes + grace)).isoformat()}" not in said:
                yield f"{closes}, {grace}: {said}"
            if bool(ladder.rows("SELECT 1 FROM ladder_final")) == waits:
                yield f"{closes}, {grace}: it began, or didn't"

    def nothing_is_handed_in_during_a_final(self) -> Iterator[str]:
        ladder = self._of_three("during")
        token = ladder.author("Ann")
        with opened(ladder.folder) as store, store.change():
            seeds.use(store, seeds.drawn(store, False), seasons.season(store))
        before = ladder.written()
        asks: list[Callable[[], Answer]] = [lambda: ladder.ask("PUT", "/robots/still", other(9), token=token), lambda: ladder.ask("PUT", "/robots/new", IDLE, token=token),
                lambda: ladder.post("/robots/still/back", {"version": "1"}, token=token), lambda: ladder.post("/robots/still/withdraw", token=token)]
        for at, ask in enumerate(asks):
            it = ask()
            if (it.status, it.text) != (403, "the final is being played, and nothing is taken any more\n"):
                yield f"{at}: {it.status} {it.text}"
        if ladder.written() != before:
            yield "rows were changed"

    def late_hand_ins_are_marked(self) -> Iterator[str]:
        ladder = self._of_three("late")
        for closes, wanted in ((-1, "late"), (0, "")):
            ladder.terms(closes=(datetime.date.today() + datetime.timedelta(closes)).isoformat(), grace=2)
            found = rows(ladder.ask("GET", "/checklist.csv", token=ladder.organiser).text)
            if [row[5] for row in found[1:]] != [wanted, wanted, ""]:
                yield f"{closes}: {found}"
            if (f"{TODAY} late" in ladder.ask("GET", "/checklist", token=ladder.organiser).text) != bool(wanted):
                yield f"{closes}: the page doesn't say the same"

    def no_cell_of_the_checklist_is_a_formula(self) -> Iterator[str]:
        """Each name comes back as it is from a reader of such tables, but for a blank before what a spreadsheet would work out."""
        ladder = self._new("cells")
        for name in CELLS:
            ladder.post("/organiser/invite", {"name": name, "team": name}, token=ladder.organiser)
        text = ladder.ask("GET", "/checklist.csv", token=ladder.organiser).text
        wanted = [f" {it}" if it[0] in "=+-@" else it for it in [" ".join(name.split()) for name in CELLS]]
        teams = [f" {it}" if it[0] in "=+-@" else it for it in CELLS if it.isprintable()]
        found = rows(text)[1:]
        if [row[0] for row in found] != [it for it, name in zip(wanted, CELLS) if name.isprintable()] or [row[1] for row in found] != teams:
            yield f"{found}"
        if any(len(row) != len(HEAD) for row in found) or text.count("\n") != len(found) + 1:
            yield text
        for name in ("a\nb", "a\r=1", "a\tb", "a\u2028b"):
            if (status := ladder.post("/organiser/invite", {"name": name}, token=ladder.organiser).status) != 422:
                yield f"{name!r}: {status}"

    def ranks_over_days_are_a_line(self) -> Iterator[str]:
        """Days stand side by side from 20 to 580, and the first place is at 15, the last one of these at 115."""
        ladder = self._of_three("days")
        for ranks, wanted in (([2], None), ([3, 1, 2], "20,115 300,15 580,65"), ([1, 1], "20,15 580,15"), ([11, 5, 1, 2], "20,115 206,55 393,15 580,25")):
            with opened(ladder.folder) as store, store.change():
                store.run("DELETE FROM ladder_rank")
                for day, rank in enumerate(ranks, 1):
                    store.run("INSERT INTO ladder_rank VALUES ('still', ?, ?)", f"2026-03-{day:02}", rank)
            text = ladder.ask("GET", "/robots/still").text
            found = re.search('<polyline points="([^"]*)"', text)
            if (found[1] if found else None) != wanted:
                yield f"{ranks}: {found and found[1]}"
            if wanted and f"Rank from 2026-03-01 to 2026-03-{len(ranks):02}: from {ranks[0]} to {ranks[-1]}" not in text:
                yield f"{ranks}: {text}"

    def the_player_keeps_the_rank_of_each_day(self) -> Iterator[str]:
        """On the first day Bob's robot dies, on the second it stands still, as Ann's does: the rank of a day is the last one of it."""
        ladder = self._of_three("kept")
        token = ladder.author("Bob")
        today = players.today
        try:
            for day, source in (("2026-03-01", SHOOTER), ("2026-03-02", other(3)), ("2026-03-03", SHOOTER), ("2026-03-03", other(3))):
                ladder.ask("PUT", "/robots/dying", source, token=token)
                self._play(ladder, day)
        finally:
            players.today = today
        found = ladder.rows("SELECT day, robot, rank FROM ladder_rank ORDER BY day, robot")
        wanted = [("2026-03-01", "dying", 2), ("2026-03-01", "runner", 2), ("2026-03-01", "still", 1)]
        wanted += [(f"2026-03-0{day}", robot, rank) for day in (2, 3) for robot, rank in (("dying", 1), ("runner", 3), ("still", 1))]
        if found != wanted:
            yield f"{found}"

    def _play(self, ladder: Ladder, day: str) -> None:
        """Plays all that is missing, on a day."""
        players.today = lambda: day
        with opened(ladder.folder) as store, alone(ladder.folder):
            it = players.LadderPlayer(store, program(self._program()), 2, lambda: None)
            for _ in range(5):
                it.step()

    def _program(self) -> str:
        return f"{self._folder}/../bin/crobots"

    def _of_three(self, name: str) -> Ladder:
        """A ladder with a robot of the first level, two authors with a robot each, and one without."""
        ladder = self._made(name)
        ladder.add("runner", SHOOTER)
        ladder.begin()
        tokens = []
        for author, team in (("Ann", "7b"), ("Bob", "7a"), ("Cid", "7a")):
            ladder.post("/organiser/invite", {"name": author, "team": team}, token=ladder.organiser)
            tokens.append(ladder.author(author))
        for robot, source, token in (("still", other(5), tokens[0]), ("still", IDLE, tokens[0]), ("dying", f"{SHOOTER} ", tokens[1])):
            assert ladder.ask("PUT", f"/robots/{robot}", source, token=token).status == 200
        return ladder


def rows(text: str) -> list[list[str]]:
    """The rows of comma-separated values, by Python's reader."""
    return [*csv.reader(io.StringIO(text))]
