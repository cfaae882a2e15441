"""Archives that somebody changed: each column, each row that is gone, and each row that is new."""

from __future__ import annotations

import json
import os
import random
import sqlite3
import tempfile
from argparse import Namespace
from typing import Callable, Iterator

from leagues import archives, completeness, past, publications, tables, verifying
from leagues.main import league
from leagues.results import Results
from leagues.schedules import Schedule
from leagues.schema import SCHEMA
from leagues.seasons import field, seasons
from leagues.standings import standings
from results.standings import Standing
from tools.faults import Fault
from tournaments.programs import program

from .base import HERE, Base, read, write
from .forgers import Archive, Row

# By what a change is seen of somebody who works out the chain anew: by the rules alone, or only by an older archive or a
# hash that somebody wrote down. Without a new chain each change is seen.
# A row after all that was shown changes nothing of the past, and hashes are made anew with the chain.
RULES, SINCE, CHAIN = "rules", "since", "chain"
DAY, MARK = SINCE, SINCE
SEEN = {
    "source": {"sha256": RULES, "bytes": RULES},
    "robot": {"id": RULES, "author": SINCE, "publication": MARK},
    "entry": {"number": RULES, "day": DAY, "what": RULES, "robot": RULES, "sha256": RULES, "copy": RULES,
              "publication": MARK},
    "season": {"number": RULES, "name": SINCE, "begun": DAY, "first_entry": SINCE, "rules": SINCE, "publication": MARK},
    "ruling": {"number": RULES, "day": DAY, "season": RULES, "entries": SINCE, "rules": SINCE, "publication": MARK},
    "ending": {"season": RULES, "day": DAY, "last_entry": RULES, "missing": RULES, "publication": MARK},
    "correction": {"number": RULES, "day": DAY, "what": SINCE, "of": SINCE, "other_day": DAY, "why": SINCE,
                   "entries": SINCE, "publication": MARK},
    "member": {"season": RULES, "robot": RULES, "division": RULES, "publication": MARK},
    "worker": {"number": RULES, "name": SINCE, "publication": MARK},
    "seating": {"number": RULES, "hashes": RULES, "seed": RULES, "cycles": RULES, "profile": RULES, "program": RULES,
                "publication": MARK},
    "battle": {"seating": RULES, "number": RULES, "cycles": RULES, "damage1": RULES, "damage2": RULES, "damage3": RULES,
               "damage4": RULES, "day": DAY, "worker": SINCE, "publication": MARK},
    "removal": {"number": RULES, "day": DAY, "what": SINCE, "why": SINCE, "publication": MARK},
    "removed": {"removal": SINCE, "seating": SINCE, "number": SINCE, "cycles": SINCE, "damage1": SINCE,
                "damage2": SINCE, "damage3": SINCE, "damage4": SINCE, "day": DAY, "worker": SINCE, "publication": MARK},
    "publication": {"number": SINCE, "season": SINCE, "day": DAY, "final": SINCE, "missing": SINCE, "scale": SINCE,
                    "before": CHAIN, "hash": CHAIN},
    "standing": {"publication": SINCE, "robot": SINCE, "sha256": SINCE, "division": SINCE, "rank": SINCE,
                 "played": RULES, "won": RULES, "tied": RULES, "lost": RULES, "points": SINCE, "rating": SINCE,
                 "low": SINCE, "high": SINCE, "close": SINCE},
    "handed": {"number": RULES, "folder": SINCE, "robot": SINCE, "name": SINCE, "publication": MARK},
    "code": {"sha256": RULES, "profile": RULES, "program": SINCE, "hash": RULES, "publication": MARK},
}
# What the page says that nobody sees by the rules alone, and the columns that are meant; of those that all tables have the name alone.
UNSEEN = {
    "authors": {"robot.author"}, "days": {".day", "season.begun"}, "names of seasons, workers, robots and their folders":
        {"season.name", "worker.name", "battle.worker", "handed.folder", "handed.robot", "handed.name"},
    "reasons and what was asked for to be taken back": {"correction.why", "removal.why", "removal.what"},
    "by which program a source was compiled": {"code.program"},
    "rules, entries and corrections that were overtaken by later ones": {"season.rules", "ruling.rules", "correction.what", "correction.of",
                                                                         "correction.other_day"},
    "how many entries there were when a season, rules or a correction came": {"season.first_entry", "ruling.entries", "correction.entries"},
    "which publication showed something first": {".publication"},
    "tables of earlier days": {f"publication.{it}" for it in ("number", "season", "final", "missing", "scale")} | {
        f"standing.{it}" for it in ("publication", "robot", "sha256", "division", "rank", "points", "rating", "low", "high", "close")},
    "the rows of matches that were taken back": {f"removed.{it}" for it in (
        "removal", "seating", "number", "cycles", "damage1", "damage2", "damage3", "damage4", "worker")},
}
ARCHIVES = os.path.join(HERE, "..", "..", "docs", "archives.md")
ROWS_TRIED = 2
ENDED = ("SELECT hashes, seed, seating.cycles, profile, program, battle.number, battle.cycles, damage1, damage2, damage3, "
         "damage4 FROM battle JOIN seating ON seating.number = seating")


class Forging(Base):
    """What a forger may do."""

    def __init__(self, program: str, folder: str) -> None:
        super().__init__(program, folder)
        self._made: list[str] = []
        self._ended: dict[tuple[object, ...], tuple[object, ...]] = {}
        self._tables: dict[str, list[Standing]] = {}
        self._compiled: dict[str, bool] = {}

    def _archives(self) -> list[str]:
        """Three archives of a league in which all happened that may, each with all of the one before. Made once."""
        if self._made:
            return self._made
        self._does("init", "-m4", "-l300", "--anchor=b=1000", "--season=one", "--day=2026-03-01")
        self._does("add", "a.r", "b.r", "c.r", "r50.r", "--author=Ann", "--day=2026-03-01")
        self._does("play", "-j2", "--quiet", "--day=2026-03-01")
        self._published("2026-03-02")
        self._does("rules", "-m6")
        os.makedirs(self.at("inbox/d"))
        write(self.at("inbox/d/tank.r"), read(self.at("d.r")))
        self._does("take-in", "inbox", "--day=2026-03-05")
        self._does("correct", "entry", "--to=2026-03-04", "--why=a day too late", "--day=2026-03-05")
        self._does("add", "r5.r", "--day=2026-03-05")
        self._does("correct", "entry", "--undo", "--why=not asked for", "--day=2026-03-05")
        self._does("change", "r50", "r25.r", "--day=2026-03-06")
        lines = self._farmed(self._does("play", "--plan", "--chunk=3")).splitlines(keepends=True)
        for worker, at in (("w1", 0), ("w2", 1)):
            write(self.at(worker), "".join(lines[at::2]))
            self._does("take", worker, "--day=2026-03-06")
        self._does("drop", "--worker=w1", "--why=a doubt", "--day=2026-03-06")
        self._does("play", "-j2", "--quiet", "--day=2026-03-07")
        self._published("2026-03-07")
        self._does("season", "end", "--day=2026-03-08")
        self._does("season", "begin", "two", "--divisions=2", "--day=2026-03-09")
        self._does("play", "-j2", "--quiet", "--day=2026-03-09")
        self._published("2026-03-10")
        self._does("correct", "begin", "--to=2026-03-08", "--why=on Sunday", "--day=2026-03-10")
        self._does("withdraw", "d", "--day=2026-03-11")
        self._does("change", "a", "r10.r", "--day=2026-03-11")
        self._does("play", "-j2", "--quiet", "--day=2026-03-11")
        self._does("drop", "--played=2026-03-11", "--why=the wrong disk", "--day=2026-03-11")
        self._does("rules", "--points=2,1")
        self._does("play", "-j2", "--quiet", "--day=2026-03-11")
        self._published("2026-03-12")
        with archives.read(self._made[-1]) as (store, _):
            self._ended = {tuple(row[:6]): tuple(row[6:]) for row in store.rows(ENDED)}
        return self._made

    def _does(self, command: str, *words: str, name: str = "forged") -> str:
        """Does a command here, which is sooner than in a process of its own; answers what it wrote."""
        before, place, out = os.environ["PATH"], os.getcwd(), os.dup(1)
        with tempfile.TemporaryFile() as said:
            os.environ["PATH"] = self._environment["PATH"]
            os.chdir(self._folder)
            os.dup2(said.fileno(), 1)
            try:
                league("league", [command, name, *words])
            finally:
                os.dup2(out, 1)
                os.close(out)
                os.chdir(place)
                os.environ["PATH"] = before
            said.seek(0)
            return said.read().decode()

    def _published(self, day: str, name: str = "forged") -> str:
        self._does("publish", f"{name}-site", f"--day={day}", "--replays=0", "--sums=0", name=name)
        self._made += [self.at(f"{name}-site/archive/{name}-{day}.zip")] if name == "forged" else []
        return self.at(f"{name}-site/archive/{name}-{day}.zip")

    def _plain(self, name: str, *rules: str) -> Archive:
        """The archive of a league of one season, with all of its matches."""
        self._does("init", "-l300", *rules, "--day=2026-03-01", name=name)
        self._does("add", "a.r", "b.r", "c.r", "r50.r", "--day=2026-03-01", name=name)
        self._does("play", "-j2", "--quiet", "--day=2026-03-01", name=name)
        found = Archive(self._published("2026-03-02", name))
        with archives.read(self.at(f"{name}-site/archive/{name}-2026-03-02.zip")) as (store, _):
            self._ended |= {tuple(row[:6]): tuple(row[6:]) for row in store.rows(ENDED)}
        return found

    def _wrong(self, archive: Archive, *older: archives.Store | str) -> list[bool]:
        """Whether `verify --all` has anything to say of an archive, and by each older archive or hash."""
        path = archive.write(self.at("tried.zip"))
        try:
            with archives.read(path) as (store, table):
                return [self._is_wrong(store, table),
                        *(any(past.changed_since(store, it) if isinstance(it, str) else past.changed(store, it, "older"))
                          for it in older)]
        except Fault:
            return [True] * (1 + len(older))

    def _is_wrong(self, store: archives.Store, table: str) -> bool:
        """Whether anything of an archive is wrong by itself."""
        keeping = verifying.standings
        verifying.standings = self._standings
        try:
            return any(it.is_wrong for it in verifying.findings(store, table)) or self._is_miscompiled(store) or self._is_otherwise(store)
        finally:
            verifying.standings = keeping

    def _standings(self, schedule: Schedule, results: Results) -> list[Standing]:
        """The table of these results, which is worked out once."""
        there = schedule.field
        key = repr((there.robots, there.divisions, there.since, there.rules, results._numbers, results.endings()))
        if key not in self._tables:
            self._tables[key] = standings(schedule, results)
        return self._tables[key]

    def _is_miscompiled(self, store: archives.Store) -> bool:
        """Whether a source compiles to other code, which is found out once."""
        key = repr([store.rows(f"SELECT * FROM {table} ORDER BY 1, 2, 3") for table in ("code", "season", "ruling")])
        if key not in self._compiled:
            self._compiled[key] = any(verifying.recompiled(store, program(self._program)))
        return self._compiled[key]

    def _is_otherwise(self, store: archives.Store) -> bool:
        """Whether a match ends otherwise when it is played again. What is known to end so isn't played once more."""
        rows = store.rows(ENDED)
        if all(self._ended.get(tuple(row[:6])) == tuple(row[6:]) for row in rows):
            return False
        if all(tuple(row[:6]) in self._ended for row in rows):
            return True
        given = Namespace(jobs=2, quiet=True, script="test")
        return any(verifying.replayed(store, program(self._program), given, verifying.chosen(store, None)))

    def honest_archives(self) -> list[str]:
        """Nothing is wrong with archives that nobody changed, and the chain is that of the page's description."""
        them, wrong = self._archives(), []
        for path in them:
            archive = Archive(path)
            if self._wrong(archive)[0]:
                wrong.append(f"{path}: something is wrong")
            hashes = [row["hash"] for row in archive.tables["publication"]]
            if (again := [row["hash"] for row in archive.copy().linked().tables["publication"]]) != hashes or "" in hashes:
                wrong.append(f"the hashes are {hashes}, and by the page {again}")
        last = Archive(them[-1])
        wrong += [f"no row of {table} was tried" for table, rows in last.tables.items() if not rows]
        for older in (*them, *(row["hash"] for row in last.tables["publication"])):
            if (ran := self.ran("verify", "--all", "-j2", "--since", older, them[-1])).returncode:
                wrong.append(f"since {older}: {ran.stdout}{ran.stderr}")
        if (ran := self.ran("verify", "--since", "0" * 64, "1", them[-1])).returncode != 1:
            wrong.append(f"since a hash that there never was: {ran.stdout}{ran.stderr}")
        if (ran := self.ran("verify", "--since", them[-1], "1", them[0])).returncode != 1:
            wrong.append(f"what is older isn't since what is newer: {ran.stdout}{ran.stderr}")
        return wrong

    def ids_of_digits_are_texts(self) -> list[str]:
        """The robot 10 comes before the robot 9 in the chain, and rules in JSON are hashed without the quotation marks of the file."""
        for robot in ("9", "10", "100"):
            write(self.at(f"{robot}.r"), read(self.at("b.r")) + f"/* {robot} */")
        self._does("init", "-m2", "-l300", "--season=a, \"b\"", "--day=2026-03-01", name="digits")
        self._does("add", "9.r", "10.r", "100.r", "--day=2026-03-01", name="digits")
        self._does("play", "-j2", "--quiet", "--day=2026-03-01", name="digits")
        there = Archive(self._published("2026-03-02", "digits"))
        found, again = ([row["hash"] for row in it.tables["publication"]] for it in (there, there.copy().linked()))
        return [] if found == again else [f"the hashes are {found}, and by the page {again}"]

    def each_column_is_in_the_table(self) -> list[str]:
        """A new column gets a line that says by what a change of it is seen."""
        database = sqlite3.connect(":memory:")
        database.executescript(SCHEMA)
        there = {table: {name for _, name, *_ in database.execute(f"PRAGMA table_info({table})")}
                 for table, in database.execute("SELECT name FROM sqlite_master WHERE type = 'table'")}
        return [] if there == {table: {*columns} for table, columns in SEEN.items()} else [f"the tables are {there}"]

    def what_is_not_seen_is_on_the_page(self) -> list[str]:
        """The page names each column of which a change is seen by an older archive or hash alone, and nothing else."""
        since = {f"{table}.{column}" for table, columns in SEEN.items() for column, by in columns.items() if by == SINCE}
        named = {it for those in UNSEEN.values() for one in those for it in (
            [one] if one[0] != "." else [f"{table}{one}" for table, columns in SEEN.items() if one[1:] in columns])}
        said = " ".join(read(ARCHIVES).split("## What can't be seen")[1].lower().split())
        wrong = [f"{it} is only {'tried' if it in since else 'named'}" for it in sorted(since ^ named)]
        return wrong + [f"the page doesn't say: {it}" for it in UNSEEN if it not in said]

    def each_changed_cell(self) -> list[str]:
        last, wrong = Archive(self._archives()[-1]), []
        for table, columns in SEEN.items():
            for column, by in columns.items() if table != "source" else ():
                tried = [forged for row in self._some(last, table) for forged in changes(last, table, row, column)]
                wrong += self._judged(tried, f"{table}.{column}", by)
        return wrong

    def each_row_that_is_gone(self) -> list[str]:
        last, wrong = Archive(self._archives()[-1]), []
        for table in SEEN.keys() - {"source"}:
            tried = []
            for row in self._some(last, table):
                forged = last.copy()
                forged.tables[table].remove(row)
                tried.append((forged, f"without {row}", row))
            by = SINCE if table in ("member", "ruling", "correction", "removed", "publication", "standing", "handed", "code") else RULES
            # of bytes that don't play any more nobody knows how far they were to be played
            if table == "battle":
                tried = [it for it in tried if self._is_wanted(last, it[-1])]
            wrong += self._judged(tried, table, by)
        return wrong

    def each_row_that_is_new(self) -> list[str]:
        last, wrong = Archive(self._archives()[-1]), []
        for table in SEEN.keys() - {"source"}:
            tried = []
            for row in self._some(last, table):
                forged = last.copy()
                forged.tables[table].append(row | another(last, table))
                tried.append((forged, f"with another {row}", row))
            by = {"publication": CHAIN}.get(table, RULES if table in (
                "robot", "season", "ending", "worker", "seating", "battle", "removal", "code") else SINCE)
            wrong += self._judged(tried, table, by)
        return wrong

    def days_that_go_back(self) -> list[str]:
        """No entry is of an earlier day than the one before, also if it is later than the first ones."""
        forged = Archive(self._archives()[-1])
        last = forged.tables["entry"][-1]
        last["day"] = "2026-03-02"
        said = f"entry {last['number']} is of 2026-03-02, and the one before of 2026-03-11"
        found = self._said(forged.linked())
        return [] if said in found else [f"{found}"]

    def rules_that_were_not_so(self) -> list[str]:
        """Each rule that counts: the matches show that it was another one. Also how many matches a group has."""
        there, wrong = self._plain("ruled", "-m6", "--anchor=b=1000"), []
        for forged, said, _ in changes(there, "season", there.tables["season"][0], "rules"):
            # of six matches no pair is decided sooner, and all robots are in the first division
            if not said.startswith(("sure is True", "divisions is 3")) and not self._wrong(forged.linked())[0]:
                wrong.append(f"{said}, and nothing is seen")
        return wrong

    def pairs_that_were_stopped_elsewhere(self) -> list[str]:
        """Of a sequential test's pairs none has fewer matches than until its decision, and none has more."""
        longer = self._plain("longer", "-m40")
        there, wrong = self._plain("stopped", "-m40", "--until=sure"), []
        if self._wrong(there)[0] or len(there.tables["battle"]) >= len(longer.tables["battle"]):
            return ["the league isn't as this test has it"]
        number = {(row["hashes"], row["seed"]): row["number"] for row in there.tables["seating"]}
        same = {row["number"]: number[row["hashes"], row["seed"]] for row in longer.tables["seating"]}
        most = {at: max(int(row["number"]) for row in there.tables["battle"] if row["seating"] == at)
                for at in number.values()}
        for at in most:
            forged = there.copy()
            forged.tables["battle"] = [row for row in forged.tables["battle"]
                                       if (row["seating"], row["number"]) != (at, str(most[at]))]
            self._fitted(forged, False)
            wrong += [] if self._wrong(forged)[0] else [f"the last match of seating {at} is gone, and nothing is seen"]
            for many in (1, 5):
                forged = there.copy()
                forged.tables["battle"] += [row | {"seating": at} for row in longer.tables["battle"]
                                            if same[row["seating"]] == at and most[at] < int(row["number"]) <= most[at] + many]
                self._fitted(forged, False)
                if len(forged.tables["battle"]) > len(there.tables["battle"]) and not self._wrong(forged)[0]:
                    wrong.append(f"seating {at} has {many} true matches after its decision, and nothing is seen")
        forged = there.copy()
        rules = json.loads(forged.tables["season"][0]["rules"])
        forged.tables["season"][0]["rules"] = json.dumps(rules | {"sure": False}, sort_keys=True)
        return wrong + ([] if self._wrong(forged.linked())[0] else ["that all are to be played isn't seen"])

    def sources(self) -> list[str]:
        """A source that is gone, that is another, that nobody has, and that is there twice."""
        last, wrong = Archive(self._archives()[-1]), []
        name = next(it for it in last.files if it.startswith("sources/"))
        for what, files in (("gone", {it: text for it, text in last.files.items() if it != name}),
                            ("another", last.files | {name: b"main(){}"}),
                            ("new", last.files | {"sources/" + "0" * 64 + ".r": b""})):
            forged = last.copy()
            forged.files = files
            wrong += [] if self._wrong(forged)[0] else [f"a source that is {what} isn't seen"]
        return wrong

    def unwelcome_matches(self) -> list[str]:
        """Who takes out what a robot lost, with all tables and hashes made to fit, is found; also who says that it is missing."""
        last, wrong = Archive(self._archives()[-1]), []
        seats = {row["number"]: row["hashes"].split(",") for row in last.tables["seating"]}
        entries = {row["sha256"]: row["robot"] for row in last.tables["entry"]}
        for robot in sorted({*entries.values()} - {"r5"}):
            def lost(row: Row) -> bool:
                return any(entries[it] == robot and row[f"damage{at}"] == "100"
                           for at, it in enumerate(seats[row["seating"]], 1))
            for missing in (False, True):
                forged = last.copy()
                forged.tables["battle"] = [row for row in forged.tables["battle"] if not lost(row)]
                gone = len(last.tables["battle"]) - len(forged.tables["battle"])
                self._fitted(forged, missing)
                if gone and not missing and not self._wrong(forged)[0]:
                    wrong.append(f"{gone} matches that {robot} lost are gone, and verify finds nothing")
                if gone and not any("are missing in season" in it for it in self._said(forged)):
                    wrong.append(f"{gone} matches that {robot} lost are missing, and verify says nothing of it")
                if gone and not all(self._wrong(forged, *self._archives()[-2:])[1:]):
                    wrong.append(f"{gone} matches that {robot} lost are gone, and an older archive doesn't show it")
        return wrong

    def code_that_is_otherwise(self) -> list[str]:
        """The command compiles sources again, and names one that compiles to something else."""
        forged = Archive(self._archives()[-1])
        row = forged.tables["code"][0]
        row["hash"] = "0" * 64
        ran = self.ran("verify", "1", forged.linked().write(self.at("code.zip")))
        said = f"the source {row['sha256']} compiles to other code than the archive has of it\n1 of "
        return [] if ran.returncode == 1 and ran.stdout.startswith(said) else [f"status {ran.returncode}, {ran.stdout}{ran.stderr}"]

    def how_many_are_missing(self) -> list[str]:
        """An archive that says that matches are missing, where none is, is told the numbers: of a season that ended, and of the last one."""
        last, wrong = Archive(self._archives()[-1]), []
        for table, said in (("ending", "one"), ("publication", "two")):
            forged = last.copy()
            forged.tables[table][-1]["missing"] = "3"
            found = self._said(forged.linked())
            if f"0 matches of season {said} are missing, and the archive says 3" not in found:
                wrong.append(f"{table}.missing: {found}")
        return wrong

    def _fitted(self, forged: Archive, missing: bool) -> None:
        """Makes the tables of a forged archive fit its matches, as its own verification has them; and the chain."""
        with archives.read(forged.write(self.at("fitting.zip"))) as (store, _):
            for season in seasons(store):
                schedule, results = Schedule(field(store, season)), Results(store, season.rules)
                table = standings(schedule, results)
                number = [it.number for it in publications.every(store) if it.season == season.number][-1]
                forged.tables["standing"] = [row for row in forged.tables["standing"] if row["publication"] != str(number)]
                forged.tables["standing"] += [dict(zip(forged.columns["standing"], map(str, (
                    number, it.robot, it.sha256, it.division, it.rank, it.score.played, it.score.won, it.score.tied,
                    it.score.lost, it.points, it.rating.value, it.rating.low, it.rating.high, int(it.close))))) for it in table]
                forged.files["table.csv"] = tables.comma(table).encode()
                if missing:
                    left = str(sum(it.matches for it in completeness.missing_of(store, season)))
                    for row in forged.tables["ending"]:
                        row["missing"] = left if row["season"] == str(season.number) else row["missing"]
                    for row in forged.tables["publication"]:
                        row["missing"] = left if row["number"] == str(number) else row["missing"]
        forged.linked()

    def _said(self, forged: Archive) -> list[str]:
        """All that is said, wrong or not."""
        with archives.read(forged.write(self.at("said.zip"))) as (store, table):
            return [it.said for it in verifying.findings(store, table)]

    def _is_wanted(self, last: Archive, row: Row) -> bool:
        """Whether a match is one of robots that played when the season ended, or play now."""
        until = 7 if int(row["publication"]) <= 3 else len(last.tables["entry"])
        taken_back = {it["of"] for it in last.tables["correction"] if it["what"] == "entry" and not it["other_day"]}
        entered = [it for it in last.tables["entry"][:until] if it["number"] not in taken_back]
        now = {it["robot"]: "" if it["what"] == "withdraw" else it["sha256"] for it in entered}
        hashes = next(it["hashes"] for it in last.tables["seating"] if it["number"] == row["seating"])
        return {*hashes.split(",")} <= {*now.values()}

    def _some(self, archive: Archive, table: str) -> list[Row]:
        rows = archive.tables[table]
        return random.Random(f"{table} 1").sample(rows, min(ROWS_TRIED, len(rows)))

    def _judged(self, tried: list[tuple[Archive, str, Row]], what: str, by: str) -> list[str]:
        """Whether all of these changes are found as they should be."""
        older, last = self._archives()[-2:]
        newest = Archive(last).tables["publication"][-1]["hash"]
        before = {row["number"] for row in Archive(older).tables["publication"]}
        wrong = []
        with archives.read(older) as (known, _):
            for forged, said, row in tried:
                if not self._wrong(forged)[0]:
                    wrong.append(f"{what}: {said}, with the old chain, is not seen")
                if by == CHAIN:
                    continue
                by_rules, by_hash, by_older = self._wrong(forged.linked(), newest, known)
                if by == RULES and not by_rules:
                    wrong.append(f"{what}: {said}, with a new chain, is not seen")
                if not by_hash:
                    wrong.append(f"{what}: {said}, with a new chain, is not seen by the hash")
                if row.get("publication", row.get("number")) in before and not by_older:
                    wrong.append(f"{what}: {said}, with a new chain, is not seen by the older archive")
        return wrong


def changes(last: Archive, table: str, row: Row, column: str) -> Iterator[tuple[Archive, str, Row]]:
    """Archives in which a cell is another one."""
    at = last.tables[table].index(row)
    for value in {*others(column, row[column])} - {row[column]}:
        forged = last.copy()
        forged.tables[table][at][column] = value
        yield forged, f"{difference(row[column], value)} in {[*row.values()][:4]}", row


def difference(before: str, now: str) -> str:
    """What was changed, of rules which of them."""
    if not before.startswith("{"):
        return f"{before} is {now}"
    rules = json.loads(before)
    return ", ".join(f"{name} is {value}" for name, value in json.loads(now).items() if rules[name] != value)


def others(column: str, value: str) -> list[str]:
    """Other values of a cell."""
    if column == "rules":
        return rewritten(value)
    if column == "what" and value in ("add", "change", "withdraw"):
        return [it for it in ("add", "change", "withdraw") if it != value]
    if column == "what" and value in ("entry", "begin", "end"):
        return [it for it in ("entry", "begin", "end") if it != value]
    if "day" in column or column == "begun":
        return ["2026-02-28", "2026-03-06"] if value else ["2026-03-05"]
    if column in ("hash", "before", "sha256", "hashes", "program"):
        return [value[:-1] + ("0" if value[-1:] != "0" else "1"), "" if column == "before" else value[1:] + "0"]
    if column in ("robot", "id"):
        return ["a" if value != "a" else "b"]
    if column in ("points", "rating", "low", "high"):
        return [str(float(value) + 1)]
    if value.isdigit():
        return [str(int(value) + 1), *([str(int(value) - 1)] if int(value) else [])]
    return [f"{value}1"] if value else ["1"]


def rewritten(text: str) -> list[str]:
    """Rules of which one is another one, of those that count in pairs with an anchor."""
    rules = json.loads(text)
    changed = [("mode", "threes"), ("matches", 2), ("matches", 20), ("cycles", 600), ("seed", 7), ("profile", 2),
               ("program", "0" * 64), ("sample", 2), ("sure", True), ("divisions", 3), ("anchor", "a"), ("anchored", 5)]
    return [json.dumps(rules | {name: value}, sort_keys=True) for name, value in changed]


def another(last: Archive, table: str) -> Row:
    """What tells a new row apart from those that are there."""
    highest: Callable[[str], str] = lambda column: str(max(int(row[column]) for row in last.tables[table]) + 1)
    return {
        "robot": {"id": "ghost"}, "season": {"number": "3", "name": "three"}, "ending": {"season": "2"},
        "member": {"robot": "d"}, "worker": {"number": "3", "name": "w3"}, "battle": {"number": "9"},
        "removed": {"number": "9"}, "standing": {"robot": "r5"}, "code": {"profile": "2"},
    }.get(table, {"number": highest("number")} if "number" in last.columns[table] else {})
