"""The command verify: replays matches of an archive, works its table out anew, and says what differs."""

import argparse
import os
import random
from dataclasses import dataclass, replace
from itertools import zip_longest
from typing import Iterator

from results.battles import Match
from results.standings import NOTHING, Standing
from tools.faults import FAULTY, Fault
from tools.output import replaced, say, show
from tournaments import seats
from tournaments.playing import Player
from tournaments.programs import Program, program, version
from tournaments.progress import Progress
from tournaments.records import Record, Series
from tournaments.robots import Robot, private
from tournaments.sessions import played_series
from tournaments.settings import Settings

from . import archives, likeness, publications, tables
from .archives import SOURCES
from .completeness import Finding, beyond, lacking
from .consistency import copies, inconsistent, last_table
from .keys import copies_of, possible
from .past import changed_since
from .publications import final
from .results import ended
from .schedules import scheduled
from .seasons import Season, seasons
from .standings import standings
from .schema import DAMAGE
from .store import Store

MATCHES = 100
# Most matches that are replayed by one run of the program.
RUN = 100
COLUMNS = f"seating, number, cycles, {DAMAGE} FROM battle"


@dataclass(frozen=True)
class Run:
    """Matches of a seating that follow each other."""

    seating: int
    first: int
    matches: list[Match]

    def goes_on(self, seating: int, number: int) -> bool:
        """Reports whether a match is the next one of this run."""
        return self.seating == seating and self.first + len(self.matches) == number and len(self.matches) < RUN


def verify(given: argparse.Namespace) -> None:
    """Compares an archive with what is played now, with its rules, and with what it was before."""
    found = program(given.crobots)
    with archives.read(given.archive) as (store, table):
        changes = changed_since(store, given.since) if given.since else ()
        said = [*findings(store, table), *(Finding(True, change) for change in changes)]
        runs = chosen(store, None if given.all else given.number or MATCHES)
        said += [Finding(True, line) for line in (*recompiled(store, found), *replayed(store, found, given, runs))]
        total = store.one("SELECT count(*) FROM battle")[0]
        last = publications.latest(store)
    show(f"{archives.shown(finding.said)}\n" for finding in said)
    count, wrong = sum(len(run.matches) for run in runs), sum(finding.is_wrong for finding in said)
    show([f"{count} of {total} matches were replayed, {wrong or 'no'} differences\n"])
    if last and last.hash:
        show([f"publication {last.number} has the hash {archives.shown(last.hash)}\n"])
    if wrong:
        raise Fault(f"{given.archive} is not what its robots and rules come to", FAULTY)


def findings(store: Store, table: str) -> Iterator[Finding]:
    """All that is to be said of an archive, without any match being replayed."""
    if wrong := [*copies(store)]:
        yield from (Finding(True, line) for line in wrong)
        return
    for check in (sources, seeds, inconsistent):
        yield from (Finding(True, line) for line in check(store))
    yield from lacking(store)
    yield from beyond(store)
    yield from (Finding(True, line) for line in table_of(store, table))


def sources(store: Store) -> Iterator[str]:
    """Robots whose source isn't there."""
    gone = "SELECT robot, sha256 FROM entry WHERE sha256 NOT IN (SELECT sha256 FROM source)"
    for robot, sha256 in store.rows(gone):
        yield f"the source {sha256} of {robot} is not there"


def seeds(store: Store) -> Iterator[str]:
    """Seatings whose seed isn't the one of their robots in any season."""
    copies, drawn_from = copies_of(store), {season.rules.seed for season in seasons(store)}
    for hashes, seed in store.rows("SELECT hashes, seed FROM seating"):
        keys = [*possible(hashes.split(","), copies)] if {*hashes.split(",")} <= copies.keys() else []
        if int(seed) not in {seats.drawn(of_season, key) for of_season in drawn_from for key in keys}:
            yield f"the seed {seed} is not that of {hashes}"


def table_of(store: Store, table: str) -> Iterator[str]:
    """Rows of tables that the results don't come to: of the last season's, and of those with which others ended."""
    last = seasons(store)[-1]
    for season in seasons(store):
        ours = standings(*scheduled(store, season))
        if season == last:
            theirs, wanted = table, tables.comma(ours)
            if publications.scale(store) != publications.SCALE:
                theirs, wanted = unrated(theirs), unrated(wanted)
            yield from unequal(season, theirs, wanted)
            yield from last_table(store, ours)
        if season.ended:
            yield from ended_table(store, season, ours)


def ended_table(store: Store, season: Season, ours: list[Standing]) -> Iterator[str]:
    """Rows of the table with which a season ended. Ratings of another scale aren't compared."""
    them = [publication for publication in publications.every(store) if publication.season == season.number and publication.final]
    if not them:
        yield f"the season {season.name} ended without a table"
        return
    theirs = final(store, season)
    if them[-1].scale != publications.SCALE:
        theirs, ours = ([replace(row, rating=NOTHING, close=False) for row in rows] for rows in (theirs, ours))
    yield from unequal(season, tables.comma(theirs), tables.comma(ours))


def unrated(table: str) -> str:
    """A table without its last four columns: those that ratings decide."""
    return "".join(line.rsplit(",", 4)[0] + "\n" for line in table.splitlines())


def unequal(season: Season, theirs: str, ours: str) -> Iterator[str]:
    """Rows in which two tables differ."""
    for one, other in zip_longest(theirs.splitlines(), ours.splitlines(), fillvalue="nothing"):
        if one != other:
            yield f"the table of season {season.name} has {one}, and its results come to {other}"


def chosen(store: Store, count: int | None) -> list[Run]:
    """This count of matches, drawn by chance, or all, in runs of matches that follow each other."""
    total = store.one("SELECT count(*) FROM battle")[0]
    places = None if count is None else {*random.SystemRandom().sample(range(total), min(count, total))}
    found: list[Run] = []
    rows = store.database.execute(f"SELECT {COLUMNS} ORDER BY seating, battle.number")
    for at, (seating, number, cycles, *damage) in enumerate(rows):
        if places is None or at in places:
            if not found or not found[-1].goes_on(seating, number):
                found.append(Run(seating, number, []))
            found[-1].matches.append(ended(cycles, damage))
    return found


def record(store: Store, run: Run) -> Record:
    """What plays a run again."""
    hashes, seed, cycles, profile, by = store.one(
        "SELECT hashes, seed, cycles, profile, program FROM seating WHERE number = ?", run.seating)
    robots = tuple(Robot(sha256, sha256) for sha256 in hashes.split(","))
    many = len(robots)
    settings = Settings(run.first + RUN, cycles, int(seed), profile, by, many, (many,))
    return Record(settings, Series(tuple(range(many)), int(seed), run.first, len(run.matches)), robots)


def lay(store: Store, folder: str) -> None:
    """Puts all sources into a folder, under their hashes."""
    for sha256, source in store.rows("SELECT sha256, bytes FROM source"):
        replaced(os.path.join(folder, sha256), source)


def recompiled(store: Store, found: Program) -> Iterator[str]:
    """The sources that compile to other code than the archive has of them."""
    with private() as folder:
        lay(store, folder)
        yield from likeness.otherwise(store, found, folder)


def replayed(store: Store, found: Program, given: argparse.Namespace, runs: list[Run]) -> Iterator[str]:
    """The matches of these runs that end otherwise now."""
    records = [record(store, run) for run in runs]
    by_series = {(record.robots, record.series): run for record, run in zip(records, runs)}
    for by in sorted({record.settings.program for record in records} - {found.sha256}):
        ours, theirs = named(version(found.sha256), found.sha256), named(versions(store).get(by, ""), by)
        say(given.script, f"{found.path} is {ours}, and matches of the archive are by {theirs}")
    progress = Progress(len(records), given.quiet, given.script)
    with private() as folder:
        lay(store, folder)
        with played_series(Player(found, given.jobs, folder), records, progress) as again:
            for now in again:
                yield from changed(now, by_series[now.robots, now.series])
    progress.clear()


def versions(store: Store) -> dict[str, str]:
    """The versions of the programs that played, by their hashes, if they are known."""
    return {season.rules.program: season.rules.version for season in seasons(store)}


def named(known: str, sha256: str) -> str:
    """A program as it is named: its version, if that is known, and the beginning of its hash."""
    return archives.shown(f"{known or 'a program'} with the hash {sha256[:16]}")


def changed(now: Record, run: Run) -> Iterator[str]:
    """The matches of a run that ended otherwise."""
    for (number, match), before in zip(now.matches(), run.matches):
        if match != before:
            robots = " ".join(f"{SOURCES}{robot.sha256}.r" for robot in now.robots)
            yield (f"match {number}: the archive has {said(before)}, played again it is {said(match)}: crobots -m1 "
                   f"-l{now.settings.cycles} -s{now.series.seed} -p{now.settings.profile} -f{number} {robots}")


def said(match: Match) -> str:
    """How a match ended, as a record says it."""
    return ":".join(map(str, (match.cycles, *match.damage)))
