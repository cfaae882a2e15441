"""The facts of a tournament, from what it comes to."""

import contextlib
import hashlib
from pathlib import Path
from typing import Iterable, Iterator, Mapping, Sequence

from results.standings import Standing
from tournaments.programs import version
from tournaments.records import Record
from tournaments.robots import Robot
from tournaments.settings import SIZE_NAMES
from tournaments.settings import Settings as TournamentSettings
from tournaments.standings import Weighed

from .facts import Battle, Facts, Program, Seat, Settings, Version
from .facts import Robot as SiteRobot
from .gathering import Gathering, Losses

# A robot's page has at most this number of lost matches.
LOST = 5


def facts_of_tournament(
        title: str, settings: TournamentSettings, scoring: Weighed, among: Sequence[Robot],
        sources: Mapping[str, bytes], standings: Sequence[Standing], records: Iterable[Record],
        page: str = "") -> Facts:
    """What the site of a tournament shows. The sources of robots are found by their hashes."""
    names = {standing.place: standing.robot for standing in standings}
    places = {standing.robot: row for row, standing in enumerate(standings)}
    gathering, losses = Gathering(places), Losses(places)
    for record in records:
        fought = [*battles(record, names)]
        gathering.add(fought)
        for battle in fought:
            losses.add(battle)
    versions = [Version(robot.sha256, sources.get(robot.sha256)) for robot in among]
    robots = [SiteRobot(names[at], names[at], (version,), lost=losses.of(names[at], LOST))
              for at, version in enumerate(versions)]
    return Facts(
        title, rules(settings, scoring), Program(version(settings.program), settings.program), tuple(robots), tuple(standings),
        tuple(gathering.pairs()), points="points" if scoring.weights else "points a match", page=page)


def battles(record: Record, names: Mapping[int, str]) -> Iterator[Battle]:
    """The matches of a record."""
    seated = [names[at] for at in record.series.seats]
    for number, match in record.matches():
        yield Battle(tuple(map(Seat, seated, match.damage)), number, record.series.seed, match.cycles)


def rules(settings: TournamentSettings, scoring: Weighed) -> Settings:
    """The settings, with those that only a tournament has."""
    more = [("Points", f"{scoring.won} for a win, {scoring.tied} for a tie")]
    if scoring.weights:
        weights = ", ".join(f"{SIZE_NAMES[size]} {weight}" for size, weight in scoring.weights.items())
        more.append(("Weights of points a match", weights))
    if settings.those:
        more.append(("Sides", f"{settings.robots - len(settings.those)} robots against {len(settings.those)}"))
    if settings.sample:
        more.append(("Sample", f"{settings.sample} groups"))
    return Settings(settings.matches, settings.cycles, settings.seed, settings.profile, settings.sizes, tuple(more))


def kept_sources(among: Iterable[Robot], folder: str = "") -> dict[str, bytes]:
    """The sources by their hashes: from the folder of copies, or from the robots' files that have still these bytes."""
    found: dict[str, bytes] = {}
    for robot in among:
        with contextlib.suppress(OSError):
            source = Path(folder, robot.sha256) if folder else Path(robot.path)
            if hashlib.sha256(content := source.read_bytes()).hexdigest() == robot.sha256:
                found[robot.sha256] = content
    return found
