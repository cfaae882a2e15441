"""Why a robot lost: the pairs that it lost, with its worst matches as films, and what `crobots-trace --sum` says of them."""

from collections import Counter
from dataclasses import dataclass
from typing import Iterator

from leagues import seasons
from leagues.naming import names
from leagues.results import Played, Results
from leagues.schedules import Schedule, scheduled
from leagues.sources import laid
from leagues.store import Store
from results.scores import Score, counted
from sites.frames import section, sentence
from sites.markup import Markup, block, joined, name_of, tag
from tools.faults import Fault
from tools.rules import DEADLY

from .frames import Site
from .judging import ran, said

# How many matches of each lost pair are shown, and of how many pairs the worst one is summed up.
MATCHES, SUMMED = 2, 5


@dataclass(frozen=True)
class Lost:
    """A match that a robot lost: its seating, its number, the robots, which seat the robot had, and how it ended."""

    seating: int
    number: int
    seats: tuple[str, ...]
    seat: int
    cycles: int
    seed: int


@dataclass(frozen=True)
class Against:
    """What a robot did against others, from all seats, with the matches that it lost, the worst first."""

    opponents: tuple[str, ...]
    score: Score
    worst: tuple[Lost, ...]


def lost_pairs(store: Store, robot: str) -> list[Against]:
    """Against whom a robot lost more than it won, the worst first."""
    season = seasons.season(store)
    schedule, results = scheduled(store, season)
    at = next((place for place, entrant in enumerate(schedule.field.robots) if entrant.robot == robot), None)
    found = [against(schedule, results, group, at) for group in schedule.groups() if at is not None and at in group]
    return sorted((pair for pair in found if pair.score.lost > pair.score.won), key=lambda pair: (pair.score.won - pair.score.lost, pair.opponents))


def against(schedule: Schedule, results: Results, group: tuple[int, ...], at: int | None) -> Against:
    """What a robot did in a group."""
    ids, counts, worst = [entrant.robot for entrant in schedule.field.robots], Counter[str](), []
    for seats, seed in schedule.seatings(group):
        where = schedule.seated(seats, seed)
        seat = seats.index(at or 0)
        for play in results.battles(where):
            counts[play.match.results[seat]] += 1
            if play.match.results[seat] == "l":
                worst.append((badness(play, seat), Lost(results.number(where) or 0, play.number, tuple(ids[one] for one in seats), seat,
                                                        play.match.cycles, seed)))
    worst.sort(key=lambda item: item[0])
    others = tuple(ids[one] for one in group if one != at)
    return Against(others, counted(counts), tuple(lost for _, lost in worst[:MATCHES]))


def badness(play: Played, seat: int) -> tuple[int, int, int]:
    """How bad a lost match was, the worst first: the less the others were hurt, and the sooner it ended."""
    hurt = min((damage for at, damage in enumerate(play.match.damage) if at != seat), default=DEADLY)
    return hurt, play.match.cycles, play.number


def shown(site: Site, store: Store, robot: str) -> Iterator[Markup]:
    """The part of a robot's page that its author sees."""
    found = lost_pairs(store, robot)
    if not found:
        yield section("Why did I lose?", sentence("It lost no pair so far."))
        return
    called = names(store)
    yield section("Why did I lose?", *(part for at, pair in enumerate(found) for part in of_pair(site, store, pair, called, at < SUMMED)))


def of_pair(site: Site, store: Store, pair: Against, called: dict[str, str], is_summed: bool) -> Iterator[Markup]:
    """A lost pair."""
    others = joined(*(part for one in pair.opponents for part in (" ", name_of(called.get(one, one)))))
    yield tag("h3", joined("Against", others))
    yield sentence(f"{pair.score.won} won, {pair.score.tied} tied, {pair.score.lost} lost. Its worst matches:")
    links = [tag("li", tag("a", f"match {one.number} from seat {one.seat + 1}, lost after {one.cycles} cycles",
                           href=site.to(f"replays/{one.seating}/{one.number}"))) for one in pair.worst]
    yield tag("ul", *links, class_="links")
    if is_summed and pair.worst and (text := summed(site, store, pair.worst[0])):
        yield tag("pre", block(text.split("\n")), class_="sum")


def summed(site: Site, store: Store, lost: Lost) -> str:
    """What `crobots-trace --sum` says of a robot in a match; nothing if it isn't there or fails."""
    if not site.programs.trace:
        return ""
    rules = seasons.season(store).rules
    hashes = store.one("SELECT hashes FROM seating WHERE number = ?", lost.seating)[0].split(",")
    folder = laid(store, hashes)
    options = [f"-k{lost.number}", f"-l{rules.cycles}", f"-s{lost.seed}", f"-p{rules.profile}"]
    try:
        done = ran([site.programs.trace, "--sum", f"--robot={lost.seat + 1}", *options, "--", *(f"{folder}/{one}" for one in hashes)])
    except Fault:
        return ""
    text = said(done.stdout, folder) if done.returncode == 0 else ""
    for at, sha256 in enumerate(hashes):
        text = text.replace(sha256, lost.seats[at])
    return text
