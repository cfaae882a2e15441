"""What the organiser and the teacher see: authors, the terms, the audit, and the checklist of rungs."""

import datetime
from collections import Counter
from typing import Mapping, NamedTuple

from leagues import seasons
from leagues.entries import entries, playing
from leagues.results import Results
from leagues.schedules import Schedule, scheduled
from leagues.store import Store
from sites.frames import section, sentence
from sites.markup import Markup, joined, name_of, tag
from sites.tables import NAME, NUMBER, TEXT, command_line, listed, table
from tools.tables import comma_separated

from .accounts import Who, authors, owners
from .audits import last
from .frames import Site, entry, form, hidden, page
from .handing import versions
from .live import read
from .terms import terms

AUDIT = 100
# A rung is climbed by so many of so many matches, from each seat.
WON, OF = 4, 5
# The rungs of docs/exercises.md: the samples of each level, as robots/README.md has them, and the one of docs/answers.
RUNGS = (("wanderer", "runner", "pilot"), ("leader", "centre", "jumpy"), ("sniper", "hunter", "sweeper", "wallhugger"), ("shuttle", "boxer"),
         ("jouster",), ("fencer",))
COLUMNS = ("author", "group", "robot", "versions", "last hand-in", "late", "rungs", "rank")
LATE = "late"


class Line(NamedTuple):
    """A robot of an author, or an author without one."""

    author: str
    team: str
    robot: str
    versions: int
    last: str
    late: bool
    rungs: tuple[bool, ...]
    rank: str


def organiser(site: Site, store: Store, who: Who) -> str:
    """The organiser's page."""
    invite = form(site, "organiser/invite", entry("Name", "name", maxlength=80, required=""), entry("Group", "team", maxlength=80), tag("button", "Invite"))
    return page(site, who, "Organiser", tag("h1", "Organiser"), section("Invite an author", invite), of_authors(site, store),
                section("Terms", listed([(name, str(value)) for name, value in vars(terms(store)).items()]),
                        command_line(["crobots-league", "terms", site.folder, "--robots", "3"])), of_audit(store))


def of_authors(site: Site, store: Store) -> Markup:
    """All authors, each with a button that renews the link and one that withdraws it."""
    many = Counter(owners(store).values())
    rows = [[tag("bdi", author.name), tag("bdi", author.team), str(many[author.number]), "yes" if author.is_invited else "no",
             buttons(site, author.name)] for author in authors(store)]
    columns = [("Author", NAME), ("Group", TEXT), ("Robots", NUMBER), ("Link", TEXT), ("", TEXT)]
    return section("Authors", table("Authors", columns, rows) if rows else sentence("Nobody was invited yet."))


def buttons(site: Site, name: str) -> Markup:
    return joined(form(site, "organiser/invite", hidden("name", name), tag("button", "New link")),
                  form(site, "organiser/withdraw", hidden("name", name), tag("button", "Withdraw link")))


def of_audit(store: Store) -> Markup:
    """What was done last."""
    rows = [[at(event.at), tag("bdi", event.who), event.what, tag("bdi", event.of), event.address] for event in last(store, AUDIT)]
    return section("Audit", table("What was done last", [("When", TEXT), ("Who", TEXT), ("What", TEXT), ("Of", NAME), ("Address, hashed", TEXT)], rows, names=3))


def at(seconds: float) -> str:
    return datetime.datetime.fromtimestamp(seconds).isoformat(" ", "seconds")


def live_ranks(league: str) -> dict[str, str]:
    """The rank of each robot in the live table."""
    return {row.robot: str(row.rank) for row in read(league).rows if row.score.played}


def lines(store: Store, ranks: Mapping[str, str]) -> list[Line]:
    """The robots of all authors, in the order of authors."""
    closes = terms(store).closes
    whose, climbed, now = owners(store), climbed_by(store), playing(entries(store))
    found = []
    for author in authors(store):
        robots = sorted(robot for robot, number in whose.items() if number == author.number)
        for robot in robots or [""]:
            had = versions(store, robot) if robot else []
            day = had[-1].day if had else ""
            found.append(Line(author.name, author.team, robot, len(had), day, bool(closes) and day > closes, climbed.get(robot, ()),
                              ranks.get(robot, "") if robot in now else "left" if robot else ""))
    return found


def climbed_by(store: Store) -> dict[str, tuple[bool, ...]]:
    """Which rungs each robot has climbed: against each robot of the level that plays here, in either seat. A rung of which no robot plays
    is climbed by nobody."""
    season = seasons.season(store)
    schedule, results = scheduled(store, season)
    if season.rules.sizes != (2,):
        return {}
    places = {entrant.robot: at for at, entrant in enumerate(schedule.field.robots)}
    ended = results.endings()
    return {robot: tuple(has_climbed(schedule, results, ended, places, robot, rung) for rung in RUNGS) for robot in places}


def has_climbed(schedule: Schedule, results: Results, ended: Mapping[int, Mapping[str, int]], places: Mapping[str, int], robot: str,
                rung: tuple[str, ...]) -> bool:
    """Whether a robot wins as often as a rung wants, against each robot of it that plays."""
    there = [other for other in rung if other in places and other != robot]
    return bool(there) and all(beats(schedule, results, ended, places[robot], places[other]) for other in there)


def beats(schedule: Schedule, results: Results, ended: Mapping[int, Mapping[str, int]], one: int, other: int) -> bool:
    """Whether one robot wins four of five matches against another from each seat."""
    for seats, seed in schedule.seatings((min(one, other), max(one, other))):
        found = ended.get(results.number(schedule.seated(seats, seed)) or 0, {})
        won = sum(many for letters, many in found.items() if letters[seats.index(one)] == "w")
        if not found or won * OF < WON * sum(found.values()):
            return False
    return True


def checklist(site: Site, store: Store, who: Who) -> str:
    """The teacher's page."""
    rows = [[tag("bdi", line.author), tag("bdi", line.team), name_of(line.robot) if line.robot else "", str(line.versions),
             f"{line.last} {LATE}" if line.late else line.last, marks(line.rungs), line.rank] for line in lines(store, live_ranks(site.folder))]
    columns = [("Author", NAME), ("Group", TEXT), ("Robot", TEXT), ("Versions", NUMBER), ("Last hand-in", TEXT), ("Rungs", TEXT), ("Rank", NUMBER)]
    said = sentence(f"A rung is climbed by {WON} of {OF} matches against each robot of that level, from either seat.", kind="note")
    return page(site, who, "Checklist", tag("h1", "Checklist"), section(
        "Authors", table("Authors", columns, rows) if rows else sentence("Nobody was invited yet."), said,
        tag("p", tag("a", "as a table to download (CSV)", href=site.to("checklist.csv")))))


def marks(rungs: tuple[bool, ...]) -> str:
    return " ".join(f"{number}{'✓' if is_there else '·'}" for number, is_there in enumerate(rungs, 1))


def checklist_csv(store: Store, league: str) -> str:
    """The checklist as comma-separated values."""
    return comma_separated([[*COLUMNS], *(cells(line) for line in lines(store, live_ranks(league)))])


def cells(line: Line) -> list[str]:
    """The cells of a line. What a spreadsheet would take for a formula has a blank before it."""
    rungs = " ".join(str(at) for at, yes in enumerate(line.rungs, 1) if yes)
    return [safe(cell) for cell in (line.author, line.team, line.robot, str(line.versions), line.last, LATE if line.late else "", rungs, line.rank)]


def safe(cell: str) -> str:
    return f" {cell}" if cell[:1] in {"=", "+", "-", "@", "\t"} else cell
