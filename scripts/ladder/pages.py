"""The pages: the table, an author's robots, a robot, joining, and what refuses something."""

import threading
import time
from typing import Iterable, Mapping, Sequence

from leagues import seasons
from leagues.entries import WITHDRAW, entries, playing
from leagues.facts import is_hidden
from leagues.naming import names
from leagues.results import scores_of
from leagues.rules import Rules
from leagues.store import Store
from results.columns import COUNTS, texts
from results.scores import Score
from results.standings import Standing
from sites import charts
from sites.frames import section, sentence
from sites.markup import Markup, block, joined, name_of, tag
from sites.numbers import decimal
from sites.tables import NAME, NUMBER, TEXT, command_line, table

from . import seeds
from .accounts import Who, owners
from .frames import Site, entry, form, hidden, page
from .handing import Answer, author_names, is_theirs, versions
from .live import Live, read
from .terms import ALL, Terms, terms

COLUMNS = [("Rank", NUMBER), ("Robot", NAME), ("Played", NUMBER), ("Won", NUMBER), ("Tied", NUMBER), ("Lost", NUMBER), ("Points", NUMBER),
           ("Rating", NUMBER), ("95 %", TEXT)]
VERSION_COLUMNS = [("Version", NUMBER), ("Day", TEXT), ("Played", NUMBER), ("Won", NUMBER), ("Tied", NUMBER), ("Lost", NUMBER), ("Points", NUMBER),
                   ("Source", TEXT), ("", TEXT)]
TEXTAREA_ROWS = 18
# The tables that were made of late, each with its time, and for how many seconds one is taken again.
KEPT = 2.0
kept: dict[tuple[str, str], tuple[float, Markup]] = {}
making = threading.Lock()


def robot_link(site: Site, robot: str, shown: Mapping[str, str]) -> Markup:
    """A robot's name as a link to its page."""
    return tag("a", name_of(shown.get(robot, robot)), href=site.to(f"robots/{robot}"), data_robot=robot)


def authors_shown(store: Store) -> dict[str, str]:
    """The authors of robots as pages say them: none if the terms keep them back."""
    if not terms(store).names:
        return {}
    return dict(store.rows("SELECT id, author FROM robot")) | author_names(store)


def standing(site: Site, store: Store, live: Live) -> Markup:
    """The live table, which is replaced as it stands. It is made once, however many ask for it at a time, and anew when names may be others."""
    key = site.folder, live.tag
    with making:
        made = kept.get(key)
        if made is None or made[0] + KEPT < time.monotonic():
            if len(kept) > 8:
                kept.clear()
            made = kept[key] = time.monotonic(), rendered(site, store, live)
        return made[1]


def rendered(site: Site, store: Store, live: Live) -> Markup:
    """The table, with what is said above it."""
    shown, by = names(store), authors_shown(store)
    rows = [row_of(site, row, shown, by) for row in live.rows]
    missing = f"{live.missing} matches of this round are missing" if live.missing else "no match is missing"
    season = f"Season {live.season}: " if live.season else ""
    return joined(sentence(f"{season}{live.played} matches were played, {missing}.", kind="lead"),
                  table("Table", COLUMNS, rows, names=1, style="standings") if rows else sentence("No robot plays yet."))


def row_of(site: Site, row: Standing, shown: Mapping[str, str], by: Mapping[str, str]) -> list[str]:
    """A row: a robot that has no interval yet has a sign that it is being worked out."""
    name = joined(robot_link(site, row.robot, shown), tag("small", tag("bdi", by[row.robot]), class_="author") if by.get(row.robot) else "")
    rating = [charts.whole(row.rating.value), f"{charts.whole(row.rating.low)} to {charts.whole(row.rating.high)}"] if row.is_rated else ["…", "…"]
    return [str(row.rank) if row.score.played else "new", name, *texts((*COUNTS, "points"), row), *rating]


def index(site: Site, store: Store, who: Who | None) -> str:
    """The page of the table."""
    drawn = [sentence(said, kind="note")] if (said := seeds.said(store)) else []
    return page(site, who, "", tag("h1", name_of(site.title)), section("Table", tag("div", standing(site, store, read(site.folder)), id="table"), *drawn),
                tag("div", id="own", data_own=" ".join(own(store, who))))


def own(store: Store, who: Who | None) -> list[str]:
    """Whose robots are marked."""
    return sorted(robot for robot, number in owners(store).items() if who and number == who.number)


def join(site: Site, sign_up: bool) -> str:
    """Where a link leads to: its token stands behind '#', so no server's log has it."""
    by_hand = form(site, "join", entry("Your token", "token", "password", autocomplete="off", required=""), tag("button", "Join"), kind="join")
    new = section("Sign up", form(site, "sign-up", entry("Your name", "name", maxlength=80, required=""), tag("button", "Sign up"))) if sign_up else ""
    return page(site, None, "Join", tag("h1", "Join"), section(
        "With your link", sentence("Your link brought you here. If nothing happens, copy what stands behind '#' in it."), by_hand), new)


def signed_up(site: Site, name: str, token: str, origin: str) -> str:
    """The link of somebody who signed up. It is shown once."""
    link = f"{origin}{site.to('join')}#{token}"
    return page(site, None, "Your link", tag("h1", joined("Welcome, ", tag("bdi", name))), section(
        "Your link", sentence("Keep it: it is your key, and it is shown only now."), tag("p", tag("a", link, href=f"{site.to('join')}#{token}"))))


def told(site: Site, who: Who | None, answer: Answer, again: str = "") -> str:
    """The page that says what became of something, with the form once more if there is something to be put right."""
    title = "Done" if answer.is_taken else "Refused"
    return page(site, who, title, tag("h1", title), section(title, tag("pre", block(answer.words.split("\n")), class_="answer"),
                                                            tag("p", tag("a", "On", href=site.to("mine" if who else "")))), again)


def mine(site: Site, store: Store, who: Who, origin: str) -> str:
    """An author's page. The origin is that by which it was asked for."""
    robots = own(store, who)
    rows = {row.robot: row for row in read(site.folder).rows}
    now = playing(entries(store))
    listed = [[robot_link(site, robot, {}), str(rows[robot].rank) if robot in rows and rows[robot].score.played else "new" if robot in now else "left",
               str(len(versions(store, robot))), decimal(rows[robot].points) if robot in rows else ""] for robot in robots]
    return page(site, who, "My robots", tag("h1", "My robots"), hand_in(site, terms(store), robots[0] if robots else ""), section(
        "Robots", table("My robots", [("Robot", NAME), ("Rank", NUMBER), ("Versions", NUMBER), ("Points", NUMBER)], listed)
        if listed else sentence("You have handed in nothing yet.")), by_command(f"{origin}{site.to('')}"), tag("div", id="own", data_own=" ".join(robots)))


def hand_in(site: Site, by: Terms, robot: str, text: str = "") -> Markup:
    """The form by which a robot is handed in. A line end that begins a field is no part of what is in it."""
    until = f" It closes on {by.last_day()}." if by.closes else ""
    said = sentence(f"At most {by.robots} robots of {by.size} bytes, and {by.versions} versions an hour.{until}", kind="note")
    area = tag("label", "Its source ", tag("textarea", block(["", *text.split("\n")]), name="source", rows=TEXTAREA_ROWS, spellcheck="false", maxlength=by.size))
    return section("Hand in", form(site, "robots", entry("Name", "robot", value=robot, maxlength=40), entry("A file", "file", "file"), area,
                                   tag("p", tag("button", "Send to the league"), " ", tag("button", "Only compile it", formaction=site.to("check"))),
                                   kind="hand-in"), said)


def by_command(at: str) -> Markup:
    """How a file is handed in without the page, to a ladder that is at this address."""
    return section("From an editor", command_line(["crobots-league", "send", "YOUR LINK", "mine.r"]),
                   command_line(["curl", "-T", "mine.r", "-H", "Authorization: Bearer YOUR TOKEN", f"{at}robots/"]))


def is_shown(store: Store, who: Who | None, robot: str) -> bool:
    """Whether somebody may see a robot's source."""
    if is_theirs(store, who, robot):
        return True
    return terms(store).readers == ALL and not is_hidden(seasons.season(store))


def robot(site: Site, store: Store, who: Who | None, name: str, reasons: Iterable[Markup]) -> str:
    """The page of a robot."""
    may = is_theirs(store, who, name)
    row = next((row for row in read(site.folder).rows if row.robot == name), None)
    shown = names(store).get(name, name)
    by = authors_shown(store).get(name, "")
    place = [sentence(f"Rank {row.rank}, {decimal(row.points)} points a match in {row.score.played} matches.",
                      kind="lead")] if row and row.score.played else []
    return page(site, who, shown, tag("h1", name_of(shown)), sentence("by ", tag("bdi", by), kind="lead") if by else "", *place,
                over_days(ranks(store, name)), history(site, store, who, name, may), *reasons, leaving(site, store, name) if may else "")


def history(site: Site, store: Store, who: Who | None, name: str, may: bool) -> Markup:
    """The versions of a robot with their days and results."""
    found, rules = versions(store, name), seasons.season(store).rules
    did = scores_of(store, rules, {version.sha256 for version in found})
    rows = [[str(at), version.day, *results(did[version.sha256], rules), *version_links(site, store, who, name, at, may and at < len(found))]
            for at, version in enumerate(found, 1)]
    return section("Versions", table("Versions", VERSION_COLUMNS, rows[::-1]))


def results(score: Score, rules: Rules) -> list[str]:
    """The cells of what a version did."""
    return [str(score.played), str(score.won), str(score.tied), str(score.lost), f"{rules.scoring.mean(score):.3f}" if score.played else ""]


def version_links(site: Site, store: Store, who: Who | None, name: str, number: int, may: bool) -> list[str]:
    """The source of a version for those who may see it, and a button that takes it back."""
    source = tag("a", "source", href=site.to(f"robots/{name}/versions/{number}")) if is_shown(store, who, name) else joined("not shown")
    again = form(site, f"robots/{name}/back", hidden("version", str(number)), tag("button", "Take back to it")) if may else joined("")
    return [source, again]


def leaving(site: Site, store: Store, name: str) -> Markup:
    """The button by which a robot leaves."""
    happened = [entry for entry in entries(store) if entry.robot == name]
    if happened and happened[-1].what == WITHDRAW:
        return section("Left", sentence("It left. A new version lets it play again."))
    return section("Withdraw", form(site, f"robots/{name}/withdraw", tag("button", "Withdraw")))


def ranks(store: Store, name: str) -> list[tuple[str, int]]:
    """Where a robot was at the end of each day."""
    return [(str(day), int(rank)) for day, rank in store.rows("SELECT day, rank FROM ladder_rank WHERE robot = ? ORDER BY day", name)]


def over_days(found: Sequence[tuple[str, int]]) -> Markup:
    """The rank over days, as a line whose upper end is the first place."""
    if len(found) < 2:
        return joined("")
    worst = max(rank for _, rank in found)
    points = " ".join(f"{20 + 560 * at // (len(found) - 1)},{15 + 100 * (rank - 1) // max(worst - 1, 1)}" for at, (_, rank) in enumerate(found))
    label = f"Rank from {found[0][0]} to {found[-1][0]}: from {found[0][1]} to {found[-1][1]}"
    ends = [charts.text(20, 135, found[0][0], "start"), charts.text(580, 135, found[-1][0], "end"), charts.text(4, 18, "1", "start"),
            charts.text(4, 118, str(worst), "start")]
    return section("Rank over days", charts.svg(600, 140, tag("polyline", points=points, class_="way"), *ends, label=label, kind="time axis"))
