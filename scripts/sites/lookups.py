"""Finds what belongs to a robot, a pair or a match among all facts, and the links to it."""

from results.standings import Standing

from . import links, places
from .addresses import is_page
from .facts import Battle, Facts, Pair, RobotId, Stay, Table, Version
from .markup import Markup, name_of, tag


class Lookup:
    """The facts by what they are about."""

    def __init__(self, facts: Facts) -> None:
        self.facts = facts
        self.robots = {robot.id: robot for robot in facts.robots}
        self.standings = {standing.robot: standing for standing in facts.standings}
        self._rows = {standing.robot: row for row, standing in enumerate(facts.standings)}
        self._pairs = {(pair.one, pair.other): pair for pair in facts.pairs}
        self._links: dict[tuple[RobotId, str], Markup] = {}
        self._opponents: dict[RobotId, list[RobotId]] = {}
        for pair in facts.pairs:
            self._opponents.setdefault(pair.one, []).append(pair.other)
            self._opponents.setdefault(pair.other, []).append(pair.one)

    def row(self, robot: RobotId) -> int:
        """A robot's row in the table; of one without a row that after the last one."""
        return self._rows.get(robot, len(self._rows))

    def standing(self, robot: RobotId) -> Standing | None:
        return self.standings.get(robot)

    def pair(self, one: RobotId, other: RobotId) -> Pair | None:
        """What two robots did to each other, from this one's side."""
        found, turned_one = self._pairs.get((one, other)), self._pairs.get((other, one))
        return turned_one.turned if found is None and turned_one else found

    def opponents(self, robot: RobotId) -> list[Pair]:
        """The pairs of a robot from its side, in the order of the table."""
        others = sorted(self._opponents.get(robot, ()), key=lambda other: (self.row(other), other))
        return [pair for other in others if (pair := self.pair(robot, other))]

    def versions(self, battle: Battle) -> list[Version]:
        """The versions that played a match."""
        return [self.robots[seat.robot].versions[-1] for seat in battle.seats]

    def sources(self, battle: Battle) -> list[tuple[str, bytes]]:
        """The names and sources of a match's robots; none if one isn't known any more."""
        seated = zip(battle.seats, self.versions(battle))
        found = [(self.robots[seat.robot].name, version.source) for seat, version in seated]
        known = [(name, source) for name, source in found if source is not None]
        return known if len(known) == len(found) else []

    def replay(self, battle: Battle) -> str:
        """Where the page is that plays a match, if there is one."""
        return places.replay_page(self.facts, battle, self.versions(battle))

    def files(self, battle: Battle) -> list[str]:
        """The files of a match's robots on the site."""
        return [places.source_file(seat.robot, version) for seat, version in zip(battle.seats, self.versions(battle))]

    def browser(self, battle: Battle) -> str:
        """The address that opens a match in the browser's page; nothing if there is none."""
        sources = self.sources(battle)
        if not is_page(self.facts.page) or not sources:
            return ""
        return self.facts.page.split("#")[0] + links.fragment(self.facts.settings, battle, sources)

    def robot_link(self, robot: RobotId, up: str) -> Markup:
        """A robot's name, as a link to its page."""
        if (robot, up) not in self._links:
            self._links[robot, up] = tag("a", name_of(self.robots[robot].name), href=up + places.robot_page(robot))
        return self._links[robot, up]

    def history(self, robot: RobotId) -> list[Stay]:
        """Where a robot was in all tables, this one last."""
        found = [Stay(table.day, table.season, table.places[robot]) for table in self.facts.earlier if robot in table.places]
        now = self.standing(robot)
        return found + ([Stay(self.facts.day, self.facts.season, now)] if now else [])

    def before(self) -> Table | None:
        """The last earlier table of the same season, with which this one is compared."""
        same = [table for table in self.facts.earlier if table.season == self.facts.season]
        return same[-1] if same else None
