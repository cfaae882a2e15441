"""A robot is handed in: it joins, gets other bytes, gets older ones back, or leaves. What is refused is refused in words.

All of it is one transaction, which is on the disk when 'taken' is answered. The same bytes again are taken again: whoever heard no
answer may ask twice."""

import functools
import shutil
import time
from dataclasses import dataclass
from typing import Callable, ParamSpec

from leagues import entries, naming, seasons
from leagues.days import today
from leagues.entries import ADD, CHANGE, WITHDRAW, Entry
from leagues.store import Store
from tools.faults import Fault

from . import seeds
from .accounts import Who, authors, owners
from .attempts import Attempts
from .audits import HERE, note
from .judging import Programs, fault
from .terms import Terms, terms

TAKEN, NOT_THEIRS, GONE, LARGE, FAULTY, MANY, SHUT, FULL = 200, 403, 404, 413, 422, 429, 403, 507
HOUR = 3600.0
HAND_IN = "hand in"
MEGABYTE = 1_000_000
CHECKS = 60
checks = Attempts(CHECKS)
With = ParamSpec("With")


@dataclass(frozen=True)
class Answer:
    """What is answered: a status of HTTP and words."""

    status: int
    words: str

    @property
    def is_taken(self) -> bool:
        return self.status == TAKEN


class Refused(Exception):
    """Why something isn't taken."""

    def __init__(self, status: int, words: str) -> None:
        super().__init__(words)
        self.answer = Answer(status, words)


def answering(does: Callable[With, Answer]) -> Callable[With, Answer]:
    """What answers also what it refuses, or what is at fault."""

    @functools.wraps(does)
    def answer(*words: With.args, **named: With.kwargs) -> Answer:
        try:
            return does(*words, **named)
        except Refused as why:
            return why.answer
        except Fault as why:
            return Answer(FAULTY, str(why))

    return answer


@answering
def hand_in(store: Store, who: Who, name: str, source: bytes, programs: Programs, address: str = HERE) -> Answer:
    """Takes a robot of an author, or says why not."""
    robot = id_of(name)
    refuse_size(store, source)
    if again := same(store, who, robot, source):
        return again
    allowed(store, who, robot)
    refuse_fault(store, source, programs, robot)
    with store.change():
        if again := same(store, who, robot, source):
            return again
        allowed(store, who, robot)
        return entered(store, who, robot, source, address)


@answering
def checked(store: Store, who: Who, name: str, source: bytes, programs: Programs) -> Answer:
    """What the compiler says of a source. So many are compiled for an author within a minute."""
    if checks.are_many(who.name):
        return Answer(MANY, "many sources were compiled for you within a minute: wait a while")
    checks.count(who.name)
    refuse_size(store, source)
    refuse_fault(store, source, programs, name or "robot")
    return Answer(TAKEN, "it compiles; it isn't handed in yet")


def id_of(name: str) -> str:
    """A robot's id: its name, if it can be one, else one made of it."""
    short = name.removesuffix(".r")
    robot = short if entries.ID.fullmatch(short) else naming.plain(short)[:naming.MOST]
    if not entries.ID.fullmatch(robot):
        raise Refused(FAULTY, "a robot's name has letters, digits, '-', '_' and '.', at most 40, and begins with a letter or a digit")
    return robot


def refuse_size(store: Store, source: bytes) -> None:
    """Refuses a source that is too large."""
    most = terms(store).size
    if len(source) > most:
        raise Refused(LARGE, f"the source has {len(source)} bytes, and {most} are taken")
    if not source:
        raise Refused(FAULTY, "the source is empty")


def refuse_fault(store: Store, source: bytes, programs: Programs, robot: str) -> None:
    """Refuses a source that doesn't compile, with the reason."""
    if why := fault(programs, seasons.season(store).rules.profile, source):
        raise Refused(FAULTY, why.replace("robot.r", f"{robot}.r"))


def allowed(store: Store, who: Who, robot: str) -> None:
    """Refuses what the terms don't allow to somebody now."""
    by = terms(store)
    if not who.is_organiser and (why := by.closed(today())):
        raise Refused(SHUT, why)
    refuse_season(store)
    refuse_full(store, by)
    refuse_owner(store, who, robot, by)
    refuse_often(store, who, by)
    refuse_much(store, who, by)


def refuse_season(store: Store) -> None:
    """Refuses everything while no season goes on, or the final does."""
    if (season := seasons.season(store)).ended:
        raise Refused(SHUT, f"the season {season.name} ended on {season.ended}, and the next one hasn't begun")
    if seeds.is_final(store, season):
        raise Refused(SHUT, "the final is being played, and nothing is taken any more")


def refuse_full(store: Store, by: Terms) -> None:
    """Refuses everything while the disk is nearly full."""
    if shutil.disk_usage(store.folder).free < by.floor * MEGABYTE:
        raise Refused(FULL, "there is too little room on the league's disk: ask the organiser")


def refuse_owner(store: Store, who: Who, robot: str, by: Terms) -> None:
    """Refuses the robot of somebody else, and one robot more than an author may have. Ids are told apart without regard to case."""
    there = {name.casefold(): name for name in naming.taken(store)}.get(robot.casefold())
    whose = owners(store)
    if who.is_organiser and there == robot or there in whose and whose[there] == who.number and there == robot:
        return
    if there:
        own = whose.get(there) == who.number
        raise Refused(NOT_THEIRS, f"your robot is called {there}" if own else f"there is a robot {there}, and it isn't yours: choose another name")
    if not who.is_organiser and sum(number == who.number for number in whose.values()) >= by.robots:
        raise Refused(MANY, f"you have {by.robots} robots, and an author has at most so many: hand in a new version of one")


def refuse_often(store: Store, who: Who, by: Terms) -> None:
    """Refuses one version more than an author may hand in within an hour."""
    many = done_of_late(store, who, HAND_IN)
    if not who.is_organiser and many >= by.versions:
        raise Refused(MANY, f"you handed in {many} versions within an hour, and at most {by.versions} are taken")


def refuse_much(store: Store, who: Who, by: Terms) -> None:
    """Refuses anything new of an author whose sources fill as much as an author's may."""
    many = int(store.one("SELECT coalesce(sum(length(bytes)), 0) FROM source WHERE sha256 IN "
                         "(SELECT sha256 FROM entry JOIN ladder_owner USING (robot) WHERE author = ?)", who.number)[0])
    if not who.is_organiser and many >= by.quota * MEGABYTE:
        raise Refused(FULL, f"your sources fill {by.quota} megabytes, and an author's fill at most so many: ask the organiser")


def done_of_late(store: Store, who: Who, what: str) -> int:
    """How often somebody did something within the last hour."""
    return int(store.one("SELECT count(*) FROM ladder_audit WHERE who = ? AND what = ? AND at > ?", who.name, what, time.time() - HOUR)[0])


def same(store: Store, who: Who, robot: str, source: bytes) -> Answer | None:
    """That a robot of somebody plays with these bytes already, if it does."""
    happened = [entry for entry in entries.entries(store) if entry.robot == robot]
    if not is_theirs(store, who, robot) or not happened or happened[-1].what == WITHDRAW or happened[-1].sha256 != entries.hashed(source):
        return None
    return Answer(TAKEN, f"taken: {robot}, version {count(happened)}")


def entered(store: Store, who: Who, robot: str, source: bytes, address: str) -> Answer:
    """Lets a robot join or change."""
    happened = [entry for entry in entries.entries(store) if entry.robot == robot]
    if happened:
        entries.change(store, robot, source, day_of(store))
    else:
        joined(store, who, robot, source)
    note(store, who.name, HAND_IN, robot, address)
    late = " (in the days of grace)" if terms(store).is_late() else ""
    return Answer(TAKEN, f"taken: {robot}, version {count(happened) + 1}{late}")


def joined(store: Store, who: Who, robot: str, source: bytes) -> None:
    """Lets a robot join. Its author is called by a number if names aren't shown: what is published says no name then."""
    shown = who.name if terms(store).names or who.is_organiser else f"author {who.number}"
    entries.add(store, robot, "" if who.is_organiser else shown, source, day_of(store))
    if who.number is not None:
        store.run("INSERT INTO ladder_owner VALUES (?, ?)", robot, who.number)


def day_of(store: Store) -> str:
    """Today, or the day of the last entry if a clock was wrong: one wrong day keeps nobody out."""
    return max(today(), entries.last_day(store))


def count(happened: list[Entry]) -> int:
    """How many versions a robot had."""
    return sum(entry.what in (ADD, CHANGE) for entry in happened)


def versions(store: Store, robot: str) -> list[Entry]:
    """The versions of a robot, the first one first."""
    return [entry for entry in entries.entries(store) if entry.robot == robot and entry.what != WITHDRAW]


def back(store: Store, who: Who, robot: str, number: int, programs: Programs, address: str = HERE) -> Answer:
    """Gives a robot the bytes of an older version."""
    if not is_theirs(store, who, robot):
        return Answer(NOT_THEIRS, f"{robot} is no robot of yours")
    found = versions(store, robot)
    if not 1 <= number <= len(found):
        return Answer(GONE, f"there is no version {number} of {robot}")
    source = entries.source(store, found[number - 1].sha256)
    return hand_in(store, who, robot, source, programs, address)


@answering
def withdraw(store: Store, who: Who, robot: str, address: str = HERE) -> Answer:
    """Lets a robot leave."""
    with store.change():
        refuse_season(store)
        if not is_theirs(store, who, robot):
            raise Refused(NOT_THEIRS, f"{robot} is no robot of yours")
        by = seasons.season(store).rules
        if robot in (by.anchor, by.champion):
            raise Refused(NOT_THEIRS, f"the rules name the robot {robot}, so it can't leave")
        entries.withdraw(store, robot, day_of(store))
        note(store, who.name, "withdraw", robot, address)
        return Answer(TAKEN, f"{robot} left; its matches are kept")


def is_theirs(store: Store, who: Who | None, robot: str) -> bool:
    """Whether somebody may see and change a robot."""
    if who is None:
        return False
    return who.is_organiser and robot in naming.taken(store) or who.number is not None and owners(store).get(robot) == who.number


def author_names(store: Store) -> dict[str, str]:
    """The names of the authors of robots."""
    names = {author.number: author.name for author in authors(store)}
    return {robot: names[number] for robot, number in owners(store).items()}
