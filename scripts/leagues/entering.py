"""The commands that say who plays and by which rules: init, rules, add, change, withdraw."""

import argparse
import os

from tools.faults import Fault, plain
from tools.output import show
from tournaments.programs import Program, program
from tournaments.robots import compiled, laid, private

from . import entries, naming, seasons
from .days import given_day, today
from .rules import Rules, played_by
from .store import Store, made, opened
from .words import ruled


def init(given: argparse.Namespace) -> None:
    """Makes a league with its first season."""
    by = played_by(ruled(Rules(), given), program(given.crobots))
    with made(given.league) as store, store.change():
        seasons.begin(store, given.season, given_day(given), by, {})
    show([f"{plain(given.league)} is a league now\n"])


def rules(given: argparse.Namespace) -> None:
    """Changes the rules of the season, if any are given, and says them."""
    with opened(given.league) as store, store.change():
        season = seasons.running(store)
        by = ruled(season.rules, given)
        if given.crobots:
            by = played_by(by, program(given.crobots))
        named(store, by)
        if by != season.rules:
            seasons.settle(store, season, by, today())
    show(f"{name}: {value}\n" for name, value in by.said())


def named(store: Store, by: Rules) -> None:
    """Refuses rules that name a robot that doesn't play."""
    playing = entries.playing(entries.entries(store))
    for robot in (by.anchor, by.champion):
        if robot and robot not in playing:
            raise Fault(f"the rules name the robot {robot}, which doesn't play")


def add(given: argparse.Namespace) -> None:
    """Lets robots join, all or none."""
    if given.id and len(given.robots) > 1:
        raise Fault("--id is for one robot")
    with opened(given.league) as store:
        ids = given_ids(store, given.robots, given.id)
        joining = [(robot, entries.read(path), path) for robot, path in zip(ids, given.robots)]
        checked(store, program(given.crobots), [(path, source) for _, source, path in joining])
        with store.change():
            for robot, source, path in joining:
                entries.add(store, robot, given.author, source, given_day(given))
                if not given.id and robot != named_after(path):
                    naming.keep(store, "", robot, named_after(path))
    show(f"{joined(robot, path, given.id)}\n" for robot, _, path in joining)


def named_after(path: str) -> str:
    """A robot's name by its file."""
    return os.path.basename(path).removesuffix(".r")


def given_ids(store: Store, paths: list[str], given: str | None) -> list[str]:
    """The ids of robots: those that are given, or their names, or ids made of these if they can't be ids."""
    if given:
        return [given]
    found: list[str] = []
    for name in map(named_after, paths):
        found.append(name if entries.ID.fullmatch(name) else naming.made(name, {*naming.taken(store), *found}))
    return found


def joined(robot: str, path: str, given: str | None) -> str:
    """Says that a robot joined, and by which id if its file has another name."""
    return f"{robot} joined" if given or robot == named_after(path) else f"{plain(named_after(path))} joined as {robot}"


def checked(store: Store, crobots: Program, sources: list[tuple[str, bytes]]) -> None:
    """Stops, with the program's own diagnostic, if a source has a fault by the season's profile."""
    profile = seasons.season(store).rules.profile
    for path, source in sources:
        with private() as folder:
            compiled(crobots, profile, [laid(path, source, folder)], folder)


def change(given: argparse.Namespace) -> None:
    """Gives a robot other bytes."""
    source = entries.read(given.robot)
    with opened(given.league) as store:
        checked(store, program(given.crobots), [(given.robot, source)])
        with store.change():
            entries.change(store, given.id, source, given_day(given))
    show([f"{given.id} changed\n"])


def withdraw(given: argparse.Namespace) -> None:
    """Lets robots leave."""
    with opened(given.league) as store, store.change():
        by = seasons.season(store).rules
        for robot in given.ids:
            if robot in (by.anchor, by.champion):
                raise Fault(f"the rules name the robot {robot}, so it can't leave; `rules` changes them")
            entries.withdraw(store, robot, given_day(given))
    show(f"{robot} left\n" for robot in given.ids)
