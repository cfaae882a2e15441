"""A session: plays what the journal doesn't have, says how far it is, and ends when a signal asks for it."""

import argparse
from contextlib import closing, contextmanager
from functools import partial
from typing import Callable, Iterable, Iterator

from tools.output import say
from tools.signals import Stopped, stopping, watch

from .journals import Journal, journal
from .plans import Plan
from .playing import Player
from .progress import Progress
from .records import Record
from .seats import rounded
from .settings import SIZE_NAMES

Adds = Callable[[Record], None]


def session(given: argparse.Namespace, player: Player, plan: Plan, add: Adds) -> str:
    """Adds all series of a plan, those that the journal has and those that it plays; answers what it has done, in words."""

    kept_there = f"; {given.journal} has what was played" if given.journal else ""
    with stopping(f"stopped while no series was played{kept_there}"), journal(given.journal, plan.settings, partial(say, given.script)) as kept:
        series = sum(not there for there, _ in plan.resumed(kept)) if given.journal else plan.count()
        progress = Progress(series, given.quiet, given.script)
        try:
            play(player, missing(plan, kept, add), kept, add, progress)
        except Stopped as why:
            raise Stopped(why.number, f"stopped: {done(progress)}{kept_there}") from why
        finally:
            progress.clear()
    return f"{done(progress)}{kept_there}"


def done(progress: Progress) -> str:
    return f"{progress.done} of {progress.series} series were played, {progress.matches} matches"


def missing(plan: Plan, kept: Journal, add: Adds) -> Iterator[Record]:
    """The series that are to be played; adds what the journal has."""
    for there, record in plan.resumed(kept):
        if there:
            add(record)
        else:
            yield record


def play(player: Player, left: Iterator[Record], kept: Journal, add: Adds, progress: Progress) -> None:
    """Plays these series, or as many as a signal allows."""
    with played_series(player, left, progress) as ended:
        for record in ended:
            kept.add(record)
            add(record)


@contextmanager
def played_series(player: Player, left: Iterable[Record], progress: Progress) -> Iterator[Iterator[Record]]:
    """The records of series as they end, until a signal asks for the end. Each is counted when it is dealt with."""

    def glance() -> None:
        stop.check()
        progress.glance()

    def counted() -> Iterator[Record]:
        for record in ended:
            yield record
            progress.count(record.series.matches)

    with watch() as stop, closing(player.play(left, glance)) as ended:
        yield counted()


def tell_rounded(given: argparse.Namespace, sizes: tuple[int, ...]) -> None:
    """Says which matches of a group are more than were asked for."""
    more = {size: rounded(given.matches, size) for size in sizes if given.matches % size}
    if more:
        said = ", ".join(f"{many} of {SIZE_NAMES[size]}" for size, many in more.items())
        say(given.script, f"-m{given.matches} is rounded up to {said}: each seating is played equally often")
