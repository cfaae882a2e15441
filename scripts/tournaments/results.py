"""What a tournament comes to: its matches added up, and the forms that are written of it."""

import argparse
import os
from functools import cached_property
from typing import Iterable, Sequence

from results.standings import Standing
from results.tallies import Tally
from sites.publishing import published
from sites.tournament_facts import facts_of_tournament, kept_sources
from tools.faults import Fault, writing
from tools.output import say, show, write
from tools.tables import comma_separated

from . import robots, tables
from .parts import parts
from .records import Record
from .robots import Robot
from .settings import SIZE_NAMES, Settings
from .spools import Spool
from .standings import Weighed, standings

WITH_MATCHES = {"long", "json"}
# How many new pages of matches a site gets if nothing else is said.
REPLAYS = 100


class Results:
    """The matches added up, and the records themselves if a form has each match."""

    def __init__(self, given: argparse.Namespace) -> None:
        self._given = given
        self._tally = Tally()
        forms = {given.form, *(form for form, _ in given.write)}
        self._spool = Spool() if forms & WITH_MATCHES or given.html else None
        self._sources: dict[str, bytes] = {}

    def add(self, record: Record) -> None:
        self._tally.add(record.series.seats, record.ended)
        if self._spool:
            self._spool.add(record)

    def keep_sources(self, among: list[Robot], folder: str = "") -> None:
        """Reads the robots' sources, from the folder of copies if there is one, if a site is to show them."""
        if self._given.html:
            self._sources = kept_sources(among, folder)

    def write(self, settings: Settings, among: list[Robot]) -> None:
        """Writes the form for standard output, after those for files. A file that can't be written keeps nothing from the rest."""
        forms = Forms(self._given, settings, among, self._tally, self._spool)
        self._tell_apart()
        faults: list[Fault] = []
        for form, path in self._given.write:
            try:
                write_file(path, forms.pieces(form))
            except Fault as why:
                faults.append(why)
        if self._given.html:
            try:
                forms.write_site(self._sources)
            except Fault as why:
                faults.append(why)
        show(forms.pieces(self._given.form))
        for fault in faults[:-1]:
            say(self._given.script, str(fault))
        for fault in faults[-1:]:
            raise fault

    def _tell_apart(self) -> None:
        """Says if there are robots whose ratings can't be compared."""
        many = len(parts((seats[0], other) for seats in self._tally.seatings for other in seats[1:]))
        if many > 1 and {self._given.form, *(form for form, _ in self._given.write)} - {"matrix", "long"}:
            say(self._given.script, f"the robots are in {many} parts that haven't met: ratings of different parts can't be compared")


class Forms:
    """The forms of a tournament; the table is made once for all of them."""

    def __init__(self, given: argparse.Namespace, settings: Settings, among: list[Robot], tally: Tally, spool: Spool | None) -> None:
        weights = dict(zip(SIZE_NAMES, given.by_size)) if given.by_size else None
        self._given = given
        self._scoring = Weighed(given.points[0], given.points[1], weights)
        self._settings = settings
        self._robots = among
        self._tally = tally
        self._spool = spool
        self._names = robots.names([robot.path for robot in among])

    @cached_property
    def _standings(self) -> list[Standing]:
        return standings(self._tally, self._names, self._scoring)

    def write_site(self, sources: dict[str, bytes]) -> None:
        """Writes the site, with these sources by their hashes."""
        given, replays = self._given, REPLAYS if self._given.replays is None else self._given.replays
        facts = facts_of_tournament(given.title or "Tournament", self._settings, self._scoring, self._robots, sources, self._standings,
                                    self._records(), given.page or "")
        published(facts, given.html, replays, given.jobs)

    def pieces(self, form: str) -> Iterable[str]:
        """A form, piece by piece."""
        if form == "long":
            return tables.long(self._records(), self._names)
        by_size = self._scoring.weights is not None
        if form == "csv":
            return [comma_separated(tables.rows(self._standings, by_size))]
        if form == "table":
            return [tables.table(self._standings, by_size)]
        faced = self._tally.faced()
        if form == "matrix":
            return [tables.matrix(self._standings, faced)]
        return tables.everything(self._settings, self._scoring, self._robots, self._standings, faced, self._records())

    def _records(self) -> Iterable[Record]:
        return self._spool.records() if self._spool else ()


def write_file(path: str, pieces: Iterable[str]) -> None:
    """Writes a text into a file."""
    with writing(path), open(path, "wb") as file:
        write(file.fileno(), pieces)


def check_files(given: Sequence[tuple[str, str]]) -> None:
    """Refuses files that can't be written, before anything is played."""
    for _, path in given:
        with writing(path):
            if not os.path.exists(path) or os.path.isfile(path) or os.path.isdir(path):
                os.close(os.open(path, os.O_WRONLY | os.O_CREAT | os.O_CLOEXEC, 0o666))
