"""The player of a ladder: a process that plays what is missing in slices of a second, and keeps the live table.

What was played is kept in batches: a match that is lost by a kill is played again, and comes out the same."""

import os
import shlex
import time
from contextlib import closing
from dataclasses import dataclass, field
from typing import Callable, Iterator

from leagues import seasons
from leagues.days import today
from leagues.locks import alone
from leagues.results import Results, keep, seated
from leagues.rules import LADDER
from leagues.schedules import Schedule
from leagues.scores import ByRobot, points, scores, total
from leagues.sessions import checked
from leagues.sources import laid
from leagues.standings import placed, standings
from leagues.store import Store, opened
from results.battles import Group
from results.scores import NONE, counted
from results.standings import NOTHING, Standing
from tools.faults import Fault
from tools.output import replaced, say
from tournaments.playing import Player
from tournaments.plans import Plan
from tournaments.programs import Program, program, stamp
from tournaments.records import Record, Series
from tournaments.robots import Robot

from . import schema
from .handing import author_names
from .live import Fought, Live, folder_of, write
from .passes import in_turns

SLICE, BATCH, REST, RATED = 1.0, 0.2, 0.5, 60.0
LAST = 6
# The limits of each program that plays: seconds of the processor, and KiB of memory. It can write no file.
SECONDS, MEMORY = 900, 1 << 21


@dataclass
class Board:
    """The season as it is being played: its schedule, what was scored, what is left of the pass, and the last ratings."""

    schedule: Schedule
    mark: tuple[object, ...]
    parts: dict[Group, ByRobot]
    left: list[Series] = field(default_factory=list)
    rated: dict[str, Standing] = field(default_factory=dict)
    at: float = 0.0
    last: tuple[Fought, ...] = ()


def limited(found: Program, league: str) -> Program:
    """The program behind a script that limits it. It has the hash of the program itself, which is looked at before each slice."""
    os.makedirs(folder_of(league), exist_ok=True)
    path = os.path.join(folder_of(league), "limited")
    limits = f"ulimit -t {SECONDS}; ulimit -v {MEMORY}; ulimit -f 0; ulimit -c 0"
    replaced(path, f'#!/bin/sh\n{limits}\nexec {shlex.quote(os.path.abspath(found.path))} "$@"\n'.encode())
    os.chmod(path, 0o755)
    return Program(os.path.abspath(path), found.sha256, stamp(path))


def run(name: str, league: str, crobots: str | None, jobs: int, glance: Callable[[], None]) -> None:
    """Plays until it is told to end, by what `glance` raises."""
    found = program(crobots)
    with opened(league) as store, alone(league):
        schema.ready(store)
        player = LadderPlayer(store, found, jobs, glance)
        while True:
            try:
                player.step()
            except Fault as why:
                say(name, str(why))
                rest(REST * 10, glance)


def rest(seconds: float, glance: Callable[[], None]) -> None:
    """Waits, and glances meanwhile."""
    until = time.monotonic() + seconds
    while (left := until - time.monotonic()) > 0:
        glance()
        time.sleep(min(left, 0.1))


class LadderPlayer:
    """Plays a league's season in slices."""

    def __init__(self, store: Store, found: Program, jobs: int, glance: Callable[[], None]) -> None:
        self._store, self._found, self._jobs, self._glance = store, found, jobs, glance
        self._limited = limited(found, store.folder)
        self._board: Board | None = None

    def step(self) -> None:
        """Plays a slice, if anything is missing, and shows the table."""
        self._glance()
        board = self._now()
        played = self._slice(board) if board.left else 0
        if not board.left or time.monotonic() - board.at > RATED:
            self._rate(board, again=bool(played))
        write(self._store.folder, self._shown(board))
        if not played:
            rest(REST, self._glance)

    def _now(self) -> Board:
        """The board, made anew if anything was entered meanwhile or its pass is over."""
        board = self._board
        if board is None or board.mark != mark(self._store):
            board = self._board = self._begun(board)
        return board

    def _begun(self, before: Board | None) -> Board:
        season = seasons.season(self._store)
        now = mark(self._store)
        schedule = Schedule(seasons.field(self._store, season))
        laid(self._store, {entrant.sha256 for entrant in schedule.field.robots})
        results = Results(self._store, season.rules)
        rated = before.rated if before else {}
        board = Board(schedule, now, scores(schedule, results), rated=rated, last=before.last if before else ())
        if not season.ended:
            checked(season, self._found)
            board.left = self._passed(board, results)
        return board

    def _passed(self, board: Board, results: Results) -> list[Series]:
        """The series of the next pass, the first one last."""
        worth = dict(enumerate(map(float, points(board.parts, len(board.schedule.keys), board.schedule.field.rules))))
        return in_turns(board.schedule, results, worth, author_names(self._store))[::-1]

    def _slice(self, board: Board) -> int:
        """Plays for a second; answers how many series that were."""
        self._found.check()
        until, begun, batch, many = time.monotonic() + SLICE, time.monotonic(), [], 0
        with closing(Player(self._limited, self._jobs, os.path.join(os.path.abspath(self._store.folder), "sources")).play(
                records(board, until), self._glance)) as ended:
            for record in ended:
                batch.append(record)
                if time.monotonic() - begun > BATCH:
                    many, begun = many + self._keep(board, batch), time.monotonic()
                    batch = []
        return many + self._keep(board, batch)

    def _keep(self, board: Board, batch: list[Record]) -> int:
        """Keeps what was played, in one transaction, and counts it; nothing once the season has ended, whose table is made then."""
        season, rules = board.schedule.field.season, board.schedule.field.rules
        if batch:
            with self._store.change():
                if seasons.has_ended(self._store, season):
                    return 0
                for record in batch:
                    where = seated([robot.sha256 for robot in record.robots], record.series.seed)
                    keep(self._store, rules, where, record.series.first, record.results, today())
        for record in batch:
            count(board.parts, record)
        board.last = (*(fought(board, record) for record in batch[-LAST:]), *board.last)[:LAST]
        return len(batch)

    def _rate(self, board: Board, again: bool) -> None:
        """Works out ratings, and begins the next pass if this one is over."""
        if again or not board.rated or board.at == 0.0:
            results = Results(self._store, board.schedule.field.rules)
            board.rated = {standing.robot: standing for standing in standings(board.schedule, results)}
            board.at = time.monotonic()
            self._rank([*board.rated.values()])
            if not board.left and not board.schedule.field.season.ended:
                board.left = self._passed(board, results)

    def _rank(self, rows: list[Standing]) -> None:
        """Keeps where each robot is today."""
        with self._store.change():
            self._store.database.executemany("INSERT OR REPLACE INTO ladder_rank VALUES (?, ?, ?)", [(row.robot, today(), row.rank) for row in rows])

    def _shown(self, board: Board) -> Live:
        """The table as it is now."""
        played = int(self._store.one("SELECT count(*) FROM battle")[0])
        return Live(board.schedule.field.season.name, played, sum(series.matches for series in board.left), tuple(rows(board)), board.last)


def mark(store: Store) -> tuple[object, ...]:
    """What changes if anything is entered that the schedule depends on."""
    return tuple(store.one(f"SELECT count(*) FROM {table}")[0] for table in ("entry", "correction", "season", "ruling", "ending", "removal"))


def records(board: Board, until: float) -> Iterator[Record]:
    """Records to be played, until it is that late."""
    plan = Plan(board.schedule.settings, [Robot(entrant.sha256, entrant.sha256) for entrant in board.schedule.field.robots], 1)
    while board.left and time.monotonic() < until:
        series = board.left.pop()
        yield plan.record(series)


def count(parts: dict[Group, ByRobot], record: Record) -> None:
    """Adds a series to what was scored."""
    of_group = parts.setdefault(record.series.group, {at: NONE for at in record.series.group})
    for letters in record.ended:
        for robot, letter in zip(record.series.seats, letters):
            of_group[robot] = of_group[robot].plus(counted({letter: 1}))


def fought(board: Board, record: Record) -> Fought:
    """The first match of a series, as pages name it."""
    hashes, seed = seated([robot.sha256 for robot in record.robots], record.series.seed)
    return Fought(hashes, seed, record.series.first, tuple(board.schedule.field.robots[at].robot for at in record.series.seats))


def rows(board: Board) -> list[Standing]:
    """The rows of the live table: with the ratings that were worked out last, if they are of the same bytes. A ladder has its rungs."""
    there, rules = board.schedule.field, board.schedule.field.rules
    parts = {group: part for group, part in board.parts.items() if board.schedule.is_of_a_division(group)}
    known = [board.rated.get(robot.robot) for robot in there.robots]
    ratings = [row.rating if row and row.sha256 == robot.sha256 else NOTHING for row, robot in zip(known, there.robots)]
    rungs = {at: row.rank for at, row in enumerate(known) if row} if rules.mode == LADDER else {}
    return placed(there, total(parts, len(there.robots)), points(parts, len(there.robots), rules), ratings, rungs)
