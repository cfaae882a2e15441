"""The script `tune`: reads a robot, sweeps or tunes its numbers, and says what they are worth."""

import argparse
import os
import shlex
import shutil
import sys
from functools import partial
from pathlib import Path
from typing import Iterable, Sequence

from tools.faults import Fault
from tools.output import say, show
from tools.signals import Stopped, stopping
from tournaments import plans, programs, robots
from tournaments.journals import Journal, journal
from tournaments.seats import rounded
from tournaments.sessions import tell_rounded
from tournaments.settings import Settings
from tournaments.versions import CHALLENGER

from . import judging, outputs, pictures, sweeps, tables, words
from .far import Far
from .games import Games, Starts, Stretch, matches_of, readable
from .marks import Number, but_numbers, changed, constants, numbers, tokens
from .opponents import NOBODY, Itself, Opponent, copies, opponents, without
from .scoring import Scores
from .searching import Search

# How many numbers a sweep may have.
SWEPT = 2


def chosen(given: argparse.Namespace, found: list[Number], there: str) -> list[Number]:
    """The numbers that are meant. If there is none, it says which constants are there."""
    names = [number.name for number in found]
    strange = [name for name in given.only if name not in names]
    if strange:
        raise Fault(f"{given.robot} has no number {strange[0]}; it has {', '.join(names) or 'none'}")
    them = [number for number in found if not given.only or number.name in given.only]
    if not them:
        raise Fault(f"{given.robot} has no marked number; a mark is a comment as /* tune 100..900 */ behind it, or --number gives one by its place: {there}")
    if given.sweep and len(them) > SWEPT:
        raise Fault(f"a sweep is of one number, or of two, and {given.robot} has {len(them)}; --only NAME chooses")
    return them


def prepared(given: argparse.Namespace, folder: str, kept: Journal, program: programs.Program) -> Games:
    """All that is needed to play: the robot, its numbers, its opponents, and those of the judgement. All compile."""
    robot, = robots.copied([given.robot], folder)
    others = opponents(given.field, given.league, given.weight, folder, given.level)
    robots.compiled(program, given.profile, [robot, *(opponent.robot for opponent in others)], folder)
    place = os.path.join(folder, robot.sha256)
    source = Path(place).read_bytes()
    seen = tokens(place, given.robot, source, given.profile, given.know)
    found = numbers(source, seen, given.robot, given.number)
    itself = Itself(robot.sha256, but_numbers(source, found))
    others = met(given, others, itself, folder)
    settings = Settings(words_matches(given), given.cycles, given.seed, given.profile, program.sha256, 2, (2,))
    scores = Scores(dict(zip("wtl", map(float, (*given.points, 0)))))
    return Games(given, program, folder, readable(given.robot), source, chosen(given, found, constants(source, seen)), others, settings, kept, scores,
                 Far(0, given.quiet, given.script), judges(given, others, itself, program, folder))


def words_matches(given: argparse.Namespace) -> int:
    """The most matches that a seating can have, as records have it."""
    most: int = given.matches if given.sweep else max(given.matches, 2 * given.budget)
    return rounded(most, 2)


def met(given: argparse.Namespace, found: Sequence[Opponent], itself: Itself, folder: str) -> list[Opponent]:
    """The opponents but the robot itself; says so. There has to be one."""
    others, left_out = without(found, itself, folder)
    if left_out:
        say(given.script, f"left out: {', '.join(left_out)} ({given.robot} itself, or a copy with other numbers or comments)")
    if named := copies(others, itself, folder):
        say(given.script, f"played, as the words name it: {', '.join(named)} (a copy of {given.robot} with other numbers or comments)")
    if not others:
        raise Fault(NOBODY)
    return others


def judges(given: argparse.Namespace, others: Sequence[Opponent], itself: Itself, program: programs.Program, folder: str) -> Sequence[Opponent]:
    """The robots of --judge without the robot itself, or those of the search if there are none. They compile."""
    if not given.judge:
        return others
    found = met(given, opponents(given.judge, None, [], folder), itself, folder)
    robots.compiled(program, given.profile, [opponent.robot for opponent in found], folder)
    return found


def sweep(games: Games) -> None:
    """Plays a sweep, and writes its table and its picture."""
    given = games.given
    rows = sweeps.sweep(games, Starts(given.seed, CHALLENGER), rounded(given.matches, 2) // 2, given.until == "sure")
    games.progress.clear()
    words = [*sweeps.said(rows, games), *limited(games), tables.legend(games, rows, "sweeps")] if given.form == "table" else []
    picture = pictures.picture(games, rows).encode("utf-8") if given.output else None
    outputs.answer([tables.of_sweep(games, rows, given.form), *words], given.output, picture)


def limited(games: Games) -> list[str]:
    """A warning, if most matches were ties: then they say little."""
    ties, matches, cycles = games.scores.ties, games.scores.matches, games.given.cycles
    return [f"{ties} of {matches} matches were tied: with a limit above {cycles} cycles (-l) they may say more\n"] if 2 * ties > matches else []


def plan(games: Games, program: programs.Program) -> None:
    """Prints the command lines of a sweep."""
    given = games.given
    planned = games.plan(sweeps.swept(games), Starts(given.seed, CHALLENGER), Stretch(1, rounded(given.matches, 2) // 2), games.opponents)
    most = min(planned.most, plans.one_write(planned.settings, planned.robots))
    files = [robot if os.path.exists(robot.path) else robot.__class__(os.path.join(games.folder, robot.sha256), robot.sha256) for robot in planned.robots]
    show(plans.lines(plans.Plan(planned.settings, files, most, planned.only), program.path))


def is_known(games: Games) -> bool:
    """Whether the judgement meets nobody that the search hasn't met, and the search nobody else."""
    searched, judging_ones = ({opponent.robot.sha256 for opponent in them} for them in (games.opponents, games.judges))
    return judging_ones <= searched and not games.given.against_itself


def tune(games: Games) -> None:
    """Searches, judges what was found, and writes it if it is surely better."""
    given = games.given
    if is_known(games):
        say(given.script, "the tuned robot is judged against the robots that it was tuned against; --judge names others")
    if not given.has_matches:
        given.matches = max(given.matches, judging.matches_of_budget(given.budget, len(games.judges)))
    each = rounded(given.matches, 2) // 2
    most = matches_of(Stretch(1, each), 2, len(games.weights(games.judges)))
    games.progress.begin("search", given.budget, most, 60 * given.minutes if given.minutes else None, is_most=True)
    values = Search(games).run()
    games.opponents = games.judges
    games.progress.begin("judgement", most, is_most=True)
    judged = judging.judge(games, values, each)
    games.progress.clear()
    tuned = changed(games.source, games.numbers, judged.tuned.values) if judged.is_better else None
    outputs.answer([tables.of_tuning(games, judged, given.form), *([*judging.said(games, judged), *limited(games)] if given.form == "table" else ())], given.output, tuned)
    show(written(given.output, judged.is_better) if given.form == "table" else ())


def written(output: str | None, is_better: bool) -> list[str]:
    """What has become of the file."""
    if output:
        return [f"{output} is written\n" if is_better else f"{output} isn't written\n"]
    return ["with -o FILE the robot is written with these numbers\n"] if is_better else []


def goes_on(given: argparse.Namespace, words: Sequence[str]) -> str:
    """What becomes of the matches that were played, if it is stopped."""
    if not given.journal:
        return "nothing of it is kept; with --journal FILE the same command goes on where it was stopped"
    is_found = os.path.realpath(shutil.which(given.script) or "") == os.path.realpath(sys.argv[0])
    return f"{given.journal} has what was played, and this goes on from there: {shlex.join([given.script if is_found else sys.argv[0], *words])}"


def tell_journal(given: argparse.Namespace) -> None:
    """Says what a journal is for: a kill leaves no time to say so."""
    if given.journal and not given.quiet:
        has_some = os.path.getsize(given.journal) > 0
        say(given.script, f"{given.journal} has what was played before, and this goes on from there" if has_some else
            f"{given.journal} keeps what is played: if this is stopped or killed, the same command goes on from there")


def script(name: str, arguments: Iterable[str]) -> None:
    """Does what the words ask for."""
    words_given = [*arguments]
    given = words.parser(name).read(words_given)
    words.check(given)
    program = programs.program(given.crobots)
    if given.plan:
        os.makedirs(given.plan, exist_ok=True)
        plan(prepared(given, given.plan, Journal(), program), program)
        return
    tell_rounded(given, (2,))
    settings = Settings(given.matches, given.cycles, given.seed, given.profile, program.sha256, 2, (2,))
    then = goes_on(given, words_given)
    with stopping("stopped while no series was played" + (f"; {then}" if given.journal else "")), robots.private() as folder, \
            journal(given.journal, settings, partial(say, name)) as kept:
        tell_journal(given)
        games = prepared(given, folder, kept, program)
        try:
            (sweep if given.sweep else tune)(games)
        except Stopped as why:
            raise Stopped(why.number, f"stopped after {games.progress.counted}; {then}") from why
        finally:
            games.progress.clear()
