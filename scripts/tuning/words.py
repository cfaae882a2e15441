"""The words of the command line."""

import argparse
import re
from fractions import Fraction

from tools.faults import Fault
from tournaments.words import Parser, common, fitting, settle, within

from . import outputs
from .marks import KNOW, Place, Range, ranged
from .opponents import BEST, NOBODY, League, Level

BUDGET, ROUND = 100_000, 160
PLACED = re.compile(r"([0-9]{1,9}):([0-9]{1,9})=([^/,]*)(?:/([^/,]*))?(?:,([^/,]*))?")
WEIGHT = re.compile(r"(.+)=([0-9]{1,6}(?:\.[0-9]{1,3})?)")
LEVEL = re.compile(r"([0-9]{1,3})(?:=([0-9]{1,6}(?:\.[0-9]{1,3})?))?")


def numbered(text: str) -> tuple[Place, Range]:
    """Reads LINE:COLUMN=LOW..HIGH/STEP,NAME, of which step and name may lack."""
    found = fitting(PLACED, text, "isn't LINE:COLUMN=LOW..HIGH, which /STEP and ,NAME may follow")
    line, column, bounds, step, name = found.groups()
    place = Place(int(line), int(column))
    try:
        return place, ranged(bounds, step, f"--number {place}", name)
    except Fault as why:
        raise argparse.ArgumentTypeError(str(why)) from why


def weighed(text: str) -> tuple[str, Fraction]:
    """Reads FILE=WEIGHT or FOLDER=WEIGHT."""
    found = fitting(WEIGHT, text, "isn't FILE=WEIGHT or FOLDER=WEIGHT")
    return found[1], Fraction(found[2])


def league(text: str) -> League:
    """Reads LEAGUE or LEAGUE=N."""
    if not text:
        raise argparse.ArgumentTypeError("an empty value")
    folder, equals, best = text.rpartition("=")
    return League(folder, within(1, 10_000)(best)) if equals and best.isdigit() else League(text, BEST)


def level(text: str) -> Level:
    """Reads N or N=WEIGHT."""
    found = fitting(LEVEL, text, "isn't N or N=WEIGHT")
    return Level(int(found[1]), Fraction(found[2] or 1))


def parser(name: str) -> Parser:
    """The words of `tune`, under the name by which it was called."""
    parser = common(name, "Says what the numbers of a robot are worth, by a sweep, or tunes them.", "matches with each opponent, rounded up to an even number")
    parser.add_argument("--sweep", action="store_true", help="play each value of one number, or of two, and print a table")
    parser.add_argument("--until", metavar="sure", choices=["sure"], help="with --sweep: double the matches of values that aren't surely worse, up to -m")
    parser.add_argument("--number", metavar="LINE:COLUMN=LOW..HIGH", type=numbered, action="append", default=[],
                    help="a number without a mark, and its range; /STEP may follow, and ,NAME; may be given often")
    parser.add_argument("--only", metavar="NAME", action="append", default=[], help="of the marked numbers take this one; may be given often")
    parser.add_argument("--league", metavar="LEAGUE", type=league, help="play against the best 10 robots of a league, too; of LEAGUE=N the best N")
    parser.add_argument("--level", metavar="N", type=level, action="append", default=[],
                    help="play against the sample robots of this level, too; of N=WEIGHT each weighs so much; may be given often")
    parser.add_argument("--weight", metavar="ROBOT=WEIGHT", type=weighed, action="append", default=[],
                    help="what an opponent, or each of a folder, weighs (default 1); may be given often")
    parser.add_argument("--against-itself", action="store_true", help="tune against its own versions, too")
    parser.add_argument("--judge", metavar="ROBOT", action="append", default=[], help="judge against this robot or folder instead; may be given often")
    parser.add_argument("--by-opponent", action="store_true", help="print what each value is worth against each opponent, too")
    parser.add_argument("--budget", metavar="MATCHES", type=within(1, 1_000_000_000), help=f"matches of the search (default {BUDGET})")
    parser.add_argument("--minutes", metavar="MINUTES", type=within(1, 100_000), help="end the search after this time, too")
    parser.add_argument("--round", metavar="MATCHES", type=within(2, 1_000_000), help=f"matches of each trial of the search (default {ROUND})")
    parser.add_argument("--plan", metavar="FOLDER", help="with --sweep: put the variants into this folder, print the command lines, and play nothing")
    parser.add_forms(csv="comma-separated values", json="JSON")
    parser.add_argument("-o", dest="output", metavar="FILE", help="write the tuned robot into this file; with --sweep a picture, as SVG")
    parser.add_argument("--know", metavar="PROGRAM", help=f"the program that finds numbers (default: {KNOW} on the path, or the one installed or built with this script)")
    parser.add_argument("robot", metavar="ROBOT", help="the robot; a comment as /* tune 100..900 */ behind a number marks it")
    parser.add_argument("field", metavar="OPPONENT", nargs="*", help="robots to play against, and folders with robots")
    return parser


def check(given: argparse.Namespace) -> None:
    """Refuses words that don't go with each other, and fills in those that weren't given."""
    search = {"--budget": given.budget, "--minutes": given.minutes, "--round": given.round, "--judge": given.judge, "--against-itself": given.against_itself}
    of_sweeps = {"--until": given.until, "--plan": given.plan}
    alien = [name for name, value in (search if given.sweep else of_sweeps).items() if value]
    if alien:
        raise Fault(f"{alien[0]} goes with{'out' if given.sweep else ''} --sweep")
    if given.plan and (given.until or given.journal or given.output):
        raise Fault("--plan plays nothing, so it takes no --until, no --journal and no -o")
    if not given.field and not given.league and not given.level:
        raise Fault(NOBODY)
    if given.output:
        outputs.check(given.output, given.sweep, [given.robot, *given.field, *given.judge], given.journal)
    given.budget = given.budget or BUDGET
    given.round = given.round or ROUND
    given.has_matches = given.matches is not None
    settle(given)
