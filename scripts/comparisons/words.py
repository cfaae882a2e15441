"""The words of the command line."""

import argparse
from typing import NoReturn

from tools.faults import Fault
from tools.rules import FIRST_DEFAULT, MOST_FIRST, MOST_ROBOTS, SEED_DEFAULT
from tournaments.words import Parser, of_match, settle, within


class MatchParser(Parser):
    """A parser of words that choose one match. Who asks for a number of matches is told how one is chosen."""

    def error(self, message: str) -> NoReturn:
        super().error(f"{message} (the match is -k)" if message.startswith("unrecognized arguments: -m") else message)


def parser(name: str) -> Parser:
    """The words of `compare`, under the name by which it was called."""
    parser = MatchParser(prog=name, description="Plays a match once with a robot and once with its older version, "
                                                "and shows where they first do something else.", allow_abbrev=False)
    parser.add_version()
    parser.add_argument("--old", metavar="OLD", required=True, help="the older version")
    parser.add_argument("--json", action="store_true", help="print the answer as JSON")
    parser.add_argument("--robot", metavar="N", type=within(1, MOST_ROBOTS), default=1, help="number of the newer version among the files (default 1)")
    parser.add_argument("-k", "-f", dest="match", metavar="MATCH", type=within(1, MOST_FIRST), default=FIRST_DEFAULT, help=f"number of the match (default {FIRST_DEFAULT})")
    of_match(parser, "most cycles of the match", f"seed of the random numbers (default {SEED_DEFAULT})")
    parser.add_argument("files", metavar="FILE", nargs="+", help="the robots of the match, the newer version among them")
    return parser


def read(name: str, arguments: list[str]) -> argparse.Namespace:
    """What the words ask for; refuses a match that isn't one of the newer version and others."""
    given = parser(name).read(arguments)
    settle(given)
    if len(given.files) == 1:
        raise Fault("there is no robot to play against")
    if given.robot > len(given.files):
        raise Fault(f"--robot {given.robot}: there are only {len(given.files)} robots")
    if len(given.files) > MOST_ROBOTS:
        raise Fault("over four files")
    return given
