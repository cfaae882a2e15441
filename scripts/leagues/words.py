"""The words of the command lines."""

import argparse
import os
from dataclasses import replace
from typing import Any, Callable, Iterable
from urllib.parse import urlsplit

from sites.addresses import page as address
from tools.faults import Fault
from tools.rules import MOST_MATCHES, SEED_DEFAULT
from tournaments.words import Parser, decimals, fitting, of_match, within

from .days import day
from .entries import BEGIN, END, ENTRY, ID
from .rules import FOURS, GAUNTLET, LADDER, PAIRS, SIZES, THREES, Rules

MODE = rf"({PAIRS}|{THREES}|{FOURS}|{LADDER})|({SIZES}):(.*)|({GAUNTLET}):({ID.pattern})"
ANCHOR = rf"({ID.pattern})=(-?[0-9]{{1,4}})"
MODES = "pairs, threes, fours, sizes:A,B,C, ladder, gauntlet:ROBOT"
ALL, SURE, AUTHOR = "all", "sure", "author"
SHOWN, HIDDEN = "shown", "hidden"
DIVISIONS_MAX = 100
CORRECTED = (ENTRY, BEGIN, END)
TEXT_MAX = 200
# What adds words to those that a command takes.
Takes = Callable[[argparse._ActionsContainer], object]


def mode(text: str) -> dict[str, Any]:
    """Reads who plays whom."""
    found = fitting(MODE, text, f"is none of {MODES}")
    if found[2]:
        weights = decimals(3)(found[3])
        if not any(weights):
            raise argparse.ArgumentTypeError("of sizes one at least has a weight")
        return {"mode": SIZES, "weights": tuple(map(str, weights)), "champion": ""}
    return {"mode": found[1] or found[4], "weights": (), "champion": found[5] or ""}


def anchor(text: str) -> dict[str, Any]:
    """Reads which robot has which rating for ever."""
    if text == "none":
        return {"anchor": "", "anchored": 0}
    found = fitting(ANCHOR, text, "is no ROBOT=RATING")
    return {"anchor": found[1], "anchored": int(found[2])}


def points(text: str) -> dict[str, Any]:
    """Reads what counts."""
    win, tie = decimals(2)(text)
    return {"win": str(win), "tie": str(tie)}


def of_rules(parser: argparse._ActionsContainer) -> None:
    """The words by which a season's rules are given."""
    rules = parser.add_argument_group("rules")
    one = rules.add_argument
    one("--mode", metavar="MODE", type=mode, help=f"who plays whom: {MODES} (default pairs)")
    one("-m", dest="matches", metavar="MATCHES", type=within(1, MOST_MATCHES),
        help="matches of each group (default 100)")
    of_match(rules, seed=f"seed (default {SEED_DEFAULT}; each season has the next one)")
    one("--points", metavar="WIN,TIE", type=points, help="what a win and a tie count (default 3,1)")
    one("--sample", metavar="N", type=within(0, 10_000_000),
        help="play only N groups, drawn by their robots; 0 for all (default 0)")
    one("--until", metavar="all|sure", choices=(ALL, SURE),
        help="play all matches of a pair, or until its result is sure (default all)")
    one("--sources", metavar="shown|hidden", choices=(SHOWN, HIDDEN),
        help="show sources, or those of new robots only when the season has ended (default shown)")
    one("--anchor", metavar="ROBOT=RATING", type=anchor, help="the robot with a fixed rating, or none (default none)")
    PROGRAM(rules)


def ruled(before: Rules, given: argparse.Namespace) -> Rules:
    """The rules with what was given changed."""
    changes: dict[str, Any] = {name: value for name in ("matches", "cycles", "seed", "profile", "sample")
                               if (value := getattr(given, name)) is not None}
    for name in ("mode", "points", "anchor"):
        changes |= getattr(given, name) or {}
    if given.until is not None:
        changes["sure"] = given.until == SURE
    if given.sources is not None:
        changes["hidden"] = given.sources == HIDDEN
    return checked(replace(before, **changes))


def checked(rules: Rules) -> Rules:
    """Refuses rules that don't go with each other."""
    if rules.sample and (rules.mode not in (PAIRS, THREES, FOURS)):
        raise Fault("a sample is one of pairs, threes or fours")
    if rules.sure and rules.sizes != (2,):
        raise Fault("only pairs are played until they are sure")
    if rules.divisions > 1 and rules.mode in (LADDER, GAUNTLET):
        raise Fault(f"a {rules.mode} has no divisions")
    return rules


def text(said: str) -> str:
    """Reads a short text that can be shown."""
    if not said.isprintable() or not 1 <= len(said) <= TEXT_MAX or any("\ud800" <= letter <= "\udfff" for letter in said):
        raise argparse.ArgumentTypeError(f"{said!r} isn't a text of 1 to {TEXT_MAX} letters that can be shown")
    return said


def outside(said: str) -> str:
    """Reads the address of a ladder, which may have a path."""
    parts = urlsplit(text(said))
    if parts.scheme not in ("http", "https") or not parts.hostname or parts.query or parts.fragment or parts.username:
        raise argparse.ArgumentTypeError(f"{said!r} is no address as https://host/path")
    return said.rstrip("/")


def word(*names: str, **how: Any) -> Takes:
    """A word of a command line, as argparse has it."""
    return lambda parser: parser.add_argument(*names, **how)


def either(*takes: Takes) -> Takes:
    """Words of which one at most is given."""
    def take(parser: argparse._ActionsContainer) -> None:
        group = parser.add_mutually_exclusive_group()
        for one in takes:
            one(group)
    return take


SEASON = word("--season", metavar="NAME", help="the season (default: the last one)")
DAY = (word("--day", metavar="YYYY-MM-DD", type=day, help="the day that is written down (default: today)"),
       word("--future", action="store_true", help="take a day that is in the future"))
REASON = (word("--why", metavar="TEXT", type=text, required=True, help="the reason, which stays in the history"), *DAY)
JOBS = word("-j", dest="jobs", metavar="JOBS", type=within(1, 1024), default=os.cpu_count() or 1,
            help="programs at a time (default: the processors)")
PROGRAM = word("--crobots", metavar="PROGRAM",
               help="the program (default: crobots on the path, or the one installed or built with this script)")
PLAYING = (JOBS, word("--quiet", action="store_true", help="don't say how far it is"), PROGRAM)
AN_ID = word("--id", metavar="ID", help="the robot's id (default: the file's name without .r)")
# The numbers among the terms of an open ladder.
TERMS = {
    "robots": (1000, "most robots of an author (default 3)"),
    "versions": (10_000, "most versions that an author hands in within an hour (default 20)"),
    "size": (65_536, "most bytes of a source (default 65536)"),
    "grace": (366, "days of grace after the last day (default 0)"),
    "trials": (10_000, "how many trials against robots of others an author may have within an hour (default 0)"),
    "sign-up": (100_000, "how many authors there may be until nobody can sign up any more (default 0)"),
    "floor": (1_000_000, "megabytes of the disk that stay free (default 100)"),
    "quota": (1_000_000, "megabytes that the sources of an author may fill (default 20)"),
}
# The commands: what each does, and the words that it takes.
COMMANDS: dict[str, tuple[str, tuple[Takes, ...]]] = {
    "init": ("makes a league", (
        word("--season", metavar="NAME", default="1", help="the name of its first season (default 1)"), of_rules, *DAY)),
    "rules": ("says the rules of the season, and changes those that are given", (of_rules,)),
    "add": ("lets robots join", (
        AN_ID, word("--author", metavar="NAME", default="", help="who wrote them"), PROGRAM, *DAY,
        word("robots", metavar="ROBOT", nargs="+", help="source files"))),
    "take-in": ("takes robots from a folder that has a folder for each author", (
        word("--authors", metavar="FILE", help="a table of comma-separated values, folder and author (default: the folders' names)"),
        word("--all-or-none", action="store_true", help="take nothing if any file is faulty"), PROGRAM, *DAY,
        word("folder", metavar="FOLDER", help="the folder with the authors' folders"))),
    "change": ("gives a robot other bytes", (
        word("id", metavar="ID", help="the robot's id"), word("robot", metavar="ROBOT", help="its source file"), PROGRAM, *DAY)),
    "withdraw": ("lets robots leave; their matches are kept", (
        word("ids", metavar="ID", nargs="+", help="robots' ids"), *DAY)),
    "correct": ("takes the latest entry back, or gives it or the season another day", (
        word("what", metavar="entry|begin|end", choices=CORRECTED, help="what is put right"),
        word("--to", metavar="YYYY-MM-DD", type=day, help="the right day"), word("--undo", action="store_true", help="take it back"),
        word("--last", metavar="N", type=within(1, 10_000), default=1, help="the latest N entries (default 1)"), *REASON)),
    "play": ("plays what is missing", (
        *PLAYING,
        word("--piece", metavar="MATCHES", type=within(1, MOST_MATCHES),
             help="most matches of one series (default: so that all processors are busy)"),
        word("--plan", action="store_true", help="print what is missing as command lines, and play nothing"),
        word("--chunk", metavar="N", type=within(1, 10_000), default=1, help="with --plan: at most N series a line (default 1)"), *DAY)),
    "take": ("takes what the command lines of a plan wrote", (
        word("files", metavar="FILE", nargs="*", help="what they wrote (default: standard input)"),
        word("--worker", metavar="NAME", type=text, help="from where it comes (default: the file's name)"),
        either(word("--check", action="store_true", help="play all of it again before it is taken (default: a part)"),
               word("--unchecked", action="store_true", help="play nothing of it again")), JOBS, PROGRAM, *DAY)),
    "drop": ("takes matches of the season back, which are played again", (
        word("--worker", metavar="NAME", help="those that were taken from there"),
        word("--played", metavar="YYYY-MM-DD", type=day, help="those of this day"),
        word("--robot", metavar="ID", help="those of this robot"), *REASON)),
    "season": ("lists the seasons, ends the one that goes on, or begins another", (
        word("what", metavar="end|begin", nargs="?", choices=("end", "begin"), help="what to do (default: list them)"),
        word("name", metavar="NAME", nargs="?", help="the name of the season that begins"),
        word("--divisions", metavar="N", type=within(1, DIVISIONS_MAX), help="with begin: how many divisions (default: as before)"),
        word("--move", metavar="N", type=within(0, 1000), default=2,
             help="with begin: how many go up and down between divisions (default 2)"),
        word("--unfinished", action="store_true", help="with end: though matches are missing"), of_rules, *DAY)),
    "status": ("says how many robots there are and what is missing", ()),
    "history": ("says what was ever done", ()),
    "table": ("prints the table", (
        SEASON,
        either(word("--csv", action="store_true", help="print it as comma-separated values"),
               word("--json", action="store_true", help="print it as JSON")),
        word("--pairs", action="store_true", help="print what the sequential test says of each pair"))),
    "publish": ("writes the league's site into a folder, and keeps the table of this day", (
        word("site", metavar="DIR", help="the folder of the site"),
        word("--title", metavar="TEXT", help="the site's title (default: the league's folder)"),
        word("--page", metavar="URL", default="", type=address, help="the page that plays battles in a browser"),
        word("--replays", metavar="N", type=within(0, 100_000), default=100,
             help="make at most N new pages of matches, if crobots-trace is there (default 100)"),
        word("--sums", metavar="N", type=within(0, 1000), default=10,
             help="sum up at most N matches of each robot, if crobots-trace is there (default 10)"), JOBS, *DAY)),
    "verify": ("replays matches of an archive, and compares", (
        word("--all", action="store_true", help="replay all of its matches"),
        word("--since", metavar="OLDER", default="",
             help="say what was changed since an older archive, or since the hash of a publication"), *PLAYING,
        word("number", metavar="N", nargs="?", type=within(1, 10**9), help="how many matches, drawn by chance (default 100)"),
        word("archive", metavar="ARCHIVE", help="an archive that `publish` wrote"))),
    "serve": ("lets authors hand in by a web page, plays, and shows the table", (
        word("--address", metavar="ADDRESS", type=text, help="the address to listen at (default: this machine alone)"),
        word("--public", action="store_true", help="listen at all addresses"),
        word("--port", metavar="PORT", type=within(0, 65_535), default=8080, help="the port; 0 for any (default 8080)"),
        word("--url", metavar="URL", type=outside,
             help="the address by which readers reach it, as https://host/path, if a proxy is before it"),
        word("--title", metavar="TEXT", help="the title of its pages (default: the league's folder)"),
        word("--workbench", metavar="DIR", help="the folder of the page that plays in a browser "
                                                "(default: the one built or installed with this script, if there is one)"), JOBS, PROGRAM)),
    "invite": ("makes links by which authors join the open ladder", (
        word("--author", metavar="NAME", default="", help="the author's name; one who is there gets a new link (default: a number)"),
        word("--count", metavar="N", type=within(1, 10_000), help="make N authors (default 1)"),
        word("--group", metavar="NAME", type=text, help="the name of their group"),
        word("--withdraw", action="store_true", help="withdraw the link of this author"),
        word("--url", metavar="URL", type=outside, default="http://127.0.0.1:8080",
             help="the ladder's address, with which the links begin (default http://127.0.0.1:8080)"))),
    "terms": ("says the terms of the open ladder, and changes those that are given", (
        *(word(f"--{name}", metavar="N", type=within(0, most), help=about) for name, (most, about) in TERMS.items()),
        word("--opens", metavar="YYYY-MM-DD", type=day, help="the first day of the hand-in"),
        word("--closes", metavar="YYYY-MM-DD", type=day, help="the last day of the hand-in"),
        word("--names", metavar="shown|hidden", choices=(SHOWN, HIDDEN), help="say the names of authors, or numbers (default shown)"),
        word("--readers", metavar="all|author", choices=(ALL, AUTHOR), help="who may read a robot's source (default author)"))),
    "final": ("plays a last season on a fresh seed, and prints each author's rungs and ranks", (
        word("--announce", action="store_true", help="draw the seed, show its hash, and play nothing yet"),
        word("--name", metavar="NAME", type=text, default="final", help="the name of its season (default final)"),
        word("--early", action="store_true", help="begin it though robots are still handed in"),
        word("--unfinished", action="store_true", help="end the season before it though matches are missing"),
        word("--csv", action="store_true", help="print it as comma-separated values"),
        word("-m", dest="matches", metavar="MATCHES", type=within(1, MOST_MATCHES), help="matches of each group (default: as before)"),
        *PLAYING, lambda parser: parser.set_defaults(piece=None, day=None, future=False))),
    "send": ("hands a robot in to an open ladder", (
        AN_ID, word("url", metavar="URL", help="the author's link"), word("robot", metavar="ROBOT", help="the source file"))),
}
# Those that are given no league.
WITHOUT = ("verify", "send")


class Words:
    """The parser of all commands."""

    def __init__(self, name: str) -> None:
        does = "Runs a league of robots for years, in a folder."
        self.parser = Parser(prog=name, description=does, allow_abbrev=False)
        self.parser.set_defaults(script=name)
        self.parser.add_version()
        self._commands = self.parser.add_subparsers(dest="command", metavar="COMMAND", required=True)
        for command, (does, takes) in COMMANDS.items():
            said = does[0].upper() + does[1:] + "."
            parser = self._commands.add_parser(command, help=does, description=said, allow_abbrev=False)
            if command not in WITHOUT:
                parser.add_argument("league", metavar="LEAGUE", help="the league's folder")
            for take in takes:
                take(parser)

    @property
    def names(self) -> Iterable[str]:
        """The commands."""
        return COMMANDS

    def parse(self, arguments: list[str]) -> argparse.Namespace:
        """Reads the words. Options of a command and its other words may stand in any order."""
        command = self._commands.choices.get(arguments[0]) if arguments else None
        if command is None:
            return self.parser.parse_args(arguments)
        given = argparse.Namespace(command=arguments[0], script=self.parser.get_default("script"))
        return command.parse_intermixed_args(arguments[1:], given)
