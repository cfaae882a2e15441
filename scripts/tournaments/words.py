"""The words of the command lines."""

import argparse
import os
import re
from decimal import Decimal
from typing import Any, Callable, NoReturn

from sites.addresses import page as address
from tools.faults import Fault
from tools.output import show
from tools.programs import number
from tools.rules import (CYCLES_DEFAULT, MOST_CYCLES, MOST_MATCHES, MOST_PROFILE, MOST_ROBOTS, MOST_SEED, PROFILE_DEFAULT,
                         SEED_DEFAULT)
from tools.words import PROFILE_HELP

# How many robots a match of a tournament may have.
SIZES = range(2, MOST_ROBOTS + 1)
# The settings of matches that weren't given: what each is then.
DEFAULTS = {"matches": 100, "cycles": CYCLES_DEFAULT, "seed": SEED_DEFAULT, "profile": PROFILE_DEFAULT, "size": 2, "sample": 0, "those": ()}
WORDS = {"matches": "-m", "cycles": "-l", "seed": "-s", "profile": "-p", "size": "--size", "sample": "--sample", "those": "--those", "piece": "--piece"}


def settle(given: argparse.Namespace) -> None:
    """Fills in the settings that weren't given."""
    for name, value in DEFAULTS.items():
        if getattr(given, name, None) is None:
            setattr(given, name, value)


def settings_given(given: argparse.Namespace) -> list[str]:
    """The words of the settings that were given."""
    return [word for name, word in WORDS.items() if getattr(given, name) is not None]


def within(least: int, most: int) -> Callable[[str], int]:
    """Reads a whole number within limits."""

    def read(text: str) -> int:
        if not re.fullmatch(r"[0-9]{1,30}", text) or not least <= int(text) <= most:
            raise argparse.ArgumentTypeError(f"'{text}' is no number from {least} to {most}")
        return int(text)

    return read


def fitting(form: str | re.Pattern[str], text: str, wrong: str) -> re.Match[str]:
    """What all of a text has of a form; of another text it says what is wrong."""
    found = re.fullmatch(form, text)
    if not found:
        raise argparse.ArgumentTypeError(f"'{text}' {wrong}")
    return found


def decimals(count: int) -> Callable[[str], list[Decimal]]:
    """Reads `count` numbers with commas between them, each with at most three digits after its point."""

    def read(text: str) -> list[Decimal]:
        one = r"[0-9]{1,6}(?:\.[0-9]{1,3})?"
        fitting(",".join([one] * count), text, f"is not {count} numbers with commas between them")
        return [Decimal(part) for part in text.split(",")]

    return read


FORMS = ("table", "csv", "matrix", "long", "json")


def target(text: str) -> tuple[str, str]:
    """Reads a form and a file, as csv=FILE."""
    form, _, path = text.partition("=")
    if form not in FORMS or not path:
        raise argparse.ArgumentTypeError(f"'{text}' is not FORM=FILE with a form of {', '.join(FORMS)}")
    return form, path


class Once(argparse.Action):
    """Takes the value of an option, which may be given once, by any of its names, and is empty only if it is a text for readers."""

    def __call__(self, parser: argparse.ArgumentParser, given: argparse.Namespace, values: Any, name: str | None = None) -> None:
        if name and isinstance(parser, Parser):
            parser.once(self, name)
        check_text(self, values, name)
        setattr(given, self.dest, values)


def check_text(option: argparse.Action, value: Any, name: str | None) -> None:
    """Refuses a value without a letter, unless it is a text for readers. A file has no option's name."""
    if name and "" in (value if isinstance(value, list) else [value]) and name not in TEXTS:
        raise argparse.ArgumentError(option, "an empty value")


class Flag(Once):
    """Takes an option without a value, which stands for a constant: True, if it isn't another one."""

    def __init__(self, option_strings: list[str], dest: str, const: Any = True, default: Any = False, **how: Any) -> None:
        super().__init__(option_strings, dest, nargs=0, const=const, default=default, **how)

    def __call__(self, parser: argparse.ArgumentParser, given: argparse.Namespace, values: Any, name: str | None = None) -> None:
        super().__call__(parser, given, self.const, name)


class Often(Once):
    """Takes the value of an option that may be given often, behind those before it."""

    def __call__(self, parser: argparse.ArgumentParser, given: argparse.Namespace, values: Any, name: str | None = None) -> None:
        check_text(self, values, name)
        setattr(given, self.dest, [*getattr(given, self.dest), values])


class Version(argparse.Action):
    """Writes the version, and ends."""

    def __call__(self, parser: argparse.ArgumentParser, *_: object) -> NoReturn:
        show([f"{parser.prog} {number()}\n"])
        parser.exit()


# Stands before a word behind `--`, while argparse reads it. No word has it.
HIDDEN = "\0"
# The options whose values are texts for readers, and may be empty.
TEXTS = ("--title", "--page", "--author")


def seen(value: Any) -> Any:
    """A value without what hid how it begins."""
    return value.removeprefix(HIDDEN) if isinstance(value, str) else value


class Help(argparse.HelpFormatter):
    """A page of help on which an option's value stands once, behind all its names."""

    def _format_action_invocation(self, action: argparse.Action) -> str:
        if action.option_strings and action.nargs == "+":
            return f"{', '.join(action.option_strings)} {action.metavar} ..."
        if len(action.option_strings) < 2 or not action.metavar:
            return super()._format_action_invocation(action)
        return f"{', '.join(action.option_strings)} {action.metavar}"


class Parser(argparse.ArgumentParser):
    """A parser whose faults are one line, and whose help is written as other output is."""

    def __init__(self, **how: Any) -> None:
        super().__init__(formatter_class=Help, **how)
        self._names: dict[argparse.Action, str] = {}
        for kind, action in {None: Once, "store": Once, "append": Often, "store_true": Flag, "store_const": Flag}.items():
            self.register("action", kind, action)

    def once(self, option: argparse.Action, name: str) -> None:
        """Refuses an option that was given before."""
        if before := self._names.get(option):
            self.error(f"{name} is given twice" if before == name else f"{before} and {name} are one option, given twice")
        self._names[option] = name

    def read(self, words: list[str]) -> argparse.Namespace:
        """What the words ask for, files among options. To what stands behind `--` argparse isn't shown how it begins."""
        at = words.index("--") if "--" in words else len(words)
        given = self.parse_intermixed_args(words[:at] + [f"{HIDDEN}{word}" for word in words[at + 1:]])
        for name, value in vars(given).items():
            setattr(given, name, [*map(seen, value)] if isinstance(value, list) else seen(value))
        return given

    def add_version(self) -> None:
        """Takes `--version`, too."""
        self.add_argument("--version", action=Version, nargs=0, help="show the version and exit")

    def add_forms(self, **forms: str) -> None:
        """Takes at most one of these forms of the answer, which is a table else."""
        group = self.add_mutually_exclusive_group()
        for form, does in forms.items():
            group.add_argument(f"--{form}", dest="form", action="store_const", const=form, default="table", help=f"print {does}")

    def error(self, message: str) -> NoReturn:
        raise Fault(message.replace(HIDDEN, ""))

    def print_help(self, _: object = None) -> None:
        show([self.format_help()])


def of_match(parser: argparse._ActionsContainer, cycles: str = "cycles of a match", seed: str = f"seed (default {SEED_DEFAULT})") -> None:
    """The words on which a match depends beside its robots, with what is said of two of them."""
    for name, word, limits, said in (("cycles", "CYCLES", (1, MOST_CYCLES), f"{cycles} (default {DEFAULTS['cycles']})"), ("seed", "SEED", (0, MOST_SEED), seed),
                                     ("profile", "PROFILE", (1, MOST_PROFILE), PROFILE_HELP)):
        parser.add_argument(WORDS[name], dest=name, metavar=word, type=within(*limits), help=said)


def common(name: str, does: str, matches: str = "matches of each group, rounded up to a multiple of its size") -> Parser:
    """The words that these scripts take."""
    parser = Parser(prog=name, description=does, allow_abbrev=False)
    add = parser.add_argument
    parser.set_defaults(script=name)
    parser.add_version()
    add("-j", dest="jobs", metavar="JOBS", type=within(1, 1024), default=os.cpu_count() or 1, help="series at a time (default: the processors)")
    add("-m", dest="matches", metavar="MATCHES", type=within(1, MOST_MATCHES), help=f"{matches} (default 100)")
    of_match(parser)
    add("--points", metavar="WIN,TIE", type=decimals(2), default=[Decimal(3), Decimal(1)], help="what a win and a tie count (default 3,1)")
    add("--journal", metavar="FILE", help="keep what was played in this file, and go on from it")
    add("--quiet", action="store_true", help="don't say how far it is")
    add("--crobots", metavar="PROGRAM", help="the program (default: crobots on the path, or the one installed or built with this script)")
    return parser


def tournament(name: str) -> Parser:
    """The words of `tournament`, under the name by which it was called."""
    parser = common(name, "Plays every pair of robots (or every three, or four), and prints a table.")
    add = parser.add_argument
    add("--size", metavar="|".join(map(str, SIZES)), type=within(SIZES[0], SIZES[-1]), help="robots of a match (default 2)")
    add("--by-size", metavar="A,B,C", type=decimals(3), help="play pairs, threes and fours, and add up their points a match with these weights")
    add("--sample", metavar="N", type=within(1, 10_000_000), help="play only N groups, drawn by the seed")
    add("--those", metavar="ROBOT", nargs="+", help="one side: only groups with robots of both sides play")
    add("--piece", metavar="MATCHES", type=within(1, MOST_MATCHES), help="most matches of one series (default: so that all processors are busy)")
    add("--plan", action="store_true", help="print the command lines of all series, one a line, and play nothing")
    add("--merge", action="store_true", help="read what such command lines wrote from files, or from standard input")
    add("--against", metavar="PLAN", help="with --merge: name the lines of the plan that are missing or twice")
    parser.add_forms(csv="the table as comma-separated values", matrix="what each robot won, tied and lost against each other",
                     long="comma-separated values, a row for each match and robot", json="everything as JSON")
    add("--write", metavar="FORM=FILE", type=target, action="append", default=[],
        help="write a form (table, csv, matrix, long, json) into a file, too; may be given often")
    add("--html", metavar="FOLDER", help="write a site into this folder: the table, pairs, robots and matches")
    add("--title", metavar="TEXT", help="with --html: the site's title (default Tournament)")
    add("--page", metavar="URL", type=address, help="with --html: the page that plays battles in a browser")
    add("--replays", metavar="N", type=within(0, 100_000),
        help="with --html: make at most N new pages of matches, if crobots-trace is there (default 100)")
    add("robots", metavar="ROBOT", nargs="*", help="source files; with --merge, outputs")
    return parser


def challenge(name: str) -> Parser:
    """The words of `challenge`, under the name by which it was called."""
    parser = common(name, "Plays a robot and its older version against the same robots in the same matches, "
                          "and says what the change is worth.")
    add = parser.add_argument
    add("--old", metavar="OLD", required=True, help="the older version")
    add("--all", action="store_true", help="list all matches that changed, with the commands that show them")
    parser.add_forms(csv="the rows as comma-separated values", json="everything as JSON")
    add("new", metavar="NEW", help="the newer version")
    add("field", metavar="ROBOT", nargs="+", help="the robots that they play against")
    return parser
