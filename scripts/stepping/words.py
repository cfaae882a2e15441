"""The words of the command line: those that choose the match and the robot, which `crobots-debug` takes, and a script."""

from dataclasses import dataclass

from tools.words import MATCH_HELP, Given, given, number

NAME = "crobots-step"
USAGE_LINE = f"usage: {NAME} [-kMATCH] [-lCYCLES] [-sSEED] [-pPROFILE] [--robot N] [-x SCRIPT] FILE.."
HELP = f"""{USAGE_LINE}

Steps through a robot in a match, forwards and backwards.

options:
{MATCH_HELP}  --robot N         the robot to step through, from 1 (default 1)
  -x SCRIPT         read commands from this file, a line each
  -h, --help        show this page
  --version         show the version

Commands: the command help lists them. More: man {NAME}
"""
OPTIONS = ("-k", "-f", "-l", "-s", "-p", "--robot", "-x")


@dataclass(frozen=True)
class Asked:
    """What the words ask for: a match and a robot in it, a script, and flags."""

    given: Given
    script: str | None

    def number(self) -> int:
        """The robot's number, from 1."""
        return number(self.given.last("--robot"))

    def file(self) -> str:
        """The robot's file: a single one fights a copy of itself."""
        files = self.given.files
        return files[0] if len(files) == 1 else files[self.number() - 1]

    def match(self, *more: str) -> list[str]:
        """The words of the match, and more."""
        return self.given.handed_on(("-x", "--robot"), more)

    def robot(self, *more: str) -> list[str]:
        """The words of the match and the robot, and more."""
        return self.given.handed_on(("-x",), more)


def read(words: list[str]) -> Asked:
    """Reads the words. What is wrong with values and files `crobots-debug` says."""
    found = given(words, OPTIONS).some_files()
    return Asked(found, found.once("-x"))
