"""The words of the command line: those that choose the match, which `trace` takes, and where the page goes."""

from dataclasses import dataclass

from tools.faults import Misuse
from tools.output import written_over
from tools.rules import MOST_CYCLES
from tools.words import MATCH_HELP, given, number

NAME = "crobots-replay"
USAGE_LINE = f"usage: {NAME} [-kMATCH] [-lCYCLES] [-sSEED] [-pPROFILE] [--from CYCLE] [--to CYCLE] [--inside] [-o FILE] FILE.."
HELP = f"""{USAGE_LINE}

Plays one match, and makes a page that shows it in a browser.

options:
{MATCH_HELP}  --from CYCLE      the page begins with this cycle (default 0)
  --to CYCLE        the page ends with this cycle (default {MOST_CYCLES})
  --inside          show the sources too, and where the robots are in them
  -o FILE           write into this file, and not on standard output
  -h, --help        show this page
  --version         show the version

More: man {NAME}
"""
OPTIONS = ("-k", "-f", "-l", "-s", "-p", "--from", "--to", "-o")


@dataclass(frozen=True)
class Asked:
    """What the words ask for: the words for `trace`, the number of the match, the robots' files, the file of the page, and flags."""

    trace: list[str]
    number: int
    robots: list[str]
    file: str
    flags: set[str]

    def is_inside(self) -> bool:
        """Whether the page shows robots from inside."""
        return "--inside" in self.flags


def read(words: list[str]) -> Asked:
    """Reads the words. What is wrong with values and files `trace` says."""
    found = given(words, OPTIONS, ("--inside",)).some_files()
    file = found.once("-o") or ""
    if why := written_over(file, found.files):
        raise Misuse(f"-o {why}")
    return Asked(found.handed_on(but=("-o",)), number(found.last("-k", "-f")), found.files, file, found.flags)
