"""The rules of a season: what its matches depend on beside the robots, who plays whom, and what counts."""

import json
from dataclasses import asdict, dataclass, fields, replace
from decimal import Decimal
from typing import Any

from results.scores import Scoring
from tools.rules import CYCLES_DEFAULT, PROFILE_DEFAULT, SEED_DEFAULT
from tournaments.programs import Program, version

PAIRS, THREES, FOURS, SIZES, LADDER, GAUNTLET = "pairs", "threes", "fours", "sizes", "ladder", "gauntlet"
SIZE_OF = {PAIRS: 2, THREES: 3, FOURS: 4, LADDER: 2, GAUNTLET: 2}


@dataclass(frozen=True)
class Rules:
    """All that is settled of a season. Numbers with a point are texts, so that they are written as they were given."""

    mode: str = PAIRS
    matches: int = 100
    cycles: int = CYCLES_DEFAULT
    seed: int = SEED_DEFAULT
    profile: int = PROFILE_DEFAULT
    # the hash of the program, and its version if that was known
    program: str = ""
    version: str = ""
    win: str = "3"
    tie: str = "1"
    # the weights of pairs, threes and fours, if all sizes are played
    weights: tuple[str, ...] = ()
    # how many groups of one size are played, if not all
    sample: int = 0
    # whom all others play in a gauntlet
    champion: str = ""
    # a pair is played until a sequential test decides it
    sure: bool = False
    # the robot with a fixed rating, if any, and the rating
    anchor: str = ""
    anchored: int = 0
    divisions: int = 1
    # sources of robots that are new aren't shown before the season ends
    hidden: bool = False

    @property
    def sizes(self) -> tuple[int, ...]:
        """The sizes that are played."""
        if self.mode != SIZES:
            return (SIZE_OF[self.mode],)
        return tuple(size for size, weight in enumerate(self.weights, 2) if Decimal(weight) > 0)

    def weight(self, size: int) -> Decimal:
        """With which weight points a match of a size count."""
        return Decimal(self.weights[size - 2]) if self.mode == SIZES else Decimal(1)

    @property
    def scoring(self) -> Scoring:
        return Scoring(Decimal(self.win), Decimal(self.tie))

    def text(self) -> str:
        """The rules as the database has them."""
        return json.dumps(asdict(self), sort_keys=True)

    def said(self) -> list[tuple[str, str]]:
        """The rules in words, but for what has its default and goes without saying."""
        found = [("mode", self._mode()), ("matches", f"{self.matches} a group"), ("limit", f"{self.cycles} cycles"),
                 ("seed", str(self.seed)), ("profile", str(self.profile)),
                 ("points", f"{self.win} a win, {self.tie} a tie")]
        more = [("sample", f"{self.sample} groups", self.sample), ("until sure", "yes", self.sure),
                ("anchor", f"{self.anchor} has {self.anchored}", self.anchor),
                ("divisions", str(self.divisions), self.divisions > 1),
                ("sources", "hidden until the season ends", self.hidden)]
        return found + [(name, value) for name, value, is_there in more if is_there]

    def _mode(self) -> str:
        more = {SIZES: f", weights {', '.join(self.weights)}", GAUNTLET: f" of {self.champion}"}
        return self.mode + more.get(self.mode, "")


def played_by(rules: Rules, program: Program) -> Rules:
    """The rules with another program."""
    return replace(rules, program=program.sha256, version=version(program.sha256))


def rules(text: str) -> Rules:
    """The rules of a text that `Rules.text` made."""
    said: dict[str, Any] = json.loads(text)
    known = {field.name for field in fields(Rules)}
    values = {name: tuple(value) if isinstance(value, list) else value for name, value in said.items() if name in known}
    return Rules(**values)
