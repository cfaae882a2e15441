"""Battles that crobots and the page both run."""

from __future__ import annotations

import getopt
import itertools
import os
import random
import re
import subprocess
import tempfile
from dataclasses import dataclass, field

from harness import PATIENCE, loaded, skip

HERE = os.path.dirname(os.path.abspath(__file__))
ROBOTS = os.path.join(HERE, "..", "..", "robots")
MISTAKES = os.path.join(HERE, "..", "..", "docs", "mistakes.md")
VECTORS = "CROBOTS_VECTORS"


@dataclass
class Settings:
    """The settings of a battle."""

    matches: int = 1
    limit: int = 500_000
    seed: int = 1
    profile: int = 1
    first: int = 1

    def words(self) -> list[str]:
        """Those that crobots takes, but for the number of matches."""
        return [f"-l{self.limit}", f"-s{self.seed}", f"-p{self.profile}", f"-f{self.first}"]


@dataclass
class Battle:
    """Robots, by name and source, settings, and what is asked of the engine: run, list, places, explain, turns, film or windows; of windows
    the update after which they begin, and how many there are."""

    robots: list[tuple[str, bytes]]
    settings: Settings = field(default_factory=Settings)
    call: str = "run"
    windows: tuple[int, int] = (0, 0)

    def told(self, crobots: str) -> tuple[int, bytes, bytes]:
        """The status, text and faults of crobots."""
        return self.said(crobots, "-c" if self.call == "list" else f"-m{self.settings.matches}")

    def said(self, program: str, *words: str) -> tuple[int, bytes, bytes]:
        """The status, text and faults of a program that takes the settings' words, after these words."""
        with tempfile.TemporaryDirectory() as folder:
            paths = []
            for number, (name, source) in enumerate(self.robots):
                path = os.path.join(folder, str(number), name)
                os.mkdir(os.path.dirname(path))
                with open(path, "wb") as file:
                    file.write(source)
                paths.append(path)
            ran = subprocess.run([program, *words, *self.settings.words(), *paths], capture_output=True, check=False, timeout=PATIENCE)
            return ran.returncode, ran.stdout, ran.stderr


@dataclass
class Vector(Battle):
    """A battle beside which the answer is kept."""

    answer: tuple[int, bytes, bytes] = (0, b"", b"")

    @staticmethod
    def read(folder: str) -> Vector:
        """The vector of a folder: its words, its files, and what crobots has to write."""
        def kept(*name: str) -> bytes:
            with open(os.path.join(folder, *name), "rb") as file:
                return file.read()

        options, names = getopt.gnu_getopt(kept("args").decode().split("\n")[:-1], "cm:l:s:p:f:")
        values = {"matches": "-m", "limit": "-l", "seed": "-s", "profile": "-p", "first": "-f"}
        given = {name: int(value) for option, value in options for name, letter in values.items() if letter == option}
        # a report has a file's name without its folder
        robots = [(os.path.basename(name), kept("in", name)) for name in names]
        return Vector(robots, Settings(**given), "list" if ("-c", "") in options else "run", answer=(int(kept("status")), kept("stdout"), kept("stderr")))

    def told(self, crobots: str) -> tuple[int, bytes, bytes]:
        return self.answer


WARNING = re.compile(rb"^(\d+):\d+: warning: (.*)\n", re.MULTILINE)


@dataclass
class Mistake:
    """A source of docs/mistakes.md, its profile, and what the page has of crobots-why on it: not the file's name, nor the warning
    on want of room. Without --lint the warnings that stand before its fault aren't known."""

    source: bytes
    profile: int
    told: bytes
    is_linted: bool

    @property
    def warnings(self) -> list[tuple[int, str]]:
        """The line and the text of each warning."""
        return [(int(line), text.decode()) for line, text in WARNING.findall(self.told)]

    @property
    def fault(self) -> bytes:
        """The explanation of its fault, if it has one."""
        return WARNING.sub(b"", self.told)

    def is_told(self, text: bytes) -> bool:
        """Whether a text is what is said of it."""
        return (text if self.is_linted else WARNING.sub(b"", text)) == self.told


def mistakes() -> list[Mistake]:
    """The examples of docs/mistakes.md on which crobots-why says all that it has to say: of several faults the first alone."""
    with open(MISTAKES, encoding="utf-8") as file:
        text = file.read()
    found, sources = [], {}
    for command, output in re.findall(r"^\$ (.*)\n((?:(?!\$ |```).*\n)*)", text, re.MULTILINE):
        if made := re.fullmatch(r"printf '(.*)' > (\S+)", command):
            sources[made[2]] = made[1].replace("\\n", "\n").replace("%%", "%").encode()
        elif (asked := re.fullmatch(r"crobots-why ((?:-\S+ )*)(\S+)", command)) and output and "--all" not in asked[1]:
            told = re.sub(rf"^(?:.* for want of room\n|{re.escape(asked[2])}:)", "", output, flags=re.MULTILINE)
            found.append(Mistake(sources[asked[2]], 2 if "-p2" in asked[1] else 1, told.encode(), "--lint" in asked[1]))
    return found


def vectors(*kinds: str) -> list[Battle]:
    """The vectors of these kinds, from the folder that CROBOTS_VECTORS names."""
    top = os.environ.get(VECTORS, "")
    if not top or not os.path.isdir(top):
        skip("vectors on the page", f"{VECTORS} names no folder")
        return []
    return [Vector.read(os.path.join(top, kind, name)) for kind in kinds for name in sorted(os.listdir(os.path.join(top, kind)))]


def outcome(report: bytes) -> tuple[int, list[int]]:
    """The cycles and the damages of a report's first match."""
    first = report.decode().split("Match ")[1].partition("Totals")[0]
    return int(first.splitlines()[0].split()[-1]), [int(damage) for damage in re.findall(r"damage +(\d+)%", first)]


def samples() -> list[tuple[str, bytes]]:
    """The sample robots."""
    robots = []
    for name in sorted(os.listdir(ROBOTS)):
        if name.endswith(".r"):
            with open(os.path.join(ROBOTS, name), "rb") as file:
                robots.append((name, file.read()))
    return robots


def sample_battles() -> list[Battle]:
    """Each sample alone, each against each other, and some fours."""
    robots = samples()
    groups = [[it] for it in robots] + [[*pair] for pair in itertools.combinations(robots, 2)]
    groups += [robots[at:at + 4] for at in range(0, len(robots) - 3, 2)]
    return [Battle(group, Settings(matches=2, limit=20_000, seed=at)) for at, group in enumerate(groups)]


def random_battles(count: int, seed: int = 5) -> list[Battle]:
    """Battles of robots that a generator made."""
    made, random_ = loaded("random_battles"), random.Random(seed)
    battles = []
    for _ in range(count):
        drawn = made.Battle.drawn(random_)
        robots = [(f"{n}.r", source.encode("ascii")) for n, source in enumerate(drawn.sources)]
        battles.append(Battle(robots, Settings(1, drawn.limit, drawn.seed, drawn.profile, drawn.match)))
    return battles


def deepest() -> bytes:
    """The source in which most is begun and not ended: calls in the last operand of an operator of each level."""
    begun = b"sin(1||1&&1|1^1&1==1<1<<1+1*"
    return b"main(){" + begun * 62 + b"1" + b")" * 62 + b";}"


def hostile_battles() -> list[Battle]:
    """The sources with each fault and at each limit, to be listed."""
    cases = loaded("hostile_sources").CASES
    return [Battle([("a.r", case.source)], Settings(profile=case.profile), "list") for case in cases]
