"""Where everything is on the site: the paths of its files, all below one folder and with '/' between their parts."""

import hashlib
import re
from typing import Sequence

from .facts import Battle, Facts, RobotId, Version
from .names import file_name

STYLE, SCRIPT, INDEX, MAP, SETTINGS, PAIR = "site.css", "site.js", "index.html", "map.html", "settings.html", "pair.html"
TABLE, PAIRS, EVERYTHING, NAMES = "table.csv", "pairs.csv", "site.json", "robots.js"
ARCHIVES = "archive/"


def robot_page(robot: RobotId) -> str:
    return f"robots/{file_name(robot)}.html"


def pair_page(one: RobotId, other: RobotId) -> str:
    """Where the page of all pairs shows this one, whichever robot comes first in the table."""
    first, second = sorted(map(file_name, (one, other)))
    return f"{PAIR}#{first}/{second}"


def data_file(robot: RobotId) -> str:
    """What a robot's pages show of its pairs, as data."""
    return f"data/{file_name(robot)}.js"


def season_page(name: str) -> str:
    """The page of a season that ended."""
    return f"seasons/{file_name(name)}.html"


def source_file(robot: RobotId, version: Version) -> str:
    """A version's source, which keeps its place when the robot changes."""
    digest = version.sha256 if re.fullmatch("[0-9a-f]{64}", version.sha256) else hashed(version.sha256)
    return f"sources/{file_name(robot).removesuffix('.r')}-{digest[:12]}.r"


def has_details(one: RobotId, other: RobotId) -> bool:
    """Whether the first robot's data have all of a pair, and not its score alone: one of both has it."""
    return file_name(one) < file_name(other)


def replay_page(facts: Facts, battle: Battle, versions: Sequence[Version]) -> str:
    """The page that plays a match. Its name says all that the page depends on, so that it has to be made only once."""
    settings = facts.settings
    said = [facts.program.sha256, settings.cycles, settings.profile, battle.number, battle.seed]
    seats = [f"{file_name(seat.robot)} {version.sha256}" for seat, version in zip(battle.seats, versions)]
    return f"replays/{hashed(' '.join([*map(str, said), *seats]))[:20]}.html"


def archive_file(path: str) -> str:
    """The archive, under its own name if that is safe."""
    name = path.rsplit("/", 1)[-1]
    return f"{ARCHIVES}{name if re.fullmatch('[A-Za-z0-9][A-Za-z0-9._-]*[A-Za-z0-9]', name) else file_name(name)}"


def hashed(text: str) -> str:
    return hashlib.sha256(text.encode("utf-8", "surrogatepass")).hexdigest()
