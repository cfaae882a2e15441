"""Makes pages that play matches: each by a child that does what scripts/replay does, if `crobots-trace` is there."""

import html
import os
import subprocess
import sys
import tempfile
from concurrent.futures import ThreadPoolExecutor
from dataclasses import dataclass
from typing import Iterable, Iterator, Mapping, Sequence

from . import places
from .facts import Battle, Settings

# Of a longer match a page has the last cycles alone, so no page is large.
MOST_CYCLES = 50_000
MOST_NAME = 255
# Replays lie in a folder of the site.
WAY_BACK = '<nav style="padding: 8px 20px">{links}</nav>\n'
LINK = '<a style="color: inherit" href="../{place}">{words}</a>'
# Runs scripts/replay's module from the folder of this package.
REPLAY = "import sys; sys.path.insert(0, sys.argv.pop(1)); from replays.main import run; sys.exit(run(sys.argv[1:]))"
LIBRARY = os.path.dirname(os.path.dirname(os.path.abspath(__file__)))


@dataclass(frozen=True)
class Order:
    """What is needed to film a match: the options, and the names and sources of its robots; and which pages of the site it leads back to."""

    options: tuple[str, ...]
    robots: tuple[tuple[str, bytes], ...]
    back: tuple[tuple[str, str], ...]


def order(settings: Settings, battle: Battle, robots: Sequence[tuple[str, bytes]], back: Iterable[tuple[str, str]] = ()) -> Order:
    """The order for a match, and for ways back from its page: places of the site, with words."""
    first = battle.cycles - MOST_CYCLES
    late = ("--from", str(first)) if first > 0 else ()
    options = (f"-k{battle.number}", f"-l{settings.cycles}", f"-s{battle.seed}", f"-p{settings.profile}", *late)
    return Order(options, tuple(robots), tuple(back))


def ways_back(battle: Battle) -> Iterator[tuple[str, str]]:
    """Where a replay leads back to: the page of its pair, if it has two robots, and the first page; with the words of the link."""
    ids = [seat.robot for seat in battle.seats]
    if len(set(ids)) == len(ids) == 2:
        yield places.pair_page(*ids), "All matches of these two"
    yield places.INDEX, "All robots"


def made(orders: Mapping[str, Order], jobs: int) -> Iterator[tuple[str, bytes]]:
    """The pages of these matches by their places, `jobs` of them at a time. A match that can't be played has none."""
    with ThreadPoolExecutor(jobs) as pool:
        for place, text in zip(orders, pool.map(film, orders.values())):
            if text:
                yield place, text


def film(order: Order, before: Sequence[str] = ()) -> bytes:
    """The page of a match, made by a child that these words run; nothing if it can't be played."""
    with tempfile.TemporaryDirectory(prefix="crobots-") as folder:
        files = [written(folder, seat, name, source) for seat, (name, source) in enumerate(order.robots)]
        python = [sys.executable, *(["-B"] if sys.dont_write_bytecode else []), "-c", REPLAY, LIBRARY]
        ran = subprocess.run([*before, *python, *order.options, *files], stdin=subprocess.DEVNULL, stdout=subprocess.PIPE,
                             stderr=subprocess.DEVNULL, check=False)
        return b"" if ran.returncode else with_way_back(ran.stdout, order.back)


def with_way_back(page: bytes, back: Iterable[tuple[str, str]]) -> bytes:
    """The page of a match with links to pages of the site, before all else that it shows."""
    links = " ".join(LINK.format(place=html.escape(place), words=words) for place, words in back)
    return before_all(page, WAY_BACK.format(links=links).encode()) if links else page


def before_all(page: bytes, text: bytes) -> bytes:
    """The page of a match with something before all else that it shows."""
    return page.replace(b"<main>", text + b"<main>", 1)


def written(folder: str, seat: int, name: str, source: bytes) -> str:
    """Writes a source into a file with the robot's name, by which the page calls it."""
    last = os.fsencode(name).replace(b"\0", b"").split(b"/")[-1][-MOST_NAME:]
    place = os.path.join(os.fsencode(folder), b"%d" % seat)
    os.mkdir(place)
    path = os.path.join(place, b"robot.r" if last in (b"", b".", b"..") else last)
    with open(path, "wb") as file:
        file.write(source)
    return os.fsdecode(path)
