"""The best robots of a league."""

from leagues.entries import source
from leagues.seasons import season
from leagues.showing import rated
from leagues.store import opened
from tools.faults import Fault
from tournaments import robots
from tournaments.robots import Robot


def best(league: str, many: int, folder: str) -> list[Robot]:
    """The best robots of a league's newest season, copied into a folder. On command lines they have their ids."""
    with opened(league) as store, store.view():
        rows = rated(store, season(store))[:many]
        sources = [(row.robot, source(store, row.sha256)) for row in rows]
    if not sources:
        raise Fault(f"the league {league} has no table yet")
    return [robots.laid(name, text, folder) for name, text in sources]
