"""The view for a projector: the table, and the last battles as films one after the other."""

from leagues.store import Store
from sites.frames import section
from sites.markup import name_of, tag

from .frames import Site, page
from .live import Fought, read
from .pages import standing


def wall(site: Site, store: Store) -> str:
    """The page: its script shows the films in turns, and asks now and then which ones are the last."""
    found = [seating for seating in (seating_of(store, fought) for fought in read(site.folder).last) if seating]
    films = " ".join(site.to(f"replays/{seating}/{number}?play=1") for seating, number in found) if site.programs.trace else ""
    film = tag("iframe", title="The last battles", sandbox="allow-scripts", id="film", data_films=films)
    return page(site, None, "Wall", tag("h1", name_of(site.title)), tag("div", section(
        "Table", tag("div", standing(site, store, read(site.folder)), id="table")), section("The last battles", film), class_="halves"), wall=True)


def seating_of(store: Store, fought: Fought) -> tuple[int, int] | None:
    """A match by the numbers of its seating and of itself."""
    row = store.one("SELECT max(number) FROM seating WHERE hashes = ? AND seed = ?", fought.hashes, fought.seed)
    return (int(row[0]), fought.number) if row and row[0] is not None else None
