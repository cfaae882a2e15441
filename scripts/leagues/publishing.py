"""The command publish: writes the league's site, with an archive of all of it, and keeps the table of the day."""

import argparse
import os
import shlex

from ladder.terms import keeps_back
from sites.publishing import published as write_site
from tools.faults import Fault, plain
from tools.output import show
from tournaments.programs import program

from . import archives, likeness
from .copies import published
from .days import given_day
from .entries import entries
from .facts import Words, facts_of_league, is_hidden
from .seasons import season
from .sources import laid
from .store import Store, opened
from .sums import sums


def copies(store: Store, jobs: int) -> dict[str, str]:
    """The robots that have the code of another author's robot, as far as it is known, or the program is there."""
    last = season(store)
    happened = entries(store, last.last_entry)
    folder = laid(store, {one.sha256 for one in happened})
    files = {one.sha256: os.path.join(folder, one.sha256) for one in happened}
    try:
        by = program(None)
    except Fault:
        code = likeness.last_codes(store, last.rules.profile)
    else:
        code = likeness.codes(store, last.rules.profile, by, files, jobs)
    return likeness.copied(happened, dict(store.rows("SELECT id, author FROM robot")), code)


def publish(given: argparse.Namespace) -> None:
    """Publishes the last season's table as it is now."""
    day = given_day(given)
    name = os.path.basename(os.path.abspath(given.league))
    with opened(given.league) as store:
        if keeps_back(store):
            raise Fault("only authors may read the sources that were handed in, so nothing is published; `terms --readers all` shows them")
        with store.change():
            copied = copies(store, given.jobs)
        with published(store, day) as now:
            archive = os.path.join(now.store.folder, f"{name}-{day}.zip")
            archives.write(now.store, now.table, archive, day)
            sources = laid(now.store, {robot.sha256 for robot in now.schedule.field.robots})
            # sums show lines of the sources
            said = {} if is_hidden(now.season) else sums(now.schedule, now.results, sources, given.sums, given.jobs)
            verify = f"crobots-league verify 100 {shlex.quote(os.path.basename(archive))}"
            shown = ("", "") if is_hidden(now.season) else (archive, verify)
            words = Words(given.title or name, day, *shown, given.page, said, copied, now.publication.hash)
            facts = facts_of_league(now.store, now.schedule, now.results, now.table, words)
            write_site(facts, given.site, given.replays, given.jobs)
    show([f"{len(now.table)} robots, {len(facts.pairs)} pairs in {plain(given.site)}\n",
          f"publication {now.publication.number} has the hash {now.publication.hash}\n"])
