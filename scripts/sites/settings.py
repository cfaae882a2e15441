"""The page of settings: what was played by which program, and how that is checked."""

import hashlib
import os
import shlex
from typing import Sequence

from tournaments.settings import SIZE_NAMES

from . import places
from .frames import page, section, sentence
from .lookups import Lookup
from .markup import Markup, joined, tag
from .names import shown
from .numbers import count, counted
from .tables import command_line, listed


def settings_page(lookup: Lookup, older: Sequence[str] = ()) -> str:
    """The page of settings, with the archives that were published before."""
    title = "Settings"
    return page(lookup, places.SETTINGS, title, tag("h1", title), rules(lookup), program(lookup), archive(lookup), before(older))


def before(older: Sequence[str]) -> Markup:
    """Links to the archives that were published before, the last one first."""
    items = [tag("li", tag("a", archive.rpartition("/")[2], href=archive, download=archive.rpartition("/")[2])) for archive in reversed(older)]
    return section("Older archives", tag("ul", *items, class_="links")) if items else Markup("")


def rules(lookup: Lookup) -> Markup:
    settings = lookup.facts.settings
    return section("Matches", listed([
        ("Played as", ", ".join(SIZE_NAMES[size] for size in settings.sizes)), ("Matches of a group", count(settings.matches)),
        ("Cycles of a match, at most", count(settings.cycles)), ("Seed", str(settings.seed)),
        ("Language profile", str(settings.profile)), *settings.more]))


def program(lookup: Lookup) -> Markup:
    """The program that played."""
    program = lookup.facts.program
    return section("Program", listed([("Version", shown(program.version)), ("SHA-256 of its file", tag("code", program.sha256))]))


def archive(lookup: Lookup) -> Markup:
    """The archive, and how it is checked; also while it is hidden the hash by which any change is seen."""
    facts = lookup.facts
    chained = [("Hash of the publication", tag("code", facts.hash))] if facts.hash else []
    if not facts.archive:
        return section("Archive", sentence(facts.hidden), listed(chained)) if facts.hidden else Markup("")
    with open(facts.archive, "rb") as file:
        digest = hashlib.file_digest(file, "sha256").hexdigest()
    name, size = os.path.basename(facts.archive), counted(os.path.getsize(facts.archive), "byte")
    link = tag("a", name, href=places.archive_file(facts.archive), download=name)
    rows = [("File", joined(link, f" ({size})")), ("SHA-256", tag("code", digest)), *chained]
    said = sentence("All sources, the settings and all results, in one file.")
    return section("Archive", said, listed(rows), *verify(facts.verify))


def verify(line: str) -> list[Markup]:
    """How the archive is checked."""
    if not line:
        return []
    return [sentence("This command plays some of its matches again, and says what differs:"),
            command_line(shlex.split(line))]
