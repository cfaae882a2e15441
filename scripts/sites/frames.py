"""The frame of every page: its head, the links to the other pages, and its foot."""

from . import places
from .lookups import Lookup
from .markup import Markup, joined, tag
from .names import named, shown

# Nothing is loaded but the style, and no script runs but the site's own, where a page has data.
POLICY = "default-src 'none'; style-src 'self'; img-src data:; base-uri 'none'; form-action 'none'"
SCRIPTED = POLICY + "; script-src 'self'"
LINKS = ((places.INDEX, "Table"), (places.MAP, "Pairs"), (places.SETTINGS, "Settings"))


def page(lookup: Lookup, place: str, title: str, *body: str, scripted: bool = False) -> str:
    """The page of this place, with what it has in its main part."""
    up = above(place)
    return "<!DOCTYPE html>\n" + tag("html", head(lookup, title, up, scripted), tag(
        "body", tag("a", "to the content", href="#content", class_="skip"), heading(lookup, place, up),
        tag("main", *body, id="content"), foot(lookup)), lang="en") + "\n"


def above(place: str) -> str:
    """The way from a page to the site's folder."""
    return "../" * place.count("/")


def head(lookup: Lookup, title: str, up: str, scripted: bool) -> Markup:
    whole = named(lookup.facts.title)
    script = tag("script", src=up + places.SCRIPT, defer="") if scripted else Markup("")
    return tag(
        "head", tag("meta", charset="utf-8"),
        tag("meta", name="viewport", content="width=device-width, initial-scale=1"),
        tag("meta", name="color-scheme", content="light dark"),
        tag("meta", http_equiv="Content-Security-Policy", content=SCRIPTED if scripted else POLICY), tag("link", rel="icon", href="data:,"),
        tag("title", f"{shown(title)} · {whole}" if title else whole),
        tag("link", rel="stylesheet", href=up + places.STYLE), script)


def heading(lookup: Lookup, place: str, up: str) -> Markup:
    """The site's title and the links to its main pages."""
    home = tag("a", tag("bdi", named(lookup.facts.title)), href=up + places.INDEX, class_="home")
    found = [tag("a", said, href=up + where, aria_current="page" if where == place else None) for where, said in LINKS]
    return tag("header", tag("div", home, tag("nav", *found, aria_label="Pages"), class_="wide"))


def foot(lookup: Lookup) -> Markup:
    facts = lookup.facts
    program = facts.program.version or f"crobots {facts.program.sha256[:16]}"
    return tag("footer", tag("div", " · ".join(filter(None, (facts.day, program))), class_="wide"))


def section(title: str, *body: str, kind: str | None = None) -> Markup:
    """A part of a page with its heading."""
    return tag("section", tag("h2", title), *body, class_=kind)


def sentence(*parts: str, kind: str | None = None) -> Markup:
    return tag("p", joined(*parts), class_=kind)
