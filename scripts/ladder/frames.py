"""The frame of the ladder's pages. Every text gets in through `sites.markup`, so it is escaped."""

from dataclasses import dataclass

from sites.markup import Markup, joined, tag
from sites.names import named, shown

from .accounts import Who
from .judging import Programs

STYLES = ("site.css", "ladder.css")
SCRIPT = "ladder.js"


@dataclass(frozen=True)
class Site:
    """What all pages share: the league's folder and title, the programs, the way that is before each address, and the address by
    which it is reached from outside, if that is known."""

    folder: str
    title: str
    programs: Programs
    prefix: str = ""
    outside: str = ""
    # the folder of the page that plays, if it is served as the workbench
    workbench: str = ""

    def to(self, path: str) -> str:
        """The address of a page."""
        return f"{self.prefix}/{path}"


def page(site: Site, who: Who | None, title: str, *body: str, wall: bool = False) -> str:
    """A page."""
    parts = [] if wall else [heading(site, who)]
    main = tag("main", *body, id="content", class_="wall" if wall else None, data_at=site.to(""))
    return "<!DOCTYPE html>\n" + tag("html", head(site, title), tag(
        "body", tag("a", "to the content", href="#content", class_="skip"), *parts, main), lang="en") + "\n"


def head(site: Site, title: str) -> Markup:
    whole = f"{shown(title)} · {named(site.title)}" if title else named(site.title)
    return tag("head", tag("meta", charset="utf-8"), tag("meta", name="viewport", content="width=device-width, initial-scale=1"),
               tag("meta", name="color-scheme", content="light dark"), tag("link", rel="icon", href="data:,"), tag("title", whole),
               *(tag("link", rel="stylesheet", href=site.to(style)) for style in STYLES), tag("script", src=site.to(SCRIPT), defer=""))


def heading(site: Site, who: Who | None) -> Markup:
    """The title, and where somebody may go."""
    links = [("", "Table"), ("wall", "Wall")]
    links += [("organiser", "Organiser"), ("checklist", "Checklist")] if who and who.is_organiser else []
    links += [("mine", "My robots")] if who else [("join", "Join")]
    links += [("workbench/", "Workbench")] if site.workbench else []
    found = [tag("a", said, href=site.to(where)) for where, said in links]
    home = tag("a", tag("bdi", named(site.title)), href=site.to(""), class_="home")
    out = [form(site, "leave", tag("button", joined("Leave (", tag("bdi", named(who.name)), ")")))] if who else []
    return tag("header", tag("div", home, tag("nav", *found, aria_label="Pages"), *out, class_="wide"))


def form(site: Site, to: str, *inside: Markup, kind: str | None = None) -> Markup:
    """A form that is sent to an address of the ladder."""
    return tag("form", *inside, method="post", action=site.to(to), enctype="multipart/form-data", class_=kind)


def hidden(name: str, value: str) -> Markup:
    """A value that a form has beside what is filled in."""
    return tag("input", type="hidden", name=name, value=value)


def entry(label: str, name: str, kind: str = "text", **attributes: str | int | None) -> Markup:
    """A field with its label."""
    return tag("label", joined(label, " "), tag("input", type=kind, name=name, **attributes))
