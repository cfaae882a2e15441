"""The pages of docs/ that lie beside the page in the browser, as HTML: what a class reads."""

import html
import posixpath
from string import Template

from .helping import text_of
from .markdown import Leading, written

# The pages by their place in the repository, and what each is called there.
PAGES = {
    "robots/README.md": "robots", "docs/exercises.md": "exercises", "docs/mistakes.md": "mistakes", "docs/why.md": "why",
    "docs/language.md": "language", "docs/field.md": "field", "docs/matches.md": "matches", "docs/machine.md": "machine",
    "docs/numbers.md": "numbers", "docs/stages.md": "stages", "docs/web.md": "web", "docs/web-parts.md": "parts", "docs/web-engine.md": "engine",
}
MANUALS = ("man/crobots.6", "man/crobots-robots.6")


def leading(page: str) -> Leading:
    """Where the links of a page lead: to other pages beside it, to the manual, and else nowhere."""
    def place_of(link: str) -> str:
        path, mark, name = link.partition("#")
        place = posixpath.normpath(posixpath.join(posixpath.dirname(page), path)) if path else page
        if place in MANUALS:
            return "../manual.html"
        return f"{PAGES[place]}.html{mark}{name}" if place in PAGES else ""

    return place_of


def pages(top: str, web: str) -> dict[str, str]:
    """The pages, by the names of their files."""
    frame = Template(text_of(web, "text.html"))
    texts = {path: text_of(top, path) for path in PAGES}
    links = " ".join(f'<a href="{name}.html">{html.escape(name.capitalize())}</a>' for name in PAGES.values())
    return {f"{PAGES[path]}.html": frame.substitute(title=html.escape(text.partition("\n")[0].removeprefix("# ")), links=links, text=written(text, leading(path)))
            for path, text in texts.items()}
