"""Makes the page of a match: one file with its style, its script and its film."""

import html
import os
from string import Template

from .films import Film
from .modules import script_of, text_of

# What plays films, in the repository and where this is installed.
PLAYER = os.path.normpath(os.path.join(os.path.dirname(os.path.realpath(__file__)), "..", "..", "web", "player"))


def listed(names: list[str]) -> str:
    """Names as in a sentence."""
    return " and ".join(filter(None, (", ".join(names[:-1]), *names[-1:])))


def put_together(script: str, style: str, title: str = "", film: str = "") -> str:
    """The page that plays a match, with a script, a style, and a film that is packed."""
    text = Template(text_of(os.path.join(PLAYER, "page.html")))
    return text.substitute(title=html.escape(title), style=style, film=film, script=script)


def style_of_page() -> str:
    """The style of the page that plays a match."""
    return text_of(os.path.join(PLAYER, "page.css"))


def page(film: Film, number: int) -> str:
    """The page of a match with this number, which carries its film."""
    script = script_of(os.path.join(PLAYER, "carrying.js"))
    return put_together(script, style_of_page(), f"Match {number}: {listed(film.names)}", film.packed())


def framed_script() -> str:
    """The script of the page in a frame."""
    return script_of(os.path.join(PLAYER, "framed.js"))
