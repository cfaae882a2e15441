"""The page that plays in a browser as a workbench: its own files, of which the first page may reach the ladder's Send and nothing else."""

import contextlib
import functools
import os
import re

from replays.modules import text_of
from sites.markup import tag
from tools.faults import FILE, Fault

HERE = os.path.dirname(os.path.realpath(__file__))
# Where the page is that was built in the repository, and where one may be put that goes with an installation.
PLACES = (("..", "..", "out", "web"), ("..", "..", "web"))
INDEX, SCRIPT = "index.html", "send.js"
# What a page has that is built, and its sources haven't.
BUILT = "data.js"
META = re.compile(r'<meta http-equiv="Content-Security-Policy" content="([^"]*)">\n?')
# The page's scripts are files, and so is what is added.
ADDED = f'<script type="module" src="../{SCRIPT}"></script>\n'
HEAD_END = "</head>"
FRAMED = "frame-ancestors 'none'"
ORIGIN = re.compile(r"https?://[A-Za-z0-9.:\[\]-]+")


def folder(given: str | None) -> str:
    """The folder of the page: the one that is given, or that was built or installed with this script; nothing if there is none."""
    places = [given] if given else [os.path.normpath(os.path.join(HERE, *place)) for place in PLACES]
    found = next((os.path.abspath(place) for place in places if is_page(place)), "")
    if given and not found:
        raise Fault(f"{given} has no page that plays in a browser, as scripts/web makes it", FILE)
    return found


def is_page(place: str) -> bool:
    """Whether a folder has the page as it is built, with one policy of its own."""
    path = os.path.join(place, INDEX)
    return os.path.isfile(path) and os.path.isfile(os.path.join(place, BUILT)) and len(META.findall(text_of(path))) == 1


@functools.lru_cache(4)
def files(place: str) -> dict[str, str]:
    """The paths of all files by their names below the folder, as they were when this was asked first."""
    return {os.path.relpath(os.path.join(at, name), place): os.path.join(at, name) for at, _, names in os.walk(place) for name in names}


def file(place: str, name: str) -> str | None:
    """The text of a file by its name; nothing if there is none, or it is gone."""
    with contextlib.suppress(OSError, KeyError):
        return text_of(files(place)[name])
    return None


def added(text: str, opponents: list[str]) -> str:
    """The first page as the ladder serves it: with the script of Send and the robots for trials, and without its policy, which is a head
    then."""
    named = tag("meta", name="opponents", content=" ".join(opponents)) + "\n" if opponents else ""
    return META.sub("", text).replace(HEAD_END, f"{ADDED}{named}{HEAD_END}", 1)


def policy(text: str, send: str) -> str:
    """The policy of a page of the workbench: its own, and Send's address if it has that script."""
    own = META.search(text)
    reaches = [f"connect-src {send}"] if send and ORIGIN.match(send) else []
    return "; ".join([own[1] if own else "default-src 'none'", *reaches, FRAMED])
