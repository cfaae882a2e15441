"""The names of the two servers, their help, and where their pages are."""

import os
import pathlib

NAME = "crobots-lsp"
DEBUGGER = "crobots-dap"
HERE = os.path.dirname(os.path.realpath(__file__))
# The folder of the pages, in the repository and where this is installed.
PAGES = (("..", "..", "docs"), ("..", "..", "..", "doc", "crobots"))


def usage(name: str) -> str:
    return f"usage: {name} [--stdio]"


def help_page(name: str, about: str) -> str:
    return f"""{usage(name)}

{about}

options:
  --stdio           changes nothing: some clients say it
  -h, --help        show this page
  --version         show the version

More: man {name}
"""


def pages() -> str:
    """The URI of the folder of pages."""
    places = [os.path.normpath(os.path.join(HERE, *place)) for place in PAGES]
    return pathlib.Path(next((place for place in places if os.path.isdir(place)), places[-1])).as_uri()
