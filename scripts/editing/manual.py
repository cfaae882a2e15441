"""What the manual page on robots says of each intrinsic function: read there, and shown as Markdown."""

import gzip
import os
import re
from dataclasses import dataclass

from tools.faults import reading

HERE = os.path.dirname(os.path.realpath(__file__))
PAGE = "crobots-robots.6"
# The page in the repository, and where this is installed: packed or not.
PLACES = (("..", "..", "man", PAGE), ("..", "..", "..", "man", "man6", PAGE), ("..", "..", "..", "man", "man6", f"{PAGE}.gz"))
ESCAPES = {"\\-": "-", "\\&": "", "\\e": "\\", "\\(ti": "~", "\\(ha": "^"}
ESCAPE = re.compile(r"\\\(..|\\.")
SECTION = ".Sh INTRINSIC FUNCTIONS"
# What follows quoted words without a blank.
MARKS = (".", ",", ";", ":", ")")


@dataclass(frozen=True)
class Entry:
    """What the page has of a function: its parameters, and its paragraph."""

    name: str
    parameters: tuple[str, ...]
    text: str

    def head(self) -> str:
        return f"{self.name}({', '.join(self.parameters)})"


def page() -> str:
    """The text of the page."""
    places = [os.path.normpath(os.path.join(HERE, *place)) for place in PLACES]
    path = next((place for place in places if os.path.exists(place)), places[0])
    with reading(path), open(path, "rb") as file:
        content = file.read()
    return (gzip.decompress(content) if path.endswith(".gz") else content).decode("utf-8", "replace")


def entries(text: str) -> dict[str, Entry]:
    """The intrinsic functions of the page's text, by their names."""
    section = text.partition(SECTION)[2].partition("\n.Sh ")[0]
    body = section.partition("\n.Bl ")[2].partition("\n.El")[0]
    found: dict[str, Entry] = {}
    for item in body.split("\n.It ")[1:]:
        head, _, lines = item.partition("\n")
        paragraph = markdown(lines.splitlines())
        for function in re.split(r" , ?", head):
            _, name, *parameters = plain(function).split()
            found[name] = Entry(name, (*parameters,), paragraph)
    return found


def markdown(lines: list[str]) -> str:
    """Lines of a paragraph as Markdown."""
    return "".join(f" {told}" if told else "" for told in map(shown, lines)).strip()


def shown(line: str) -> str:
    """A line as Markdown: words that the page quotes between backquotes."""
    if not line.startswith("."):
        return plain(line)
    macro, *words = line[1:].split()
    words = [plain(word) for word in words]
    mark = words.pop() if words and words[-1] in MARKS else ""
    if macro == "Fn":
        return f"`{words[0]}({', '.join(words[1:])})`{mark}"
    if macro in ("Ql", "Fa", "Ic"):
        return f"`{' '.join(words)}`{mark}"
    return " ".join(words) + mark


def plain(text: str) -> str:
    return ESCAPE.sub(lambda found: ESCAPES.get(found[0], found[0][1:]), text)
