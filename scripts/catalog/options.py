"""The options of a command, as its manual page lists them."""

import re
from dataclasses import dataclass

from catalog.commands import Command, manual_page

# An item of a list, with the text below it: of an option, and of a word that says what is to be done.
ITEM = re.compile(r"^\.It (Fl .*)\n((?:(?!\.(?:It|El|Pp|Sx|Bd)\b).*\n)*)", re.MULTILINE)
WORD = re.compile(r"^\.It Cm ([\w-]+)(?: .*)?\n((?:(?!\.(?:It|El|Pp|Sx|Bd)\b).*\n)*)", re.MULTILINE)
# The macros of mdoc that a sentence may have.
MACROS = ("Fl", "Cm", "Ar", "Xr", "Pq", "Ql", "Ns", "Op")


@dataclass(frozen=True)
class Option:
    """An option: its forms, the name of its value if it takes one, the values if they can be listed, and what it does."""

    forms: tuple[str, ...]
    value: str
    values: tuple[str, ...]
    about: str


def options(command: Command) -> list[Option]:
    """The options, in the order of the page."""
    found = (option(item[1], item[2]) for item in ITEM.finditer(page(command)))
    return [option for option in found if option]


def words(command: Command) -> list[tuple[str, str]]:
    """The words that say what a command is to do, each with what that is; most commands have none."""
    return [(item[1], sentence(item[2])) for item in WORD.finditer(page(command))]


def about(command: Command) -> str:
    """What a command does, in a line."""
    found = re.search(r"^\.Nd (.*)$", page(command), re.MULTILINE)
    return found[1] if found else ""


def page(command: Command) -> str:
    """The text of a command's manual page."""
    return manual_page(command).read_text(encoding="utf-8")


def option(item: str, text: str) -> Option | None:
    """An option of the head of an item of a list, and of the line below; none if the item is of a value of an option."""
    if " Ns " in item:
        return None
    head, _, value = item.partition(" Ar ")
    forms = tuple(f"-{form.removeprefix('Fl ').strip()}" for form in head.split(" , "))
    values = tuple(value.split("|")) if "|" in value else ()
    return Option(forms, value, values, sentence(text))


def sentence(text: str) -> str:
    """The first sentence of a text of a manual page, as a reader sees it, without its end, and without a section that it refers to."""
    plain = re.sub(r" ([.,:;])", r"\1", " ".join(seen(line) for line in text.splitlines()))
    first = re.split(r"(?<!\\&)\.(?: |$)", plain, maxsplit=1)[0]
    return re.sub(r"[,:;] see$", "", first).replace("\\-", "-").replace("\\&", "")


def seen(line: str) -> str:
    """A line as a reader sees it, if it has no other macros than those of words."""
    if not line.startswith("."):
        return line
    words_of_line = [f"-{word}" if before == "Fl" else word
                     for before, word in zip(["", *line[1:].split()], line[1:].split()) if word not in MACROS]
    return " ".join(word for word in words_of_line if word != "6")
