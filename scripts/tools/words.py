"""Words of command lines whose values are judged by the program that they are handed on to, and what pages of help say of them."""

from __future__ import annotations

from dataclasses import dataclass, field
from typing import Collection

from .faults import Misuse
from .rules import CYCLES_DEFAULT, FIRST_DEFAULT, MOST_PROFILE, PROFILE_DEFAULT, SEED_DEFAULT

FLAGS = ("-h", "--help", "--version")
PROFILES = tuple(map(str, range(1, MOST_PROFILE + 1)))
PROFILE_HELP = f"language profile, {' or '.join(PROFILES)} (default {PROFILE_DEFAULT})"
# What a page of help says of the options by which one match is chosen.
MATCH_HELP = f"""  -k, -f MATCH      number of the match (default {FIRST_DEFAULT})
  -l CYCLES         most cycles of the match (default {CYCLES_DEFAULT})
  -s SEED           seed of the random numbers (default {SEED_DEFAULT})
  -p PROFILE        {PROFILE_HELP}
"""


@dataclass(frozen=True)
class Option:
    """An option with its value, and the words that gave it: one, or two."""

    name: str
    value: str
    words: tuple[str, ...]


@dataclass
class Given:
    """The words of a command line: options in their order, flags, and files."""

    options: list[Option] = field(default_factory=list)
    flags: set[str] = field(default_factory=set)
    files: list[str] = field(default_factory=list)

    def handed_on(self, but: Collection[str] = (), more: Collection[str] = ()) -> list[str]:
        """The words of all options but some, more words, and the files, which none can take for options."""
        dashes = ["--"] if any(file.startswith("-") for file in self.files) else []
        return [*(word for option in self.options if option.name not in but for word in option.words), *more, *dashes, *self.files]

    def last(self, *names: str) -> str | None:
        """The value that one of these options has last."""
        return next((option.value for option in reversed(self.options) if option.name in names), None)

    def once(self, name: str) -> str | None:
        """The value of an option that may be given once."""
        if len([option for option in self.options if option.name == name]) > 1:
            raise Misuse(f"{name} is given twice")
        return self.last(name)

    def some_files(self) -> Given:
        """The same words, if they name files; else a value may be the file that is missing."""
        taken = [option for option in self.options if len(option.words) > 1 and not (option.value.isascii() and option.value.isdigit())]
        if not self.files and not self.flags & {*FLAGS}:
            raise Misuse(f"no file: {taken[-1].name} took {taken[-1].value} for its value" if taken else "")
        return self


def given(words: list[str], valued: Collection[str], flags: Collection[str] = ()) -> Given:
    """Reads the words; these options have values, and these don't."""
    found, rest = Given(), [*words]
    while rest:
        word = rest.pop(0)
        if word == "--":
            found.files += rest
            return found
        if word.startswith("-") and word != "-":
            take_option(found, word, rest, valued, (*FLAGS, *flags))
        else:
            found.files.append(word)
    return found


def take_option(given: Given, word: str, rest: list[str], valued: Collection[str], flags: Collection[str]) -> None:
    """Takes the word of an option, and the next one if that is its value."""
    name, value = parted(word)
    if name in flags and value is None:
        if name in given.flags and name not in FLAGS:
            raise Misuse(f"{name} is given twice")
        given.flags.add(name)
    elif name not in valued:
        raise Misuse(f"unknown option {word}{' (the match is -k)' if name == '-m' else ''}")
    elif value is None and not rest:
        raise Misuse(f"{name} lacks its value")
    else:
        words = (word,) if value is not None else (word, rest.pop(0))
        given.options.append(Option(name, words[-1] if value is None else value, words))
        if not given.options[-1].value:
            raise Misuse(f"{name} has an empty value")


def parted(word: str) -> tuple[str, str | None]:
    """The name of the option that a word begins with, and the value that is attached."""
    if word.startswith("--"):
        name, equals, value = word.partition("=")
        return name, value if equals else None
    return word[:2], word[2:] or None


def number(text: str | None) -> int:
    """A number of at most nine digits; 1 if it is none, which the program that gets it will refuse."""
    return int(text[:9]) if text and text.isascii() and text.isdigit() else 1
