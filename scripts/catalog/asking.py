"""How a script of the repository begins, and what it answers that is asked about itself: its page of help, which is its own text, and
its version; and what is wrong with words that are names alone."""

import sys
from typing import Callable, NoReturn, Sequence

from tools.faults import Fault, Misuse
from tools.output import OUTPUT
from tools.output import write as write_pieces
from tools.programs import number
from tools.running import run


def begin(name: str, page: str | None, does: Callable[[list[str]], int | None]) -> int:
    """Runs a script that its page explains, unless it is asked about itself; answers its status. Its usage follows wrong words."""
    words, text = sys.argv[1:], page or ""
    return run(name, lambda: None if is_asked(name, text, words) else does(words), usage_of(text))


def usage_of(page: str) -> str:
    """A script's usage, with which its page begins."""
    return f"usage: {page.partition(': ')[0]}"


def fail(why: str, status: int = 1) -> NoReturn:
    raise Fault(why, status)


def is_asked(name: str, page: str, words: list[str]) -> bool:
    """Writes what words ask for, if that is the page of help or the version; reports whether it is."""
    if words in (["-h"], ["--help"]):
        does = page.partition(": ")[2]
        write(name, f"{usage_of(page)}\n\n{does[0].upper()}{does[1:].rstrip()}\n")
        return True
    if words == ["--version"]:
        write(name, f"{name} {number()}\n")
        return True
    return False


def strange(names: list[str], most: int) -> str:
    """What is wrong with words that have to be names, at most so many; nothing if all is right."""
    unknown = next((word for word in names if word.startswith("-")), None)
    if unknown is not None:
        return f"unknown option {unknown}"
    if "" in names:
        return "an empty name"
    return f"one word too many: {names[most]}" if len(names) > most else ""


def parted(words: list[str], flags: Sequence[str], most: int) -> tuple[set[str], list[str]]:
    """The flags with which words begin, in this order, and the names behind them, at most so many; other words are a misuse."""
    given: set[str] = set()
    for flag in flags:
        if words[:1] == [flag]:
            given, words = {*given, flag}, words[1:]
    if why := strange(words, most):
        raise Misuse(why)
    return given, words


def write(name: str, text: str) -> None:
    """Writes to standard output, or ends with status 1."""
    try:
        write_pieces(OUTPUT, [text])
    except OSError as why:
        sys.exit(f"{name}: cannot write: {why.strerror}")
