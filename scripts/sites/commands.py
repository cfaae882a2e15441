"""The words of command lines: of those that play or show a match again."""

from typing import Sequence

from tools import shells

from .facts import Battle, Settings

line, quoted = shells.line, shells.quoted


def again(settings: Settings, battle: Battle, files: Sequence[str]) -> list[str]:
    """The words by which `crobots` plays a match again."""
    return ["crobots", f"-f{battle.number}", "-m1", *shared(settings, battle), *map(dashless, files)]


def showing(command: str, settings: Settings, battle: Battle, files: Sequence[str], more: Sequence[str] = ()) -> list[str]:
    """The words by which a command that shows one match shows this one, with options of its own."""
    return [command, f"-k{battle.number}", *shared(settings, battle), *more, *map(dashless, files)]


def shared(settings: Settings, battle: Battle) -> list[str]:
    """The options of a match that all commands have."""
    return [f"-l{settings.cycles}", f"-s{battle.seed}", f"-p{settings.profile}"]


def dashless(path: str) -> str:
    """A path that is no option."""
    return f"./{path}" if path.startswith("-") else path
