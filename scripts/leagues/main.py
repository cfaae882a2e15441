"""The script `league`: does what a command asks for."""

import argparse
from typing import Callable

from .words import Words

Does = Callable[[argparse.Namespace], None]


def command(name: str) -> Does:
    """What does a command. The modules that it needs are read here, since all of them together take longer than most commands."""
    match name:
        case "init" | "rules" | "add" | "change" | "withdraw":
            from . import entering
            return {"init": entering.init, "rules": entering.rules, "add": entering.add, "change": entering.change, "withdraw": entering.withdraw}[name]
        case "status" | "table":
            from . import showing
            return {"status": showing.status, "table": showing.table}[name]
        case "take-in":
            from .handing import take_in
            return take_in
        case "correct":
            from .correcting import correct
            return correct
        case "play":
            from .sessions import play
            return play
        case "take":
            from .taking import take
            return take
        case "drop":
            from .dropping import drop
            return drop
        case "season":
            from .turning import season
            return season
        case "history":
            from .history import history
            return history
        case "publish":
            from .publishing import publish
            return publish
        case "verify":
            from .verifying import verify
            return verify
        case _:
            return of_ladder(name)


def of_ladder(name: str) -> Does:
    """What does a command of the open ladder."""
    match name:
        case "serve":
            from ladder.serving import serve
            return serve
        case "invite" | "terms":
            from ladder import inviting
            return {"invite": inviting.invite, "terms": inviting.terms}[name]
        case "final":
            from ladder.finals import final
            return final
        case "send":
            from ladder.sending import send
            return send
        case _:
            raise LookupError(f"there is no command {name}")


def league(name: str, arguments: list[str]) -> None:
    """Does what the words ask for."""
    given = Words(name).parse(arguments)
    command(given.command)(given)
