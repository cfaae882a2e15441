"""The scripts `lsp` and `dap`: servers on standard input and output."""

import importlib
from typing import Callable

from tools.faults import Misuse
from tools.output import OUTPUT, write_all
from tools.programs import number
from tools.running import run as begin

from .words import DEBUGGER, NAME, help_page, usage

ABOUT = {NAME: "Answers an editor's questions about robots, by the Language Server Protocol on standard input and output.",
         DEBUGGER: "Lets an editor step through matches of robots, by the Debug Adapter Protocol on standard input and output."}
SERVERS = {NAME: ("editing.serving", "Server"), DEBUGGER: ("editing.debugging", "Adapter")}
# Words that clients add by themselves: there is no other way of transport.
TRANSPORTS = {"--stdio"}
VERSION = "--version"


def serve(name: str, words: list[str]) -> int:
    """Serves a client, or writes what a flag asks for."""
    asked = [word for word in words if word not in TRANSPORTS]
    if strange := next((word for word in asked if not is_text(word)), None):
        raise Misuse(f"{strange} is no text")
    if {*asked} & {"-h", "--help"}:
        write_all(OUTPUT, help_page(name, ABOUT[name]).encode())
    elif asked and {*asked} == {VERSION}:
        write_all(OUTPUT, f"{name} {number()}\n".encode())
    elif unknown := next((word for word in asked if word != VERSION), None):
        raise Misuse(f"unknown option {unknown}" if unknown.startswith("-") else f"{unknown}: no file is read")
    else:
        module, server = SERVERS[name]
        made: Callable[[], object] = getattr(importlib.import_module(module), server)
        status: int = made().run()  # type: ignore[attr-defined]
        return status
    return 0


def is_text(word: str) -> bool:
    return not any("\ud800" <= letter <= "\udfff" for letter in word)


def run(name: str, words: list[str]) -> int:
    """Does what the words ask for; answers the status."""
    return begin(name, lambda: serve(name, words), usage(name))
