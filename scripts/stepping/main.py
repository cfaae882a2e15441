"""The script `step`: steps through a robot in a match, in a terminal or by lines of plain text."""

from typing import Iterable, Iterator

from tools.faults import UNWRITTEN, Fault, file_word, plain
from tools.output import INPUT, OUTPUT, write_all
from tools.programs import found, number
from tools.running import run as begin

from . import telling
from .commands import Quit, answer
from .pipes import PROGRAM, Debugger
from .screens import PROMPT
from .sessions import Session
from .terminals import can_paint, show
from .words import HELP, NAME, USAGE_LINE, Asked, read

UNREAD = 3


def write(text: str) -> None:
    """Writes a text on standard output at once."""
    try:
        write_all(OUTPUT, text.encode(errors="replace"))
    except BrokenPipeError:
        raise
    except OSError as why:
        raise Fault("cannot write", UNWRITTEN) from why


def script(asked: Asked) -> Iterable[bytes]:
    """The lines of commands, from the script or from standard input."""
    if asked.script is None:
        return typed()
    try:
        with open(asked.script, "rb") as file:
            return file.read().splitlines()
    except OSError as why:
        raise Fault(f"cannot open {file_word(asked.script)}", UNREAD) from why


def typed() -> Iterator[bytes]:
    """The lines of standard input, as they come."""
    try:
        with open(INPUT, "rb", closefd=False) as lines:
            yield from lines
    except OSError as why:
        raise Fault("cannot read standard input", UNREAD) from why


def talk(session: Session, lines: Iterable[bytes]) -> None:
    """Answers lines of commands, each after the line itself."""
    write(texts(telling.stop(session)))
    for line in lines:
        text = plain(line.decode(errors="replace").expandtabs().strip())
        write(f"{PROMPT}{text}\n" if text else "")
        try:
            write(texts(answer(session, text)))
        except Quit:
            return


def texts(lines: list[str]) -> str:
    return "".join(f"{line}\n" for line in lines)


def step(asked: Asked) -> None:
    """Steps through a robot as the words ask for."""
    lines = script(asked)
    with Debugger(found(PROGRAM), asked.robot()) as debugger:
        session = Session(debugger, asked)
        if asked.script is None and can_paint():
            show(session)
        else:
            talk(session, lines)


def do(asked: Asked) -> None:
    """Does what is asked for."""
    if asked.given.flags & {"-h", "--help"}:
        write(HELP)
    elif asked.given.flags:
        write(f"{NAME} {number()}\n")
    else:
        step(asked)


def run(words: list[str]) -> int:
    """Does what the words ask for; answers the status."""
    return begin(NAME, lambda: do(read(words)), USAGE_LINE)
