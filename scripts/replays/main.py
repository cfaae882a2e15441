"""The script `replay`: has a match played by `trace`, and writes its page."""

from tools import output
from tools.faults import UNWRITTEN, Ended, Fault
from tools.programs import TRACE, found, lines, number
from tools.running import run as begin

from .films import Film
from .pages import page
from .words import HELP, NAME, USAGE_LINE, Asked, read


def filmed(asked: Asked) -> Film:
    """The film of the match that words ask for, with the robots' sources if they are shown."""
    film = Film(asked.robots if asked.is_inside() else [])
    with lines(found(TRACE), ["--inside" if asked.is_inside() else "--film", *asked.trace], pass_on, "replace") as rows:
        try:
            film.read(rows)
        except Fault:
            # how the program ended says more
            for _ in rows:
                pass
            raise
    return film


def pass_on(status: int, said: list[str]) -> None:
    """Passes on what `trace` said, with the name of this script, and ends with its status if that is not 0."""
    ours = [f"{NAME}{line.removeprefix(TRACE)}" if line.startswith(f"{TRACE}: ") else line for line in said]
    if status:
        raise Ended(ours, status)
    output.tell("".join(ours))


def write(text: str, path: str = "") -> None:
    """Writes a text at once, into a file or on standard output."""
    try:
        if path:
            with open(path, "wb") as file:
                file.write(text.encode())
        else:
            output.write_all(output.OUTPUT, text.encode())
    except BrokenPipeError:
        raise
    except OSError as why:
        raise Fault(f"cannot write {path}".rstrip(), UNWRITTEN) from why


def answer(asked: Asked) -> None:
    """Writes what is asked for."""
    if asked.flags & {"-h", "--help"}:
        write(HELP)
    elif "--version" in asked.flags:
        write(f"{NAME} {number()}\n")
    else:
        write(page(filmed(asked), asked.number), asked.file)


def run(words: list[str]) -> int:
    """Does what the words ask for; answers the status."""
    return begin(NAME, lambda: answer(read(words)), USAGE_LINE)
