"""The script `exercise`: prints an exercise, or marks what was handed in."""

import os

from tools.faults import FAULTY, Fault, Misuse, file_word, plain
from tools.output import show
from tools.programs import number
from tools.running import run as begin

from .marking import RIGHT, Marker, lines_of, named, table, text_of
from .programs import Programs
from .tasks import text_of as task_text
from .words import DEFAULT_SEED, HELP, NAME, USAGE_LINE, Asked, read


def check(asked: Asked, path: str) -> list[str]:
    """The lines about a file, or about a folder."""
    with Programs() as programs:
        marker = Marker(programs)
        if os.path.isdir(path):
            rows = table(path, asked.number, marker)
            if not any(row.exercise for row in rows):
                raise Fault(f"{file_word(path)}: no file in it is named as anna-3.txt", FAULTY)
            right = sum(row.answer == RIGHT for row in rows)
            return [*lines_of(rows), f"{right} of {len(rows)} are right"]
        text = text_of(path)
        by_name = named(path)
        exercise = asked.number or by_name and by_name[1]
        if not exercise:
            raise Misuse(f"{file_word(path)}: which exercise? name it, or call the file as anna-3.txt")
        seed = asked.seed or by_name and by_name[0] or DEFAULT_SEED
        return [f"{plain(path)}: {marker.marked(text, seed, exercise)}"]


def do(asked: Asked) -> None:
    """Does what is asked for."""
    if asked.flags & {"-h", "--help"}:
        show([HELP])
    elif "--version" in asked.flags:
        show([f"{NAME} {number()}\n"])
    elif asked.path is not None:
        show(f"{line}\n" for line in check(asked, asked.path))
    elif asked.number is not None:
        show([task_text(asked.number, asked.seed or DEFAULT_SEED)])


def run(words: list[str]) -> int:
    """Does what the words ask for; answers the status."""
    return begin(NAME, lambda: do(read(words)), USAGE_LINE, writes=True)
