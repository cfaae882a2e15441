"""The programs that scripts run: where they are, which version they have, and what they write and say."""

import contextlib
import os
import shutil
import subprocess
import tempfile
from subprocess import DEVNULL, PIPE
from typing import IO, Callable, Iterable, Iterator

from .faults import Fault, reading
from .signals import watch

HERE = os.path.dirname(os.path.realpath(__file__))
# The version's number, in the repository and where this is installed.
VERSION = os.path.normpath(os.path.join(HERE, "..", "..", "VERSION"))
# The program that says what happened in a match.
TRACE = "crobots-trace"
# Looks at how a program ended: its status, and the lines that it said but its usage.
Judge = Callable[[int, list[str]], None]


def ours(name: str) -> list[str]:
    """Where the program of a command is that was built with this script, and the one that was installed with it."""
    crate = name.removeprefix("crobots-")
    places = (("..", "..", "crates", crate, "out", crate), ("..", "..", "..", "..", "bin", name))
    return [os.path.normpath(os.path.join(HERE, *place)) for place in places]


def found(name: str, given: str | None = None) -> str:
    """The path of a command's program: the one that was given, on the path, or built or installed with this script."""
    places = [given] if given else [name, *ours(name)]
    path = next((path for place in places if (path := shutil.which(place))), None)
    if not path:
        raise Fault(f"{given or name} is not there, or is no program; README.md says how it is built")
    return path


def installed(name: str) -> str:
    """The path of a command's program, which may be lacking: nothing then."""
    try:
        return found(name)
    except Fault:
        return ""


def number() -> str:
    """The version's number, which the programs have too."""
    with reading(VERSION), open(VERSION, encoding="utf-8", errors="replace") as file:
        return file.readline().strip()


@contextlib.contextmanager
def lines(path: str, words: Iterable[str], judge: Judge, errors: str = "surrogateescape") -> Iterator[Iterator[str]]:
    """The lines that a program writes with these words; after the last one its end is judged.

    It ends when they are needed no more."""
    with tempfile.TemporaryFile() as said, started([path, *words], DEVNULL, PIPE, said) as child:
        yield written(child, said, judge, errors)


@contextlib.contextmanager
def started(words: list[str], stdin: int, stdout: int, stderr: int | IO[bytes], folder: str | None = None) -> Iterator[subprocess.Popen[bytes]]:
    """A program that ends when it is needed no more, and by a signal that comes while it is started, too."""
    child = None
    try:
        with watch() as heard:
            child = subprocess.Popen(words, stdin=stdin, stdout=stdout, stderr=stderr, cwd=folder)
        heard.check()
        yield child
    finally:
        if child:
            with contextlib.suppress(BrokenPipeError), child:
                child.kill()


def complaint(words: list[str]) -> tuple[int, str]:
    """The status of a program that runs to its end, and what it says on standard error."""
    with started(words, DEVNULL, DEVNULL, PIPE) as child:
        said = child.communicate()[1]
        return child.returncode, os.fsdecode(said)


def written(child: subprocess.Popen[bytes], said: IO[bytes], judge: Judge, errors: str) -> Iterator[str]:
    """All lines that a program writes, without their ends."""
    assert child.stdout
    for line in child.stdout:
        yield line.decode("utf-8", errors).removesuffix("\n")
    status = child.wait()
    said.seek(0)
    told = os.fsdecode(said.read()).splitlines(keepends=True)
    judge(status, [line for line in told if not line.startswith("usage: ")])
