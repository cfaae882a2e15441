"""A running `crobots-debug`, and the questions that it answers through a pipe."""

from __future__ import annotations

import contextlib
import signal
import tempfile
from subprocess import PIPE
from types import TracebackType

from tools.faults import Ended, Fault
from tools.programs import started
from tools.signals import Stopped

from .moments import Moment, Row, moment_of
from .words import NAME

PROGRAM = "crobots-debug"


class Refused(Exception):
    """A question has a wrong word, which the text names."""


class Debugger:
    """A running `crobots-debug`; what it says is said in the name of a script."""

    def __init__(self, path: str, words: list[str], name: str = NAME) -> None:
        self._words, self._name = [path, *words], name

    def __enter__(self) -> Debugger:
        with contextlib.ExitStack() as opened:
            self._said = opened.enter_context(tempfile.TemporaryFile())
            self._child = opened.enter_context(started(self._words, PIPE, PIPE, self._said))
            self._opened = opened.pop_all()
        return self

    def __exit__(self, _: type[BaseException] | None, __: BaseException | None, ___: TracebackType | None) -> None:
        self._opened.close()

    def rows(self, question: str) -> list[Row]:
        """The rows of the answer to a question."""
        assert self._child.stdin and self._child.stdout
        try:
            self._child.stdin.write(f"{question}\n".encode())
            self._child.stdin.flush()
        except BrokenPipeError:
            raise self._ended() from None
        rows: list[Row] = []
        for line in self._child.stdout:
            if line == b"\n":
                return rows
            rows.append(line.decode(errors="replace").rstrip("\n").split("\t"))
        raise self._ended()

    def moment(self, cycle: int) -> Moment:
        """Where the robot is after a cycle."""
        return moment_of(self.right(f"at {cycle}"))

    def found(self, way: str, cycle: int, event: str) -> int | None:
        """The cycle in which an event happens: the next or the last one, as the way says."""
        first = self.right(f"{way} {cycle} {event}")[0]
        return int(first[1]) if first[0] == "found" else None

    def check(self, event: str) -> None:
        """Stops if an event has a wrong word; nothing happens before cycle 0."""
        self.right(f"last 0 {event}")

    def right(self, question: str) -> list[Row]:
        """The rows of an answer, if the question isn't wrong."""
        rows = self.rows(question)
        if rows and rows[0][0] == "wrong":
            raise Refused(rows[0][1])
        return rows

    def _ended(self) -> Fault:
        """Why there is no answer: what the program said, with the name of this one."""
        status = self._child.wait()
        if status == -signal.SIGINT:
            # a terminal sends it to both
            raise Stopped(signal.SIGINT)
        self._said.seek(0)
        lines = [said(line, self._name) for line in self._said.read().decode(errors="surrogateescape").splitlines(keepends=True)]
        told = [line for line in lines if not line.startswith("usage: ")]
        ended = f"{self._name}: {PROGRAM} ended{f' by signal {-status}' if status < 0 else ''}\n"
        return Ended(told or [ended], status)


def said(line: str, name: str) -> str:
    """A line of `crobots-debug` on standard error, with the name of a script."""
    return f"{name}: {line.removeprefix(f'{PROGRAM}: ')}" if line.startswith(f"{PROGRAM}: ") else line
