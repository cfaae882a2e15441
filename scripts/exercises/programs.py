"""The proved programs that know the answers."""

from __future__ import annotations

import json
import os
import tempfile
from subprocess import DEVNULL, PIPE
from types import TracebackType
from typing import Any

from tools.faults import PROGRAM, Fault
from tools.programs import found, started

SECONDS = 60


class Programs:
    """Runs programs on sources, in a folder that goes when they are needed no more."""

    def __enter__(self) -> Programs:
        self._folder = tempfile.TemporaryDirectory()
        self._paths: dict[str, str] = {}
        return self

    def __exit__(self, kind: type[BaseException] | None, value: BaseException | None, trace: TracebackType | None) -> None:
        self._folder.cleanup()

    def lay(self, name: str, source: str) -> None:
        """Writes a source."""
        with open(os.path.join(self._folder.name, name), "w", encoding="ascii") as file:
            file.write(source)

    def lines(self, name: str, *words: str) -> list[str]:
        """What a command writes, and then what it says."""
        path = self._paths.setdefault(name, os.path.abspath(found(name)))
        with started([path, *words], DEVNULL, PIPE, PIPE, self._folder.name) as child:
            written, said = (part.decode("utf-8", "replace") for part in child.communicate(timeout=SECONDS))
        if child.returncode not in (0, 1):
            raise Fault(f"{name} ended with status {child.returncode}: {' '.join(said.split())}", PROGRAM)
        return [*written.splitlines(), *said.splitlines()]

    def listing(self, source: str, *words: str) -> list[str]:
        """What `crobots -c` says of a source in the file robot.r."""
        self.lay("robot.r", source)
        return self.lines("crobots", "-c", *words, "robot.r")

    def cycles(self, source: str, other: str, *words: str) -> str:
        """How many cycles the first match of two robots has."""
        self.lay("robot.r", source)
        self.lay("other.r", other)
        return str(self.object("crobots-trace", *words, "robot.r", "other.r")["cycles"])

    def turn(self, source: str, *words: str) -> list[int]:
        """The cycles that a turn of a robot's loop takes, at least and at most."""
        self.lay("robot.r", source)
        loop, = self.object("crobots-bounds", *words, "robot.r")["loops"]
        return [*loop["cycles"]]

    def events(self, source: str, form: str, limit: int) -> list[list[str]]:
        """The rows of a robot in so many cycles of a match with itself, in a form of `crobots-trace`."""
        self.lay("robot.r", source)
        return [line.split("\t") for line in self.lines("crobots-trace", form, "--robot=1", f"-l{limit}", "robot.r")]

    def object(self, name: str, *words: str) -> dict[str, Any]:
        """What a command says as an object of JSON."""
        text = "\n".join(self.lines(name, "--json", *words))
        try:
            found: dict[str, Any] = json.loads(text)
        except ValueError as why:
            raise Fault(f"{name} wrote no object: {text}", PROGRAM) from why
        return found
