"""Random robots that are made with the places of their functions and loops, and what `crobots-know` says of these."""

from __future__ import annotations

import json
import random
import subprocess
from dataclasses import dataclass, field
from pathlib import Path
from typing import Any

from harness import PATIENCE

# What may stand between two tokens, as far as that says nothing to the compiler.
GAPS = (" ", " ", "\n", "  ", "\t", " /* while (1) { */ ", "\r\n")
PLAIN = (";", "a = a + 1;", "drive(a, 50);", "a = (a + 2) * 3;")
DEEPEST = 5


@dataclass
class Placed:
    """A robot: its text so far, the offset behind its last token, and the rows on its functions and loops in the order of their ends."""

    draw: random.Random
    text: str = ""
    end: int = 0
    rows: list[dict[str, Any]] = field(default_factory=list)

    def add(self, *tokens: str) -> int:
        """Adds tokens; answers where the first of them begins."""
        begin = len(self.text)
        for token in tokens:
            self.text += token
            self.end = len(self.text)
            self.text += self.draw.choice(GAPS)
        return begin

    def function(self, number: int, name: str) -> None:
        begin = self.add(name, "(", ")")
        opened = self.block(0, number)
        self.rows.append({"row": "function", "name": name, "function": number, "start": begin, "end": begin + len(name),
                          "open": opened, "close": self.end})

    def block(self, depth: int, function: int) -> int:
        """Adds a block; answers where it begins."""
        begin = self.add("{")
        for _ in range(self.draw.randrange(4)):
            self.statement(depth, function)
        self.add("}")
        return begin

    def statement(self, depth: int, function: int) -> None:
        kind = self.draw.randrange(8 if depth < DEEPEST else 4)
        if kind < 4:
            self.add(PLAIN[kind])
        elif kind == 4:
            self.block(depth + 1, function)
        elif kind == 5:
            self.add("if", "(", "a", ")")
            # the branch is a block, so that its `else` is that of this `if`
            self.block(depth + 1, function)
            if self.draw.random() < 0.5:
                self.add("else")
                self.statement(depth + 1, function)
        else:
            begin = self.add("while", "(", "a", ")")
            self.statement(depth + 1, function)
            self.rows.append({"row": "loop", "function": function, "start": begin, "end": begin + len("while"), "close": self.end})


def wrong_places(know: str, folder: Path, draw: random.Random) -> list[str]:
    """What is wrong with the places of a random robot's functions and loops."""
    robot, path = Placed(draw), folder / "placed.r"
    names = [*(f"f{number}" for number in range(draw.randrange(3))), "main"]
    for number, name in enumerate(names, 1):
        robot.function(number, name)
    path.write_bytes(robot.text.encode())
    said = subprocess.run([know, str(path)], capture_output=True, text=True, check=False, timeout=PATIENCE).stdout
    got = [row for row in map(json.loads, said.splitlines()) if row["row"] in ("function", "loop")]
    return [] if got == robot.rows else [f"{got}, not {robot.rows}, of\n{robot.text}"]
