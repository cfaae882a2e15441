"""Where moves lead, worked out again: each cycle of a history is searched by itself, and the texts are put together anew."""

from __future__ import annotations

from dataclasses import dataclass, field
from typing import Callable

from histories import History

Happens = Callable[[int], bool]


@dataclass
class Model:
    """A robot of a history after a cycle, and what is stopped at: a text, and whether it happens in a cycle."""

    history: History
    source: list[str]
    cycle: int = 0
    marks: dict[str, Happens] = field(default_factory=dict)

    def __post_init__(self) -> None:
        self.entries = self.history.entries({line for line, _ in self.history.places.values()})

    def frames_of_call(self) -> int:
        return self.history.state(self.cycle).calls[0][0]

    def is_entry(self, cycle: int) -> bool:
        return self.history.states[cycle].at in self.entries

    def search(self, is_forwards: bool, happens: Happens) -> int | None:
        """The first cycle after this one, or the last before it."""
        cycles = range(1, len(self.history.states))
        if is_forwards:
            return next((it for it in cycles if it > self.cycle and happens(it)), None)
        return next((it for it in reversed(cycles) if it < self.cycle and happens(it)), None)

    def move(self, command: str) -> list[str]:
        """The answer to a move."""
        is_forwards, name = not command.startswith("reverse-"), command.removeprefix("reverse-")
        frames, states = self.frames_of_call(), self.history.states
        is_out: Happens = lambda cycle: states[cycle].frames < frames  # noqa: E731
        if name == "finish" and frames == 1:
            return [f"{self.function()}: it is the outermost call"]
        happens: dict[str, Happens] = {
            "step": self.is_entry, "finish": is_out,
            "next": lambda cycle: self.is_entry(cycle) and states[cycle].frames <= frames or is_out(cycle),
            "continue": lambda cycle: any(mark(cycle) for mark in self.marks.values()),
        }
        return self.arrive(is_forwards, self.search(is_forwards, happens[name]), name)

    def arrive(self, is_forwards: bool, found: int | None, name: str) -> list[str]:
        """What is said where a move leads."""
        before, frames = self.function(), self.frames_of_call()
        if found is None and not is_forwards and name != "continue" and self.cycle > 0:
            self.cycle = 0
            return self.stop()
        if found is None:
            self.cycle = self.history.last if is_forwards else 0
            return ["no more: this is the last cycle of the match" if is_forwards else "no more: this is the start of the match", *self.stop()]
        self.cycle = found
        state = self.history.state(found)
        if name == "continue":
            return [*(text for text, mark in self.marks.items() if mark(found)), *self.stop()]
        if is_forwards and name in ("next", "finish") and state.frames < frames:
            return [*([] if found in self.history.restarts else [f"{before} returned {state.words[-1]}"]), *self.stop()]
        return self.stop()

    def function(self) -> str:
        return self.history.function(self.history.state(self.cycle).at)

    def line(self) -> int:
        return self.history.line(self.history.state(self.cycle).at)

    def stop(self) -> list[str]:
        """What is said of where the robot is, without columns and what the next cycle does."""
        dead = ", dead" if self.history.death is not None and self.cycle >= self.history.death else ""
        over = ", the match is over" if self.cycle == self.history.last else ""
        asked = next((it for it in self.history.asked if it.cycle == self.cycle), None)
        return [f"cycle {self.cycle}, {self.function()}, line {self.line()}{dead}{over}",
                f" {self.line():{len(str(len(self.source)))}}  {self.source[self.line() - 1].expandtabs(8)}".rstrip(),
                *([f"asked {asked.call}, reply {asked.reply}"] if asked else []), *(["restart"] if self.cycle in self.history.restarts else [])]
