"""A client of `crobots-dap`."""

from __future__ import annotations

from typing import Any

from protocols import TOP, Client, Message

SERVER = str(TOP / "scripts" / "dap")


class Debugging:
    """A client that looks into a match."""

    def __init__(self, environment: dict[str, str], folder: str, server: str = SERVER, **more: Any) -> None:
        self.client = Client([server], environment, folder)
        self._number = 0
        self.capabilities = self.ask("initialize", {"adapterID": "crobots"} | more)["body"]

    def begin(self, command: str, arguments: Any = None) -> int:
        self._number += 1
        self.client.send({"seq": self._number, "type": "request", "command": command, "arguments": arguments})
        return self._number

    def answered(self, number: int) -> Message:
        return self.client.take(lambda it: it.get("type") == "response" and it["request_seq"] == number)

    def ask(self, command: str, arguments: Any = None) -> Message:
        return self.answered(self.begin(command, arguments))

    def body(self, command: str, arguments: Any = None) -> Any:
        """The body of an answer, which has to be one."""
        answer = self.ask(command, arguments)
        assert answer["success"], answer
        return answer.get("body")

    def event(self, *names: str) -> Message:
        """The next event of one of these names."""
        return self.client.take(lambda it: it.get("event") in names)

    def launch(self, robots: list[str], stops: dict[str, list[Any]] | None = None, filters: list[str] | None = None, **more: Any) -> Message:
        """Launches a match; answers the first stop. Breakpoints are of files."""
        self.body("launch", {"robots": robots} | more)
        self.event("initialized")
        for path, breakpoints in (stops or {}).items():
            self.body("setBreakpoints", {"source": {"path": path}, "breakpoints": breakpoints})
        self.body("setExceptionBreakpoints", {"filters": filters or []})
        self.body("configurationDone")
        return self.event("stopped", "terminated")

    def move(self, command: str, thread: int = 1, **more: Any) -> Message:
        """Moves; answers where it stops, or that it doesn't."""
        self.body(command, {"threadId": thread} | more)
        return self.event("stopped", "terminated")

    def frames(self, thread: int = 1) -> list[Message]:
        found: list[Message] = self.body("stackTrace", {"threadId": thread})["stackFrames"]
        return found

    def variables(self, reference: int) -> dict[str, str]:
        return {it["name"]: it["value"] for it in self.body("variables", {"variablesReference": reference})["variables"]}

    def scopes(self, thread: int = 1, frame: int = 0) -> dict[str, dict[str, str]]:
        """The variables of each scope of a frame."""
        it = self.frames(thread)[frame]
        return {scope["name"]: self.variables(scope["variablesReference"]) for scope in self.body("scopes", {"frameId": it["id"]})["scopes"]}

    def outputs(self) -> list[str]:
        """What was written on the console so far."""
        return [it["body"]["output"] for it in self.client.kept if it.get("event") == "output"]

    def close(self) -> list[str]:
        """What is wrong with the end."""
        self.body("disconnect")
        status, said = self.client.end()
        left = self.client.left()
        return [f"status {status}, {said.decode()}, left {left}"] if status or said or left else []


def cycle_of(stop: Message) -> int:
    """The cycle after which the robots have stopped."""
    return int(stop["body"]["text"].removeprefix("cycle "))
