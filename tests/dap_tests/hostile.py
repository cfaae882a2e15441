"""Sessions of a client that keeps to no order: messages of all kinds, and what the protocol says of each of them."""

from __future__ import annotations

import random
from dataclasses import dataclass, field
from typing import Any

from dap_tests.clients import SERVER
from lsp_tests.hostile import is_same, mutated
from protocols import Client, Gone, Message, framed

NEW, BEGUN, LAUNCHED, RUNNING, GONE = range(5)
MESSAGES = 40
MOVES = ["continue", "reverseContinue", "next", "stepIn", "stepOut", "stepBack"]
NUMBERS: list[Any] = [0, 1, 1, 2, -7, 10**20]
FRAMES = [100_000, 100_001, 100_004, 200_002, 100_010, 300_001, 0, -1]
NO_LAUNCH: list[Any] = [3, {}, {"robots": []}, {"robots": ["gone.r"]}, {"robots": ["\0"]}, {"robots": ["\ud800"]}, {"robots": ["x" * 5000]}, {"robots": [""]},
                        {"robots": [3]}, {"robots": "a.r"}]
JUNK = [b"Content-Length: 3\r\n\r\n{a}", b"Content-Length: 2\r\n\r\n\xff\xfe", b"Content-Length: 0\r\n\r\n", b"Content-Length: 3\r\n\r\nNaN", b"\r\n\r\n",
        b"Length: 3\r\n\r\n"]
# Names that no file can have.
NO_NAMES = ("\0", "\ud800")
# What lists the answer to a command has.
LISTS = {"threads": "threads", "stackTrace": "stackFrames", "scopes": "scopes", "variables": "variables", "loadedSources": "sources",
         "disassemble": "instructions", "breakpointLocations": "breakpoints", "setBreakpoints": "breakpoints", "setDataBreakpoints": "breakpoints"}


@dataclass
class Asked:
    """A request: whether it has to be met, or must not be; None if it may."""

    number: Any
    command: str
    arguments: Any
    meets: bool | None


@dataclass
class Session:
    """What has been said so far, and what the protocol says of it."""

    draw: random.Random
    robot: str
    content: bytes = b""
    state: int = NEW
    asked: list[Asked] = field(default_factory=list)

    def say(self) -> None:
        """Says a message of any kind."""
        kind = self.draw.random()
        if kind < 0.05:
            self.content += self.draw.choice(JUNK)
        elif kind < 0.12:
            # no request: nobody answers it
            self.content += framed(self.draw.choice([[], 3, None, {}, {"seq": 1}, {"seq": 1, "type": "request"}, {"type": "request", "command": "launch"},
                                                     {"seq": 1, "type": "response", "command": "disconnect", "request_seq": 1, "success": True},
                                                     {"seq": 2, "type": "event", "event": "exited", "command": "disconnect"},
                                                     {"seq": True, "type": "request", "command": "threads"}, {"seq": 1, "type": "request", "command": 3}]))
        else:
            self.ask()

    def ask(self) -> None:
        """Asks, rightly or not."""
        number, kind = self.draw.choice(NUMBERS), self.draw.random()
        if kind < (0.7 if self.state < RUNNING else 0.1):
            command, arguments, meets = self.step()
        elif kind < 0.15:
            command, arguments, meets = self.draw.choice(["gone", "", "attach", "initialized"]), {}, False
        else:
            command, right = self.request()
            arguments = right if command == "disconnect" or self.draw.random() < 0.6 else mutated(self.draw, right)
            meets = self.meets(command, is_same(arguments, right) and right["source"]["path"] not in NO_NAMES)
        if self.state != GONE:
            self.asked.append(Asked(number, command, arguments, meets))
        self.state = GONE if command == "disconnect" else self.state
        self.content += framed({"seq": number, "type": "request", "command": command, "arguments": arguments})

    def step(self) -> tuple[str, Any, bool]:
        """A request that brings a session on: in its order, or not."""
        command = self.draw.choice(["initialize", "launch", "configurationDone"])
        place = ["initialize", "launch", "configurationDone"].index(command)
        if command == "launch" and self.draw.random() < 0.3:
            return command, self.draw.choice(NO_LAUNCH), False
        if self.state == place:
            self.state += 1
            return command, self.right_step(command), True
        return command, self.right_step(command), False

    def right_step(self, command: str) -> Any:
        if command == "launch":
            return {"robots": [self.robot], "cycles": 300, "from": self.draw.choice([0, 20]), "stopOnEntry": self.draw.random() < 0.8}
        return {"adapterID": "crobots"} if command == "initialize" else {}

    def meets(self, command: str, is_right: bool) -> bool | None:
        """Whether a request has to be met; what comes after the end of the match may be."""
        if command == "disconnect":
            return None
        if self.state < (RUNNING if command in (*MOVES, "pause") else LAUNCHED):
            return False
        return True if is_right and command in ("threads", "loadedSources", "setBreakpoints", "setExceptionBreakpoints") else None

    def request(self) -> tuple[str, Any]:
        """A request of a match, and its arguments."""
        command = self.draw.choice([*MOVES, *MOVES, *LISTS, "pause", "evaluate", "setExceptionBreakpoints", "dataBreakpointInfo", "disconnect"])
        if command == "disconnect" and self.draw.random() < 0.8:
            command = "threads"
        one = {"line": self.draw.randint(-1, 20), "condition": self.draw.choice(["total > 2", "x >", "\n", "at 3", "\0", "\ud800", "1; show x"]),
               "hitCondition": self.draw.choice(["3", "%2", "often", "9" * 400]), "logMessage": self.draw.choice(["{total}", "{", "{\n}"])}
        return command, {
            "threadId": self.draw.choice([1, 2, 2, 3]), "frameId": self.draw.choice(FRAMES), "variablesReference": self.draw.choice(FRAMES),
            "source": {"path": self.draw.choice([self.robot, "/gone.r", "\0", "\ud800", ""])}, "line": self.draw.randint(-1, 20),
            "breakpoints": [dict(self.draw.sample(sorted(one.items()), self.draw.randint(0, 3)), line=one["line"],
                                 dataId=self.draw.choice(["1 total", "2 main.i", "\u00b2 x", "1 total\nat 5", "9 x", "", "1 " + "x" * 5000]))],
            "filters": self.draw.choice([["restart"], ["ask scan", "hurt"], []]), "expression": self.draw.choice(["total", "x", "1; at 5", "main.i\nat 5", "\0.", ""]),
            "name": self.draw.choice(["total", "i", "gone", "total\nat 5", "\ud800"]), "memoryReference": self.draw.choice(["0x10000", "0x20003", "x", "-1", "9" * 4000]),
            "instructionCount": self.draw.choice([3, 0, -1, 10**9]), "granularity": self.draw.choice(["statement", "instruction"])}


def tried(environment: dict[str, str], folder: str, robot: str, seed: int) -> list[str]:
    """What is wrong with the answers of a session."""
    session = Session(random.Random(seed), robot)
    for _ in range(MESSAGES):
        session.say()
    if session.state != GONE:
        session.asked.append(Asked(99, "disconnect", {}, True))
        session.content += framed({"seq": 99, "type": "request", "command": "disconnect", "arguments": {}})
    client = Client([SERVER], environment, folder)
    try:
        client.write(session.content)
    except BrokenPipeError:
        # it went by `disconnect`
        pass
    ended = client.end()
    try:
        client.wait(lambda _: False)
    except Gone:
        pass
    wrong = judged(session, client.kept) + ([] if (*ended, client.left()) == (0, b"", []) else [f"{ended}, left {client.left()}"])
    return [f"seed {seed}: {line}"[:1000] for line in wrong]


def judged(session: Session, messages: list[Message]) -> list[str]:
    """What is wrong with what an adapter wrote."""
    numbers = [one["seq"] for one in messages]
    wrong = [] if numbers == [*range(1, len(messages) + 1)] else [f"numbers {numbers}"]
    answers = [one for one in messages if one["type"] == "response"]
    if [(one["request_seq"], one["command"]) for one in answers] != [(one.number, one.command) for one in session.asked]:
        return [*wrong, f"{answers} to {session.asked}"]
    wrong += [f"{answer} to {asked}" for answer, asked in zip(answers, session.asked) if not is_answer(answer, asked)]
    return wrong + stops(messages)


def is_answer(answer: Message, asked: Asked) -> bool:
    """Whether a request may have this answer."""
    if not answer["success"]:
        return asked.meets is not True and isinstance(answer["message"], str)
    if asked.meets is False:
        return False
    name = LISTS.get(asked.command)
    if name and not isinstance(answer["body"][name], list):
        return False
    is_each = asked.command in ("setBreakpoints", "setDataBreakpoints")
    return not is_each or len(answer["body"]["breakpoints"]) == len((asked.arguments or {}).get("breakpoints") or [])


def stops(messages: list[Message]) -> list[str]:
    """What is wrong with where a match stops: once behind each move, and not behind its end, of which there is one."""
    wrong: list[str] = []
    is_moving = is_over = False
    for one in messages:
        if one["type"] == "response":
            wrong += [f"no stop before {one}"] if is_moving else []
            is_moving = one["success"] and one["command"] in (*MOVES, "pause", "configurationDone", "terminate")
            wrong += [f"after the end: {one}"] if is_moving and is_over else []
        elif one["event"] in ("stopped", "terminated"):
            wrong += [] if is_moving and not is_over else [f"no move before {one}"]
            is_moving, is_over = False, is_over or one["event"] == "terminated"
    return wrong + (["no stop at last"] if is_moving else [])
