"""Sessions of a client that keeps to no order: messages of all kinds, and what the protocol says of each of them."""

from __future__ import annotations

import copy
import json
import random
from dataclasses import dataclass, field
from typing import Any

from lsp_tests.clients import SERVER, at
from protocols import Client, Gone, Message, framed

PARSE_ERROR, INVALID_REQUEST, NO_METHOD, WRONG_PARAMS = -32700, -32600, -32601, -32602
NOT_INITIALISED, CANCELLED, FAILED = -32002, -32800, -32803
NEW, READY, SHUT, OVER = range(4)
MESSAGES = 40
TEXTS = ["", "main() { a b; }", "main() {\n  while (1) ä = scan(1, 2);\n}\n", "int a;\r\nf(\ud83d\ude00) { f(1, ", "/* \ud800", "x" * 3000]
URIS = ["file:///a.r", "file:///%C3%A4%20b.r", "untitled:1", "", "file:///gone.r", "http://[", "\ud800.r", "file:///" + "x" * 400, "file:///%00", "file:///.."]
NUMBERS: list[Any] = [0, 1, 1, 2, -7, 2.0, 10**20, "a", "", "1"]
NO_NUMBERS: list[Any] = [None, True, 1.5, [], {}, [1]]
# What stands where something else should.
ODD: list[Any] = [None, True, -1, 1.5, 10**30, "", "x", "\ud800", "\0", [], {}, [[]], {"line": {}}]
ASKS = ["completion", "signatureHelp", "hover", "definition", "references", "documentHighlight", "documentSymbol", "foldingRange",
        "semanticTokens/full", "inlayHint", "codeAction", "prepareRename", "rename"]
# Requests that may be met or not, as the place is.
MAY_FAIL = {"textDocument/prepareRename", "textDocument/rename", "workspace/executeCommand"}
NOTICES = ["initialized", "textDocument/didOpen", "textDocument/didChange", "textDocument/didClose", "textDocument/didSave",
           "workspace/didChangeConfiguration", "$/cancelRequest", "$/setTrace", "exit", "gone", ""]
# Bodies that are no JSON, and what is no frame.
JUNK = [b"Content-Length: 3\r\n\r\n{a}", b"Content-Length: 2\r\n\r\n\xff\xfe", b"Content-Length: 0\r\n\r\n", b"Content-Length: 3\r\n\r\nNaN",
        b"Content-Length: 9\r\n\r\n{\"id\":NaN", b"Content-Length: 6\r\n\r\n[[[[[[", b"Content-Length: -5\r\n\r\n", b"Length: 3\r\n\r\n", b"\r\n\r\n",
        b"Content-Length: 8\r\n\r\nInfinity"]
# Which types the result of a request has.
RESULTS: dict[str, tuple[type, ...]] = {
    "initialize": (dict,), "shutdown": (type(None),), "workspace/executeCommand": (type(None),), "textDocument/completion": (dict, list, type(None)),
    "textDocument/signatureHelp": (dict, type(None)), "textDocument/hover": (dict, type(None)), "textDocument/definition": (dict, list, type(None)),
    "textDocument/semanticTokens/full": (dict, type(None)), "textDocument/prepareRename": (dict, type(None)), "textDocument/rename": (dict, type(None))}


# Fields of `initialize` that are none.
NO_BEGINNING: list[Any] = [3, "x", True, {"capabilities": 3}, {"capabilities": {"general": []}}]
# Names of documents that a message may have when a part of it is another one.
STRAY = {one for one in ODD if isinstance(one, str)}


@dataclass
class Wanted:
    """What may answer a request: errors by their codes, None for a result."""

    method: str
    codes: set[int | None]
    uri: str = ""


@dataclass
class Session:
    """What has been said so far, and what the protocol says of it."""

    draw: random.Random
    content: bytes = b""
    state: int = NEW
    status: int = 1
    wanted: dict[Any, list[Wanted]] = field(default_factory=dict)
    open: set[str] = field(default_factory=set)
    # documents of which nobody knows whether they are open
    unsure: set[str] = field(default_factory=lambda: {*STRAY})
    named: set[str] = field(default_factory=lambda: {*STRAY})
    invalid: int = 0
    has_junk: bool = False

    def say(self) -> None:
        """Says a message of any kind."""
        kind = self.draw.random()
        if kind < 0.05:
            self.content += self.draw.choice(JUNK)
            self.has_junk = self.has_junk or self.state != OVER
        elif kind < 0.1:
            self.no_call(self.draw.choice([[], 3, "x", None, {}, {"id": 1}, {"method": 3, "id": 1}, {"id": 2, "method": None}, [{"method": "exit"}]]))
        elif kind < 0.13:
            # the answer to what nobody asked
            self.send({"id": self.draw.choice(NUMBERS), self.draw.choice(["result", "error"]): None})
        elif kind < 0.6:
            self.ask(self.draw.choice(NUMBERS))
        elif kind < 0.65:
            method, params = self.request()
            self.no_call({"id": self.draw.choice(NO_NUMBERS), "method": method, "params": params})
        else:
            self.tell()

    def send(self, message: Any) -> None:
        self.content += framed(message | {"jsonrpc": "2.0"} if isinstance(message, dict) else message)

    def no_call(self, message: Any) -> None:
        """Says what is neither a request nor a notification nor an answer: that has no number."""
        self.invalid += self.state != OVER
        self.send(message)

    # Requests.

    def ask(self, number: Any) -> None:
        """Asks, rightly or not."""
        method, right = self.request()
        params = right if self.draw.random() < 0.6 else self.draw.choice(NO_BEGINNING) if method == "initialize" else mutated(self.draw, right)
        if self.state != OVER:
            self.expect(number, method, uri_of(right), self.codes(method, uri_of(right), params, is_same(params, right)))
        lacks = params is None and self.draw.random() < 0.5
        self.send({"id": number, "method": method} | ({} if lacks else {"params": params}))

    def request(self) -> tuple[str, Any]:
        """A request and its fields."""
        kind = self.draw.random()
        if kind < (0.5 if self.state == NEW else 0.05):
            return "initialize", {"processId": None, "rootUri": None, "capabilities": {}}
        if kind < 0.54:
            return "shutdown", None
        if kind < 0.62:
            return self.draw.choice(["gone", "", "$/gone", "textDocument/gone", *NOTICES]), {}
        if kind < 0.68:
            return "workspace/executeCommand", {"command": self.draw.choice(["crobots.play", "crobots.replay", "gone"]), "arguments": [self.uri()]}
        return f"textDocument/{self.draw.choice(ASKS)}", self.fields_of_ask()

    def fields_of_ask(self) -> Any:
        spot = at(self.draw.randint(0, 4), self.draw.randint(0, 30))
        return {"textDocument": {"uri": self.uri()}, "position": spot, "range": {"start": spot, "end": at(9, 9)}, "newName": self.draw.choice(["b", "for", ""]),
                "context": {"diagnostics": [], "includeDeclaration": True}}

    def uri(self) -> str:
        return self.draw.choice(sorted(self.open)) if self.open and self.draw.random() < 0.7 else self.draw.choice(URIS)

    def expect(self, number: Any, method: str, uri: str, codes: set[int | None]) -> None:
        """Notes what may answer a request."""
        self.wanted.setdefault(number, []).append(Wanted(method, codes, uri))

    def codes(self, method: str, uri: str, params: Any, is_right: bool) -> set[int | None]:
        """What may answer a request now; what is asked for by it comes into force."""
        if self.state == SHUT or self.state == READY and method == "initialize":
            return {INVALID_REQUEST} if are_fields(params) else {INVALID_REQUEST, WRONG_PARAMS}
        if method == "initialize":
            self.state = READY if is_right else NEW
            return {None} if is_right else {WRONG_PARAMS}
        if self.state == NEW:
            return {NOT_INITIALISED} if are_fields(params) else {NOT_INITIALISED, WRONG_PARAMS}
        if method == "shutdown":
            return self.shut() if are_fields(params) else {WRONG_PARAMS}
        return self.codes_of_ask(method, uri, params, is_right)

    def shut(self) -> set[int | None]:
        """What waits for an answer may be met no more."""
        self.state = SHUT
        for one in (one for those in self.wanted.values() for one in those if None in one.codes):
            one.codes |= {FAILED} if one.method.startswith("textDocument/") else set()
        return {None}

    def codes_of_ask(self, method: str, uri: str, params: Any, is_right: bool) -> set[int | None]:
        """What may answer a request of a server that is ready."""
        if method not in RESULTS and method.removeprefix("textDocument/") not in ASKS:
            return {NO_METHOD} if are_fields(params) else {NO_METHOD, WRONG_PARAMS}
        if not is_right or method in MAY_FAIL:
            return {None, WRONG_PARAMS, FAILED}
        return {None, FAILED} if uri in self.unsure else {None} if uri in self.open else {FAILED}

    # Notifications.

    def tell(self) -> None:
        """Tells something, rightly or not."""
        method = self.draw.choice(NOTICES if self.draw.random() < 0.8 else ["shutdown", "initialize", "textDocument/hover"])
        if method == "exit" and self.draw.random() < 0.9:
            return
        right = self.fields_of_notice(method)
        params = right if self.draw.random() < 0.7 else mutated(self.draw, right)
        self.send({"method": method, "params": params})
        if method == "exit" and are_fields(params) and self.state != OVER:
            self.status = 0 if self.state == SHUT else 1
            self.shut()
            self.state = OVER
        elif self.state == READY:
            self.heed(method, right, params)

    def fields_of_notice(self, method: str) -> Any:
        uri, text = self.uri(), self.draw.choice(TEXTS)
        if method == "textDocument/didOpen":
            return {"textDocument": {"uri": uri, "languageId": "crobots", "version": self.draw.randint(0, 9), "text": text}}
        if method == "textDocument/didChange":
            where = {"range": {"start": at(self.draw.randint(0, 3), self.draw.randint(0, 30)), "end": at(self.draw.randint(0, 3), 9)}}
            return {"textDocument": {"uri": uri, "version": 3}, "contentChanges": [{"text": text} | (where if self.draw.random() < 0.7 else {})]}
        if method == "$/cancelRequest":
            return {"id": self.draw.choice(NUMBERS)}
        return {"textDocument": {"uri": uri}, "settings": {"profile": self.draw.choice([1, 2])}}

    def heed(self, method: str, right: Any, params: Any) -> None:
        """Notes what follows from a notification, and may follow from one that is wrong."""
        if method == "$/cancelRequest":
            self.cancel(params.get("id") if isinstance(params, dict) else None)
        elif method in ("textDocument/didOpen", "textDocument/didClose"):
            uri = right["textDocument"]["uri"]
            self.named.add(uri)
            if not is_same(params, right):
                self.unsure.add(uri)
            if method == "textDocument/didOpen":
                self.open.add(uri)
            else:
                self.close(uri)

    def cancel(self, number: Any) -> None:
        for one in self.wanted.get(number, []) if type(number) in (int, float, str) else []:
            one.codes |= {CANCELLED} if one.method.startswith("textDocument/") and None in one.codes else set()

    def close(self, uri: str) -> None:
        self.open.discard(uri)
        for one in (one for those in self.wanted.values() for one in those if one.uri == uri and None in one.codes):
            one.codes.add(FAILED)

    # Its end.

    def last(self) -> None:
        """Asks at last what a client asks that keeps to the protocol."""
        uri = "file:///last.r"
        self.named.add(uri)
        self.send({"method": "textDocument/didOpen", "params": {"textDocument": {"uri": uri, "languageId": "r", "version": 1, "text": "main() { }"}}})
        self.send({"id": "last", "method": "textDocument/documentSymbol", "params": {"textDocument": {"uri": uri}}})
        self.expect("last", "textDocument/documentSymbol", uri, {None})

    def end(self) -> bytes:
        """What ends the server as the protocol has it."""
        shutdown = b""
        if self.state == READY:
            self.expect("end", "shutdown", "", {None})
            shutdown = framed({"jsonrpc": "2.0", "id": "end", "method": "shutdown"})
        if self.state in (READY, SHUT):
            self.status = 0
        return shutdown + framed({"jsonrpc": "2.0", "method": "exit"}) if self.status == 0 else b""


def uri_of(params: Any) -> str:
    """The URI that a message names."""
    return str(params["textDocument"]["uri"]) if params and "textDocument" in params else ""


def are_fields(params: Any) -> bool:
    """Whether these may be the fields of a message: none, or an object."""
    return params is None or params == [] or isinstance(params, dict)


def is_same(one: Any, other: Any) -> bool:
    """Whether two values are one in JSON, where true isn't 1."""
    return json.dumps(one) == json.dumps(other)


def mutated(draw: random.Random, value: Any) -> Any:
    """A value of which a part is another one, or lacks."""
    if isinstance(value, (dict, list)) and value and draw.random() < 0.85:
        made = copy.copy(value)
        key: Any = draw.choice([*made] if isinstance(made, dict) else range(len(made)))
        if draw.random() < 0.3:
            del made[key]
        else:
            made[key] = mutated(draw, made[key])
        return made
    return draw.choice([one for one in ODD if not is_same(one, value)])


def tried(environment: dict[str, str], folder: str, seed: int) -> list[str]:
    """What is wrong with the answers of a session."""
    session = Session(random.Random(seed))
    for _ in range(MESSAGES):
        session.say()
    messages, *ended = heard(session, environment, folder)
    wrong = judged(session, messages) + ([] if ended == [session.status, b"", []] else [f"{ended}, not status {session.status}"])
    return [f"seed {seed}: {line}"[:1000] for line in wrong]


def heard(session: Session, environment: dict[str, str], folder: str) -> tuple[list[Message], int, bytes, list[int]]:
    """What a server writes when it is told all of a session, and is ended; its status, what it said, and the processes that are left."""
    client = Client([SERVER], environment, folder)
    is_ready = session.state == READY
    if is_ready:
        session.last()
    try:
        client.write(session.content)
        if is_ready:
            client.kept.append(client.wait(lambda one: one.get("id") == "last"))
        client.write(session.end())
    except BrokenPipeError:
        # it went by `exit`
        pass
    status, said = client.end()
    try:
        client.wait(lambda _: False)
    except Gone:
        pass
    return client.kept, status, said, client.left()


def judged(session: Session, messages: list[Message]) -> list[str]:
    """What is wrong with what a server wrote."""
    wrong = [f"no message: {one}" for one in messages if one.get("jsonrpc") != "2.0" or not is_ordered(one)]
    answers = [one for one in messages if "method" not in one]
    begun = next((at_ for at_, one in enumerate(messages) if isinstance(one.get("result"), dict) and "capabilities" in one["result"]), len(messages))
    wrong += [f"before the first answer: {one}" for one in messages[:begun] if "method" in one]
    wrong += [line for one in messages if "method" in one for line in strange(one, session.named)]
    nobody = [one["error"]["code"] for one in answers if one.get("id") is None]
    wrong += [] if nobody.count(INVALID_REQUEST) == session.invalid else [f"{nobody}, not {session.invalid} times {INVALID_REQUEST}"]
    wrong += [] if (PARSE_ERROR in nobody) == session.has_junk else [f"{nobody}, {session.has_junk}"]
    numbers = {*session.wanted} | {one["id"] for one in answers if one.get("id") is not None}
    return wrong + [line for number in numbers for line in unanswered(number, session.wanted.get(number, []), answers)]


def unanswered(number: Any, wanted: list[Wanted], answers: list[Message]) -> list[str]:
    """What is wrong with the answers to requests of a number: each has one that it may have."""
    got = [one for one in answers if one.get("id") == number and one.get("id") is not None]
    if len(got) != len(wanted):
        return [f"{number!r}: {got} to {wanted}"]
    return [] if fit(sorted(wanted, key=lambda one: len(one.codes)), got) else [f"{number!r}: {got} to {wanted}"]


def fit(wanted: list[Wanted], answers: list[Message]) -> bool:
    """Whether each request can have an answer of its own."""
    return not wanted or any(answers_to(one, wanted[0]) and fit(wanted[1:], answers[:at_] + answers[at_ + 1 :]) for at_, one in enumerate(answers))


def answers_to(answer: Message, wanted: Wanted) -> bool:
    """Whether an answer is one that a request may have."""
    if "error" in answer:
        error = answer["error"]
        return "result" not in answer and isinstance(error["message"], str) and error["code"] in wanted.codes
    return "result" in answer and None in wanted.codes and isinstance(answer["result"], RESULTS.get(wanted.method, (list, type(None))))


def strange(message: Message, named: set[str]) -> list[str]:
    """What is wrong with what a server says unasked."""
    method, params = message["method"], message["params"]
    if method == "textDocument/publishDiagnostics":
        is_right = params["uri"] in named and isinstance(params["diagnostics"], list)
    elif method in ("window/showMessage", "window/logMessage"):
        is_right = params["type"] in (1, 2, 3, 4) and isinstance(params["message"], str)
    else:
        is_right = False
    return [] if is_right and "id" not in message else [f"{message}"]


def is_ordered(value: Any) -> bool:
    """Whether the ranges of a value end where they begin or behind that, and all places are numbers."""
    if isinstance(value, list):
        return all(map(is_ordered, value))
    if not isinstance(value, dict):
        return True
    ends = [place(value.get(name)) for name in ("start", "end")]
    return (not all(ends) or (0, 0) <= ends[0] <= ends[1]) and all(map(is_ordered, value.values()))


def place(value: Any) -> Any:
    """A position as a pair, or nothing for what is none."""
    return (value["line"], value["character"]) if isinstance(value, dict) and "line" in value else ()

