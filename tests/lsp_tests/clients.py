"""A client of `crobots-lsp`, and texts by code units."""

from __future__ import annotations

from typing import Any

from protocols import TOP, Client, Message

SERVER = str(TOP / "scripts" / "lsp")
OFFERS = {"textDocument": {"completion": {"completionItem": {"snippetSupport": True}}}}


class Editor:
    """An editor with documents, that asks a server."""

    def __init__(self, environment: dict[str, str], folder: str, options: Any = None, offers: Any = None, words: list[str] | None = None) -> None:
        self.client = Client(words or [SERVER], environment, folder)
        self._number = 0
        self.answer = self.ask("initialize", {"processId": None, "rootUri": None, "capabilities": offers or OFFERS,
                                              "initializationOptions": options})
        self.tell("initialized", {})

    def begin(self, method: str, params: Any) -> int:
        """Asks, and doesn't wait for the answer."""
        self._number += 1
        self.client.send({"jsonrpc": "2.0", "id": self._number, "method": method, "params": params})
        return self._number

    def answered(self, number: int) -> Message:
        return self.client.take(lambda it: it.get("id") == number and "method" not in it)

    def ask(self, method: str, params: Any) -> Message:
        return self.answered(self.begin(method, params))

    def tell(self, method: str, params: Any) -> None:
        self.client.send({"jsonrpc": "2.0", "method": method, "params": params})

    def open(self, uri: str, text: str, version: int = 1) -> None:
        self.tell("textDocument/didOpen", {"textDocument": {"uri": uri, "languageId": "crobots", "version": version, "text": text}})

    def change(self, uri: str, version: int, changes: list[Any]) -> None:
        self.tell("textDocument/didChange", {"textDocument": {"uri": uri, "version": version}, "contentChanges": changes})

    def diagnostics(self, uri: str) -> list[Message]:
        """What was published last of a document, when all of its text is known."""
        self.ask("textDocument/documentSymbol", {"textDocument": {"uri": uri}})
        published = [it["params"] for it in self.client.kept if it.get("method") == "textDocument/publishDiagnostics" and it["params"]["uri"] == uri]
        found: list[Message] = published[-1]["diagnostics"]
        return found

    def messages(self) -> list[str]:
        """What the server showed the user."""
        return [it["params"]["message"] for it in self.client.kept if it.get("method") == "window/showMessage"]

    def close(self) -> tuple[int, bytes]:
        """Ends the server as the protocol has it; answers its status and what it said."""
        self.ask("shutdown", None)
        self.tell("exit", None)
        return self.client.end()


def at(line: int, character: int) -> Message:
    return {"line": line, "character": character}


def place(uri: str, line: int, character: int) -> Message:
    return {"textDocument": {"uri": uri}, "position": at(line, character)}


class Units:
    """A text as a list of code units of UTF-16, which is how the protocol counts: it is changed and looked at by these alone."""

    def __init__(self, text: str) -> None:
        content = text.encode("utf-16-le", "surrogatepass")
        self.units = [content[number] | content[number + 1] << 8 for number in range(0, len(content), 2)]

    def text(self) -> str:
        return b"".join(unit.to_bytes(2, "little") for unit in self.units).decode("utf-16-le", "surrogatepass")

    def starts(self) -> list[int]:
        """Where lines begin: behind CR LF, LF and CR."""
        starts = [0]
        for number, unit in enumerate(self.units):
            is_first_of_two = unit == 13 and self.units[number + 1 : number + 2] == [10]
            if unit in (10, 13) and not is_first_of_two:
                starts.append(number + 1)
        return starts

    def position(self, number: int) -> Message:
        """The position of a unit."""
        starts = [it for it in self.starts() if it <= number]
        return at(len(starts) - 1, number - starts[-1])

    def place(self, position: Message) -> int:
        """The unit at a position of the text."""
        found: int = self.starts()[position["line"]] + position["character"]
        return found

    def replace(self, first: int, last: int, text: str) -> None:
        self.units[first:last] = Units(text).units

    def is_apart(self, number: int) -> bool:
        """Whether no character, and no end of a line, has a unit before a place and one behind it."""
        pair = self.units[number - 1 : number + 1] if number else []
        return len(pair) < 2 or not (0xD800 <= pair[0] < 0xDC00 and 0xDC00 <= pair[1] < 0xE000) and pair != [13, 10]

    def of_bytes(self, offset: int) -> int:
        """The unit at an offset in the text's bytes."""
        return len(Units(self.text().encode("utf-8", "surrogatepass")[:offset].decode("utf-8", "ignore")).units)
