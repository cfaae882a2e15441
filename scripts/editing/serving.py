"""The language server: what a client asks for, and what it is told."""

from dataclasses import dataclass, field
from typing import Any, Callable

from tools.faults import Fault
from tools.programs import found, number
from tools.rules import MOST_PROFILE, PROFILE_DEFAULT

from . import colours, completing, mending, telling
from .documents import UTF_8, UTF_16, Text, name_of
from .fields import Fields, Wrong
from .framing import encoded
from .knowing import INPUT, PROGRAM, Knower, Knowers, Known, NoRow
from .loops import Loop, send, send_encoded
from .manual import entries, page
from .plays import COMMANDS, Plays, opponents
from .words import NAME, pages

PARSE_ERROR, INVALID_REQUEST, NO_METHOD, WRONG_PARAMS = -32700, -32600, -32601, -32602
NOT_INITIALISED, CANCELLED, FAILED = -32002, -32800, -32803
ERROR, WARNING, INFO = 1, 2, 3
# How a message ends that publishes none.
NO_DIAGNOSTICS = b"[]}}"
Answer = Any
Ask = Callable[["Server", "Document", Fields], Answer]


class Failed(Exception):
    """A request can't be met: its text says why."""

    def __init__(self, why: str, code: int = FAILED) -> None:
        super().__init__(why)
        self.code = code


@dataclass
class Asked:
    """A request that waits until all of its document's text is known."""

    number: Any
    ask: Ask
    params: Fields


@dataclass
class Document:
    """A document that is open: its text, what is known of it, and what waits for that."""

    uri: str
    text: Text
    version: int | None
    profile: int = PROFILE_DEFAULT
    known: Known | None = None
    knower: Knower | None = None
    asked: list[Asked] = field(default_factory=list)
    # what was published last, as JSON
    warnings: list[bytes] = field(default_factory=list)
    # why nothing is known of it
    why: str = ""


@dataclass
class Settings:
    """What the client has set, and can do."""

    profile: int = PROFILE_DEFAULT
    has_hints: bool = False
    encoding: str = UTF_16
    has_snippets: bool = False
    shows_documents: bool = False

    def take(self, given: Any) -> None:
        """Takes the settings of the client, if there are some."""
        if isinstance(given, dict):
            ours = given.get("crobots", given)
            fields = Fields(ours if isinstance(ours, dict) else {}, "settings")
            profile = fields.number_or("profile", self.profile)
            self.profile = profile if 1 <= profile <= MOST_PROFILE else PROFILE_DEFAULT
            self.has_hints = fields.truth("inlayHints", self.has_hints)


class Server:
    """A language server for one client."""

    def __init__(self) -> None:
        self._knowers = Knowers(found(PROGRAM))
        self.manual = entries(page())
        self._pages = pages()
        self._settings = Settings()
        self._documents: dict[str, Document] = {}
        self._is_ready = self._is_asked_to_end = False
        self._said = ""
        self._loop = Loop(self._take, lambda why: send(failure(None, PARSE_ERROR, why)))
        self._plays = Plays(self._loop, show)

    def run(self) -> int:
        """Serves until the client goes; answers the status."""
        try:
            self._loop.run()
        finally:
            for document in self._documents.values():
                self._stop(document)
            self._knowers.end()
            self._plays.stop()
        return 0 if self._is_asked_to_end else 1

    def _take(self, message: Any) -> None:
        """Takes a message: a request has a number, and is answered, whatever is wrong with it. A notification never is."""
        if is_answer(message):
            return
        if not is_call(message):
            send(failure(None, INVALID_REQUEST, "no request and no notification"))
        elif "id" in message:
            self._answer_request(message["method"], message["id"], message.get("params"))
        elif message["method"] == "exit" or self._is_ready and not self._is_asked_to_end:
            self._heed(message["method"], message.get("params"))

    def _answer_request(self, method: str, number_: Any, params: Any) -> None:
        try:
            self._dispatch(method, number_, fields_of(params))
        except Wrong as why:
            send(failure(number_, WRONG_PARAMS, str(why)))
        except Failed as why:
            send(failure(number_, why.code, str(why)))

    def _heed(self, method: str, params: Any) -> None:
        """Does what a notification says. What is wrong with one stands in the client's log."""
        try:
            if method in NOTIFICATIONS:
                NOTIFICATIONS[method](self, fields_of(params))
            elif not method.startswith("$/") and method not in IGNORED:
                log(f"{method} isn't known")
        except (Wrong, Failed) as why:
            log(f"{method}: {why}")

    def _dispatch(self, method: str, number_: Any, params: Fields) -> None:
        if self._is_asked_to_end:
            raise Failed("the server is shut down", INVALID_REQUEST)
        if method == "initialize":
            send(success(number_, self._initialize(params)))
        elif not self._is_ready:
            raise Failed("initialize comes first", NOT_INITIALISED)
        elif method == "shutdown":
            self._is_asked_to_end = True
            self._leave()
            send(success(number_, None))
        elif method == "workspace/executeCommand":
            self._execute(number_, params)
        elif method in ASKS:
            self._ask(Asked(number_, ASKS[method], params), self._document(params))
        else:
            raise Failed(f"{method} isn't known", NO_METHOD)

    def _initialize(self, params: Fields) -> Answer:
        """What the server can do, and the encoding of positions that it takes of those that the client offers."""
        if self._is_ready:
            raise Failed("the server is initialized", INVALID_REQUEST)
        can = params.fields_or("capabilities")
        offered = can.fields_or("general").items("positionEncodings")
        item = can.fields_or("textDocument").fields_or("completion").fields_or("completionItem")
        self._settings.encoding = UTF_8 if UTF_8 in offered else UTF_16
        self._settings.has_snippets = item.truth("snippetSupport")
        self._settings.shows_documents = can.fields_or("window").fields_or("showDocument").truth("support")
        self._settings.take(params.value("initializationOptions"))
        self._is_ready = True
        self._knowers.begin_ahead(self._settings.profile)
        return {"capabilities": capabilities(self._settings.encoding), "serverInfo": {"name": NAME, "version": number()}}

    def _document(self, params: Fields) -> Document:
        uri = params.fields("textDocument").text("uri")
        if uri not in self._documents:
            raise Failed(f"{uri} isn't open")
        return self._documents[uri]

    # Documents.

    def opened(self, params: Fields) -> None:
        given = params.fields("textDocument")
        uri = given.text("uri")
        waiting: list[Asked] = []
        if uri in self._documents:
            self._stop(self._documents[uri])
            waiting = self._documents[uri].asked
        text = Text(given.text("text"), self._settings.encoding)
        self._documents[uri] = Document(uri, text, given.number_or("version", 0), self._settings.profile, asked=waiting)
        self._know(self._documents[uri])

    def changed(self, params: Fields) -> None:
        document = self._document(params)
        text = document.text
        for change in params.all("contentChanges"):
            text = text.changed(change)
        document.text = text
        document.version = params.fields("textDocument").number_or("version", 0)
        self._know(document)

    def closed(self, params: Fields) -> None:
        document = self._document(params)
        self._stop(document)
        del self._documents[document.uri]
        self._fail(document, f"{document.uri} was closed")
        publish(document, [], with_version=False)

    def configured(self, params: Fields) -> None:
        self._settings.take(params.value("settings"))
        for document in self._documents.values():
            document.profile = self._settings.profile
            self._know(document)

    def cancelled(self, params: Fields) -> None:
        number_ = params.value("id")
        for document in self._documents.values():
            for asked in [one for one in document.asked if is_number(number_) and one.number == number_]:
                document.asked.remove(asked)
                send(failure(asked.number, CANCELLED, "cancelled"))

    def exited(self, _: Fields) -> None:
        self._leave()
        self._loop.is_over = True

    def _leave(self) -> None:
        """Looks at no text any more: what waits for one isn't met."""
        for document in self._documents.values():
            self._stop(document)
            self._fail(document, "the server is shut down")

    # What is known of them.

    def _know(self, document: Document) -> None:
        """Begins to find out what is known of a document's text. What was begun before is of no use any more."""
        self._stop(document)
        document.known = None
        try:
            knower = self._knowers.begin(document.text.content, document.profile)
        except OSError as why:
            self._lost(document, f"{PROGRAM}: {why.strerror}")
            return
        document.knower = knower
        self._loop.wait_for(knower, lambda: self._read(document, knower))

    def _stop(self, document: Document) -> None:
        if document.knower:
            self._loop.forget(document.knower)
            self._knowers.stop(document.knower)
            document.knower = None

    def _read(self, document: Document, knower: Knower) -> None:
        """Takes rows: the first fault is published at once, beside the warnings of before, and all when they are complete."""
        known = knower.known
        was_said = known.first is not None
        goes_on = knower.read()
        if known.first and not was_said and not known.is_complete:
            publish(document, [self._diagnostic(document, known.first), *document.warnings])
        if goes_on:
            return
        self._loop.forget(knower)
        document.knower = None
        said = knower.end()
        if said:
            self._lost(document, said.replace(INPUT, name_of(document.uri), 1))
            return
        self._said = ""
        document.known = known
        told = [(row["row"], self._diagnostic(document, row)) for row in known.faults]
        document.warnings = [diagnostic for kind, diagnostic in told if kind == "warning"]
        publish(document, [diagnostic for _, diagnostic in told])
        waiting, document.asked = document.asked, []
        for asked in waiting:
            self._answer(asked, document)
        self._knowers.begin_ahead(document.profile)

    def _lost(self, document: Document, said: str) -> None:
        """Says once that nothing is known, and why; what waits for it fails."""
        if said != self._said:
            say(said)
        self._said = document.why = said
        document.warnings = []
        publish(document, [])
        self._fail(document, said)

    def _fail(self, document: Document, why: str) -> None:
        """Answers what waits for a document that it can't be met."""
        waiting, document.asked = document.asked, []
        for asked in waiting:
            send(failure(asked.number, FAILED, why))

    def _diagnostic(self, document: Document, row: dict[str, Any]) -> bytes:
        return mending.written(document.text, row, self._pages)

    def _ask(self, asked: Asked, document: Document) -> None:
        """Answers a request, or keeps it until the text is known."""
        if document.known:
            self._answer(asked, document)
        elif document.knower:
            document.asked.append(asked)
        else:
            send(failure(asked.number, FAILED, document.why))

    def _answer(self, asked: Asked, document: Document) -> None:
        try:
            answer = asked.ask(self, document, asked.params)
        except (Wrong, Failed, NoRow, mending.Refusal) as why:
            code = WRONG_PARAMS if isinstance(why, Wrong) else FAILED
            send(failure(asked.number, code, str(why)))
        else:
            send(success(asked.number, answer))

    # What is asked of a document.

    def completion(self, document: Document, params: Fields) -> Answer:
        text, known, offset = placed(document, params)
        found_ = completing.items(text, known, offset, self.manual, self._settings.has_snippets)
        return {"isIncomplete": False, "items": found_}

    def definition(self, document: Document, params: Fields) -> Answer:
        text, known, offset = placed(document, params)
        name = known.name_at(offset)
        declared = name and known.declaration(name)
        return {"uri": document.uri, "range": text.range(declared.start, declared.end)} if declared else None

    def references(self, document: Document, params: Fields) -> Answer:
        with_declaration = params.fields_or("context").truth("includeDeclaration", True)
        return [{"uri": document.uri, "range": where} for where in telling.references(*placed(document, params), with_declaration)]

    def hints(self, document: Document, params: Fields) -> Answer:
        text, known = whole(document)
        return colours.hints(text, known, *mending.span_of(text, params.fields("range"))) if self._settings.has_hints else []

    def actions(self, document: Document, params: Fields) -> Answer:
        text, known = whole(document)
        return mending.actions(text, document.uri, known, *mending.span_of(text, params.fields("range")), self._pages)

    def prepare(self, document: Document, params: Fields) -> Answer:
        text, known, offset = placed(document, params)
        name = named(known, offset)
        return {"range": text.range(name.start, name.end), "placeholder": name.name}

    def rename(self, document: Document, params: Fields) -> Answer:
        """The edits that rename what is at a position, if all names mean the same with them."""
        text, known, offset = placed(document, params)
        old, new = named(known, offset), params.text("newName")
        uses = known.by_key[old.key()]
        try:
            mending.check_name(self._knowers.known_of(new.encode("utf-8", "surrogatepass"), document.profile), new)
            after = self._knowers.known_of(mending.renamed(text, uses, new), document.profile)
        except (OSError, NoRow) as why:
            raise Failed(str(why)) from why
        if new != old.name:
            mending.check_meaning(known, after, uses, new)
        edits = [{"range": text.range(use.start, use.end), "newText": new} for use in uses]
        return {"changes": {document.uri: edits}}

    def _execute(self, number_: Any, params: Fields) -> None:
        """Begins a command, which says what it found when it has it."""
        command = params.text("command")
        uris = [uri for uri in params.items("arguments") if isinstance(uri, str)]
        if command not in COMMANDS:
            raise Failed(f"{command} isn't known", WRONG_PARAMS)
        if not uris or uris[0] not in self._documents:
            raise Failed(f"{command} needs the URI of a document that is open", WRONG_PARAMS)
        document = self._documents[uris[0]]
        try:
            self._plays.begin(command, document.uri, document.text.content, document.profile, opponents(), self._settings.shows_documents)
        except (Fault, OSError) as why:
            raise Failed(str(why)) from why
        send(success(number_, None))


def named(known: Known, offset: int) -> Any:
    """The name at an offset, if it can be another one."""
    name = known.name_at(offset)
    if not name:
        raise mending.Refusal("there is no name here")
    if name.kind == "intrinsic":
        raise mending.Refusal(f"{name.name} is an intrinsic function")
    if (name.kind, name.name) == ("function", "main"):
        raise mending.Refusal("a robot begins in its function main")
    return name


def whole(document: Document) -> tuple[Text, Known]:
    """A document's text, and all that is known of it."""
    assert document.known
    return document.text, document.known


def placed(document: Document, params: Fields) -> tuple[Text, Known, int]:
    """A document's text, what is known of it, and the offset of the position that a message names."""
    text, known = whole(document)
    return text, known, text.offset(params.fields("position"))


def is_number(given: Any) -> bool:
    """Whether this may be the number of a request."""
    return isinstance(given, (int, str)) and not isinstance(given, bool) or isinstance(given, float) and given.is_integer()


def is_call(message: Any) -> bool:
    """Whether a message is a request or a notification."""
    return isinstance(message, dict) and isinstance(message.get("method"), str) and ("id" not in message or is_number(message["id"]))


def is_answer(message: Any) -> bool:
    """Whether a message is the answer to a request of ours."""
    return isinstance(message, dict) and "method" not in message and ("result" in message or "error" in message)


def fields_of(params: Any) -> Fields:
    """The fields of a message: some clients write none as null, or as an empty list."""
    return Fields({} if params is None or params == [] else params)


def capabilities(encoding: str) -> Answer:
    return {
        "positionEncoding": encoding,
        "textDocumentSync": {"openClose": True, "change": 2},
        "completionProvider": {"triggerCharacters": []},
        "signatureHelpProvider": {"triggerCharacters": ["(", ","]},
        "hoverProvider": True, "definitionProvider": True, "referencesProvider": True, "documentHighlightProvider": True,
        "documentSymbolProvider": True, "foldingRangeProvider": True, "inlayHintProvider": True,
        "codeActionProvider": {"codeActionKinds": ["quickfix"]},
        "renameProvider": {"prepareProvider": True},
        "semanticTokensProvider": {"legend": {"tokenTypes": colours.TYPES, "tokenModifiers": colours.MODIFIERS}, "full": True},
        "executeCommandProvider": {"commands": [*COMMANDS]},
    }


def success(number_: Any, result: Answer) -> Answer:
    return {"jsonrpc": "2.0", "id": number_, "result": result}


def failure(number_: Any, code: int, why: str) -> Answer:
    return {"jsonrpc": "2.0", "id": number_, "error": {"code": code, "message": why}}


def notify(method: str, params: Answer) -> None:
    send({"jsonrpc": "2.0", "method": method, "params": params})


def say(what: str) -> None:
    """Shows the user that something is wrong."""
    notify("window/showMessage", {"type": ERROR, "message": f"{NAME}: {what}"})


def log(what: str) -> None:
    """Writes into the client's log."""
    notify("window/logMessage", {"type": WARNING, "message": f"{NAME}: {what}"})


def show(what: str, uri: str | None = None) -> None:
    """Shows the user what a command found: a text, or a document in a program of its own."""
    if uri:
        send({"jsonrpc": "2.0", "id": f"show {uri}", "method": "window/showDocument", "params": {"uri": uri, "external": True}})
    notify("window/showMessage", {"type": INFO, "message": what})


def publish(document: Document, diagnostics: list[bytes], with_version: bool = True) -> None:
    """Publishes what is wrong with a document, which is JSON already."""
    version = {"version": document.version} if with_version else {}
    params: Answer = {"uri": document.uri} | version | {"diagnostics": []}
    message = encoded({"jsonrpc": "2.0", "method": "textDocument/publishDiagnostics", "params": params})
    send_encoded(message.removesuffix(NO_DIAGNOSTICS) + b"[" + b",".join(diagnostics) + NO_DIAGNOSTICS[1:])


NOTIFICATIONS: dict[str, Callable[[Server, Fields], None]] = {
    "textDocument/didOpen": Server.opened, "textDocument/didChange": Server.changed, "textDocument/didClose": Server.closed,
    "workspace/didChangeConfiguration": Server.configured, "$/cancelRequest": Server.cancelled, "exit": Server.exited,
}
IGNORED = {"initialized", "textDocument/didSave", "textDocument/willSave", "workspace/didChangeWatchedFiles"}
ASKS: dict[str, Ask] = {
    "textDocument/completion": Server.completion, "textDocument/definition": Server.definition, "textDocument/references": Server.references,
    "textDocument/signatureHelp": lambda server, document, params: completing.signature(*placed(document, params), server.manual),
    "textDocument/hover": lambda server, document, params: telling.hover(*placed(document, params), server.manual),
    "textDocument/documentHighlight": lambda _, document, params: [{"range": one} for one in telling.references(*placed(document, params), True)],
    "textDocument/documentSymbol": lambda _, document, __: telling.symbols(*whole(document)),
    "textDocument/foldingRange": lambda _, document, __: telling.folds(*whole(document)),
    "textDocument/semanticTokens/full": lambda _, document, __: {"data": colours.tokens(*whole(document))},
    "textDocument/inlayHint": Server.hints, "textDocument/codeAction": Server.actions,
    "textDocument/prepareRename": Server.prepare, "textDocument/rename": Server.rename,
}
