"""Makes HTML of the manual pages, which are in the form of mdoc: of a whole page, or of some of its sections."""

import html
import re
import shlex
from dataclasses import dataclass, field
from typing import Iterator

ESCAPES = {r"\&": "", r"\-": "-", r"\(ti": "~", r"\(ha": "^", r"\(mi": "−", r"\e": "\\"}
TAGS = {"Ql": "code", "Ic": "code", "Li": "code", "Pa": "code", "Fa": "var", "Ar": "var", "Sy": "b", "Sx": "i", "Cm": "code", "Fl": "code",
        "Op": "span", "Fn": "code", "Xr": "b", "Nm": "b"}
CLOSING = (",", ".", ";", ":", ")", "?", "!")
IGNORED = ("Dd", "Dt", "Os", "Nd")
ENTRY = re.compile(r"^\.It Fn (.*)$")
LEAST_SUMMARY = 60


def plain(word: str) -> str:
    """A word without the escapes of the form."""
    return re.sub(r"\\(?:\(..|.)", lambda found: ESCAPES.get(found[0], found[0]), word)


def words_of(line: str) -> list[str]:
    """The words of a line; a text between quotes is one."""
    lexer = shlex.shlex(line, posix=True)
    lexer.whitespace_split, lexer.commenters, lexer.escape, lexer.quotes = True, "", "", '"'
    return list(lexer)


@dataclass
class Line:
    """A line of HTML that is put together: a blank goes between pieces, but not before a closing mark."""

    name: str
    pieces: list[str] = field(default_factory=list)
    is_joined: bool = True

    def put(self, piece: str, is_closing: bool = False) -> None:
        """Adds a piece."""
        self.pieces.append(("" if self.is_joined or is_closing else " ") + piece)
        self.is_joined = piece == "("

    def styled(self, macro: str, words: list[str]) -> None:
        """Adds what a macro makes of its words."""
        said = " ".join(html.escape(plain(word), quote=False) for word in words)
        if macro == "Ns":
            self.is_joined = True
            return
        if macro == "Fn":
            name, *arguments = said.split(" ")
            said = f"{name}({', '.join(arguments)})"
        elif macro == "Xr":
            said = "{}({})".format(*said.split(" ")[:2])
        elif macro == "Nm":
            said = said or self.name
        elif macro == "Fl":
            said = f"-{said}"
        elif macro == "Op":
            said = f"[{said}]"
        if said:
            self.put(f"<{TAGS[macro]}>{said}</{TAGS[macro]}>")


def inline(words: list[str], name: str) -> str:
    """The HTML of a line's words, the first of which may be a macro."""
    line = Line(name)
    macro, taken = "", list[str]()

    def end() -> None:
        if macro:
            line.styled(macro, taken)
        else:
            for word in taken:
                line.put(html.escape(plain(word), quote=False))
        taken.clear()

    for word in words:
        if word in TAGS or word == "Ns":
            end()
            macro = word
        elif word in CLOSING and macro not in ("Ql", "Li"):
            end()
            line.put(word, is_closing=True)
            macro = macro if macro in ("Ic", "Fa") else ""
        elif word in CLOSING and word == words[-1]:
            end()
            line.put(word, is_closing=True)
            macro = ""
        else:
            taken.append(word)
    if taken or macro in ("Nm", "Ns"):
        end()
    return "".join(line.pieces)


class Page:
    """A manual page, by its sections."""

    def __init__(self, text: str) -> None:
        self.lines = text.splitlines()
        self.name = next(line.split()[1] for line in self.lines if line.startswith(".Nm "))

    def sections(self) -> dict[str, list[str]]:
        """The lines of each section, by its title."""
        found: dict[str, list[str]] = {}
        lines: list[str] = []
        for line in self.lines:
            if line.startswith(".Sh "):
                found[line[4:]] = lines = []
            else:
                lines.append(line)
        return found

    def functions(self) -> list[tuple[list[tuple[str, list[str]]], str]]:
        """The items that describe functions: each with its names and their parameters, and its text in HTML."""
        items: list[tuple[str, list[str]]] = []
        for line in self.sections()["INTRINSIC FUNCTIONS"]:
            if found := ENTRY.match(line):
                items.append((found[1], []))
            elif items and line != ".El":
                items[-1][1].append(line)
        heads = [[(name, rest) for name, *rest in (part.split() for part in head.split(", Fn "))] for head, _ in items]
        return [(names, self.html(lines)) for names, (_, lines) in zip(heads, items)]

    def html(self, lines: list[str]) -> str:
        """The HTML of some lines of the page."""
        return "".join(Writer(self.name).written(lines))


class Writer:
    """Writes lines of a page as HTML: paragraphs, lists, blocks."""

    def __init__(self, name: str) -> None:
        self.name = name
        self.open: list[str] = []
        self.text: list[str] = []
        self.is_literal = False

    def written(self, lines: list[str]) -> Iterator[str]:
        """The pieces of HTML."""
        for line in lines:
            yield from self.take(line)
        yield from self.flushed()

    def take(self, line: str) -> Iterator[str]:
        """What a line adds; a line of text waits for the end of its paragraph."""
        macro, rest = (line[1:3], line[4:]) if line.startswith(".") else ("", line)
        if self.is_literal and macro != "Ed":
            yield html.escape(plain(line), quote=False) + "\n"
        elif macro in IGNORED:
            pass
        elif macro in ("Ss", "Pp", "Bd", "Ed", "Bl", "El", "It"):
            yield from self.flushed()
            yield from getattr(self, f"_take_{macro}")(rest)
        else:
            self.text.append(inline(words_of(f"{macro} {rest}"), self.name) if macro else html.escape(plain(line), quote=False))

    def flushed(self) -> Iterator[str]:
        """The paragraph that ends here."""
        if self.text:
            yield f"<p>{' '.join(self.text)}</p>\n"
        self.text = []

    def _take_Ss(self, rest: str) -> Iterator[str]:
        yield f"<h4>{html.escape(rest)}</h4>\n"

    def _take_Pp(self, rest: str) -> Iterator[str]:
        yield rest

    def _take_Bd(self, _: str) -> Iterator[str]:
        self.is_literal = True
        yield '<pre tabindex="0">'

    def _take_Ed(self, _: str) -> Iterator[str]:
        self.is_literal = False
        yield "</pre>\n"

    def _take_Bl(self, rest: str) -> Iterator[str]:
        kind = next(name for name in ("tag", "bullet", "column") if f"-{name}" in rest)
        self.open.append(kind)
        yield {"tag": "<dl>\n", "bullet": "<ul>\n", "column": '<table class="limits">\n'}[kind]
        self.is_first = True

    def _take_It(self, rest: str) -> Iterator[str]:
        kind = self.open[-1]
        if not self.is_first:
            yield {"tag": "</dd>\n", "bullet": "</li>\n", "column": ""}[kind]
        self.is_first = False
        if kind == "column":
            tag = "th" if rest.endswith("Ta second") else "td"
            yield "<tr>" + "".join(f"<{tag}>{html.escape(cell)}</{tag}>" for cell in rest.split(" Ta ")) + "</tr>\n"
        elif kind == "tag":
            yield f"<dt>{inline(words_of(rest), self.name)}</dt>\n<dd>"
        else:
            yield "<li>"

    def _take_El(self, _: str) -> Iterator[str]:
        yield {"tag": "</dd>\n</dl>\n", "bullet": "</li>\n</ul>\n", "column": "</table>\n"}[self.open.pop()]


def said(text: str) -> str:
    """What a reader sees of some HTML."""
    return " ".join(html.unescape(re.sub(r"<[^>]*>", "", text)).split())


def summary(text: str) -> str:
    """The first sentences of some HTML, as many as say enough."""
    sentences = re.split(r"(?<=\.) (?=[A-Z])", said(text))
    short = sentences[0]
    for sentence in sentences[1:]:
        if len(short) >= LEAST_SUMMARY:
            break
        short += f" {sentence}"
    return short
