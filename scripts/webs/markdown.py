"""Makes HTML of pages in Markdown, as far as the pages of this repository use it: headings, paragraphs, lists, tables, code, and in
a line code, strong and stressed words, and links. Pictures are left out."""

import html
import re
from typing import Callable, Iterator

# Returns where a link leads on the page that is made; nothing if it leads nowhere there.
Leading = Callable[[str], str]

FENCE = "```"
ORDERED = re.compile(r"\d+\. ")
RULE = re.compile(r"\|[-|]+\|")
CELLS = re.compile(r"(?<!\\)\|")
INLINE = re.compile(r"(?P<code>`` .+? ``|`[^`]+`)|!\[(?P<picture>[^\]]*)\]\([^)]*\)|\[(?P<text>[^\]]*)\]\((?P<link>[^)]*)\)"
                    r"|\*\*(?P<strong>.+?)\*\*|\*(?P<stressed>[^* ][^*]*)\*|\\(?P<escaped>[*_`|])")


def anchor(heading: str) -> str:
    """The name of a heading in an address."""
    return re.sub(r"[^\w\- ]", "", heading.lower()).replace(" ", "-")


def inline(text: str, leading: Leading) -> str:
    """The HTML of a line."""
    pieces, end = [], 0
    for found in INLINE.finditer(text):
        pieces += [html.escape(text[end:found.start()], quote=False), styled(found, leading)]
        end = found.end()
    return "".join(pieces) + html.escape(text[end:], quote=False)


def styled(found: re.Match[str], leading: Leading) -> str:
    """The HTML of a piece of a line that isn't plain."""
    kind = found.lastgroup
    if kind == "code":
        return f"<code>{html.escape(found['code'].strip('` '), quote=False)}</code>"
    if kind in ("strong", "stressed"):
        tag = "strong" if kind == "strong" else "em"
        return f"<{tag}>{inline(found[kind], leading)}</{tag}>"
    if kind == "escaped":
        return found["escaped"]
    if kind == "picture":
        return ""
    place, text = leading(found["link"]), inline(found["text"], leading)
    return f'<a href="{html.escape(place)}">{text}</a>' if place else text


def cells(row: str) -> list[str]:
    """The cells of a row of a table."""
    return [cell.strip().replace(r"\|", "|") for cell in CELLS.split(row.strip())[1:-1]]


class Reader:
    """Reads a page line by line, and writes its blocks."""

    def __init__(self, text: str, leading: Leading) -> None:
        self.lines = text.splitlines()
        self.at = 0
        self.leading = leading

    def while_(self, holds: Callable[[str], bool]) -> list[str]:
        """The next lines, up to the first for which `holds` is false."""
        begun = self.at
        while self.at < len(self.lines) and holds(self.lines[self.at]):
            self.at += 1
        return self.lines[begun:self.at]

    def blocks(self) -> Iterator[str]:
        """The blocks of the page."""
        while self.at < len(self.lines):
            line = self.lines[self.at]
            if not line:
                self.at += 1
            elif line.startswith("#"):
                yield self.heading()
            elif line.startswith(FENCE):
                yield self.fenced()
            elif line.startswith("    "):
                yield code(line[4:] for line in self.while_(lambda line: line.startswith("    ")))
            elif line.startswith("|"):
                yield self.table()
            elif line.startswith("- ") or ORDERED.match(line):
                yield self.list_()
            else:
                yield self.paragraph()

    def said(self, text: str) -> str:
        """The HTML of a line."""
        return inline(text, self.leading)

    def paragraph(self) -> str:
        """A paragraph; nothing if it is a picture alone."""
        said = self.said(" ".join(self.while_(is_text)))
        return f"<p>{said}</p>\n" if said else ""

    def heading(self) -> str:
        """A heading, with its name."""
        marks, _, text = self.lines[self.at].partition(" ")
        self.at += 1
        return f'<h{len(marks)} id="{anchor(text)}">{self.said(text)}</h{len(marks)}>\n'

    def fenced(self) -> str:
        """Code between two fences."""
        self.at += 1
        lines = self.while_(lambda line: not line.startswith(FENCE))
        self.at += 1
        return code(lines)

    def table(self) -> str:
        """A table, whose first row has its titles."""
        head, *rows = [cells(row) for row in self.while_(lambda line: line.startswith("|")) if not RULE.fullmatch(row.replace(" ", ""))]
        return "<table>\n" + self.row("th", head) + "".join(self.row("td", row) for row in rows) + "</table>\n"

    def row(self, tag: str, row: list[str]) -> str:
        """A row of a table."""
        return "<tr>" + "".join(f"<{tag}>{self.said(cell)}</{tag}>" for cell in row) + "</tr>\n"

    def list_(self) -> str:
        """A list, numbered or not."""
        is_ordered = bool(ORDERED.match(self.lines[self.at]))
        items = self.while_(lambda line: bool(ORDERED.match(line)) if is_ordered else line.startswith("- "))
        tag = "ol" if is_ordered else "ul"
        return f"<{tag}>\n" + "".join(f"<li>{self.said(item.partition(' ')[2])}</li>\n" for item in items) + f"</{tag}>\n"


def is_text(line: str) -> bool:
    """Whether a line goes on with a paragraph."""
    return bool(line) and not line.startswith(("#", FENCE, "    ", "|", "- ")) and not ORDERED.match(line)


def code(lines: Iterator[str] | list[str]) -> str:
    """Lines of code."""
    return '<pre tabindex="0">' + html.escape("\n".join(lines), quote=False) + "</pre>\n"


def written(text: str, leading: Leading) -> str:
    """The HTML of a page."""
    return "".join(Reader(text, leading).blocks())
