"""Tables of HTML: each scrolls by itself, has a caption, and says what its rows and columns are."""

from typing import Iterable, Sequence

from .commands import quoted
from .markup import Markup, separated, tag

# What a column has: text on its left side, names that stay in sight, or numbers on its right side.
TEXT, NAME, NUMBER = None, "name", "number"
Column = tuple[str, str | None]


def table(caption: str, columns: Sequence[Column], rows: Iterable[Sequence[str]], names: int = 0,
          style: str = "") -> Markup:
    """A table whose rows are named by the cell of this column."""
    head = tag("tr", *(tag("th", title, scope="col", class_=kind) for title, kind in columns))
    kinds = [("th", kind, "row") if at == names else ("td", kind, None) for at, (_, kind) in enumerate(columns)]
    body = [tag("tr", *(tag(name, text, scope=scope, class_=kind) for text, (name, kind, scope) in zip(row, kinds)))
            for row in rows]
    whole = tag("table", tag("caption", caption), tag("thead", head), tag("tbody", *body))
    return scrolling(whole, caption, f"scroll {style}".rstrip())


def command_line(words: Iterable[str]) -> Markup:
    """A command line, which a click chooses whole, and whose words aren't broken."""
    return tag("pre", tag("code", separated(" ", (tag("span", quoted(word)) for word in words))), class_="command")


def scrolling(inside: Markup, label: str, kind: str = "scroll") -> Markup:
    """A box that scrolls by itself, also by keys."""
    return tag("div", inside, class_=kind, tabindex=0, role="region", aria_label=label)


def listed(rows: Iterable[tuple[str, str]]) -> Markup:
    """Terms with what they are."""
    return tag("dl", *(tag("div", tag("dt", term), tag("dd", said)) for term, said in rows if said), class_="facts")
