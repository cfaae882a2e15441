"""Makes scripts and styles short: without comments, and without the blanks, line ends and semicolons that nothing needs. `renaming`
makes names short. All else stays."""

import re

# A piece of a script. A slash that begins a regular expression can't be distinguished from one that divides by the piece alone, and a
# template may have templates in it: for both see `pieces`.
PIECE = re.compile(r"""(?P<comment>//[^\n]*|/\*(?:.|\n)*?\*/)|(?P<text>"(?:\\(?:.|\n)|[^"\\\n])*"|'(?:\\(?:.|\n)|[^'\\\n])*')
    |(?P<word>[\w$#@]+)|(?P<blank>[ \t]+)|(?P<end>\n)|(?P<sign>\+\+|--|=>|[^'"])""", re.VERBOSE)
EXPRESSION = re.compile(r"/(?:\\.|\[(?:\\.|[^\]\\\n])*\]|[^/\\\[\n])+/\w*")
# After these words, and after signs but these, a slash begins a regular expression.
BEFORE_EXPRESSION = frozenset("return typeof case in of delete void throw new else do instanceof yield await".split())
AFTER_VALUE = frozenset((")", "]", "}", "++", "--"))
# After these signs, and before those, a line end ends no statement.
OPENING, CLOSING = frozenset("{;,(["), frozenset("})]")
# After these a semicolon may be a statement by itself; after the bracket of such a word, too.
BEFORE_NOTHING, HEADED = frozenset("{ } ; : else do".split()), frozenset("for await while if with".split())


class Unclear(Exception):
    """The script has something that isn't known here."""


def template_end(script: str, at: int) -> int:
    """Where the template ends that begins at a place; there may be others in its expressions."""
    at += 1
    while at < len(script) and script[at] != "`":
        if script[at] == "\\":
            at += 2
        elif script.startswith("${", at):
            at = pieces_from(script, at + 2)[1] + 1
        else:
            at += 1
    if at >= len(script):
        raise Unclear("a template without an end")
    return at + 1


def pieces(script: str) -> list[tuple[str, str]]:
    """The pieces of a script, each with its kind; comments are line ends if they have some, and else blanks."""
    found, end = pieces_from(script, 0)
    if end < len(script):
        raise Unclear("a bracket that nothing opens")
    return found


def pieces_from(script: str, at: int) -> tuple[list[tuple[str, str]], int]:
    """The pieces of a script from a place on, up to its end or to a bracket that is opened before; and where that is."""
    found: list[tuple[str, str]] = []
    before, depth = ("sign", ";"), 0
    while at < len(script):
        kind, text = piece_at(script, at, before)
        depth += {"{": 1, "}": -1}.get(text, 0)
        if depth < 0:
            break
        at += len(text)
        if kind == "comment":
            kind, text = ("end", "\n") if "\n" in text else ("blank", " ")
        if kind not in ("blank", "end"):
            before = kind, text
        found.append((kind, text))
    return found, at


def piece_at(script: str, at: int, before: tuple[str, str]) -> tuple[str, str]:
    """The piece that begins at a place, after another one that is no blank."""
    if script[at] == "`":
        return "template", script[at:template_end(script, at)]
    piece = PIECE.match(script, at)
    if not piece:
        raise Unclear(script[at:at + 20])
    kind, text = piece.lastgroup or "", piece[0]
    if text == "/" and (before[0] == "sign" and before[1] not in AFTER_VALUE or before[1] in BEFORE_EXPRESSION):
        expression = EXPRESSION.match(script, at)
        if not expression:
            raise Unclear(script[at:at + 20])
        return "expression", expression[0]
    return kind, text


def is_needed(before: tuple[str, str], after: tuple[str, str]) -> bool:
    """Whether two pieces without a blank between them would be another thing."""
    if before[0] in ("word", "expression"):
        return after[0] == "word" or before[1][0].isdigit() and after[1] == "."
    return f"{before[1][-1]}{after[1][0]}" in ("++", "--", "//", "/*", "<!")


def begin(made: list[tuple[str, str]]) -> int:
    """Where the bracket is opened that the last piece closes."""
    depth = 0
    for at in range(len(made) - 1, -1, -1):
        kind, text = made[at]
        depth += {")": 1, "(": -1}.get(text, 0) if kind == "sign" else 0
        if not depth:
            return at
    raise Unclear("a bracket that nothing opens")


def may_end_without(made: list[tuple[str, str]]) -> bool:
    """Whether the last piece is a semicolon that a closing brace behind it makes needless: it ends a statement, and isn't one."""
    if made[-1] != ("sign", ";"):
        return False
    before = made[-2][1]
    return before not in BEFORE_NOTHING and (before != ")" or made[begin(made[:-1]) - 1][1] not in HEADED)


def short(script: str) -> str:
    """The script without comments, needless blanks, and semicolons before a closing brace."""
    made: list[tuple[str, str]] = [("end", "\n")]
    is_parted = False
    for piece in pieces(script):
        if piece[0] == "blank":
            is_parted = True
            continue
        if piece[1] in CLOSING and made[-1][0] == "end" or piece == ("sign", "}") and may_end_without(made):
            made.pop()
        if is_parted and "end" not in (made[-1][0], piece[0]) and is_needed(made[-1], piece):
            made.append(("blank", " "))
        if piece[0] != "end" or made[-1][0] != "end" and made[-1][1] not in OPENING:
            made.append(piece)
        is_parted = False
    return "".join(text for _, text in made[1:])


# In a style: a comment, or a text, or blanks, also around signs that need none.
STYLE_PIECE = re.compile(r"""/\*(?:.|\n)*?\*/|("(?:\\.|[^"\\])*"|'(?:\\.|[^'\\])*')|\s*([{};])\s*|\s+""")


def short_style(style: str) -> str:
    """The style without comments and needless blanks."""
    return STYLE_PIECE.sub(lambda found: found[1] or found[2] or (" " if found[0].isspace() else ""), style)
