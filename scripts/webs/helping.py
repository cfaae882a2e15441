"""Makes what the page says of the language: the manual's own text, the thirteen functions with an example each, and the
five steps with which one begins."""

import glob
import html
import os
import re
from pathlib import Path
from typing import Any

from .manuals import Page, summary

# The sections of the manual that the page shows, in its order, and their titles.
SECTIONS = {"LANGUAGE": "The language", "THE FIELD": "The field", "RESTARTS": "Restarts", "EXAMPLES": "Whole robots"}
STEP = re.compile(r"/\* (?P<title>[^\n]*)\n(?P<text>.*?)\s*Against (?P<against>\w+\.r)\. \*/\n(?P<source>.*)", re.DOTALL)


def text_of(*path: str) -> str:
    """The text of a file."""
    return Path(*path).read_text(encoding="utf-8")


def examples(web: str) -> dict[str, str]:
    """An example of each function."""
    rows = (line.split(": ", 1) for line in text_of(web, "examples.txt").splitlines())
    return {name: code for name, code in rows}


def functions(manual: Page) -> list[dict[str, Any]]:
    """What the editor says of each function while it is called."""
    return [{"name": name, "parameters": parameters, "text": summary(text)}
            for names, text in manual.functions() for name, parameters in names]


def section(title: str, text: str) -> str:
    """A section of the panel, which is opened by its title."""
    return f"<details>\n<summary>{html.escape(title)}</summary>\n{text}</details>\n"


def listed(manual: Page, web: str) -> str:
    """The functions as a list, each with an example."""
    shown = examples(web)

    def item(names: list[tuple[str, list[str]]], text: str) -> str:
        heads = ", ".join(f"<code>{name}({', '.join(parameters)})</code>" for name, parameters in names)
        code = "\n".join(html.escape(shown[name]) for name, _ in names)
        return f"<dt>{heads}</dt>\n<dd>{text}<pre>{code}</pre></dd>\n"

    return f"<dl>\n{''.join(item(names, text) for names, text in manual.functions())}</dl>\n"


def deciding(manual: Page) -> str:
    """How a match is decided: what the manual's description ends with."""
    lines = manual.sections()["DESCRIPTION"]
    return manual.html(lines[lines.index(".Pp") + 1:])


def panel(manual: Page, web: str) -> str:
    """The panel on the language."""
    parts = {"How a match is decided": deciding(manual), "The thirteen functions": listed(manual, web)}
    sections = manual.sections()
    parts |= {title: manual.html(sections[name]) for name, title in SECTIONS.items()}
    return "".join(section(title, text) for title, text in parts.items())


def steps(web: str) -> list[dict[str, str]]:
    """The steps with which one begins: each is a robot whose first comment says what there is to learn from it."""
    found = []
    for number, path in enumerate(sorted(glob.glob(os.path.join(web, "steps", "*.r"))), 1):
        match = STEP.fullmatch(text_of(path))
        assert match, path
        step = {name: value.strip() if name != "source" else value for name, value in match.groupdict().items()}
        found.append(step | {"name": f"step{number}.r", "text": " ".join(step["text"].split())})
    return found


def whole(manuals: list[Page]) -> str:
    """Whole manual pages."""
    return "".join(f"<h2>{page.name}</h2>\n" + "".join(
        f"<h3>{html.escape(title.capitalize())}</h3>\n{page.html(lines)}" for title, lines in page.sections().items()) for page in manuals)
