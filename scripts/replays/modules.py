"""Puts modules of JavaScript together as one script: a browser that opens a page from a file loads no modules."""

import os
import re
from pathlib import Path

IMPORT = re.compile(r'^import (\{.*\}) from "(\.[\w./]*/(\w+)\.js)";$', re.MULTILINE)
EXPORT = re.compile(r"^export ((?:async )?(?:const|function|class) (\w+))", re.MULTILINE)
# A comment with lines of its own.
COMMENT = re.compile(r"^ *(?://.*|/\*\*(?:.|\n)*?\*/)\n", re.MULTILINE)


def text_of(path: str) -> str:
    return Path(path).read_text(encoding="utf-8")


def in_order(path: str, before: tuple[str, ...] = ()) -> tuple[str, ...]:
    """The modules that a module imports, each once and before those that import it, and the module itself."""
    for _, place, _ in IMPORT.findall(text_of(path)):
        below = os.path.normpath(os.path.join(os.path.dirname(path), place))
        before = before if below in before else in_order(below, before)
    return (*before, path)


def bare(script: str) -> str:
    """A script without the comments that have lines of their own, and without the blanks before its lines if no text goes over
    several of them. The repository has the comments."""
    lines = COMMENT.sub("", script).split("\n")
    goes_on = any(line.count("`") % 2 or line.endswith("\\") for line in lines)
    return "\n".join(lines if goes_on else [line.strip() for line in lines])


def name_of(path: str) -> str:
    """The name of a module: of modules that are put together each has its own."""
    return os.path.basename(path).removesuffix(".js")


def exports_of(path: str) -> list[str]:
    """The names that a module exports."""
    return [found for _, found in EXPORT.findall(bare(text_of(path)))]


def imported(path: str, names: str, place: str) -> str:
    """What a module takes from another one, which has it in a list."""
    exports = exports_of(os.path.join(os.path.dirname(path), place))
    return ", ".join(f"{exports.index(name)}: {name}" for name in re.findall(r"[\w$]+", names))


def wrapped(path: str, is_last: bool) -> str:
    """A module as a function, whose result is a list of what it exports; that of the last module has names."""
    body = EXPORT.sub(r"\1", IMPORT.sub(lambda found: f"const {{{imported(path, found[1], found[2])}}} = modules.{found[3]};", bare(text_of(path))))
    exports = ", ".join(exports_of(path))
    return f"modules.{name_of(path)} = (() => {{\n{body}return {f'{{{exports}}}' if is_last else f'[{exports}]'};\n}})();\n"


def all_wrapped(path: str) -> str:
    """A module, with those that it imports, each as a function that runs at once."""
    paths = in_order(os.path.normpath(path))
    assert len(set(map(name_of, paths))) == len(paths), paths
    return "const modules = {};\n" + "".join(wrapped(path, path == paths[-1]) for path in paths)


def waiting_script(path: str) -> str:
    """A module, with those that it imports, as a function that runs them when it is called, and answers what the module exports."""
    return f'() => {{\n"use strict";\n{all_wrapped(path)}return modules.{name_of(path)};\n}}'


def script_of(path: str) -> str:
    """A module, with those that it imports, as one script."""
    return f'"use strict";\n(() => {{\n{all_wrapped(path)}}})();\n'
