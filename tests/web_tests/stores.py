"""Tests of the store by Node's own test runner: random sequences of actions, and the ways in which work was lost."""

from __future__ import annotations

import contextlib
import os
import re
import shutil
import subprocess
import tempfile
from typing import Iterator

HERE = os.path.dirname(os.path.abspath(__file__))
WEB = os.path.join(HERE, "..", "..", "web")
SECONDS = 900
# a test of the runner, as TAP has it, and what is wrong with it
TEST = re.compile(r"^(ok|not ok) \d+ - (.*)$", re.MULTILINE)
FAULT = re.compile(r"^  error: (?:\|-\n)?(.*(?:\n    .*){0,20})", re.MULTILINE)


def lacking(_folder: str) -> str:
    """What is lacking for these tests."""
    return "" if shutil.which("node") else "there is no Node"


@contextlib.contextmanager
def modules() -> Iterator[str]:
    """A folder with the modules of the page as Node takes them: a file beside them says what they are."""
    with tempfile.TemporaryDirectory() as place:
        shutil.copytree(WEB, place, dirs_exist_ok=True)
        with open(os.path.join(place, "package.json"), "w", encoding="ascii") as file:
            file.write('{"type": "module"}')
        yield place


def told(script: str, what: str) -> Iterator[tuple[str, list[str]]]:
    """The tests of a script of Node's test runner on something, and what is wrong."""
    with modules() as place:
        words = [shutil.which("node") or "node", "--test", os.path.join(HERE, script)]
        ran = subprocess.run(words, capture_output=True, text=True, check=False, timeout=SECONDS, env={**os.environ, "CROBOTS_WEB": place})
    found = list(TEST.finditer(ran.stdout))
    if not found:
        yield what, [ran.stdout[-1000:] + ran.stderr[-1000:]]
    for at, it in enumerate(found):
        end = found[at + 1].start() if at + 1 < len(found) else len(ran.stdout)
        fault = FAULT.search(ran.stdout, it.end(), end)
        yield f"{what}: {it[2]}", [] if it[1] == "ok" else [fault[1] if fault else "it failed"]


def results(_crobots: str, _stages: str, _folder: str) -> Iterator[tuple[str, list[str]]]:
    """The tests' names, and what is wrong."""
    yield from told("stores.test.mjs", "the store")
