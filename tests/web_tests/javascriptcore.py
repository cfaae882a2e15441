"""Tests of the module alone, by JavaScriptCore, which Safari has: what it writes is what crobots writes."""

from __future__ import annotations

import json
import os
import subprocess
import tempfile
from typing import Iterator

import packages

from .battles import Battle, random_battles, sample_battles
from harness import PATIENCE

from .module import HERE, Answer, compared, job

PROGRAM = "jsc"


def lacking(_folder: str) -> str:
    """What is lacking for these tests."""
    return packages.lacking([PROGRAM])


def answers(folder: str, battles: list[Battle]) -> list[Answer]:
    """What the module answers. The shell has no base64, so bytes are lists of numbers."""
    jobs = [{**job(it), "robots": [{"name": name, "source": [*source]} for name, source in it.robots]} for it in battles]
    with tempfile.NamedTemporaryFile("w", suffix=".json") as file:
        json.dump(jobs, file)
        file.flush()
        words = [PROGRAM, "-m", os.path.join(HERE, "jsc.mjs"), "--", f"{folder}.wasm", file.name]
        ran = subprocess.run(words, capture_output=True, text=True, check=True, timeout=PATIENCE)
    return [(it["ending"], bytes(it["text"]), bytes(it["faults"])) for it in json.loads(ran.stdout)]


def results(crobots: str, _stages: str, folder: str) -> Iterator[tuple[str, list[str]]]:
    """The tests' names, and what is wrong."""
    battles = sample_battles() + random_battles(36, 8)
    yield "battles in JavaScriptCore", compared(crobots, battles, answers(folder, battles))
