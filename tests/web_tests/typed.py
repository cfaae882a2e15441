"""Tests that the page's scripts agree with one another, and with the module, in the names of fields and calls: tsc reads their types."""

from __future__ import annotations

import glob
import json
import os
import re
import shutil
import subprocess
import tempfile
from typing import Iterable, Iterator

from harness import PATIENCE
from replays.modules import exports_of, name_of, text_of

from .module import EXPORTS
from .stores import HERE, WEB

OPTIONS = {"allowJs": True, "checkJs": True, "noEmit": True, "skipLibCheck": True, "target": "es2022", "module": "es2022", "moduleResolution": "node",
           "lib": ["es2022", "dom", "dom.iterable"], "strict": False, "types": [], "noUnusedLocals": True}
# a file, a text in it, and what a slip makes of it, which is to be seen
SLIPS = (("engine.js", "this.exports.moment,", "this.exports.moments,"), ("keeping.js", "this.store.openLink(", "this.store.openLinked("),
         ("workbench.js", "this.store.robots", "this.store.robot_s"), ("store.js", "isTouched, battle: keyed", "isTouched, batle: keyed"),
         ("worker.js", 'from "./engine.js"', 'from "./engines.js"'), ("names.js", "\nexport function cleanName(", "\nfunction cleanName("),
         ("diffs.js", "\nexport ", "\nimport {cleanName} from \"./names.js\";\nexport "))
FAULT = re.compile(r"^(\S+)\(\d+,\d+\): error ", re.MULTILINE)


def lacking(_folder: str) -> str:
    """What is lacking for these tests."""
    return "" if shutil.which("tsc") else "there is no tsc"


def told(slips: tuple[tuple[str, str, str], ...] = ()) -> str:
    """What tsc says of the scripts, with some slips in them."""
    with tempfile.TemporaryDirectory() as place:
        shutil.copytree(WEB, place, dirs_exist_ok=True)
        with open(os.path.join(place, "tsconfig.json"), "w", encoding="utf-8") as file:
            json.dump({"compilerOptions": OPTIONS, "include": ["*.js", "*.d.ts", "player/*.js"]}, file)
        for name, text, slip in slips:
            path = os.path.join(place, name)
            with open(path, encoding="utf-8") as file:
                script = file.read()
            assert text in script, text
            with open(path, "w", encoding="utf-8") as file:
                file.write(script.replace(text, slip, 1))
        words = ["tsc", "--project", "tsconfig.json", "--pretty", "false"]
        return subprocess.run(words, cwd=place, capture_output=True, text=True, check=False, timeout=PATIENCE).stdout


def exports() -> list[str]:
    """The calls of the module that the page's type doesn't name as they are."""
    with open(os.path.join(WEB, "engine.js"), encoding="utf-8") as file:
        script = file.read()
    named = re.search(r"@typedef \{(\{memory: [^}]*\})\} Exports", script.replace("\n *    ", ""))
    names = set(re.findall(r"(\w+): (?:Call|\(\) =>|WebAssembly)", named[1] if named else ""))
    listed = re.search(r"^const CALLS = \[([^\]]*)\]", script, re.MULTILINE)
    called = set(re.findall(r'"(\w+)"', listed[1] if listed else ""))
    wanted = set(EXPORTS) - {"__heap_base"}
    return [] if names == wanted and called == wanted - {"memory"} else [f"{sorted(names ^ wanted)} {sorted(called ^ wanted)}"]


# What a module takes from another one, and a test from a module: names, and the module's name.
TAKEN = re.compile(r'(?:^import|^const) \{(?P<names>.*)\} (?:from|= await load\()\W*(?:\w+/)?(?P<module>\w+)(?:\.js)?"', re.MULTILINE)
# whoever starts a script takes what its last module exports
LAST = ("page", "start", "worker", "framed", "carrying")


def texts_in(folder: str, end: str) -> dict[str, str]:
    """The texts of a folder's files with an end of their names, by their paths."""
    paths = glob.glob(os.path.join(folder, "**", f"*{end}"), recursive=True)
    return {path: text_of(path) for path in paths}


def untaken(tests: Iterable[str]) -> set[str]:
    """What a module exports and no other one takes, and none of these tests."""
    modules = texts_in(WEB, ".js")
    taken = {(it["module"], name) for text in (*modules.values(), *tests) for it in TAKEN.finditer(text) for name in re.findall(r"\w+", it["names"])}
    exported = {(name_of(path), name) for path in modules if name_of(path) not in LAST for name in exports_of(path)}
    return {f"{module}: {name}" for module, name in exported - taken}


def exports_are_taken() -> list[str]:
    """Each export is taken; one that a test alone takes is seen if that didn't."""
    seen = [] if "store: lostBetween" in untaken([]) else ["an export that nobody takes isn't seen"]
    return sorted(untaken(texts_in(HERE, ".mjs").values())) + seen


def results(_crobots: str, _stages: str, _folder: str) -> Iterator[tuple[str, list[str]]]:
    """The tests' names, and what is wrong."""
    yield "types of the page's scripts", told().splitlines()[:9]
    seen = set(FAULT.findall(told(SLIPS)))
    yield "slips are seen", [f"a slip in {name} isn't" for name, _, _ in SLIPS if name not in seen]
    yield "calls of the module", exports()
    yield "exports that are taken", exports_are_taken()
