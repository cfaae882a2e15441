"""The prover, on a crate with other texts in some of its files, over what it proved of the crate as it stands."""

from __future__ import annotations

import os
import shutil
import subprocess
import sys
import tempfile
from pathlib import Path

sys.path.insert(0, str(Path(__file__).resolve().parent.parent / "scripts"))
from catalog import crates  # noqa: E402

STATIC = ("--crate-type", "staticlib")


class Prover:
    """Checks a crate of a copy of the repository, whose crates `rt ci` has proved and built there."""

    def __init__(self, top: Path, crate: str) -> None:
        self._top, self._crate = top, crate
        self._work = Path(tempfile.mkdtemp(dir=top))

    def learn(self) -> None:
        """Checks the crate as it stands, so that later checks prove only what is new."""
        learned = self._work / "learned"
        if "\nlogic=proved" not in self._said({}, learned):
            shutil.rmtree(learned, ignore_errors=True)

    def said(self, texts: dict[str, str]) -> str:
        """What the prover says of the crate with these texts in place of its files."""
        learned = self._work / "learned"
        if not learned.is_dir():
            return self._said(texts, None)
        with tempfile.TemporaryDirectory(dir=self._work) as over:
            shutil.copytree(learned, over, dirs_exist_ok=True, copy_function=linked)
            return self._said(texts, Path(over))

    def _said(self, texts: dict[str, str], kept: Path | None) -> str:
        source = self._top / "crates" / self._crate
        with tempfile.TemporaryDirectory(dir=self._work) as folder:
            for part in ("src", "specs", "proofs"):
                if (source / part).is_dir():
                    shutil.copytree(source / part, Path(folder, part))
            for path, text in texts.items():
                Path(folder, path).write_text(text, encoding="utf-8")
            words = ["rattle", "check", *self._words(), *(["--incremental", str(kept)] if kept else [])]
            ran = subprocess.run(words, cwd=folder, stdin=subprocess.DEVNULL, text=True, errors="replace", check=False,
                                 stdout=subprocess.PIPE, stderr=subprocess.STDOUT)
        return ran.stdout

    def _words(self) -> list[str]:
        kit = Path(os.path.realpath(shutil.which("rattle") or "rattle")).parent.parent
        root = "main" if (self._top / "crates" / self._crate / "src" / "main.rt").is_file() else "lib"
        own = crates.listed(self._top)
        words = ["--crate-name", self._crate, f"src/{root}.rt"]
        for name in ("std", *crates.libraries(self._crate, self._top)):
            folder = self._library(name) if name in own else kit / "rlibs"
            words += ["--extern", f"{name}={folder / name}.rlib"]
        for name in sorted(crates.below(self._crate, self._top)):
            words += ["-L", f"dependency={self._library(name)}"]
        words += ["-L", f"dependency={kit / 'rlibs'}", "--antt-project", str(kit / "rattle" / "logic" / "antt-project.json")]
        words += ["--logic-built", str(kit / "logic_built"), "--jobs", "1"]
        return words + [*(STATIC if "staticlib" in crates.rows(self._top)[self._crate].partition(":")[0].split() else ())]

    def _library(self, name: str) -> Path:
        return self._top / "crates" / name / "out" / "rlib"


def linked(one: str, other: str) -> None:
    """Copies a file of what was proved; the prover replaces such files and changes none, so a link does."""
    if one.endswith(".oantt"):
        os.link(one, other)
    else:
        shutil.copy2(one, other)
