"""What the parts share: how the script is run, and its answers."""

from __future__ import annotations

import os
import re
import subprocess
from pathlib import Path

from harness import PATIENCE

TOP = Path(__file__).resolve().parent.parent.parent
SCRIPT = TOP / "scripts" / "step"
ROBOTS = TOP / "robots"
PROMPT = "(step) "
USAGE = "usage: crobots-step [-kMATCH] [-lCYCLES] [-sSEED] [-pPROFILE] [--robot N] [-x SCRIPT] FILE..\n"
FILES = {
    # `seen` is an external, `a` is of main
    "looker.r": "int seen;\nmain() {\n  int a;\n  while (1) {\n    a = scan(0, 5);\n    seen = seen + 1;\n  }\n}\n",
    # down calls itself twice, and returns 7 thrice
    "deep.r": "main() {\n  int n;\n  n = down(2);\n  while (1)\n    ;\n}\n\ndown(n) {\n  if (n)\n    return down(n - 1);\n  return 7;\n}\n",
    # shoots at its own feet, and is dead after cycle 90
    "suicide.r": "main(){while(1)cannon(0,0);}",
    # calls itself until it restarts
    "diver.r": "main() {\n  dive();\n}\n\ndive() {\n  dive();\n}\n",
    "bad.r": "main(){\nbreak; }",
}


class Base:
    """Runs the script with the programs that are tested."""

    def __init__(self, programs: dict[str, str], folder: str) -> None:
        self._programs, self._folder = programs, folder
        # the programs under the names that they are installed by
        self._path = os.path.join(folder, "bin")
        os.mkdir(self._path)
        for name, path in programs.items():
            os.symlink(path, os.path.join(self._path, name))
        for name, text in FILES.items():
            Path(self._folder, name).write_text(text, encoding="ascii")

    def _environment(self, path: str = "") -> dict[str, str]:
        return os.environ | {"PATH": f"{path or self._path}:{os.environ['PATH']}", "LC_ALL": "C.UTF-8", "LINES": "", "COLUMNS": ""}

    def _run(self, commands: str | bytes, *words: str, path: str = "") -> subprocess.CompletedProcess[bytes]:
        given = commands.encode() if isinstance(commands, str) else commands
        return subprocess.run([SCRIPT, *words], cwd=self._folder, env=self._environment(path), input=given, capture_output=True,
                              timeout=PATIENCE, check=False)

    def _answers(self, commands: list[str], *words: str) -> list[list[str]]:
        """The lines that answer each command; the first ones are of the start."""
        ran = self._run("".join(f"{command}\n" for command in commands), *words)
        assert (ran.returncode, ran.stderr) == (0, b""), f"{words}: {ran.returncode} {ran.stderr!r}"
        found: list[list[str]] = [[]]
        for line in ran.stdout.decode().splitlines():
            if line.startswith(PROMPT):
                assert line.removeprefix(PROMPT) == commands[len(found) - 1], f"{line}, and not {commands[len(found) - 1]}"
                found.append([])
            else:
                found[-1].append(line)
        assert len(found) == len(commands) + 1, f"{len(found)} answers to {len(commands)} commands"
        return found

    def _last(self, commands: list[str], *words: str) -> list[str]:
        """The lines that answer the last command."""
        return self._answers(commands, *words)[-1]


def differ(got: object, wanted: object) -> list[str]:
    return [] if got == wanted else [f"{got}\n  not {wanted}"]


# What the plain model doesn't know.
UNKNOWN = re.compile(r", column \d+|(?<=^restart): \w+$|(?<=: hurt), damage .*$|(?<=: hit), damage .*$")


def plain(lines: list[str]) -> list[str]:
    """Lines without columns of the source, damages, why a robot restarted, and what the next cycle does."""
    return [UNKNOWN.sub("", line) for line in lines if not line.startswith("next: ")]
