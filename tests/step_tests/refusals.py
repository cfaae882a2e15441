"""Wrong words, programs that aren't there or end, files that can't be read, and output that nobody takes."""

from __future__ import annotations

import os
import signal
import subprocess
import time
from pathlib import Path

from harness import PATIENCE, is_usage

from .base import SCRIPT, USAGE, Base, differ

SAID = b"crobots-step: "
WRONG = {
    "frob": "frob: no command; help lists them", "help frob": "frob: no command; help lists them", "step 3": "3: nothing follows step",
    "quit now": "now: nothing follows quit", "goto": "goto: the form is goto CYCLE", "goto 1 2": "1 2: the form is goto CYCLE",
    "goto x": "x: no number from 0 to 1000000000", "goto 1000000001": "1000000001: no number from 0 to 1000000000",
    "goto -1": "-1: no number from 0 to 1000000000", "print": "print: the form is print NAME", "print b": "b: no variable that main sees",
    "print main.b": "main.b: no variable that main sees", "info": "info: not breakpoints, locals, externals or field",
    "info b": "b: not breakpoints, locals, externals or field", "list 0": "0: no number from 1 to 8", "list 9": "9: no number from 1 to 8",
    "break 1": "1: no code in these lines", "break 0": "0: no lines, as 3 or 5,8-12", "break 5 6": "6: nothing follows the line",
    "break hit now": "now: nothing follows hit", "break hurt now": "now: nothing follows hurt", "break main": "main: no intrinsic function", "break scan when": None,
    "break scan if": None, "break scan if reply": None, "break scan if reply > x": "x: no number from -2147483648 to 2147483647",
    "break scan if reply > 2147483648": "2147483648: no number from -2147483648 to 2147483647",
    "break scan if reply > 2147483647": "reply > 2147483647: no reply is so",
    "break scan if reply > 1 && reply < 1": "reply > 1 && reply < 1: no reply is so", "break scan if reply > 1 &&": None,
    "watch": "watch: the form is watch NAME", "watch b": "b: no variable", "watch a b": "a b: the form is watch NAME",
    "delete": "delete: the form is delete N", "delete 1": "1: no breakpoint has this number",
    "delete \u00b2": "\u00b2: no breakpoint has this number", "break \u00b2": None,
}


class Refusals(Base):
    """What is refused, and how the script ends."""

    def wrong_commands(self) -> list[str]:
        """Each has one line, which names the word, and the next one is answered."""
        answers = self._answers([*WRONG, "info breakpoints"], "-l20", "looker.r")[1:]
        wrong = [f"{command}: {answer}" for (command, wanted), answer in zip(WRONG.items(), answers)
                 if len(answer) != 1 or wanted is not None and answer != [wanted] or ": " not in answer[0]]
        return wrong + differ(answers[-1], ["no breakpoints"])

    def wrong_words(self) -> list[str]:
        wrong = []
        for words in ([], ["-y", "looker.r"], ["--robot", "3", "looker.r"], ["--robot", "0", "looker.r"], ["-l0", "looker.r"], ["-m3", "looker.r"],
                      ["looker.r"] * 5, ["looker.r", "-x"], ["-x", "a", "-xb", "looker.r"], ["--robot", "1", "--robot=1", "looker.r"], ["-k1", "-f1", "looker.r"]):
            ran = self._run("", *words)
            if (ran.stdout, ran.returncode) != (b"", 2) or not is_usage(ran.stderr.decode(), USAGE):
                wrong.append(f"{words}: {ran}")
        return wrong

    def help_and_version(self) -> list[str]:
        wrong = [] if self._run("", "--help").stdout.startswith(USAGE.encode()) else ["no help"]
        return wrong + differ(self._run("", "--version").stdout.split()[0], b"crobots-step")

    def faults_of_files(self) -> list[str]:
        """Those of robots have the words of crobots-debug."""
        wrong = []
        for words, status, said in [(["looker.r", "bad.r"], 1, b"bad.r:2: reserved word\n"), (["gone.r"], 3, SAID + b"cannot open gone.r\n"),
                                    (["-x", "gone", "looker.r"], 3, SAID + b"cannot open gone\n"), (["-x", ".", "looker.r"], 3, SAID + b"cannot open .\n")]:
            ran = self._run("s\n", *words)
            wrong += differ((ran.stdout, ran.stderr, ran.returncode), (b"", said, status))
        return wrong

    def _fake(self, name: str, text: str) -> str:
        """A folder with another program of this name."""
        folder = os.path.join(self._folder, name)
        os.makedirs(folder, exist_ok=True)
        path = Path(folder, "crobots-debug")
        path.write_text(f"#!/bin/sh\n{text}\n", encoding="ascii")
        path.chmod(0o755)
        return folder

    def a_program_that_ends(self) -> list[str]:
        """At once, after its first answer, by a signal, or with a line of its own: one line, and a status."""
        answer = r"read a; printf 'cycle\t0\talive\tgoes on\nat\t0\t1\t1\tmain\nstack\t\n\n'"
        wrong = []
        for number, (text, status, said) in enumerate([
                ("exit 0", 128, b"crobots-debug ended\n"), (f"{answer}; exit 5", 5, b"crobots-debug ended\n"),
                (f"{answer}; read a; kill -9 $$", 137, b"crobots-debug ended by signal 9\n"),
                (f"{answer}; read a; echo crobots-debug: out of memory >&2; exit 5", 5, b"out of memory\n")]):
            ran = self._run("s\ns\n", "looker.r", path=self._fake(f"ends{number}", text))
            wrong += differ((ran.stderr, ran.returncode), (SAID + said, status))
        return wrong

    def a_program_that_is_not_there(self) -> list[str]:
        """Neither on the path nor beside the script, which is copied for that."""
        copy = os.path.join(self._folder, "copy", "scripts")
        os.makedirs(copy, exist_ok=True)
        ran = subprocess.run(f"cp -r '{SCRIPT}' '{SCRIPT.parent}/stepping' '{SCRIPT.parent}/tools' '{copy}' && '{copy}/step' looker.r",
                             shell=True, cwd=self._folder, env=os.environ | {"PATH": os.defpath}, capture_output=True, timeout=PATIENCE, check=False)
        return differ((ran.stdout, ran.stderr, ran.returncode), (b"", SAID + b"crobots-debug is not there, or is no program; README.md says how it is built\n", 2))

    def output_that_nobody_takes(self) -> list[str]:
        """A full device, and no output at all: one line, and the status 4. A pipe that is closed ends it as it ends others."""
        wrong = []
        for way in (">/dev/full", "| true", ">&-"):
            script = f"(sleep 1; yes s | head -n 200) | ('{SCRIPT}' looker.r 2>said; echo $? >status) {way}"
            if way != "| true":
                script = f"(echo s; echo s) | '{SCRIPT}' looker.r 2>said {way}; echo $? >status"
            subprocess.run(["sh", "-c", script], cwd=self._folder, env=self._environment(), timeout=PATIENCE, check=False)
            got = [Path(self._folder, name).read_text(encoding="ascii") for name in ("said", "status")]
            wrong += differ((way, *got), (way, "", "141\n") if way == "| true" else (way, "crobots-step: cannot write\n", "4\n"))
        return wrong

    def interrupted(self) -> list[str]:
        """Ctrl-C ends it without a word, with the status of the signal; no program goes on."""
        with subprocess.Popen([SCRIPT, "looker.r"], cwd=self._folder, env=self._environment(), stdin=subprocess.PIPE, stdout=subprocess.PIPE,
                              stderr=subprocess.PIPE, start_new_session=True) as child:
            assert child.stdin and child.stdout and child.stderr
            child.stdin.write(b"step\n")
            child.stdin.flush()
            lines = [child.stdout.readline() for _ in range(4)]
            os.killpg(child.pid, signal.SIGINT)
            wrong = differ((child.wait(PATIENCE), child.stderr.read()), (130, b""))
        return wrong + differ(lines[2], b"(step) step\n") + self._left(child.pid)

    def _left(self, group: int) -> list[str]:
        """Processes of a group that go on."""
        end = time.monotonic() + PATIENCE
        while time.monotonic() < end:
            try:
                os.killpg(group, 0)
            except ProcessLookupError:
                return []
            time.sleep(0.05)
        return ["a program goes on"]
