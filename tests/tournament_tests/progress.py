"""Messages on progress; and that a table is written whatever standard error and standard output are."""

from __future__ import annotations

import contextlib
import fcntl
import itertools
import os
import pty
import re
import shlex
import struct
import subprocess
import termios
from typing import Iterator

from harness import PATIENCE
from tournaments import progress

from .base import TABLE, Base, unrated

WORDS = ("-m10", "-l100", "a.r", "b.r", "c.r")


class Told(Base):
    def progress_on_a_terminal_and_in_a_log(self) -> list[str]:
        """Ten series of five matches, 30 seconds each: after the second, 10 matches in a minute, and 4 minutes for eight."""
        seconds = itertools.count(0, 30)
        log: list[str] = []
        it = progress.Progress(10, False, "tournament", log.append, lambda: None, lambda: next(seconds))
        for _ in range(4):
            it.count(5)
        line = "tournament: {} of 10 series, {} left, 0.2 matches a second, {} to go\n"
        wrong = [] if log == [line.format(2, 8, "4:00"), line.format(4, 6, "3:00")] else [f"{log}"]
        # as fast as a machine may be, a series takes a twentieth of a second
        self._program_of("slowly", f'sleep 0.05; exec {shlex.quote(self._program)} "$@"')
        shown, quiet = self._on_a_terminal(80, "--crobots", "./slowly"), self._on_a_terminal(80, "--crobots", "./slowly", "--quiet")
        pattern = r"\r\d+ of 120 series, \d+ left, \d+\.\d matches a second, \d+:\d\d to go"
        return wrong + ([] if re.search(pattern, shown) and quiet == "" else [f"{shown!r:.300} {quiet!r:.300}"])

    def progress_while_the_first_series_plays(self) -> list[str]:
        """A line a minute, too, while no series ends; on a terminal before the first one has ended."""
        seconds = itertools.count(0, 30)
        log: list[str] = []
        it = progress.Progress(10, False, "tournament", log.append, lambda: None, lambda: next(seconds))
        for _ in range(4):
            it.glance()
        wrong = [] if log == ["tournament: 0 of 10 series, 10 left\n"] * 2 else [f"{log}"]
        once = shlex.quote(self._at("once"))
        self._program_of("slow", f'case $1 in -c) exit 0;; esac; [ -e {once} ] || sleep 5; touch {once}; exec {shlex.quote(self._program)} "$@"')
        shown = self._on_a_terminal(80, "--crobots", "./slow", "-m2")
        return wrong + ([] if shown.startswith("\r0 of 12 series, 12 left\r") else [f"{shown!r:.300}"])

    def a_line_is_cut_at_the_width_of_the_terminal(self) -> list[str]:
        """On a terminal of twenty columns no line reaches the last one, so that none goes on in the next."""
        self._program_of("slowly", f'sleep 0.05; exec {shlex.quote(self._program)} "$@"')
        shown = self._on_a_terminal(20, "--crobots", "./slowly")
        lines = shown.split("\r")[1:]
        return [] if len(lines) > 3 and "\n" not in shown and {*map(len, lines)} <= {0, 19} else [f"{lines[:9]}"]

    def _on_a_terminal(self, columns: int, *words: str) -> str:
        ours, theirs = pty.openpty()
        fcntl.ioctl(theirs, termios.TIOCSWINSZ, struct.pack("HHHH", 24, columns, 0, 0))
        words = (*(() if "-m2" in words else ("-m400",)), "-l20000", "-j2", "--piece", "20", *words, *self._forty[:4])
        with self._started(*words, stderr=theirs, stdout=subprocess.DEVNULL) as child:
            os.close(theirs)
            said = b"".join(self._said(ours))
            child.wait()
        os.close(ours)
        return said.decode()

    def _said(self, terminal: int) -> Iterator[bytes]:
        """What is written to a terminal, until nobody has it open."""
        with contextlib.suppress(OSError):
            while chunk := os.read(terminal, 4096):
                yield chunk

    # Lost results.

    def what_is_told_ends_nothing(self) -> list[str]:
        """Standard error closed, full, or a pipe that nobody reads; with a line to tell, since matches are rounded up, and with
        a line each moment on a terminal that is gone."""
        words = shlex.join([*self._words("-m9", *WORDS[1:])])
        wrong = []
        for way in ("2>&-", "2> /dev/full", "2> >(exec 0<&-; sleep 1)", "2>&- <&-"):
            ran = self._sh(f"{words} {way}; echo status $?")
            wrong += [] if (unrated(ran.stdout.replace("status 0\n", "")), ran.stdout[-9:]) == (TABLE, "status 0\n") else [f"{way}: {ran}"]
        ours, theirs = pty.openpty()
        self._program_of("slowly", f'sleep 0.05; exec {shlex.quote(self._program)} "$@"')
        with self._started("--crobots", "./slowly", "--piece", "1", *WORDS, stderr=theirs) as child:
            os.close(theirs)
            os.close(ours)
            text, _ = child.communicate(timeout=PATIENCE)
        return wrong + ([] if (unrated(text), child.returncode) == (TABLE, 0) else [f"{text} {child.returncode}"])

    def a_journal_is_not_what_a_closed_file_writes_to(self) -> list[str]:
        """Nothing that is said gets into a file that took the number of a standard one."""
        words = shlex.join([*self._words("-m9", "--journal", "closed", *WORDS[1:])])
        ran = self._sh(f"{words} 2>&- <&-")
        fine = all(line.startswith("series 2 ") for line in self._lines("closed"))
        return [] if unrated(ran.stdout) == TABLE and fine and len(self._lines("closed")) > 5 else [f"{ran} {self._lines('closed')}"]

    def standard_output_that_cannot_be_written(self) -> list[str]:
        """Closed, it is refused before anything is played; full, a line says so; a pipe that is closed ends it as others."""
        play = shlex.join([*self._words(*WORDS)])
        full = "tournament: cannot write: No space left on device\n"
        wrong = []
        for command, status, faults in (
            (f"{play} >&-", 3, "tournament: cannot write: standard output is closed\n"), (f"{play} > /dev/full", 3, full),
            (f"{play} --json > /dev/full", 3, full), (f"{play} --plan > /dev/full", 3, full),
            (f"({play}; echo $? > status) | true; exit $(cat status)", 141, ""),
        ):
            wrong += self._answers(self._sh(command), "", faults, status)
        return wrong
