"""The commands of the server: a robot plays the samples, and its worst match is shown."""

import os
import pathlib
import subprocess
import tempfile
from collections import Counter
from dataclasses import dataclass, field
from typing import Callable

from results.battles import DID, match
from tools.faults import Fault
from tools.programs import found
from tools.samples import ladder
from tournaments.reports import results

from .documents import name_of
from .loops import Loop

PLAY, REPLAY = "crobots.play", "crobots.replay"
COMMANDS = {PLAY: "the results against each sample", REPLAY: "the replay of the worst match"}
GAME, REPLAYER = "crobots", "crobots-replay"
MATCHES = 10
# The most bytes of a file's name.
MOST_NAME = 255
Show = Callable[[str, str | None], None]


def opponents() -> list[str]:
    """The samples, in the order of the ladder."""
    return [path for path, _ in ladder()]


@dataclass(frozen=True, order=True)
class Match:
    """A match of the robot, from its worst to its best: dead early, dead late, and alive with much damage."""

    is_alive: bool
    rank: int
    opponent: str
    number: int


@dataclass
class Play:
    """A command at work: what is left to do, and what came of it."""

    command: str
    folder: tempfile.TemporaryDirectory[str]
    file: str
    profile: int
    left: list[str]
    is_opened: bool
    rows: list[str] = field(default_factory=list)
    matches: list[Match] = field(default_factory=list)
    child: subprocess.Popen[bytes] | None = None
    output: bytes = b""
    page: str = ""

    def fileno(self) -> int:
        assert self.child and self.child.stdout
        return self.child.stdout.fileno()

    def words(self) -> list[str]:
        """The command line of what is done next; none if all is done."""
        if self.left:
            return [found(GAME), f"-m{MATCHES}", f"-p{self.profile}", self.file, self.left[0]]
        if self.command == REPLAY and self.matches and not self.page:
            worst = min(self.matches)
            self.page = os.path.join(self.folder.name, "worst.html")
            return [found(REPLAYER), f"-k{worst.number}", f"-p{self.profile}", "-o", self.page, self.file, worst.opponent]
        return []

    def take(self) -> None:
        """Takes what a program wrote: the reports and totals of all matches, and of the page nothing."""
        if not self.left:
            return
        opponent, did = self.left.pop(0), Counter[str]()
        said = results(self.output, 2, 1, MATCHES)
        if said is None:
            raise Fault(f"{GAME} wrote no reports and totals")
        for number, ended in enumerate(map(match, said.split(",")), 1):
            how, damage = ended.results[0], ended.damage[0]
            did[how] += 1
            self.matches.append(Match(how != "l", ended.cycles if how == "l" else -damage, opponent, number))
        self.rows.append(f"{os.path.basename(opponent):12} {' '.join(f'{word} {did[how]:>2}' for how, word in DID.items())}")


def file_name(name: str) -> str:
    """The name of a robot's file: its own, if that can be one."""
    try:
        is_name = name.endswith(".r") and len(os.fsencode(name)) <= MOST_NAME
    except UnicodeError:
        is_name = False
    return name if is_name else "robot.r"


class Plays:
    """The commands that are at work."""

    def __init__(self, loop: Loop, show: Show) -> None:
        self._loop, self._show = loop, show
        self._plays: list[Play] = []
        # pages that a browser may still read
        self._kept: list[Play] = []

    def begin(self, command: str, uri: str, source: bytes, profile: int, against: list[str], is_opened: bool) -> None:
        """Begins a command: the text is put into a file of a folder that goes with the server."""
        folder = tempfile.TemporaryDirectory(prefix="crobots-")
        file = os.path.join(folder.name, file_name(name_of(uri)))
        pathlib.Path(file).write_bytes(source)
        play = Play(command, folder, file, profile, against, is_opened)
        self._plays.append(play)
        self._next(play)

    def _next(self, play: Play) -> None:
        """Goes on with a command, or says what came of it."""
        try:
            words = play.words()
            if words:
                play.output = b""
                play.child = subprocess.Popen(words, stdin=subprocess.DEVNULL, stdout=subprocess.PIPE, stderr=subprocess.STDOUT)
        except (Fault, OSError):
            self._plays.remove(play)
            raise
        if words:
            self._loop.wait_for(play, lambda: self._read(play))
        else:
            self._end(play)

    def _read(self, play: Play) -> None:
        piece = os.read(play.fileno(), 1 << 16)
        play.output += piece
        if piece:
            return
        self._loop.forget(play)
        status = self._close(play)
        if status:
            self._plays.remove(play)
            self._show(play.output.decode(errors="replace").replace(play.file, os.path.basename(play.file)).strip(), None)
            return
        try:
            play.take()
        except Fault as why:
            self._plays.remove(play)
            self._show(str(why), None)
            return
        try:
            self._next(play)
        except (Fault, OSError) as why:
            self._show(str(why), None)

    def _close(self, play: Play) -> int:
        """Waits for the program that wrote all; answers its status."""
        assert play.child and play.child.stdout
        play.child.stdout.close()
        status, play.child = play.child.wait(), None
        return status

    def _end(self, play: Play) -> None:
        self._plays.remove(play)
        self._kept.append(play)
        if play.command == PLAY or not play.matches:
            self._show("\n".join(play.rows) or "there is no sample", None)
            return
        worst = min(play.matches)
        told = f"match {worst.number} against {os.path.basename(worst.opponent)}"
        self._show(told if play.is_opened else f"{told}: {play.page}", pathlib.Path(play.page).as_uri() if play.is_opened else None)

    def stop(self) -> None:
        """Ends what still runs."""
        for play in self._plays:
            if play.child:
                play.child.kill()
                self._close(play)
        for play in (*self._plays, *self._kept):
            play.folder.cleanup()
