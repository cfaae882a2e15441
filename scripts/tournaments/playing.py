"""Plays series: some children at a time, all of which end when the tournament does."""

import os
import selectors
import shlex
import signal
from dataclasses import dataclass, field
from typing import Callable, Generator, Iterable, Iterator

from tools.faults import FAULTY, PROGRAM, Fault
from tools.signals import ENDING, Stopped

from .programs import Program
from .records import NoRecord, Record, check_results
from .reports import results

GLANCE = 0.2
CHUNK = 1 << 16


@dataclass
class Child:
    """A series that is being played, and what it has written so far."""

    record: Record
    process: int
    output: bytearray = field(default_factory=bytearray)


class Player:
    """Plays series by children of one program, `jobs` of them at a time, with the robots' copies in a folder."""

    def __init__(self, program: Program, jobs: int, folder: str) -> None:
        self._program = program
        self._jobs = jobs
        self._folder = folder
        self._environment = dict(os.environb)
        self._selector = selectors.DefaultSelector()
        self._running: dict[int, Child] = {}

    def play(self, planned: Iterable[Record], glance: Callable[[], None]) -> Generator[Record, None, None]:
        """Plays the series of these records, and gives each with its results when it ends. It glances often."""
        left = iter(planned)
        try:
            while self._start(left) or self._running:
                for key, _ in self._selector.select(GLANCE):
                    ended = self._read(key.fd)
                    glance()
                    if ended:
                        # the next series plays while this one is read
                        self._start(left)
                        yield self._finished(*ended)
                        glance()
                glance()
        finally:
            self._end()

    def _start(self, left: Iterator[Record]) -> bool:
        """Starts series as long as there are jobs; reports whether it started one."""
        begun = False
        while len(self._running) < self._jobs:
            record = next(left, None)
            if record is None:
                break
            self._spawn(record)
            begun = True
        return begun

    def _spawn(self, record: Record) -> None:
        words = line(self._program, record, [os.path.join(self._folder, robot.sha256) for robot in record.robots])
        try:
            output, writing = os.pipe()
        except OSError as why:
            raise Fault(f"{len(self._running) + 1} series at a time can't be run: {why.strerror}", PROGRAM) from why
        actions = [(os.POSIX_SPAWN_OPEN, 0, os.devnull, os.O_RDONLY, 0), *((os.POSIX_SPAWN_DUP2, writing, to) for to in (1, 2))]
        try:
            process = os.posix_spawn(words[0], words, self._environment, file_actions=actions, setsigdef=[signal.SIGPIPE])
        except OSError as why:
            os.close(output)
            raise Fault(f"{words[0]} can't be run: {why.strerror}", PROGRAM) from why
        finally:
            os.close(writing)
        self._running[output] = Child(record, process)
        self._selector.register(output, selectors.EVENT_READ)

    def _read(self, output: int) -> tuple[Child, int] | None:
        """Takes what a child wrote; answers it with its status if it ended."""
        child = self._running[output]
        chunk = os.read(output, CHUNK)
        if chunk:
            child.output += chunk
            return None
        self._forget(output)
        status = os.waitstatus_to_exitcode(os.waitpid(child.process, 0)[1])
        if -status in ENDING:
            raise Stopped(-status)
        return child, status

    def _finished(self, child: Child, status: int) -> Record:
        """The record of a series that ended with this status, with its results."""
        self._program.check()
        record, series = child.record, child.record.series
        found = None if status else results(bytes(child.output), len(series.seats), series.first, series.matches)
        if found is None:
            raise Fault(self._failure(child, status), FAULTY if status == 1 else PROGRAM)
        done = Record(record.settings, series, record.robots, found)
        try:
            check_results(done)
        except NoRecord as why:
            raise Fault(f"a series of {self._program.path} {why}", PROGRAM) from why
        return done

    def _failure(self, child: Child, status: int) -> str:
        """The line on a series that failed."""
        words = line(self._program, child.record, [robot.path for robot in child.record.robots])
        said = os.fsdecode(bytes(child.output[-2000:])).strip().splitlines()
        end = f"ended with status {status}: {said[-1] if said else 'it said nothing'}"
        return f"{shlex.join(words)} {end if status else 'wrote no reports and totals of that series'}"

    def _forget(self, output: int) -> None:
        self._selector.unregister(output)
        os.close(output)
        del self._running[output]

    def _end(self) -> None:
        """Ends all children that still run."""
        for child in self._running.values():
            os.kill(child.process, signal.SIGKILL)
        for output, child in list(self._running.items()):
            os.waitpid(child.process, 0)
            self._forget(output)
        self._selector.close()


def line(program: Program, record: Record, files: list[str]) -> list[str]:
    """The words that play a record's series with these files."""
    series = record.series
    return [program.path, *record.settings.options(series.seed, series.first, series.matches), *files]
