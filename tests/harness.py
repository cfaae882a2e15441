"""What tests share: how the methods of a class are run, how cases are counted, words of the command line, copies of what stands here, and
tests that use another one.

A test is a method whose name doesn't begin with `_`, of a class itself and not of one that it stands on: it answers what is wrong, a
line each, and nothing if all is right. A case is a name, and what is wrong, as lines or as a text, or what answers that. An exception
that comes in a test or a case fails it alone."""

from __future__ import annotations

import contextlib
import functools
import importlib.machinery
import importlib.util
import os
import resource
import shutil
import signal
import subprocess
import sys
import tempfile
import time
import traceback
from types import ModuleType
from typing import Any, Callable, Collection, Iterable, Iterator, Sequence

HERE = os.path.dirname(os.path.abspath(__file__))
# what a test waits for anything at most, in seconds: the machine may have much else to do, and only what hangs takes so long
PATIENCE = 600
# how tests are run: no place that a fault came from
RUNNERS = ("harness.py", "tries.py")
# of what a program said before it was stopped, so many letters are said
MOST_LETTERS = 300
# folders of what is built, and of git's
BUILT = ("out", "__pycache__", ".git")
# what is wrong with a case, what answers that, and a case
Wrong = str | Iterable[str]
Test = Callable[[], Wrong]
Case = tuple[str, Wrong | Test]
sys.dont_write_bytecode = True


def loaded(name: str) -> ModuleType:
    """Another test of this folder as a module: its file has no ending."""
    loader = importlib.machinery.SourceFileLoader(name, os.path.join(HERE, name))
    spec = importlib.util.spec_from_loader(name, loader)
    assert spec
    module = importlib.util.module_from_spec(spec)
    sys.modules[name] = module
    loader.exec_module(module)
    return module


def refused(usage: str, words: list[str], count: int, numbers: int = 0) -> bool:
    """Says in a line if the words aren't `count` programs, and at most `numbers` numbers; a usage is a test's name, and what
    its words are called."""
    programs, rest = words[:count], words[count:]
    is_usage = len(programs) == count and len(rest) <= numbers and all(word.isascii() and word.isdigit() for word in rest)
    lacking = next((word for word in programs if not os.access(word, os.X_OK)), None)
    if not is_usage or lacking is not None:
        name = usage.partition(" ")[0]
        print(f"{name}: {lacking} is no program" if is_usage else f"usage: {usage}", file=sys.stderr)
    return not is_usage or lacking is not None


def take_signals() -> None:
    """Lets the programs that are run here be stopped: what runs the tests may ignore signals, and then so would they."""
    for ending in (signal.SIGHUP, signal.SIGINT, signal.SIGTERM):
        signal.signal(ending, signal.SIG_DFL)


def run(tests: object, but: Collection[str] = (), only: Collection[str] = ()) -> tuple[int, int]:
    """Runs the tests of an object but some, or some only; says what is wrong, and how long each took if TIMES is in the environment.
    Answers how many passed and how many failed."""
    chosen = [name for name in names(tests) if name not in but and (not only or name in only)]
    return judge((name.replace("_", " "), timed(name, getattr(tests, name))) for name in chosen)


def tried(test: Wrong | Test) -> list[str]:
    """What is wrong by a test or with a case, and what ended it before its time."""
    found: list[str] = []
    try:
        wrong = test() if callable(test) else test
        found.extend(([wrong] if wrong else []) if isinstance(wrong, str) else wrong)
    except Exception as fault:  # pylint: disable=broad-exception-caught
        found.append(ended(fault))
    return found


def ended(fault: Exception) -> str:
    """What ended a test, and where, in a line. Of a program that failed or was stopped it has the end of what that said."""
    frames = [it for it in traceback.extract_tb(fault.__traceback__) if it.filename.startswith(HERE) and os.path.basename(it.filename) not in RUNNERS]
    way = ", ".join(f"{os.path.basename(it.filename)}:{it.lineno} {it.name}" for it in frames)
    said = "".join(f"; its {name}: {text[-MOST_LETTERS:]!r}" for name in ("stdout", "stderr") if (text := getattr(fault, name, None)))
    return f"it ended in {way}: {type(fault).__name__}: {' '.join(str(fault).split())}{said}"


def timed(name: str, test: Test) -> list[str]:
    """What is wrong by a test; says how long it took if TIMES is in the environment."""
    begun = time.monotonic()
    wrong = tried(test)
    if os.environ.get("TIMES"):
        print(f"{time.monotonic() - begun:6.1f} {name}", flush=True)
    return wrong


def judge(cases: Iterable[Case]) -> tuple[int, int]:
    """Says what is wrong with each case. Answers how many are right and how many aren't."""
    passed = failed = 0
    for name, wrong in whole(cases):
        lines = tried(wrong)
        passed, failed = passed + (not lines), failed + bool(lines)
        for line in lines:
            print(f"{name}: {line}", flush=True)
    return passed, failed


def whole(cases: Iterable[Case]) -> Iterator[Case]:
    """Cases, and as the last one what ended them before their time: none comes from a generator in which a fault came."""
    try:
        yield from cases
    except Exception as fault:  # pylint: disable=broad-exception-caught
        yield "the rest isn't run", ended(fault)


def skip(what: str, why: str) -> None:
    """Says that a test, or a part of one, isn't run, and why. `tests/run` counts these lines."""
    print(f"skipped: {what}: {why}", flush=True)


def names(tests: object) -> list[str]:
    """The names of the tests of an object."""
    return sorted(name for name in vars(type(tests)) if not name.startswith("_"))


def copied(folder: str | os.PathLike[str], to: str | os.PathLike[str]) -> None:
    """Copies a folder of the repository. Tests that run side by side, and the programs that they begin, make and remove files in it at any
    moment: what git knows or would take is copied, or all but what is built where git knows nothing; and what is gone meanwhile isn't."""
    asked = subprocess.run(["git", "ls-files", "-z", "--cached", "--others", "--exclude-standard"], cwd=folder, capture_output=True, check=False)
    for name in [os.fsdecode(it) for it in asked.stdout.split(b"\0") if it] or sources(folder):
        os.makedirs(os.path.dirname(os.path.join(to, name)), exist_ok=True)
        with contextlib.suppress(FileNotFoundError):
            shutil.copy2(os.path.join(folder, name), os.path.join(to, name))


def sources(folder: str | os.PathLike[str]) -> list[str]:
    """The files below a folder but what is built."""
    found = []
    for at, folders, files in os.walk(folder):
        folders[:] = [name for name in folders if name not in BUILT]
        found += [os.path.relpath(os.path.join(at, name), folder) for name in files]
    return found


class Folder:
    """A folder of files, in which tests run programs: they stand on it."""

    def __init__(self, folder: str) -> None:
        self._folder = folder

    def _lay(self, name: str, text: str | bytes) -> None:
        """Writes a file."""
        path = os.path.join(self._folder, name)
        os.makedirs(os.path.dirname(path), exist_ok=True)
        with open(path, "wb") as file:
            file.write(text if isinstance(text, bytes) else text.encode("latin-1"))

    def _run(self, program: str, *words: str, **how: Any) -> subprocess.CompletedProcess:
        """What a program does with these words."""
        given: dict[str, Any] = {"capture_output": True, "encoding": "utf-8", "timeout": PATIENCE} | how
        return subprocess.run([program, *words], cwd=self._folder, check=False, **given)

    def _short_of_memory(self, name: str, sizes: range, *words: str, writes_early: bool = False) -> list[str]:
        """What is wrong with a program that has so many kilobytes of memory: with too few the status is 5, with its line and no text, unless
        it writes before it is done, and no other status of the program's."""
        seen = set()
        for kilobytes in sizes:
            ran = self._run(*words, preexec_fn=functools.partial(resource.setrlimit, resource.RLIMIT_DATA, (kilobytes * 1024,) * 2))
            got = (ran.stdout if not writes_early else "", ran.stderr, ran.returncode)
            if ran.returncode in range(1, 6) and got != ("", f"{name}: out of memory\n", 5):
                return [f"{words}, {kilobytes} kilobytes: {got}"]
            seen.add(ran.returncode)
        return [] if {0, 5} <= seen else [f"{words}: statuses were {sorted(seen)}, and not 0 and 5"]


def run_on(usage: str, words: list[str], tests: Callable[..., object]) -> int:
    """Runs tests that are made of the programs of a usage, BIN_NAME each, and of a folder. Answers the status."""
    if refused(usage, words, usage.count(" BIN_")):
        return 2
    take_signals()
    with tempfile.TemporaryDirectory() as folder:
        return counted(*run(tests(*(os.path.abspath(word) for word in words), folder)))


def run_parts(usage: str, words: list[str], parts: Sequence[Callable[[str, str], object]]) -> int:
    """Runs the parts of a test, each of which is made of a program and a folder. The words are the program, and names of tests if these
    alone are wanted. Answers the status."""
    if refused(usage, words[:1], 1):
        return 2
    take_signals()
    with tempfile.TemporaryDirectory() as folder:
        them = [part(os.path.abspath(words[0]), folder) for part in parts]
        if strange := {*words[1:]} - {name for it in them for name in names(it)}:
            print(f"{usage.partition(' ')[0]}: there is no test {min(strange)}", file=sys.stderr)
            return 2
        counts = [run(it, only=words[1:]) for it in them]
    return counted(*map(sum, zip(*counts)))


def counted(passed: int, failed: int) -> int:
    """Writes the last line of a test; answers its status."""
    print(f"{passed} passed, {failed} failed")
    return 1 if failed else 0


def is_usage(said: str, usage: str) -> bool:
    """Whether a program said its line of usage, and before it at most a line on what is wrong, which begins with its name."""
    name = usage.removeprefix("usage: ").partition(" ")[0]
    before = said.removesuffix(usage)
    return said.endswith(usage) and (not before or before.count("\n") == 1 and before.startswith(f"{name}: "))
