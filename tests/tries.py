"""Tests in browsers: one that fails is run once more in a fresh browser, which is another process with another profile.

Who passes then has passed, and a line says what was wrong at first, as `again: NAME: WHY`. Who fails twice has failed. A browser that doesn't
start, dies or doesn't answer is a test that fails, as any other. Each browser runs in a group of processes of its own, with all that it begins;
a test that takes too long has its group killed, so that nothing waits for an answer that never comes."""

from __future__ import annotations

import contextlib
import os
import signal
import subprocess
import sys
import threading
import time
from functools import partial
from types import TracebackType
from typing import Any, Callable, Generic, Iterable, Iterator, Protocol, Sequence, TypeVar

from harness import judge, names, timed, tried

# for a test, for all that fail in a part of tests, and for a browser to end by itself; on a machine that has much else to do
SECONDS, SECONDS_OF_FAILURES, SECONDS_OF_AN_END = 900, 2400, 30
# after the limit is over, how often what was begun meanwhile is killed
MOMENT = 2.0
# of what was wrong at first, as many letters are said
MOST_LETTERS = 600
T = TypeVar("T")
# the leaders of the groups that run in this process
LEADERS: set[int] = set()


def kill(*leaders: int) -> None:
    """Kills groups of processes. The leader of each isn't reaped yet, so that its number is nobody else's."""
    for leader in leaders:
        with contextlib.suppress(ProcessLookupError):
            os.killpg(leader, signal.SIGKILL)


def stop(number: int, _frame: object) -> None:
    """Ends this process when it is asked to, and with it the groups that run in it."""
    kill(*LEADERS)
    sys.exit(128 + number)


@contextlib.contextmanager
def group(words: Sequence[str], **how: Any) -> Iterator[subprocess.Popen[Any]]:
    """A program in a group of processes of its own; none of them is left at the end, nor if this process is asked to end. Nobody else
    waits for the program."""
    if threading.current_thread() is threading.main_thread():
        signal.signal(signal.SIGTERM, stop)
    given: dict[str, Any] = {"stdin": subprocess.DEVNULL, "stdout": subprocess.DEVNULL, "stderr": subprocess.DEVNULL} | how
    with subprocess.Popen(words, start_new_session=True, **given) as child:
        LEADERS.add(child.pid)
        try:
            yield child
        finally:
            kill(child.pid)
            LEADERS.discard(child.pid)


def has_ended(child: subprocess.Popen[Any], seconds: float) -> bool:
    """Whether a program ends by itself within so many seconds; it isn't reaped."""
    end = time.monotonic() + seconds
    while time.monotonic() < end:
        if os.waitid(os.P_PID, child.pid, os.WEXITED | os.WNOHANG | os.WNOWAIT):
            return True
        time.sleep(0.02)
    return False


@contextlib.contextmanager
def limit(seconds: float) -> Iterator[threading.Event]:
    """Kills all groups after so many seconds, also those that are begun later. Answers what is set then."""
    is_over, has_passed = threading.Event(), threading.Event()

    def watch() -> None:
        wait = seconds
        while not is_over.wait(wait):
            has_passed.set()
            kill(*LEADERS)
            wait = MOMENT

    thread = threading.Thread(target=watch, daemon=True)
    thread.start()
    try:
        yield has_passed
    finally:
        is_over.set()
        thread.join()


def nothing(_browser: Any) -> list[str]:
    """What a browser says beside that nobody asks."""
    return []


class Browsed(Protocol):
    """Tests in a browser, which is another one now and then."""

    browser: Any


class Tries(Generic[T]):
    """Runs tests in a browser, one after another. It is begun when the first one wants it, and anew after each that fails. What it says
    beside of the page is wrong, too."""

    def __init__(self, begin: Callable[[], contextlib.AbstractContextManager[T]], said: Callable[[T], Iterable[str]] = nothing, seconds: float = SECONDS) -> None:
        self._begin, self._said, self._seconds = begin, said, seconds
        self._browsers: list[T] = []
        self._open = contextlib.ExitStack()
        self._left = float(SECONDS_OF_FAILURES)

    def __enter__(self) -> Tries[T]:
        return self

    def __exit__(self, kind: type[BaseException] | None, it: BaseException | None, trace: TracebackType | None) -> None:
        self._end()

    def wrong(self, name: str, test: Callable[[T], Iterable[str]]) -> list[str]:
        """What is wrong by a test, if that is so in two browsers."""
        if self._left <= 0:
            return ["it isn't run: those before it failed for too long"]
        first = self._tried(test)
        second = self._tried(test) if first else []
        if first and not second:
            print(f"again: {name}: {' '.join(' '.join(first).split())[:MOST_LETTERS]}", flush=True)
        return [*second, *(f"at first: {it}" for it in first if it not in second)] if second else []

    def checks(self, name: str, test: Callable[[T], Iterable[tuple[str, bool]]]) -> list[tuple[str, bool]]:
        """The same for a test of several checks: each with whether it is right."""
        right: list[str] = []

        def wrong(browser: T) -> list[str]:
            found = [*test(browser)]
            right[:] = [what for what, is_right in found if is_right]
            return [what for what, is_right in found if not is_right]

        failed = self.wrong(name, wrong)
        return [*((it, True) for it in right), *((it, False) for it in failed)]

    def run(self, tests: Browsed, part: str) -> tuple[int, int]:
        """Runs the tests of an object, each of which finds the browser there. Answers how many passed and how many failed."""

        def wrong(name: str) -> list[str]:
            def test(browser: T) -> Iterable[str]:
                tests.browser = browser
                return getattr(tests, name)()  # type: ignore[no-any-return]
            return self.wrong(f"{part}: {name.replace('_', ' ')}", test)

        return judge((name.replace("_", " "), timed(name, partial(wrong, name))) for name in names(tests))

    def _tried(self, test: Callable[[T], Iterable[str]]) -> list[str]:
        """What is wrong by a test in the browser that is there; one in which something is doesn't stay."""
        begun = time.monotonic()
        with limit(self._seconds) as has_passed:
            wrong = self._found(test)
        if has_passed.is_set():
            wrong = [f"after {self._seconds:g} seconds it was stopped", *wrong]
        if wrong:
            self._left -= time.monotonic() - begun
            kill(*LEADERS)
            self._end()
        return wrong

    def _found(self, test: Callable[[T], Iterable[str]]) -> list[str]:
        """What is wrong by a test, what the browser says beside, and what ended the test before its time."""
        def found() -> list[str]:
            if not self._browsers:
                self._browsers.append(self._open.enter_context(self._begin()))
            return [*test(self._browsers[0]), *self._said(self._browsers[0])]

        return tried(found)

    def _end(self) -> None:
        """Ends the browser. That one which is killed, or doesn't end, can't be asked to is no fault."""
        self._browsers.clear()
        with limit(SECONDS_OF_AN_END), contextlib.suppress(Exception):
            self._open.close()
