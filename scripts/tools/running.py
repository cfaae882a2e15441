"""How a script begins and ends: what it says of faults, signals and want of memory, and its status."""

import errno
import importlib
import os
import signal
from typing import Callable

from .faults import FILE, MEMORY, Fault
from .output import open_standard_files, say, tell
from .signals import Stopped, heeded, stop


def start(module: str, function: str, command: list[str], stopped: str) -> int:
    """Runs a script with its command line, the script's own path first; answers its status.

    What it does is a function of a module, which is read here, so that signals are heeded meanwhile."""
    name = os.path.basename(command[0])

    def do() -> None:
        does: Callable[[str, list[str]], None] = getattr(importlib.import_module(module), function)
        does(name, command[1:])

    return run(name, do, stopped=stopped, writes=True)


def run(name: str, does: Callable[[], int | None], usage: str = "", stopped: str = "", writes: bool = False) -> int:
    """Does what a script is asked for; answers its status, which may be what that answers.

    If these are given, its usage follows wrong words, and it says that it was stopped. One that writes isn't begun if
    standard output is closed."""
    is_open = open_standard_files()
    # a pipe for standard error that is closed ends nothing
    signal.signal(signal.SIGPIPE, signal.SIG_IGN)
    for number in heeded():
        signal.signal(number, stop)
    try:
        if writes and not is_open:
            raise Fault("cannot write: standard output is closed", FILE)
        return does() or 0
    except (Fault, Stopped, MemoryError) as why:
        return told(name, why, usage, stopped)
    except BrokenPipeError:
        signal.signal(signal.SIGPIPE, signal.SIG_DFL)
        os.kill(os.getpid(), signal.SIGPIPE)
    except OSError as why:
        if why.errno == errno.ENOMEM:
            return told(name, MemoryError(), usage, stopped)
        what = f"{why.filename}: {why.strerror}" if why.filename else f"{why.strerror}"
        return told(name, Fault(what, FILE), usage, stopped)
    return 0


def told(name: str, why: Fault | Stopped | MemoryError, usage: str, stopped: str) -> int:
    """Says why a script ended; answers the status."""
    if isinstance(why, Fault):
        tell(why.told(name, usage))
        return why.status
    if isinstance(why, MemoryError):
        say(name, "out of memory")
        return MEMORY
    if said := why.args[0] or stopped:
        say(name, said)
    return 128 + why.number
