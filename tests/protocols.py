"""A client of a server on standard input and output that frames messages by their length, as editors' protocols do."""

from __future__ import annotations

import json
import os
import queue
import subprocess
import threading
from concurrent.futures import ThreadPoolExecutor
from pathlib import Path
from typing import Any, Callable, Iterable

from harness import PATIENCE

TOP = Path(__file__).resolve().parent.parent
# Nothing takes so long but a hang.
Message = dict[str, Any]


def framed(message: Any) -> bytes:
    body = json.dumps(message).encode()
    return f"Content-Length: {len(body)}\r\n\r\n".encode() + body


def side_by_side(trial: Callable[[int], Iterable[str]], count: int) -> list[str]:
    """What is wrong in trials of these numbers: as many of them at once as there are processors."""
    with ThreadPoolExecutor(os.cpu_count()) as pool:
        return [line for lines in pool.map(trial, range(count)) for line in lines]


class Gone(Exception):
    """The server writes no more."""


class Client:
    """A running server, in a session of its own: what it writes is read by a thread."""

    def __init__(self, words: list[str], environment: dict[str, str], folder: str | None = None) -> None:
        self.child = subprocess.Popen(words, stdin=subprocess.PIPE, stdout=subprocess.PIPE, stderr=subprocess.PIPE, env=environment,
                                      cwd=folder, start_new_session=True)
        self._came: queue.Queue[Message | None] = queue.Queue()
        self.kept: list[Message] = []
        threading.Thread(target=self._read, daemon=True).start()

    def _read(self) -> None:
        """Keeps the messages that come, and the end of them."""
        assert self.child.stdout
        while head := self.child.stdout.readline():
            name, _, length = head.partition(b":")
            if name.lower() == b"content-length":
                while self.child.stdout.readline().strip():
                    pass
                self.arrived(json.loads(self.child.stdout.read(int(length))))
        self._came.put(None)

    def arrived(self, message: Message) -> None:
        """Keeps a message that has come."""
        self._came.put(message)

    def write(self, content: bytes) -> None:
        assert self.child.stdin
        self.child.stdin.write(content)
        self.child.stdin.flush()

    def send(self, message: Any) -> None:
        self.write(framed(message))

    def wait(self, is_it: Callable[[Message], bool]) -> Message:
        """The next message that is the one; those that come before it are kept."""
        while (message := self._came.get(timeout=PATIENCE)) is not None:
            if is_it(message):
                return message
            self.kept.append(message)
        raise Gone

    def take(self, is_it: Callable[[Message], bool]) -> Message:
        """The first message that is the one, of those that were kept and of those that come: it is kept no longer."""
        found = next((it for it in self.kept if is_it(it)), None)
        if found is None:
            return self.wait(is_it)
        self.kept.remove(found)
        return found

    def end(self) -> tuple[int, bytes]:
        """Closes the server's input; answers its status and what it said, when it has ended."""
        assert self.child.stdin and self.child.stderr
        try:
            self.child.stdin.close()
        except BrokenPipeError:
            pass
        status = self.child.wait(PATIENCE)
        return status, self.child.stderr.read()

    def left(self) -> list[int]:
        """The processes of the server's session that are still there."""
        return [number for number in map(int, filter(str.isdigit, os.listdir("/proc"))) if session(number) == self.child.pid]


def session(number: int) -> int:
    """The session of a process; 0 if it is gone, or only waits to be taken note of."""
    try:
        fields = Path(f"/proc/{number}/stat").read_text(encoding="ascii", errors="replace").rpartition(")")[2].split()
    except (FileNotFoundError, ProcessLookupError):
        return 0
    return 0 if fields[0] == "Z" else int(fields[3])


def environment(folder: str, programs: dict[str, str]) -> dict[str, str]:
    """An environment whose path begins with a folder that has these programs alone, by their names."""
    place = os.path.join(folder, "bin")
    os.makedirs(place, exist_ok=True)
    for name, path in programs.items():
        if not os.path.lexists(os.path.join(place, name)):
            os.symlink(os.path.abspath(path), os.path.join(place, name))
    return os.environ | {"PATH": f"{place}:{os.environ['PATH']}", "HOME": folder}
