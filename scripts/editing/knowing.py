"""What `crobots-know` says of a source, and the running program that says it."""

from __future__ import annotations

import contextlib
import fcntl
import json
import os
import subprocess
from functools import cached_property
from operator import itemgetter
from typing import Any, NamedTuple

Row = dict[str, Any]
PROGRAM = "crobots-know"
# How a row begins, and its last one.
ROW = b'{"row": "'
COMPLETE = ROW + b'complete"}'
KINDS = ("first", "fault", "warning", "tokens", "name", "function", "loop", "cycles", "need", "word", "intrinsic", "room")
# By so many of its letters a kind is known.
LETTERS = 4
# What a pipe takes in, in bytes: all that is said of most texts.
PIPE = 1 << 20
# What it calls a text that it is given.
INPUT = "standard input"


class Token(NamedTuple):
    """A token: its kind, and the offsets of its first byte and behind its last one."""

    kind: str
    start: int
    end: int


class Name(NamedTuple):
    """A name where it stands: what it names, in which role, and for a local the number of its function."""

    name: str
    kind: str
    role: str
    function: int | None
    start: int
    end: int

    def key(self) -> tuple[str, int | None, str]:
        """What two names share that name the same."""
        return self.kind, self.function, self.name


# The fields of a name in its row.
NAME = itemgetter("name", "is", "role", "function", "start", "end")


class NoRow(ValueError):
    """A line that is none of the program's rows."""

    def __init__(self) -> None:
        super().__init__(f"{PROGRAM} wrote what is no row")


def of_kind(kind: str) -> cached_property[list[Row]]:
    """The rows of a kind, which are read when they are asked for first."""
    def read(known: Known) -> list[Row]:
        return known.rows(kind)

    return cached_property(read)


class Known:
    """All that is known of a text. It grows as rows come: the first fault is read at once, and all else when it is asked for, since most
    texts change before that. The first fault comes twice: first without its hint."""

    def __init__(self) -> None:
        self.first: Row | None = None
        self.is_complete = False
        self._lines: dict[str, list[bytes]] = {kind: [] for kind in KINDS}
        # faults and warnings stand in one list, as they come
        self._lines["warning"] = self._lines["fault"]
        self._lists = {ROW + kind[:LETTERS].encode("ascii"): lines for kind, lines in self._lines.items()}

    def take(self, lines: list[bytes]) -> None:
        """Takes the lines of rows."""
        lists, size = self._lists, len(ROW) + LETTERS
        for line in lines:
            if line[:size] in lists:
                lists[line[:size]].append(line)
            elif line == COMPLETE:
                self.is_complete = True
            else:
                raise NoRow
        if not self.first and self._lines["first"]:
            self.first = parsed(self._lines["first"])[0]

    def rows(self, kind: str) -> list[Row]:
        """All rows of a kind. They are asked for only when all have come."""
        return parsed(self._lines[kind])

    # Faults and warnings, as they came.
    faults = of_kind("fault")
    functions, loops, cycles, needs, words, intrinsics = map(of_kind, ("function", "loop", "cycles", "need", "word", "intrinsic"))

    @cached_property
    def tokens(self) -> list[Token]:
        try:
            return [Token._make(one) for row in self.rows("tokens") for one in row["tokens"]]
        except (KeyError, TypeError):
            raise NoRow from None

    @cached_property
    def names(self) -> list[Name]:
        try:
            return [*map(Name._make, map(NAME, self.rows("name")))]
        except KeyError:
            raise NoRow from None

    @cached_property
    def room(self) -> Row | None:
        return next(iter(self.rows("room")), None)

    @cached_property
    def by_key(self) -> dict[tuple[str, int | None, str], list[Name]]:
        """All names that name the same, in their order."""
        found: dict[tuple[str, int | None, str], list[Name]] = {}
        for name in self.names:
            found.setdefault(name.key(), []).append(name)
        return found

    def name_at(self, offset: int) -> Name | None:
        """The name at an offset, or right before it."""
        return next((name for name in self.names if name.start <= offset <= name.end), None)

    def token_at(self, offset: int) -> Token | None:
        return next((token for token in self.tokens if token.start <= offset <= token.end), None)

    def declaration(self, name: Name) -> Name | None:
        """Where what a name names is declared: an undeclared variable where it is first mentioned."""
        if name.kind == "intrinsic":
            return None
        uses = self.by_key[name.key()]
        for role in ("defined", "parameter", "declared"):
            if found := next((use for use in uses if use.role == role), None):
                return found
        return None if name.kind == "function" else uses[0]

    def function_at(self, offset: int) -> Row | None:
        """The function whose name, parameters or block are at an offset."""
        return next((row for row in self.functions if row["start"] <= offset <= row["close"]), None)

    def function_named(self, name: str) -> Row | None:
        return next((row for row in self.functions if row["name"] == name), None)

    def parameters(self, function: Row) -> list[str]:
        """The names of a function's parameters."""
        number = function["function"]
        return [name.name for name in self.names if name.role == "parameter" and name.function == number]

    def locals(self, function: Row) -> list[str]:
        """The names of a function's variables, its parameters among them, each once."""
        number = function["function"]
        return [*dict.fromkeys(name.name for name in self.names if name.kind == "local" and name.function == number)]


def parsed(lines: list[bytes]) -> list[Row]:
    """The rows of lines."""
    try:
        rows: list[Row] = json.loads(b"[%s]" % b",".join(lines))
    except ValueError:
        raise NoRow from None
    return rows


class Knower:
    """A running `crobots-know`: it waits for its source, and then its rows come."""

    def __init__(self, path: str, profile: int) -> None:
        self.profile, self.known = profile, Known()
        self._rest: list[bytes] = []
        self._wrong = False
        self._said = os.memfd_create("crobots")
        try:
            self._child = subprocess.Popen([path, f"-p{profile}", "-"], stdin=subprocess.PIPE, stdout=subprocess.PIPE, stderr=self._said)
        except OSError:
            os.close(self._said)
            raise
        # so that neither waits for the other; a user may have too many such pipes
        with contextlib.suppress(OSError):
            fcntl.fcntl(self.fileno(), fcntl.F_SETPIPE_SZ, PIPE)

    def fileno(self) -> int:
        assert self._child.stdout
        return self._child.stdout.fileno()

    def waits(self) -> bool:
        """Whether it is still there."""
        return self._child.poll() is None

    def tell(self, source: bytes) -> None:
        """Gives it its source. It writes nothing before it has read all of that."""
        assert self._child.stdin
        # why it may read no more is said at its end
        with contextlib.suppress(BrokenPipeError), self._child.stdin as pipe:
            pipe.write(source)

    def read(self) -> bool:
        """Takes what has been written; reports whether more may come. Behind what is no row nothing is read."""
        piece = os.read(self.fileno(), PIPE)
        try:
            self.known.take(self._lines(piece))
            if not piece:
                # what is wrong with these is said at the end
                _ = self.known.faults
        except NoRow:
            self._wrong = True
        return bool(piece) and not self._wrong

    def _lines(self, piece: bytes) -> list[bytes]:
        """The lines that are whole with what was written."""
        if b"\n" not in piece:
            self._rest.append(piece)
            return []
        *lines, rest = b"".join([*self._rest, piece]).split(b"\n")
        self._rest = [rest]
        return lines

    def stop(self) -> None:
        """Ends it before it is done. It is gone a little later: nobody waits for that."""
        self._child.kill()
        self._close()

    def end(self) -> str:
        """Ends it when it has written; answers what is to be said if it didn't write all."""
        is_right = self.known.is_complete and not self._wrong
        if not is_right:
            self._child.kill()
        status = self._child.wait()
        said = os.pread(self._said, 1000, 0).decode(errors="replace").strip()
        self._close()
        if self._wrong:
            return str(NoRow())
        return "" if is_right else said or f"{PROGRAM} ended {f'by signal {-status}' if status < 0 else f'with status {status}'}"

    def _close(self) -> None:
        assert self._child.stdin and self._child.stdout
        self._child.stdin.close()
        self._child.stdout.close()
        os.close(self._said)

    def wait(self) -> None:
        """Waits until it is gone."""
        self._child.wait()


class Knowers:
    """Programs that say what is known of texts. One is begun ahead, so that the next text waits for no program's beginning."""

    def __init__(self, path: str) -> None:
        self._path = path
        self._ahead: Knower | None = None
        self._stopped: list[Knower] = []

    def begin(self, source: bytes, profile: int) -> Knower:
        """One that is told this source."""
        knower, self._ahead = self._ahead, None
        if knower and not (knower.profile == profile and knower.waits()):
            self.stop(knower)
            knower = None
        knower = knower or Knower(self._path, profile)
        knower.tell(source)
        return knower

    def stop(self, knower: Knower) -> None:
        """Ends one that isn't needed any more."""
        knower.stop()
        self._stopped = [one for one in (*self._stopped, knower) if one.waits()]

    def begin_ahead(self, profile: int) -> None:
        """Begins one for the next text. One that can't be begun is told of when it is needed."""
        if not self._ahead:
            with contextlib.suppress(OSError):
                self._ahead = Knower(self._path, profile)

    def end(self) -> None:
        """Ends all, and waits until they are gone."""
        if self._ahead:
            self.stop(self._ahead)
        for knower in self._stopped:
            knower.wait()

    def known_of(self, source: bytes, profile: int) -> Known:
        """All that is known of a source, when it is said."""
        knower = self.begin(source, profile)
        while knower.read():
            pass
        if said := knower.end():
            raise OSError(said)
        return knower.known
