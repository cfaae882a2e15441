"""Who plays: robots join, get other bytes, and leave, each on a day. Nothing of that is ever forgotten."""

import hashlib
import os
import re
import stat
from dataclasses import dataclass

from tools.faults import FILE, Fault, reading
from tools.rules import MOST_SOURCE_BYTES
from tournaments import seats

from .store import Store

ID = re.compile(r"[A-Za-z0-9][A-Za-z0-9_.-]{0,39}")
AUTHOR_MAX = 80
ADD, CHANGE, WITHDRAW = "add", "change", "withdraw"
# What may be corrected: an entry, and the days on which a season began and ended.
ENTRY, BEGIN, END = "entry", "begin", "end"


@dataclass(frozen=True)
class Entry:
    """What happened to a robot on a day. The copy says how many robots had these bytes before it."""

    number: int
    day: str
    what: str
    robot: str
    sha256: str
    copy: int


@dataclass(frozen=True)
class Correction:
    """An entry or a season that got another day, or an entry that was taken back; how many entries there were then."""

    what: str
    of: int
    day: str | None
    entries: int


@dataclass(frozen=True)
class Entrant:
    """A robot with the bytes with which it plays now."""

    robot: str
    sha256: str
    copy: int

    @property
    def key(self) -> str:
        """All that its matches may depend on, as a tournament names it."""
        return seats.keys([self.sha256] * (self.copy + 1))[-1]


def entries(store: Store, until: int | None = None) -> list[Entry]:
    """What happened, in its order, but for what was taken back, and with its days as they were corrected; until such
    an entry."""
    most = -1 if until is None else until
    days = {correction.of: correction.day for correction in corrections(store) if correction.what == ENTRY}
    rows = store.rows("SELECT number, day, what, robot, sha256, copy FROM entry ORDER BY number LIMIT ?", most)
    return [Entry(number, days.get(number) or day, *more) for number, day, *more in rows
            if days.get(number, day) is not None]


def corrections(store: Store) -> list[Correction]:
    """What was put right, in its order: what was done last counts."""
    rows = store.rows("SELECT what, of, other_day, entries FROM correction ORDER BY number")
    return [Correction(*row) for row in rows]


def playing(happened: list[Entry]) -> dict[str, Entrant]:
    """Who plays after all this, by ids in the order in which they joined."""
    found: dict[str, Entrant] = {}
    for entry in happened:
        if entry.what == WITHDRAW:
            del found[entry.robot]
        else:
            found[entry.robot] = Entrant(entry.robot, entry.sha256, entry.copy)
    return found


def read(path: str) -> bytes:
    """A robot's bytes, read once."""
    with reading(path):
        try:
            return bytes_of(path)
        except Fault as why:
            raise Fault(f"{path} {why}", why.status) from why


def bytes_of(path: str, more: int = 0) -> bytes:
    """The bytes of a file, which may be opened with more flags. What is no file, or became a pipe meanwhile, isn't waited for."""
    with open(os.open(path, os.O_RDONLY | os.O_NONBLOCK | os.O_CLOEXEC | more), "rb") as file:
        if not stat.S_ISREG(os.fstat(file.fileno()).st_mode):
            raise Fault("is no file", FILE)
        found = file.read(MOST_SOURCE_BYTES + 1)
    if len(found) > MOST_SOURCE_BYTES:
        raise Fault(f"has more than {MOST_SOURCE_BYTES} bytes")
    return found


def add(store: Store, robot: str, author: str, source: bytes, day: str) -> None:
    """A robot joins. One whose joining was taken back may do so again."""
    if not ID.fullmatch(robot):
        raise Fault(f"{robot!r} is no id: a letter or a digit, and up to 39 letters, digits, '-', '_' and '.'")
    had = store.one("SELECT author FROM robot WHERE id = ?", robot)
    if had and any(entry.robot == robot for entry in entries(store)):
        raise Fault(taken(robot, had[0], author))
    if had and had[0] != named(author):
        raise Fault(f"the id {robot} was given to {had[0] or 'nobody'}, whose robot was taken back; --id gives another")
    if not had:
        store.run("INSERT INTO robot VALUES (?, ?, ?)", robot, named(author), store.next())
    enter(store, ADD, robot, kept(store, source), day)


def taken(robot: str, theirs: str, author: str) -> str:
    """Says that an id is taken. Only its own author is told how to replace the robot that has it."""
    if author and author == theirs:
        return f"there is a robot {robot} already; `change` gives it other bytes"
    return f"there is a robot {robot} already" + (f", by {theirs}" if theirs else "") + "; --id gives this one another id"


def change(store: Store, robot: str, source: bytes, day: str) -> None:
    """A robot gets other bytes. One that left plays again."""
    known(store, robot)
    sha256 = kept(store, source)
    now = playing(entries(store)).get(robot)
    if now and now.sha256 == sha256:
        raise Fault(f"the robot {robot} has these bytes already")
    enter(store, CHANGE, robot, sha256, day)


def withdraw(store: Store, robot: str, day: str) -> None:
    """A robot leaves. Its matches stay."""
    known(store, robot)
    now = playing(entries(store)).get(robot)
    if now is None:
        raise Fault(f"the robot {robot} has left already")
    enter(store, WITHDRAW, robot, now.sha256, day)


def known(store: Store, robot: str) -> None:
    """Refuses an id that nobody has."""
    if not any(entry.robot == robot for entry in entries(store)):
        raise Fault(f"there is no robot {robot}")


def named(author: str) -> str:
    """An author's name, if it can be shown."""
    if not author.isprintable() or len(author) > AUTHOR_MAX or any("\ud800" <= letter <= "\udfff" for letter in author):
        raise Fault(f"an author's name has at most {AUTHOR_MAX} letters, all of which can be shown")
    return author


def hashed(source: bytes) -> str:
    """The SHA-256 of a source."""
    return hashlib.sha256(source).hexdigest()


def kept(store: Store, source: bytes) -> str:
    """Keeps a source; answers its hash."""
    sha256 = hashed(source)
    store.run("INSERT OR IGNORE INTO source VALUES (?, ?)", sha256, source)
    return sha256


def enter(store: Store, what: str, robot: str, sha256: str, day: str) -> None:
    """Writes down what happened. A robot that has the same bytes once more has its old number with them."""
    if day < (last := last_day(store)):
        raise Fault(f"the last entry is of {last}, so none can be of {day}; `correct` gives it another day")
    columns = "day, what, robot, sha256, copy, publication"
    store.run(f"INSERT INTO entry ({columns}) VALUES (?, ?, ?, ?, ?, ?)", day, what, robot, sha256,
              copy_of(store, robot, sha256), store.next())


def last_day(store: Store) -> str:
    """The day of the last entry that wasn't taken back; nothing if there is none."""
    days = {correction.of: correction.day for correction in corrections(store) if correction.what == ENTRY}
    rows = store.database.execute("SELECT number, day FROM entry ORDER BY number DESC")
    return next((days.get(number) or str(day) for number, day in rows if days.get(number, day) is not None), "")


def copy_of(store: Store, robot: str, sha256: str) -> int:
    """The number of a robot among those that ever had these bytes: it is given once."""
    had = store.one("SELECT copy FROM entry WHERE robot = ? AND sha256 = ? LIMIT 1", robot, sha256)
    if had:
        return int(had[0])
    return int(store.one("SELECT count(DISTINCT robot) FROM entry WHERE sha256 = ?", sha256)[0])


def source(store: Store, sha256: str) -> bytes:
    """The bytes with this hash."""
    return bytes(store.one("SELECT bytes FROM source WHERE sha256 = ?", sha256)[0])
