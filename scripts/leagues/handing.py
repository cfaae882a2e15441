"""The command take-in: hand-in by folders. The newest good file of each author's folder becomes the author's robot."""

import argparse
import os
import tempfile
from collections import Counter
from dataclasses import dataclass
from typing import Iterator, NamedTuple, Sequence

from tools.faults import FAULTY, Fault, plain
from tools.output import say, show
from tournaments.programs import Program, program

from . import entries, likeness, naming, seasons
from .days import given_day
from .inboxes import Inbox, authors_of, inboxes, name_of, read, strays
from .sources import laid
from .store import Store, opened
from .texts import text

JOINED, CHANGED, SAME = "joined", "changed", "are as they were"


@dataclass(frozen=True)
class Choice:
    """The newest good file of an inbox; nothing if there is none. And what is wrong with the newer ones."""

    inbox: Inbox
    path: str
    source: bytes
    faults: tuple[str, ...]


class Done(NamedTuple):
    """What became of a folder's robot, in a word and in a line."""

    robot: str
    what: str
    line: str


def take_in(given: argparse.Namespace) -> None:
    """Takes the robots of all authors' folders."""
    found = inboxes(given.folder, authors_of(given.authors) if given.authors else None)
    by = program(given.crobots)
    with opened(given.league) as store:
        profile = seasons.season(store).rules.profile
        choices = [chosen(inbox, by.path, profile) for inbox in found]
        faults = [f"{stray} is in no author's folder" for stray in strays(given.folder)] + [why for choice in choices for why in choice.faults]
        for why in faults:
            say(given.script, plain(why))
        if faults and given.all_or_none:
            raise Fault("nobody joined or changed", FAULTY)
        good = [choice for choice in choices if choice.path]
        with store.change():
            done = [entered(store, choice, given_day(given)) for choice in good]
            copies = [*copied(store, profile, by, [act.robot for act in done if act.what != SAME])]
    show(f"{plain(line)}\n" for line in [*(act.line for act in done if act.what != SAME), *copies, counted(done, len(choices) - len(good))])
    if faults:
        raise Fault("1 file or folder was left out" if len(faults) == 1 else f"{len(faults)} files or folders were left out", FAULTY)


def counted(done: Sequence[Done], without: int) -> str:
    """How many robots joined, changed, and are as they were; and how many folders have no robot."""
    many = Counter(act.what for act in done)
    folders = ["1 folder has no good file" if without == 1 else f"{without} folders have no good file"] if without else []
    return ", ".join([*(f"{many[what]} {what}" for what in (JOINED, CHANGED, SAME)), *folders])


def chosen(inbox: Inbox, crobots: str, profile: int) -> Choice:
    """Chooses the newest good file of an inbox."""
    faults: list[str] = []
    if why := bad_author(inbox):
        return Choice(inbox, "", b"", (why,))
    for path in inbox.paths:
        short = f"{inbox.folder}/{os.path.basename(path)}"
        try:
            source = read(path)
        except Fault as refused:
            faults.append(f"{short} {refused}")
            continue
        why = fault(source, crobots, profile, short)
        if not why:
            return Choice(inbox, path, source, tuple(faults))
        faults.append(why)
    return Choice(inbox, "", b"", tuple(faults))


def bad_author(inbox: Inbox) -> str:
    """What is wrong with the name of an inbox's author."""
    try:
        entries.named(inbox.author)
    except Fault as why:
        return f"{inbox.folder}: {why}"
    return ""


def fault(source: bytes, crobots: str, profile: int, name: str) -> str:
    """What is wrong with a source by the program, in a line that begins with the file's name."""
    with tempfile.TemporaryDirectory(prefix="crobots-") as folder:
        path = os.path.join(folder, "robot.r")
        with open(path, "wb") as file:
            file.write(source)
        said = likeness.compiled(crobots, profile, path).fault
    return said.strip().replace("robot.r", name, 1)


def entered(store: Store, choice: Choice, day: str) -> Done:
    """Lets the robot of a folder join or change, if it has other bytes than before."""
    folder, name = choice.inbox.folder, name_of(choice.path)
    short = f"{folder}/{os.path.basename(choice.path)}"
    robot = naming.robots_of_folders(store).get(text(folder), "")
    last = {one.robot: one for one in entries.entries(store)}.get(robot)
    if last is None:
        robot = robot or naming.made(folder, naming.taken(store))
        entries.add(store, robot, choice.inbox.author, choice.source, day)
        naming.keep(store, folder, robot, name)
        return Done(robot, JOINED, f"{short} joined as {robot}")
    if last.sha256 == entries.hashed(choice.source):
        return Done(robot, SAME, "")
    entries.change(store, robot, choice.source, day)
    naming.keep(store, folder, robot, name)
    return Done(robot, CHANGED, f"{short} changed {robot}")


def copied(store: Store, profile: int, by: Program, robots: Sequence[str]) -> Iterator[str]:
    """Which of some robots have the code of another author's robot."""
    happened = entries.entries(store)
    folder = laid(store, {entry.sha256 for entry in happened})
    files = {entry.sha256: os.path.join(folder, entry.sha256) for entry in happened}
    authors = dict(store.rows("SELECT id, author FROM robot"))
    found = likeness.copied(happened, authors, likeness.codes(store, profile, by, files, os.cpu_count() or 1))
    for robot in robots:
        if robot in found:
            yield f"{robot} has the same code as {found[robot]}, by {authors[found[robot]]}, which had it before"
