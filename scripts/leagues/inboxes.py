"""Folders into which authors put their robots: a folder for each author, and the files in it, the newest first."""

import csv
import os
from dataclasses import dataclass
from typing import Iterator

from tools.faults import FILE, Fault, reading

from .entries import bytes_of

ENDING = ".r"
HEAD = ["folder", "author"]


@dataclass(frozen=True)
class Inbox:
    """An author's folder, by its name, with the paths of its robots."""

    folder: str
    author: str
    paths: tuple[str, ...]


def inboxes(path: str, authors: dict[str, str] | None) -> list[Inbox]:
    """The authors' folders in the order of their names. Without a table an author has the folder's name."""
    with reading(path):
        found = sorted(folder.name for folder in os.scandir(path) if folder.is_dir() and not folder.name.startswith("."))
        return [Inbox(name, author(name, authors), tuple(robots(os.path.join(path, name)))) for name in found]


def strays(path: str) -> list[str]:
    """Robots that are in no author's folder."""
    return sorted(file.name for file in os.scandir(path) if is_robot(file))


def author(folder: str, authors: dict[str, str] | None) -> str:
    """Who has a folder; nobody if the table doesn't say it."""
    return folder if authors is None else authors.get(folder, "")


def robots(folder: str) -> list[str]:
    """The robots of a folder, the newest first; of equally new ones in the order of their names."""
    found = [file for file in os.scandir(folder) if is_robot(file)]
    return [file.path for file in sorted(found, key=lambda file: (-file.stat().st_mtime_ns, file.name))]


def is_robot(file: os.DirEntry[str]) -> bool:
    """Whether a file is a robot by its name. Pipes, devices and folders are none, and links lead elsewhere."""
    return file.is_file(follow_symlinks=False) and file.name.lower().endswith(ENDING) and not file.name.startswith(".")


def name_of(path: str) -> str:
    """The name of a robot: that of its file, as it is."""
    return os.path.basename(path)[:-len(ENDING)]


def read(path: str) -> bytes:
    """A robot's bytes. Links lead elsewhere."""
    try:
        return bytes_of(path, os.O_NOFOLLOW)
    except OSError as why:
        raise Fault(f"can't be read: {why.strerror}", FILE) from why


def authors_of(path: str) -> dict[str, str]:
    """Reads a table of comma-separated values, which says of each folder who its author is."""
    try:
        with reading(path), open(path, encoding="utf-8-sig", newline="") as file:
            return {folder: name for folder, name in rows(path, csv.reader(file))}
    except (UnicodeDecodeError, csv.Error) as why:
        raise Fault(f"{path} is no table of comma-separated values in UTF-8", FILE) from why


def rows(path: str, table: Iterator[list[str]]) -> Iterator[list[str]]:
    """The rows of such a table, each of which has a folder that no other has."""
    seen: set[str] = set()
    if next(table, []) != HEAD:
        raise Fault(f"the first line of {path} is not {','.join(HEAD)}")
    for number, row in enumerate(table, 2):
        if len(row) != len(HEAD) or row[0] in seen:
            raise Fault(f"line {number} of {path} " + ("has a folder for the second time" if len(row) == len(HEAD) else
                                                       "has not a folder and an author"))
        seen.add(row[0])
        yield row
