"""Writes a site into its folder. A list of its files is kept there: those that it doesn't have any more are removed.

Files are replaced one by one, each at once, and only those that changed. First come those that are new, to which no
page leads yet; then those that were there; and what is gone is removed at the end. So at any instant, also if the
writer is killed, each page is whole, and each link that a reader meets leads to a page. The list has all names before
the first file is written."""

import contextlib
import fcntl
import os
import shutil
from typing import Callable, Iterable, Iterator, Mapping

LIST, NEW = "site.list", ".site-new"
Contents = Mapping[str, Callable[[], bytes]]


class Foreign(Exception):
    """A file is in the way that isn't one of the site."""


class Folder:
    """A folder with a site, or one that gets one."""

    def __init__(self, path: str) -> None:
        self._path = os.path.abspath(path)
        self.before: set[str] = set()
        self._made: set[str] = set()

    @contextlib.contextmanager
    def open(self) -> Iterator[None]:
        """Makes the folder if it isn't there, keeps it from another writer, and reads the list."""
        os.makedirs(self._path, exist_ok=True)
        folder = os.open(self._path, os.O_RDONLY | os.O_DIRECTORY | os.O_CLOEXEC)
        try:
            fcntl.flock(folder, fcntl.LOCK_EX)
            with contextlib.suppress(FileNotFoundError), open(self.path(LIST), encoding="ascii") as file:
                self.before = {*filter(is_place, file.read().splitlines())}
            shutil.rmtree(self.path(NEW), ignore_errors=True)
            yield
        finally:
            shutil.rmtree(self.path(NEW), ignore_errors=True)
            os.close(folder)

    def path(self, place: str) -> str:
        return os.path.join(self._path, *place.split("/"))

    def has(self, place: str) -> bool:
        """Whether a file of the site is there already."""
        return place in self.before and os.path.isfile(self.path(place))

    def announce(self, places: Iterable[str]) -> None:
        """Adds names to the list before their files are written. A file that isn't one of the site stays as it is."""
        new = {*places} - self.before
        for place in sorted(new):
            if os.path.lexists(self.path(place)):
                raise Foreign(f"{self.path(place)} is there, and is no file of a site")
        self._list(self.before | new)

    def fill(self, contents: Contents) -> None:
        """Writes files: those that aren't there first."""
        there = {place: self.has(place) for place in contents}
        for place in sorted(contents, key=there.__getitem__):
            self.write(place, contents[place]())

    def write(self, place: str, content: bytes) -> None:
        """Writes a file at once, unless it has this content."""
        path, new = self.path(place), self.path(f"{NEW}/file")
        with contextlib.suppress(FileNotFoundError), open(path, "rb") as file:
            if file.read() == content:
                return
        for above in {os.path.dirname(path), os.path.dirname(new)} - self._made:
            os.makedirs(above, exist_ok=True)
            self._made.add(above)
        with open(new, "wb") as file:
            file.write(content)
        os.replace(new, path)

    def keep(self, places: Iterable[str]) -> None:
        """Removes all files of the site but these, and folders that became empty."""
        kept = {*places}
        for place in self.before - kept:
            path = self.path(place)
            with contextlib.suppress(FileNotFoundError):
                os.unlink(path)
            with contextlib.suppress(OSError):
                while (path := os.path.dirname(path)) != self._path:
                    os.rmdir(path)
        self._list(kept)

    def _list(self, places: Iterable[str]) -> None:
        self.before = {*places}
        self.write(LIST, "".join(f"{place}\n" for place in sorted(self.before)).encode())


def is_place(line: str) -> bool:
    """Whether a line of the list is a path below the folder."""
    return all(part not in ("", ".", "..") for part in line.split("/"))
