"""Workshops: folders in which crates are proved and built apart, over links to what was built of the crates below them."""

import glob
import os
import shutil
from typing import Collection

from .crates import TOP


def crate_folder(name: str, top: str = str(TOP)) -> str:
    return os.path.join(top, "crates", name)


def texts(name: str) -> list[str]:
    """The files of a crate's code, definitions and proofs."""
    return [path for folder in ("src", "specs", "proofs")
            for path in glob.glob(os.path.join(crate_folder(name), folder, "**", "*.*t"), recursive=True)]


def is_newest(built: str, crates: Collection[str]) -> bool:
    """Whether something was built, and no text of these crates is newer."""
    return os.path.exists(built) and os.path.getmtime(built) >= max(os.path.getmtime(path) for crate in crates for path in texts(crate))


def furnish(workshop: str, name: str, below: Collection[str], rows: str) -> None:
    """Makes the workshop of a crate: copies of it and of those below, links to what was built of these, and these rows of crates.txt."""
    for crate in (name, *below):
        shutil.copytree(crate_folder(crate), crate_folder(crate, workshop), ignore=shutil.ignore_patterns("out"))
    for crate in below:
        built = os.path.join("out", "rlib")
        shutil.copytree(os.path.join(crate_folder(crate), built), os.path.join(crate_folder(crate, workshop), built), copy_function=os.link)
    shutil.copy(TOP / "HANDLES", workshop)
    with open(os.path.join(workshop, "crates.txt"), "w", encoding="utf-8") as kept:
        kept.write(rows)


def move_out(crate: str, to: str) -> None:
    """Moves a crate's out/, if there is one."""
    if os.path.isdir(os.path.join(crate, "out")):
        os.rename(os.path.join(crate, "out"), os.path.join(to, "out"))
