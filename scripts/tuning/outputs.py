"""The file that `-o` names: the tuned robot, or the picture of a sweep. What can be known of it beforehand is refused beforehand."""

import contextlib
import errno
import os
import tempfile
from typing import Iterable, Sequence

from tools.faults import Fault, reading, writing
from tools.output import replaced, show, written_over

ROBOT, PICTURE = ".r", ".svg"
# So many bytes of a file say whether it is a picture.
HEAD = 4096


def check(path: str, is_picture: bool, read: Iterable[str], journal: str | None) -> None:
    """Refuses a file that is read, that may be meant as something else, or that can't be written."""
    if why := written_over(path, read):
        raise Fault(f"-o {why}")
    if journal and os.path.realpath(path) == os.path.realpath(journal):
        raise Fault(f"-o {path}: this file is the journal")
    if is_picture and path.endswith(ROBOT):
        raise Fault(f"-o {path}: with --sweep a picture is written, as SVG, and this is the name of a robot")
    if not is_picture and path.endswith(PICTURE):
        raise Fault(f"-o {path}: without --sweep a robot is written, and this is the name of a picture")
    check_content(path, is_picture)
    check_folder(path)


def check_content(path: str, is_picture: bool) -> None:
    """Refuses a file that is there and has something else than what would be written over it."""
    if not os.path.isfile(path) or not os.path.getsize(path):
        return
    if is_picture and not is_svg(path):
        raise Fault(f"-o {path}: this file is no SVG, so the picture isn't written over it")
    if not is_picture and not path.endswith(ROBOT):
        raise Fault(f"-o {path}: this file's name doesn't end with '.r', so the robot isn't written over it")


def is_svg(path: str) -> bool:
    """Whether a file is a picture, by its beginning."""
    with reading(path), open(path, "rb") as file:
        head = file.read(HEAD).removeprefix(b"\xef\xbb\xbf").lstrip()
    return head.startswith(b"<") and b"<svg" in head


def check_folder(path: str) -> None:
    """Refuses a file that can't be written: a folder, one in a folder that isn't there or takes no file, a device that is closed to us."""
    with writing(path):
        if os.path.isdir(path):
            raise OSError(errno.EISDIR, os.strerror(errno.EISDIR))
        if is_replaced(path):
            with tempfile.TemporaryFile(dir=os.path.dirname(os.path.realpath(path))):
                return
        if not os.access(path, os.W_OK):
            raise OSError(errno.EACCES, os.strerror(errno.EACCES))


def is_replaced(path: str) -> bool:
    """Whether a file is written by another one that takes its place: a device isn't."""
    return not os.path.exists(path) or os.path.isfile(path)


def write(path: str, text: bytes) -> None:
    """Writes a file in one piece, with the mode of the one that was there; a device as it is. A link stays."""
    with writing(path):
        if is_replaced(path):
            replaced(os.path.realpath(path), text, os.stat(path).st_mode & 0o777 if os.path.exists(path) else 0o644)
            return
        with open(path, "wb") as device:
            device.write(text)


def answer(pieces: Sequence[str], path: str | None, text: bytes | None) -> None:
    """Shows an answer, and then writes its file, if there is one. Each is done if the other can't be."""
    with contextlib.ExitStack() as then:
        if path and text is not None:
            then.callback(write, path, text)
        show(pieces)
