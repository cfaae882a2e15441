"""What the compiler says of a stranger's source. It runs with limits of time and memory, and can write no file."""

import os
import subprocess
import tempfile
from dataclasses import dataclass

from tools.faults import PROGRAM, Fault, plain
from tools.output import replaced

# Seconds of the processor, and of the clock; KiB of memory. A proof says that the programs end: these are for the case that it doesn't
# hold of what runs here.
SECONDS, PATIENCE, MEMORY = 10, 30, 1 << 20
WORDS_MAX = 4000
FILE = "robot.r"


@dataclass(frozen=True)
class Programs:
    """The programs that judge and show: paths, of which all but the game's may be lacking."""

    crobots: str
    why: str = ""
    trace: str = ""


def limiting(blocks: int) -> tuple[str, ...]:
    """The words before a program that limit it. A file that it writes has at most so many blocks of 512 bytes."""
    return "sh", "-c", f'ulimit -t {SECONDS}; ulimit -v {MEMORY}; ulimit -f {blocks}; ulimit -c 0; exec "$@"', "sh"


def ran(words: list[str]) -> subprocess.CompletedProcess[bytes]:
    """Runs a program with the limits."""
    try:
        return subprocess.run([*limiting(0), *words], stdin=subprocess.DEVNULL, capture_output=True, timeout=PATIENCE, check=False)
    except (OSError, subprocess.TimeoutExpired) as why:
        raise Fault(f"{words[0]} can't be run, or doesn't end", PROGRAM) from why


def fault(programs: Programs, profile: int, source: bytes) -> str:
    """What is wrong with a source, with what `crobots-why` says of it; nothing if it compiles."""
    with tempfile.TemporaryDirectory(prefix="crobots-ladder-") as folder:
        path = os.path.join(folder, FILE)
        replaced(path, source)
        child = ran([programs.crobots, "-c", f"-p{profile}", "--", path])
        if child.returncode == 0:
            return ""
        if child.returncode != 1:
            raise Fault(f"{programs.crobots} -c ended with status {child.returncode}", PROGRAM)
        return said(child.stderr, folder) if not programs.why else explained(programs.why, profile, path, folder) or said(child.stderr, folder)


def explained(why: str, profile: int, path: str, folder: str) -> str:
    """What `crobots-why` says of a faulty source; nothing if it fails."""
    child = ran([why, f"-p{profile}", "--", path])
    return said(child.stdout, folder) if child.returncode in (0, 1) else ""


def said(text: bytes, folder: str) -> str:
    """What a program said, in lines that can be shown, without the folder in which the source was."""
    lines = text.decode("utf-8", "replace").replace(f"{folder}/", "")[:WORDS_MAX].splitlines()
    return "\n".join(map(plain, lines)).strip()
