"""The commands that are installed, in one table: installation, packages, completions and tests take them from here.

A new command is a line of COMMANDS, a crate or a file of scripts/, and a manual page of its name. Beside the commands stand the
programs that aren't installed."""

from dataclasses import dataclass
from pathlib import Path

TOP = Path(__file__).resolve().parent.parent.parent
ROBOT = str(TOP / "robots" / "runner.r")


def built(crate: str) -> Path:
    """Where the program of a crate is once it is built."""
    return TOP / "crates" / crate / "out" / crate


@dataclass(frozen=True)
class Program:
    """A command that is a proved program: its crate, and words with which it ends well."""

    name: str
    crate: str
    trial: tuple[str, ...]

    @property
    def path(self) -> Path:
        return built(self.crate)


@dataclass(frozen=True)
class Script:
    """A command that is a script: its file in scripts/, the folders there whose modules it takes, and the program that it can't do
    without."""

    name: str
    file: str
    packages: tuple[str, ...]
    runs: str

    @property
    def path(self) -> Path:
        return TOP / "scripts" / self.file


@dataclass(frozen=True)
class Example:
    """A program that isn't installed: an example of how the crates are used (docs/library.md)."""

    crate: str

    @property
    def path(self) -> Path:
        return built(self.crate)


Command = Program | Script

PROGRAMS = (
    Program("crobots", "crobots", ("-c", ROBOT)),
    Program("crobots-tracks", "tracks", ("-l15", ROBOT)),
    Program("crobots-trace", "trace", ("-l15", ROBOT)),
    Program("crobots-why", "why", (ROBOT,)),
    Program("crobots-stages", "stages", ("--tokens", ROBOT)),
    Program("crobots-bounds", "bounds", (ROBOT,)),
    Program("crobots-know", "know", (ROBOT,)),
    # without commands: these would be read from a terminal
    Program("crobots-debug", "debug", ("--help",)),
)
SCRIPTS = (
    Script("crobots-tournament", "tournament", ("tools", "tournaments", "results", "sites", "replays"), "crobots"),
    Script("crobots-challenge", "challenge", ("tools", "tournaments", "results", "sites", "replays"), "crobots"),
    Script("crobots-compare", "compare", ("tools", "comparisons", "stepping", "tournaments", "results", "sites", "replays"), "crobots-trace"),
    Script("crobots-exercise", "exercise", ("tools", "exercises"), "crobots"),
    Script("crobots-league", "league", ("tools", "leagues", "ladder", "tournaments", "results", "sites", "replays"), "crobots"),
    Script("crobots-replay", "replay", ("tools", "replays"), "crobots-trace"),
    Script("crobots-step", "step", ("tools", "stepping"), "crobots-debug"),
    Script("crobots-lsp", "lsp", ("tools", "editing", "stepping", "tournaments", "results"), "crobots-know"),
    Script("crobots-dap", "dap", ("tools", "editing", "stepping", "tournaments", "results"), "crobots-debug"),
    Script("crobots-tune", "tune", ("tools", "tuning", "tournaments", "leagues", "results", "sites", "replays"), "crobots"),
)
COMMANDS: tuple[Command, ...] = (*PROGRAMS, *SCRIPTS)


def packages_of(script: str) -> tuple[str, ...]:
    """The folders of modules that a script takes."""
    return next(command.packages for command in SCRIPTS if command.file == script)


# The game by itself, which is installed before the others.
GAME = PROGRAMS[0]
EXAMPLES = (Example("outline"), Example("folding"), Example("duel"))
# The crate of the program whose host instructions bench/run counts.
COUNTED = "drills"
# The crate of the program that writes the rules of the game, of which files are made.
RULES = "rules"


def packages() -> list[str]:
    """The folders of scripts/ that the commands take, each once."""
    return sorted({package for script in SCRIPTS for package in script.packages})


def manual_page(command: Command) -> Path:
    """The manual page of a command."""
    return TOP / "man" / f"{command.name}.6"
