"""The settings of a tournament: what its matches depend on beside the robots, and which groups it has."""

from dataclasses import dataclass
from functools import cache, cached_property

from results.battles import Group

from .seats import rounded

SIZE_NAMES = {2: "pairs", 3: "threes", 4: "fours"}
# How long a hash is.
HASH_BYTES = 32


@dataclass(frozen=True)
class Settings:
    """All that decides a tournament, but for the robots' bytes. The program is the hash of its bytes."""

    matches: int
    cycles: int
    seed: int
    profile: int
    program: str
    robots: int
    sizes: tuple[int, ...]
    sample: int = 0
    # the positions of one side, if only robots of both sides play each other
    those: tuple[int, ...] = ()

    @cached_property
    def text(self) -> str:
        """The settings as a record has them."""
        sides = f" those={sum(1 << at for at in self.those):x}" if self.those else ""
        return (f"m={self.matches} l={self.cycles} s={self.seed} p={self.profile} program={self.program} "
                f"robots={self.robots} sizes={','.join(map(str, self.sizes))} sample={self.sample}{sides}")

    def has(self, group: Group) -> bool:
        """Reports whether a group is played: if there are sides it has robots of both."""
        return not self.those or 0 < len({*group} & {*self.those}) < len(group)

    @cached_property
    def _each(self) -> dict[int, int]:
        return {size: rounded(self.matches, size) // size for size in SIZE_NAMES}

    def each(self, size: int) -> int:
        """The matches of each seating of a group of this size."""
        return self._each[size]

    def options(self, seed: int, first: int, count: int) -> list[str]:
        """The words by which `crobots` plays these matches of a seating."""
        return [f"-m{count}", f"-l{self.cycles}", f"-s{seed}", f"-p{self.profile}", f"-f{first}", "--"]


@cache
def parsed(text: str) -> Settings:
    """The settings that a text is: they write the same text. Another one is a ValueError."""
    m, l, s, p, program, robots, sizes, sample, *sides = (field.partition("=")[2] for field in text.split(" "))
    several, those = tuple(map(int, sizes.split(","))), int("".join(sides) or "0", 16)
    places = tuple(at for at in range(those.bit_length()) if those >> at & 1)
    found = Settings(int(m), int(l), int(s), int(p), program, int(robots), several, int(sample), places)
    if found.text != text or len(bytes.fromhex(program)) != HASH_BYTES or not {*several} <= SIZE_NAMES.keys():
        raise ValueError(text)
    return found


NAMES = {"matches": "matches", "cycles": "limit", "seed": "seed", "profile": "profile", "program": "program",
         "robots": "number of robots", "sizes": "size", "sample": "sample", "those": "sides"}


def difference(one: Settings, other: Settings) -> str:
    """What differs first, in words; nothing if they are equal."""
    for name, said in NAMES.items():
        if getattr(one, name) != getattr(other, name):
            return f"{said} {shown(getattr(one, name))} and {shown(getattr(other, name))}"
    return ""


def shown(value: int | str | tuple[int, ...]) -> str:
    """A setting as a fault names it: of a hash the first digits."""
    if isinstance(value, str):
        return value[:16]
    return ",".join(map(str, value)) if isinstance(value, tuple) else str(value)
