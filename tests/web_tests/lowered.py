"""Tests of the page's module beside the one that it was made from: it is accepted, and with a flipped bit refused. And of its stack: what
is past it is outside of the memory."""

from __future__ import annotations

import os
import random
import sys
from concurrent.futures import ProcessPoolExecutor
from functools import partial
from typing import Iterator

from .module import HERE

TOP = os.path.join(HERE, "..", "..")
sys.path.insert(0, os.path.join(TOP, "scripts"))

from wasm.checking import refusal  # noqa: E402
from wasm.lowering import DATA, GLOBAL, Reader, parts_of  # noqa: E402

WIDE = os.path.join(TOP, "out", "web-wide.wasm")
FLIPS = 60
STACK_BYTES = 16 * 1024 * 1024


def lacking(_folder: str) -> str:
    """What is lacking for these tests."""
    return "" if os.path.isfile(WIDE) else "the module with a 64-bit memory isn't in out"


def flipped(module: bytes, bit: int) -> bytes:
    """A module with one bit flipped."""
    made = bytearray(module)
    made[bit // 8] ^= 1 << bit % 8
    return bytes(made)


def is_accepted(before: bytes, after: bytes, bit: int) -> bool:
    """Whether a lowered module is accepted with a bit flipped."""
    return not refusal(before, flipped(after, bit))


def begun(module: bytes) -> list[int]:
    """With which values the globals of a module begin that change: the first is the stack's pointer."""
    reader, found = Reader(parts_of(module)[GLOBAL]), []
    for _ in reader.items():
        _, is_changed, _, value, _ = reader.byte(), reader.byte(), reader.byte(), reader.number(True), reader.byte()
        found += [value] if is_changed else []
    return found


def data_places(module: bytes) -> list[int]:
    """Where the data of a wide module are."""
    reader, found = Reader(parts_of(module)[DATA]), []
    for _ in reader.items():
        _, _, place, _, _ = reader.number(), reader.byte(), reader.number(True), reader.byte(), reader.counted()
        found.append(place)
    return found


def stack(module: bytes) -> list[str]:
    """The stack has the first bytes of the memory, from its greatest address down to 0. So what is past it is no address, and nothing is
    spoiled: an access there ends the call."""
    pointers, places = begun(module), data_places(module)
    wrong = [] if pointers[:1] == [STACK_BYTES] else [f"the stack begins at {pointers}"]
    return wrong + ([] if places and min(places) >= STACK_BYTES else [f"data are at {sorted(places)[:3]}"])


def results(_crobots: str, _stages: str, folder: str) -> Iterator[tuple[str, list[str]]]:
    """The tests' names, and what is wrong."""
    with open(WIDE, "rb") as wide, open(f"{folder}.wasm", "rb") as low:
        before, after = wide.read(), low.read()
    why = refusal(before, after)
    yield "the lowered module", [why] if why else []
    yield "the stack", stack(before)
    bits = random.Random(1).sample(range(len(after) * 8), FLIPS)
    with ProcessPoolExecutor() as pool:
        accepted = pool.map(partial(is_accepted, before, after), bits)
        yield "flipped bits", [f"bit {bit} is accepted" for bit, it in zip(bits, accepted) if it]
