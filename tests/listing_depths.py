"""How deep the functions of a listing stand where they call one another, by docs/machine.md alone.

A need that is worked out so goes by instructions, and that of the crates by trees."""

from __future__ import annotations

from collections.abc import Iterator
from dataclasses import dataclass, field

from listing_machine import USED, Listing

Depth = tuple[int, int]


@dataclass
class Depths:
    """Of a function: the most words and frames that it has open by itself, and those below each of its calls, by callee.

    Its own variables and its own frame count."""

    own: Depth
    calls: dict[int, Depth] = field(default_factory=dict)


def greater(one: Depth, other: Depth) -> Depth:
    return max(one[0], other[0]), max(one[1], other[1])


def depths_of(listing: Listing, number: int) -> Depths:
    """Goes through a function's code along all branches."""
    function = listing.functions[number]
    found, seen = Depths((function.variables, 1)), set[int]()
    # an address with the words there and those below each frame that is open for a call
    left: list[tuple[int, int, tuple[int, ...]]] = [(function.address, function.variables, ())]
    while left:
        at, words, frames = left.pop()
        if at in seen:
            continue
        seen.add(at)
        left += behind(listing, at, words, frames, found)
    return found


def behind(listing: Listing, at: int, words: int, frames: tuple[int, ...], found: Depths) -> Iterator[tuple[int, int, tuple[int, ...]]]:
    """Where an instruction leads; notes what it needs."""
    name, *operands = listing.code[at]
    if name in ("CONST", "FETCH"):
        words += 1
    elif name == "FRAME":
        frames += (words,)
    elif name == "FCALL":
        if operands[0] not in USED:
            below = (frames[-1], len(frames))
            found.calls[int(operands[0])] = greater(found.calls.get(int(operands[0]), below), below)
        words, frames = frames[-1] + 1, frames[:-1]
    elif name in ("BINOP", "CHOP", "BRANCH"):
        words -= 1
    found.own = greater(found.own, (words, 1 + len(frames)))
    if name != "RETSUB":
        yield at + 1, words, frames
    if name == "BRANCH":
        yield int(operands[0]), words, frames


def needed_by(listing: Listing, chain: list[int]) -> Depth:
    """What functions that call one another need, from the first one's call on to the last one's own depth."""
    words, frames = 0, 0
    for number, callee in zip(chain, chain[1:]):
        below = depths_of(listing, number).calls[callee]
        words, frames = words + below[0], frames + below[1]
    own = depths_of(listing, chain[-1]).own
    return words + own[0], frames + own[1]


def need_of(listing: Listing, number: int, open_calls: tuple[int, ...] = ()) -> Depth | None:
    """What a function needs; nothing is enough if it calls itself, or one that is open."""
    if number in open_calls:
        return None
    depths = depths_of(listing, number)
    need = depths.own
    for callee, below in depths.calls.items():
        inside = need_of(listing, callee, (*open_calls, number))
        if inside is None:
            return None
        need = greater(need, (below[0] + inside[0], below[1] + inside[1]))
    return need


def is_circle(listing: Listing, circle: list[int]) -> bool:
    """Whether each function calls the next one, and the last one the first."""
    return all(callee in depths_of(listing, number).calls for number, callee in zip(circle, circle[1:] + circle[:1]))
