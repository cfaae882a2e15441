"""How many cycles lie between the questions of a loop's turn, by the instructions of a listing and docs/machine.md alone.

It follows each branch both ways, whatever is compared, and goes into each function where it is called."""

from __future__ import annotations

from collections.abc import Callable
from dataclasses import dataclass

from listing_machine import USED, Listing

# An instruction, with the addresses at which the open calls go on.
Place = tuple[int, tuple[int, ...]]
# The fewest and the most cycles between two questions; no most if nothing bounds it.
Cycles = tuple[int, int | None]
# The most calls inside one another that are followed, and the most places. Beyond, nothing is said.
CALLS, PLACES = 40, 30_000


class TooMany(Exception):
    """There is too much to follow."""


def is_jump(listing: Listing, at: int) -> bool:
    """Whether the branch at an address is one that is always taken: at a loop's end, or over a branch or a side behind it."""
    if at == 0 or listing.code[at - 1] != ["CONST", "0"]:
        return False
    return int(listing.code[at][1]) <= at or any(words[0] == "BRANCH" and int(words[1]) == at + 1 for words in listing.code[:at])


def behind(listing: Listing, place: Place) -> list[Place]:
    """Where an instruction leads."""
    at, calls = place
    name, *operands = listing.code[at]
    if name == "RETSUB":
        return [(calls[-1], calls[:-1])] if calls else []
    if name == "FCALL" and operands[0] not in USED:
        return [(listing.functions[int(operands[0])].address, (*calls, at + 1))]
    if name == "BRANCH":
        return [(int(operands[0]), calls)] + ([] if is_jump(listing, at) else [(at + 1, calls)])
    return [(at + 1, calls)]


def reached(starts: list[Place], leads: Callable[[Place], list[Place]]) -> set[Place]:
    """All places that one comes to."""
    found, left = set(starts), list(starts)
    while left:
        for place in leads(left.pop()):
            if len(place[1]) > CALLS or len(found) > PLACES:
                raise TooMany
            if place not in found:
                found.add(place)
                left.append(place)
    return found


@dataclass
class Turn:
    """The places of a loop's turns that begin again, where each leads, and what is asked there."""

    leads: dict[Place, list[Place]]
    asked: dict[Place, str]

    def stretches(self, begins: set[Place], stops: set[Place], ends: set[Place]) -> Cycles | None:
        """The cycles from some places up to others, on all ways without a stop between them; nothing if there is no way."""
        least = self.shortest(begins, stops, ends)
        return None if least is None else (least, self.longest(begins, stops, ends))

    def shortest(self, begins: set[Place], stops: set[Place], ends: set[Place]) -> int | None:
        """The fewest cycles, by going on from all at once."""
        seen, now, cycles = set[Place](), set(begins), 0
        while now:
            next_places, cycles = {it for place in now for it in self.leads[place]}, cycles + 1
            if next_places & ends:
                return cycles
            now = next_places - stops - seen
            seen |= now
        return None

    def longest(self, begins: set[Place], stops: set[Place], ends: set[Place]) -> int | None:
        """The most cycles: nothing bounds them if a place between is come to again."""
        inside = self.leading_to(ends, stops)
        befores = self.befores()
        waits = {place: len(inside.intersection(self.leads[place])) for place in inside}
        most: dict[Place, int] = {}
        ready = [place for place, count in waits.items() if count == 0]
        while ready:
            place = ready.pop()
            most[place] = max(self.counts(place, inside, ends, most))
            for before in inside.intersection(befores.get(place, [])):
                waits[before] -= 1
                ready += [before] if waits[before] == 0 else []
        if any(it in inside and it not in most for place in begins for it in self.leads[place]):
            return None
        return max(count for place in begins for count in self.counts(place, inside, ends, most))

    def counts(self, place: Place, inside: set[Place], ends: set[Place], most: dict[Place, int]) -> list[int]:
        """The most cycles from a place up to an end, by each place to which it leads."""
        leads = self.leads[place]
        return [1 for it in leads if it in ends] + [1 + most[it] for it in leads if it in inside]

    def befores(self) -> dict[Place, list[Place]]:
        """What leads to each place."""
        found: dict[Place, list[Place]] = {}
        for place, leads in self.leads.items():
            for it in set(leads):
                found.setdefault(it, []).append(place)
        return found

    def leading_to(self, ends: set[Place], stops: set[Place]) -> set[Place]:
        """The places, none of them a stop, from which ends are come to without a stop between."""
        befores = self.befores()
        found, left = set[Place](), list(ends)
        while left:
            for place in befores.get(left.pop(), []):
                if place not in found and place not in stops:
                    found.add(place)
                    left.append(place)
        return found


def turn_of(listing: Listing, test: int, end: int) -> Turn:
    """The turns of the loop whose test is at one address, and which branches back from the other."""
    first, last = (test, ()), (end, ())

    def leads(place: Place) -> list[Place]:
        return [] if place == last else [it for it in behind(listing, place) if it[1] or test <= it[0] <= end]

    all_places = reached([first], leads)
    befores = Turn({place: leads(place) for place in all_places}, {}).befores()
    places = reached([last], lambda place: befores.get(place, [])) if last in all_places else set()
    asked = {place: listing.code[place[0]][1] for place in places if listing.code[place[0]][0] == "FCALL"}
    return Turn({place: [it for it in leads(place) if it in places] for place in places},
                {place: name for place, name in asked.items() if name in USED})


def gaps_of(turn: Turn) -> dict[tuple[str, str], Cycles]:
    """The cycles from a question to the next one, by what both ask."""
    kinds, stops = sorted(set(turn.asked.values())), set(turn.asked)
    found = {(one, other): turn.stretches(asking(turn, one), stops, asking(turn, other)) for one in kinds for other in kinds}
    return {pair: cycles for pair, cycles in found.items() if cycles is not None}


def shots_of(turn: Turn) -> Cycles | None:
    """The cycles from a scan to each shot before the next scan."""
    return turn.stretches(asking(turn, "scan"), asking(turn, "scan"), asking(turn, "cannon"))


def asking(turn: Turn, name: str) -> set[Place]:
    return {place for place, asked in turn.asked.items() if asked == name}
