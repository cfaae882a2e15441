"""Deflates bytes into fewer than zlib does, by the same format (RFC 1951): of all ways to write them as bytes and copies the cheapest is
taken, and blocks begin where others codes are better. It takes some seconds for each hundred thousand bytes.

What zlib makes depends on its version, and programs that deflate well aren't everywhere: the page's bytes are to be the same."""

import heapq
import math
from collections import Counter
from dataclasses import dataclass, field
from itertools import accumulate
from typing import Iterator, Sequence

LEAST, MOST, WINDOW = 3, 258, 32768
END = 256
# how many places are looked at for a copy, and how often costs are taken from what was made by them
MOST_TRIES, ROUNDS = 1000, 5
# how many symbols a part has at least between which a block may begin, how many parts there are at most, and how many bits the head of
# a block takes, about
LEAST_PART, MOST_PARTS, HEAD = 150, 250, 500
LONGEST_CODE, LONGEST_CODE_OF_LENGTHS = 15, 7
ORDER = (16, 17, 18, 0, 8, 7, 9, 6, 10, 5, 11, 4, 12, 3, 13, 2, 14, 1, 15)


def classes(first: int, extras: Sequence[int]) -> list[tuple[int, int]]:
    """The first value of each class, and how many bits say which of the class it is."""
    return list(zip(accumulate((1 << bits for bits in extras), initial=first), extras))


# The classes of lengths, of which the last has one alone, and those of distances.
LENGTHS = [*classes(LEAST, [0] * 4 + [bits for bits in range(6) for _ in range(4)])[:28], (MOST, 0)]
DISTANCES = classes(1, [0, 0] + [bits for bits in range(14) for _ in range(2)])
LENGTH_CLASS = [max((at for at, (first, _) in enumerate(LENGTHS) if first <= length), default=0) for length in range(MOST + 1)]
SHORT_DISTANCE = [max((at for at, (first, _) in enumerate(DISTANCES) if first <= distance), default=0) for distance in range(257)]

# A symbol is a byte with no distance, or the length of a copy with its distance.
Symbol = tuple[int, int]


def distance_class(distance: int) -> int:
    """The class of a distance."""
    return SHORT_DISTANCE[distance] if distance <= 256 else SHORT_DISTANCE[(distance - 1 >> 7) + 1] + 14


def copies(data: bytes) -> list[list[Symbol]]:
    """At each place the copies that may be made there: longer and longer ones, each from as near as it can be."""
    places: dict[bytes, list[int]] = {}
    found = []
    for at in range(len(data)):
        key = data[at:at + LEAST]
        known = places.setdefault(key, [])
        found.append(copies_from(data, at, known) if len(key) == LEAST else [])
        known.append(at)
    return found


def copies_from(data: bytes, at: int, known: list[int]) -> list[Symbol]:
    """The copies that may be made at a place, from places where the same bytes begin."""
    found: list[Symbol] = []
    length, most = LEAST - 1, min(MOST, len(data) - at)
    for place in known[:-MOST_TRIES - 1:-1]:
        if at - place > WINDOW or length == most:
            break
        if data[place:place + length + 1] == data[at:at + length + 1]:
            length = common(data, place, at, length + 1, most)
            found.append((length, at - place))
    return found


def common(data: bytes, place: int, at: int, length: int, most: int) -> int:
    """How many bytes are the same at two places, of which so many are known to be."""
    while length < most and data[place + length] == data[at + length]:
        length += 1
    return length


@dataclass
class Code:
    """How many bits each symbol of a block takes: bytes, ends and classes of lengths, and classes of distances."""

    symbols: list[float]
    distances: list[float]

    def lengths(self) -> list[float]:
        """What each length takes."""
        return [self.symbols[END + 1 + number] + LENGTHS[number][1] for number in LENGTH_CLASS]

    def distance(self) -> list[float]:
        """What each class of distances takes."""
        return [bits + extra for bits, (_, extra) in zip(self.distances, DISTANCES)]


PLAIN = Code([8.0] * 286, [5.0] * 30)


def cheapest(data: bytes, choices: list[list[Symbol]], begins: list[int], codes: list[Code]) -> list[Symbol]:
    """The cheapest symbols for the data, by the codes of blocks that begin at some places."""
    costs, taken = [0.0] * (len(data) + 1), [0] * len(data)
    ends = [*begins[1:], len(data)]
    for begin, end, code in reversed(list(zip(begins, ends, codes))):
        by_length, by_distance = code.lengths(), code.distance()
        for at in range(end - 1, begin - 1, -1):
            best, choice, shorter = code.symbols[data[at]] + costs[at + 1], 0, LEAST
            for length, distance in choices[at]:
                bits = by_distance[distance_class(distance)]
                for some in range(shorter, length + 1):
                    cost = bits + by_length[some] + costs[at + some]
                    if cost < best:
                        best, choice = cost, some << 16 | distance
                shorter = length + 1
            costs[at], taken[at] = best, choice
    return list(along(data, taken))


def along(data: bytes, taken: list[int]) -> Iterator[Symbol]:
    """The symbols that were taken, from the first place on."""
    at = 0
    while at < len(data):
        length, distance = taken[at] >> 16, taken[at] & 0xffff
        yield (length, distance) if length else (data[at], 0)
        at += length or 1


@dataclass
class Block:
    """Some symbols, and how often each is in them."""

    symbols: list[Symbol]
    counts: Counter[int] = field(default_factory=Counter)
    distances: Counter[int] = field(default_factory=Counter)

    def __post_init__(self) -> None:
        for value, distance in self.symbols:
            self.counts[END + 1 + LENGTH_CLASS[value] if distance else value] += 1
            if distance:
                self.distances[distance_class(distance)] += 1

    @property
    def size(self) -> int:
        """How many bytes it makes."""
        return sum(value if distance else 1 for value, distance in self.symbols)

    def code(self) -> Code:
        """What its symbols take by the best codes."""
        return Code(bits_of_each(self.counts + Counter((END,)), 286), bits_of_each(self.distances, 30))

    def code_lengths(self) -> tuple[list[int], list[int]]:
        """The lengths of its codes."""
        return code_lengths({**self.counts, END: 1}, 286, LONGEST_CODE), code_lengths(self.distances, 30, LONGEST_CODE)


def bits_of_each(counts: Counter[int], size: int) -> list[float]:
    """How many bits each symbol takes by the best codes, if a code may have any part of a bit. One that isn't there would take more than
    all that are."""
    whole = max(counts.total(), 1)
    return [math.log2(whole / counts[symbol]) if counts[symbol] else math.log2(whole) + 1 for symbol in range(size)]


def bits_of(counts: Counter[int]) -> float:
    """How many bits symbols take by the best codes, if a code may have any part of a bit."""
    whole = counts.total()
    return whole * math.log2(whole) - sum(count * math.log2(count) for count in counts.values()) if whole else 0.0


def split(symbols: list[Symbol]) -> list[Block]:
    """Symbols in blocks: of all ways to begin a block at each so many symbols that which takes the fewest bits."""
    part = max(LEAST_PART, len(symbols) // MOST_PARTS)
    parts = [Block(symbols[at:at + part]) for at in range(0, len(symbols), part)]
    costs, begins = [0.0], [0]
    for end in range(1, len(parts) + 1):
        best, begin = float("inf"), 0
        counts, distances = Counter[int](), Counter[int]()
        for at in range(end - 1, -1, -1):
            counts.update(parts[at].counts)
            distances.update(parts[at].distances)
            cost = costs[at] + bits_of(counts) + bits_of(distances) + HEAD
            if cost < best:
                best, begin = cost, at
        costs.append(best)
        begins.append(begin)
    cuts = [len(parts)]
    while cuts[-1]:
        cuts.append(begins[cuts[-1]])
    return [Block(symbols[begin * part:end * part]) for end, begin in zip(cuts, cuts[1:])][::-1]


def code_lengths(counts: dict[int, int], size: int, most: int) -> list[int]:
    """The length of each symbol's code, of those that are there; one alone has a code too. None is too long."""
    lengths = [0] * size
    heap: list[tuple[int, int, tuple[int, ...]]] = [(count, symbol, (symbol,)) for symbol, count in sorted(counts.items())]
    if len(heap) == 1:
        lengths[heap[0][1]] = 1
        return lengths
    heapq.heapify(heap)
    while len(heap) > 1:
        one, other = heapq.heappop(heap), heapq.heappop(heap)
        for symbol in one[2] + other[2]:
            lengths[symbol] += 1
        heapq.heappush(heap, (one[0] + other[0], min(one[1], other[1]), one[2] + other[2]))
    if max(lengths) <= most:
        return lengths
    return code_lengths({symbol: (count + 1) // 2 for symbol, count in counts.items()}, size, most)


def codes_of(lengths: list[int]) -> list[int]:
    """The codes of such lengths, each with its first bit last, as they are written."""
    numbers = Counter(filter(None, lengths))
    following, code = {}, 0
    for length in range(1, LONGEST_CODE + 1):
        code = code + numbers[length - 1] << 1
        following[length] = code
    made = []
    for length in lengths:
        code = following.get(length, 0)
        made.append(int(f"{code:0{length}b}"[::-1], 2) if length else 0)
        following[length] = code + 1
    return made


class Writer:
    """Takes bits, the lowest of a number first."""

    def __init__(self) -> None:
        self._bytes, self._bits, self._count = bytearray(), 0, 0

    def put(self, bits: int, count: int) -> None:
        """Adds so many bits."""
        self._bits |= bits << self._count
        self._count += count
        while self._count >= 8:
            self._bytes.append(self._bits & 255)
            self._bits, self._count = self._bits >> 8, self._count - 8

    def end(self) -> bytes:
        """All bytes, the last of which is filled up."""
        self.put(0, -self._count % 8)
        return bytes(self._bytes)


def runs(lengths: list[int]) -> Iterator[tuple[int, int, int]]:
    """Lengths of codes as the head of a block has them: a symbol, and for a repetition the bits that say how often, and their number."""
    at = 0
    while at < len(lengths):
        length = lengths[at]
        end = next((place for place in range(at, len(lengths)) if lengths[place] != length), len(lengths))
        if length:
            yield length, 0, 0
            at += 1
        while end - at >= 3:
            most, symbol, bits = (6, 16, 2) if length else (138, 18, 7) if end - at > 10 else (10, 17, 3)
            count = min(end - at, most)
            yield symbol, count - (11 if symbol == 18 else 3), bits
            at += count
        while at < end:
            yield length, 0, 0
            at += 1


def put_head(writer: Writer, symbols: list[int], distances: list[int]) -> None:
    """Writes the lengths of a block's codes."""
    most = max((at for at, bits in enumerate(symbols) if bits), default=END) + 1
    far = max((at for at, bits in enumerate(distances) if bits), default=0) + 1
    told = list(runs(symbols[:most] + distances[:far]))
    lengths = code_lengths(Counter(symbol for symbol, _, _ in told), 19, LONGEST_CODE_OF_LENGTHS)
    codes, count = codes_of(lengths), max(at for at, symbol in enumerate(ORDER) if lengths[symbol]) + 1
    for number, bits in ((most - 257, 5), (far - 1, 5), (max(count, 4) - 4, 4), *((lengths[symbol], 3) for symbol in ORDER[:max(count, 4)])):
        writer.put(number, bits)
    for symbol, number, bits in told:
        writer.put(codes[symbol], lengths[symbol])
        writer.put(number, bits)


def put_block(writer: Writer, block: Block, is_last: bool) -> None:
    """Writes a block with codes of its own."""
    writer.put(int(is_last) | 2 << 1, 3)
    lengths, far = block.code_lengths()
    put_head(writer, lengths, far)
    codes, far_codes = codes_of(lengths), codes_of(far)
    for value, distance in block.symbols:
        if not distance:
            writer.put(codes[value], lengths[value])
            continue
        for at, all_codes, all_lengths, begin, amount, kinds in ((LENGTH_CLASS[value], codes, lengths, END + 1, value, LENGTHS),
                                                                (distance_class(distance), far_codes, far, 0, distance, DISTANCES)):
            writer.put(all_codes[begin + at], all_lengths[begin + at])
            writer.put(amount - kinds[at][0], kinds[at][1])
    writer.put(codes[END], lengths[END])


def deflated(data: bytes) -> bytes:
    """The data, deflated."""
    choices = copies(data)
    begins, codes, blocks = [0], [PLAIN], [Block([])]
    for _ in range(ROUNDS + 1):
        blocks = split(cheapest(data, choices, begins, codes)) or [Block([])]
        begins = [0, *accumulate(block.size for block in blocks)][:-1]
        codes = [block.code() for block in blocks]
    writer = Writer()
    for number, block in enumerate(blocks, 1):
        put_block(writer, block, number == len(blocks))
    return writer.end()
