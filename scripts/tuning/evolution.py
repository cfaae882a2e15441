"""A search over numbers: an evolution strategy with a step of its own for each number.

Each round has some points around a middle, drawn by a seed. They are compared in the same matches, and the better half moves
the middle, by ranks: so it doesn't matter how far apart the scores are, only which is better, and the mean of several points
takes much of the chance away. The steps follow from how the middle moves (Ros and Hansen, separable CMA-ES, 2008).
All numbers go from 0 to 1 here."""

import math
import random
from typing import Sequence

Point = tuple[float, ...]

# The first step, as a part of a number's range: it begins where races led.
FIRST_STEP = 0.15
# No step is smaller.
LEAST_STEP = 0.02


class Evolution:
    """The middle, the steps, and the points of a round."""

    def __init__(self, begin: Point, seed: int) -> None:
        many = len(begin)
        self._random = random.Random(seed)
        self.middle = begin
        self._size = FIRST_STEP
        self._scale = [1.0] * many
        self._path = [0.0] * many
        self._turns = [0.0] * many
        self.points: list[Point] = []
        self.count = 4 + 2 * math.ceil(1.5 * math.log(many + 1))
        self._set_rates(many)

    def _set_rates(self, many: int) -> None:
        """The weights of the better half, and how fast steps follow, as the literature has them."""
        half = self.count // 2
        raw = [math.log(half + 0.5) - math.log(at) for at in range(1, half + 1)]
        self._weights = [part / sum(raw) for part in raw]
        mass = 1 / sum(weight**2 for weight in self._weights)
        self._mass = mass
        self._of_size = (mass + 2) / (many + mass + 5)
        self._damping = 1 + 2 * max(0.0, math.sqrt((mass - 1) / (many + 1)) - 1) + self._of_size
        self._of_path = (4 + mass / many) / (many + 4 + 2 * mass / many)
        rank_one = (many + 2) / 3 * 2 / ((many + 1.3) ** 2 + mass)
        self._one = min(rank_one, 1)
        self._all = min(1 - self._one, (many + 2) / 3 * 2 * (mass - 2 + 1 / mass) / ((many + 2) ** 2 + mass))
        self._length = math.sqrt(many) * (1 - 1 / (4 * many) + 1 / (21 * many**2))

    def ask(self) -> list[Point]:
        """The points of the next round: pairs on both sides of the middle."""
        self.points = []
        for _ in range(self.count // 2):
            way = [self._random.gauss(0, 1) for _ in self.middle]
            self.points += [self._at(way), self._at([-part for part in way])]
        return self.points

    def _at(self, way: Sequence[float]) -> Point:
        return tuple(mirrored(middle + self._size * scale * part) for middle, scale, part in zip(self.middle, self._scale, way))

    def tell(self, scores: Sequence[float]) -> None:
        """Takes the scores of the points, of which a greater one is better."""
        order = sorted(range(len(self.points)), key=lambda at: -scores[at])
        best = [self.points[at] for at in order[:len(self._weights)]]
        before = self.middle
        self.middle = tuple(sum(weight * point[at] for weight, point in zip(self._weights, best)) for at in range(len(before)))
        moved = [(new - old) / self._size for new, old in zip(self.middle, before)]
        ways = [[(point[at] - before[at]) / self._size for at in range(len(before))] for point in best]
        self._follow(moved, ways)

    def _follow(self, moved: Sequence[float], ways: Sequence[Sequence[float]]) -> None:
        """Adapts the steps to how the middle moved."""
        size, path, mass = self._of_size, self._of_path, self._mass
        self._turns = [(1 - size) * turn + math.sqrt(size * (2 - size) * mass) * way / scale
                       for turn, way, scale in zip(self._turns, moved, self._scale)]
        self._path = [(1 - path) * old + math.sqrt(path * (2 - path) * mass) * way for old, way in zip(self._path, moved)]
        squares = [sum(weight * way[at] ** 2 for weight, way in zip(self._weights, ways)) for at in range(len(moved))]
        self._scale = [math.sqrt((1 - self._one - self._all) * scale**2 + self._one * way**2 + self._all * square)
                       for scale, way, square in zip(self._scale, self._path, squares)]
        length = math.sqrt(sum(turn**2 for turn in self._turns))
        self._size *= math.exp(min(1.0, size / self._damping * (length / self._length - 1)))
        self._size = min(max(self._size, LEAST_STEP / max(self._scale)), 1 / max(self._scale))


def mirrored(value: float) -> float:
    """A value from 0 to 1; one beyond an end comes back from it."""
    value = abs(value) % 2
    return min(value, 2 - value)
