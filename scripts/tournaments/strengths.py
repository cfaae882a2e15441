"""Strengths on a capped scale: a robot of strength a is expected to have the share s of a pair with one of strength b, where the
logarithm of s / (1 - s) is a - b.

Two of a hundred matches of each pair are imagined ties. So a robot that won all has a strength, and what endless play would
show is known of it as well. All pairs that have met count alike: each robot's expected shares add up to those that it has. The
mean of all strengths is 0. The robots have to be connected: by pairs that have met each is led to each other one."""

import math
from dataclasses import dataclass
from typing import Sequence

from .matrices import Matrix, Vector, factored, inverse, product, solved

# The part of a pair's matches that are imagined ties, and of the others.
TIES = 0.02
REAL = 1 - TIES
STEP_MAX, STEPS_MAX, EXACT = 1.5, 200, 1e-10
# After a step that is shorter the curvature stays as it is.
NEAR = 0.05


def capped(share: float) -> float:
    """A share with the imagined ties."""
    return REAL * share + TIES / 2


@dataclass(frozen=True)
class Fit:
    """Strengths that fit, and the inverse of the curvature there: how much each strength moves with each robot's score."""

    strengths: list[float]
    inverse: Matrix


def fitted(met: Sequence[Vector], scores: Vector) -> Fit:
    """The strengths by which each robot's capped shares add up to its score, by Newton's method with steps of limited length.

    A row of `met` has 1 for each robot that was met, and else 0."""
    strengths = [math.log(score / (sum(row) - score)) for score, row in zip(scores, met)]
    longest = math.inf
    for _ in range(STEPS_MAX):
        if longest > NEAR:
            factor = factored(curvature(met, strengths))
        step = solved(factor, [score - expected(row, strengths, at) for at, (score, row) in enumerate(zip(scores, met))])
        longest = max(abs(change) for change in step)
        part = min(1.0, STEP_MAX / longest) if longest else 1.0
        strengths = [strength + part * more for strength, more in zip(strengths, step)]
        if longest < EXACT:
            break
    mean = sum(strengths) / len(strengths)
    return Fit([strength - mean for strength in strengths], inverse(factored(curvature(met, strengths))))


def chances(strengths: Vector, robot: int) -> list[float]:
    """The shares that are expected of a robot against each one."""
    power = math.exp(strengths[robot])
    return [power / (power + math.exp(strength)) for strength in strengths]


def expected(met: Vector, strengths: Vector, robot: int) -> float:
    """The score that is expected of a robot."""
    return product(met, chances(strengths, robot))


def curvature(met: Sequence[Vector], strengths: Vector) -> Matrix:
    """How the scores change with the strengths. What is added to each of its numbers keeps the strengths' mean."""
    one = 1 / len(met)
    found = []
    for at, row in enumerate(met):
        bends = [meets * chance * (1 - chance) for meets, chance in zip(row, chances(strengths, at))]
        own = sum(bends)
        bends = [one - bend for bend in bends]
        bends[at] = own + one
        found.append(bends)
    return found
