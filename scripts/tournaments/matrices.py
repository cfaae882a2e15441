"""Symmetric positive matrices: taken apart (Cholesky), inverted, and systems of equations with them."""

import math
from functools import partial
from operator import itemgetter, mul
from typing import Callable, Iterable, Sequence

Vector = Sequence[float]
Matrix = list[list[float]]


def product(one: Vector, other: Vector) -> float:
    """The sum of what two vectors' numbers come to, multiplied, as far as the shorter one goes."""
    found: float = sum(map(mul, one, other))
    return found


def forms(matrix: Iterable[Vector]) -> list[Callable[[Vector], float]]:
    """The products of each row of a matrix with a vector. Of a row that has mostly zeros these are left out."""
    return [*map(form, matrix)]


def form(row: Vector) -> Callable[[Vector], float]:
    places = [at for at, number in enumerate(row) if number]
    if not 1 < len(places) <= len(row) // 2:
        return partial(product, row)
    numbers, chosen = [row[at] for at in places], itemgetter(*places)
    return lambda vector: product(numbers, chosen(vector))


def factored(matrix: Sequence[Vector]) -> Matrix:
    """The lower factor, row by row up to the diagonal; of the matrix the lower half is read."""
    rows: Matrix = []
    for at, given in enumerate(matrix):
        made: list[float] = []
        for row, wanted in zip(rows, given):
            made.append((wanted - product(made, row)) / row[-1])
        made.append(math.sqrt(given[at] - product(made, made)))
        rows.append(made)
    return rows


def solved(factor: Matrix, right: Vector) -> list[float]:
    """Solves a system of equations by the lower factor of its matrix."""
    found: list[float] = []
    for row, wanted in zip(factor, right):
        found.append((wanted - product(found, row)) / row[-1])
    for at in range(len(found) - 1, -1, -1):
        row = factor[at]
        found[at] /= row[at]
        for before in range(at):
            found[before] -= row[before] * found[at]
    return found


def inverse(factor: Matrix) -> Matrix:
    """The inverse of the matrix with this lower factor."""
    columns = [column(factor, at) for at in range(len(factor))]
    found = [[0.0] * len(factor) for _ in factor]
    for one, long in enumerate(columns):
        for other, short in enumerate(columns[one:], one):
            found[one][other] = found[other][one] = product(long[other - one:], short)
    return found


def column(factor: Matrix, begin: int) -> list[float]:
    """A column of the factor's inverse, from the diagonal on: all before is 0."""
    found: list[float] = []
    for at in range(begin, len(factor)):
        row = factor[at]
        found.append(((1.0 if at == begin else 0.0) - product(found, row[begin:at])) / row[at])
    return found
