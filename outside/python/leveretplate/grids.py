"""Grid points, their order and their mean, as document 01 defines them."""

from collections.abc import Iterator, Sequence
from fractions import Fraction
from itertools import pairwise, product
from math import comb, prod
from typing import TypeVar

Number = TypeVar("Number")

MOST_POINTS = 60_000


def count_points(sizes: Sequence[int], divisions: Sequence[int]) -> int:
    """P, the number of grid points.

    >>> count_points([2, 2], [1, 1]), count_points([3], [343])
    (4, 59340)
    """
    return prod(comb(d + s - 1, s - 1) for s, d in zip(sizes, divisions) if s > 0)


def grid_points(sizes: Sequence[int], divisions: Sequence[int]) -> Iterator[tuple[int, ...]]:
    """The grid points in rising lexicographic order, so that the one at position i has label i of a table.

    >>> list(grid_points([2, 2], [1, 1]))
    [(0, 1, 0, 1), (0, 1, 1, 0), (1, 0, 0, 1), (1, 0, 1, 0)]
    """
    for parts in product(*(list(_compositions(s, d)) for s, d in zip(sizes, divisions))):
        yield sum(parts, ())


def _compositions(size: int, total: int) -> Iterator[tuple[int, ...]]:
    if size == 1:
        yield (total,)
        return
    for first in range(total + 1):
        for rest in _compositions(size - 1, total - first):
            yield (first, *rest)


def corner(sizes: Sequence[int], divisions: Sequence[int]) -> list[int]:
    """The start of a slip that names none: each block has its whole division at its first index.

    >>> corner([2, 3], [4, 5])
    [4, 0, 5, 0, 0]
    """
    return [number for s, d in zip(sizes, divisions) for number in [d] + [0] * (s - 1)]


def split(sizes: Sequence[int], numbers: Sequence[Number]) -> list[Sequence[Number]]:
    """The numbers of each block.

    >>> split([2, 3], [4, 0, 5, 0, 0])
    [[4, 0], [5, 0, 0]]
    """
    ends = [sum(sizes[:count]) for count in range(len(sizes) + 1)]
    return [numbers[first:last] for first, last in pairwise(ends)]


def centre(sizes: Sequence[int], divisions: Sequence[int], vertices: Sequence[Sequence[int]]) -> list[Fraction]:
    """The mean of the vertices as a point of the product of unit simplices, exactly.

    >>> [str(number) for number in centre([2], [4], [[1, 3], [2, 2]])]
    ['3/8', '5/8']
    """
    scales = [len(vertices) * d for s, d in zip(sizes, divisions) for _ in range(s)]
    return [Fraction(sum(column), scale) for column, scale in zip(zip(*vertices), scales)]
