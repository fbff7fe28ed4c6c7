"""A game on finer and finer grids: where each level ends, and what a player still gains there."""

from bisect import bisect_right
from collections.abc import Iterator, Sequence
from fractions import Fraction

from .calls import MOST_LEVELS, refine
from .games import Losses, largest_gain
from .grids import MOST_POINTS, centre, count_points
from .slips import Slip

MOST_FACTOR = 10

# The sizes whose finest grids the documents show.
SHOWN = ([2], [3], [4], [2, 2], [3, 3], [4, 4], [5, 5], [2, 2, 2], [3, 3, 3], [4, 4, 4], [2] * 4, [3] * 4,
         [2] * 5, [2] * 6)

HEADINGS = ("level", "divisions", "places", "labels read", "end", "block", "centre", "largest gain", "at a vertex",
            "proved at most")


def most_levels(slip: Slip, factor: int) -> int:
    """As many levels as the library takes, with at most 60,000 grid points on the last; 1 for a factor that it refuses.

    >>> most_levels(Slip([2, 2, 2], [1, 1, 1], game=1), 2)
    6
    """
    if factor < 2:
        return 1
    fitting = (levels for levels in range(MOST_LEVELS, 1, -1)
               if count_points(slip.sizes, [factor ** (levels - 1) * d for d in slip.divisions]) <= MOST_POINTS)
    return next(fitting, 1)


def finest(sizes: Sequence[int]) -> int:
    """The largest division of all blocks with at most 60,000 grid points; 1 for sizes that the library refuses.

    >>> finest([2, 2, 2]), finest([4, 4]), finest([1])
    (38, 9, 1)
    """
    if min(sizes, default=0) < 2:
        return 1
    # A block has more points than its division, so no division of 60,000 or more is allowed.
    divisions = range(1, MOST_POINTS)
    return max(1, bisect_right(divisions, MOST_POINTS, key=lambda d: count_points(sizes, [d] * len(sizes))))


def to_finest(sizes: Sequence[int]) -> tuple[int, int, int]:
    """The first division, the factor and the number of levels, as many as there can be, that lead to the finest grid.

    >>> to_finest([2, 2]), to_finest([3, 3])
    ((1, 3, 6), (5, 2, 3))
    """
    last = finest(sizes)
    ways = [(last // factor ** (levels - 1), factor, levels) for levels in range(MOST_LEVELS, 0, -1)
            for factor in range(2, MOST_FACTOR + 1) if last % factor ** (levels - 1) == 0]
    return ways[0]


def finest_table() -> list[tuple[str, ...]]:
    """The finest division for some sizes, as the documents show it."""
    table: list[tuple[str, ...]] = [("sizes", "division", "grid points")]
    for sizes in SHOWN:
        points = count_points(sizes, [finest(sizes)] * len(sizes))
        table.append((" ".join(map(str, sizes)), f"{finest(sizes):,}", f"{points:,}"))
    return table


def near(sizes: Sequence[int], divisions: Sequence[int], losses: Sequence[int], vertices: Sequence[Sequence[int]],
         block: int) -> tuple[Fraction, Fraction]:
    """The largest gain at the first vertex whose label is an index of the block named, and its proved bound.

    The label of a point is the index with the largest gain, the first of equal ones, so the vertex is the first at
    which a player of that block gains most. The bound is 2 R times the sum over the other blocks of half their size,
    rounded down, to their division, R being the largest loss less the smallest: the library's theorem of accuracy.
    These are two vertices of game 2 with all divisions 6; the second has label 9.

    >>> from leveretplate.games import BUILT_IN
    >>> vertices = [[3, 3, 0, 1, 5, 0, 0, 4, 2], [3, 3, 0, 0, 6, 0, 0, 4, 2]]
    >>> near(BUILT_IN[2][0], [6, 6, 6], BUILT_IN[2][1], vertices, 3)
    (Fraction(1, 3), Fraction(16, 3))
    """
    at = [d for size, d in zip(sizes, divisions) for _ in range(size)]
    gains = (largest_gain(sizes, losses, [Fraction(n, d) for n, d in zip(vertex, at)]) for vertex in vertices)
    there = next(gain for gain in gains if gain.player == block)
    others = (Fraction(size // 2, d) for l, (size, d) in enumerate(zip(sizes, divisions), 1) if l != block)
    return there.amount, 2 * (max(losses) - min(losses)) * sum(others, Fraction(0))


def rows(slip: Slip, factor: int, levels: int, losses: Losses, unit: Fraction) -> Iterator[tuple[str, ...]]:
    """A row of text for each level, under HEADINGS; gains are worked out exactly, in what was brought.

    The gain at a vertex and its bound are those of the losses that the library was lent, of this unit each.
    """
    lent = slip.loss_table()
    ends = refine(slip.sizes, slip.divisions, slip.first(), lent, factor, levels).ends
    for level, end in enumerate(ends):
        divisions = [factor ** level * d for d in slip.divisions]
        middle = centre(slip.sizes, divisions, end.vertices)
        gain = largest_gain(slip.sizes, losses, middle)
        there, bound = near(slip.sizes, divisions, lent, end.vertices, end.block)
        yield (str(level), " ".join(map(str, divisions)), str(end.places), str(end.labels_read), end.kind,
               str(end.block), " ".join(f"{float(number):.4f}" for number in middle),
               f"{decimal(gain.amount)} by player {gain.player}, index {gain.index}",
               decimal(unit * there), decimal(unit * bound))


def decimal(number: Fraction) -> str:
    """A number that is not negative with four decimals; by its first digits where these would take it for 0.

    >>> decimal(Fraction(0)), decimal(Fraction(1, 3)), decimal(Fraction(1, 70_000))
    ('0.0000', '0.3333', '1.4e-05')
    """
    return f"{float(number):.1e}" if 0 < number < Fraction(1, 20_000) else f"{float(number):.4f}"


def aligned(table: list[tuple[str, ...]]) -> str:
    """A table as text, its columns as wide as their widest item."""
    widths = [max(map(len, column)) for column in zip(*table)]
    lines = ("  ".join(item.ljust(width) for item, width in zip(row, widths)).rstrip() for row in table)
    return "".join(line + "\n" for line in lines)
