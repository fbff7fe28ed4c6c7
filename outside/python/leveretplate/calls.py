"""One function for each exported call: plain lists in and out, and a refusal as an exception.

`outside/c/leveretplate.h` states what is proved of each. A grid is given by its sizes and divisions; a table has one
label for each grid point, in the order of `grids.grid_points`.
"""

from __future__ import annotations

import ctypes
from array import array
from collections.abc import Sequence
from typing import NamedTuple

from .grids import MOST_POINTS, count_points
from .library import Fixed, call, lend, number, room
from .questions import Refused

Numbers = Sequence[int]

# The numbers that the library gives of an end, of the nearest vertex and of a place, in their order.
FACTS = ("places", "labels_read", "kind", "block", "vertices")
NEAR = ("position", "listed")
PLACE = ("points", "t", "u", "labels_read")

KINDS = ("place", "facet")
MOST_LEVELS = 8
NO_LIMIT = 2 ** 64 - 1
SHEET_BYTES = 4096
START_BYTES = 3
MOST_RECORD_BYTES = 7

# The largest simplex of any grid has 16 points of 16 numbers at most.
SIMPLEX_NUMBERS = 256


class End(NamedTuple):
    """The end of a path: places visited, labels read, kind of end, "place" or "facet", block, and vertices."""

    places: int
    labels_read: int
    kind: str
    block: int
    vertices: list[list[int]]


class Nearest(NamedTuple):
    """The end of a path, the position of the visited vertex nearest to w, and the positions of those within reach."""

    end: End
    nearest: int
    within: list[int]


class Place(NamedTuple):
    """A place: its points in rising coefficient sum, T and U, and the labels read up to it."""

    points: list[list[int]]
    t: list[int]
    u: list[int]
    labels_read: int


class Refinement(NamedTuple):
    """The end of each level, and the last level's labels."""

    ends: list[End]
    labels: list[int]


def sheet(slip: bytes) -> str:
    """The sheet of a slip; that of a refused slip says so.

    >>> print(sheet(bytes([4, 2, 2, 2, 1, 0, 1, 0, 2, 2, 2, 4])), end="")
    places 5
    labels read 4
    bound 68
    end facet
    block 1
    vertices 1
    0 1 1 0
    centre 0 10000 10000 0
    """
    written = room(8, SHEET_BYTES)
    length = call("sheet", lend("slip", 8, slip), Fixed(written), answer=ctypes.c_size_t)
    return written[:length].tobytes().decode("ascii")


def run(sizes: Numbers, divisions: Numbers, start: Numbers, labels: Numbers, budget: int = NO_LIMIT) -> End:
    """Follows the path over a label table to its end.

    >>> run([2, 2], [1, 1], [1, 0, 1, 0], [3, 1, 2, 4])
    End(places=3, labels_read=3, kind='place', block=2, vertices=[[1, 0, 1, 0], [1, 0, 0, 1], [0, 1, 0, 1]])
    >>> run([3], [3], [1, 1, 1], [1] * 10)
    End(places=3, labels_read=3, kind='facet', block=1, vertices=[[3, 0, 0]])
    >>> run([2], [4], [2, 2], [1] * 5, budget=2)
    Traceback (most recent call last):
    leveretplate.questions.Refused: refused 9: Has the path ended within the budget? (places 2)
    """
    answer, facts = room(16, SIMPLEX_NUMBERS), _facts()
    refusal = call("run", *_run(sizes, divisions, start, labels), answer, number("budget", budget), Fixed(facts))
    _accept(refusal, facts)
    return _end(facts, answer, sum(sizes))


def nearest(sizes: Numbers, divisions: Numbers, start: Numbers, labels: Numbers, w: Numbers, distance: int,
            budget: int = NO_LIMIT) -> Nearest:
    """A run that also reports where the path came nearest to the grid point w, and what is within a distance of it.

    >>> nearest([2], [4], [2, 2], [1] * 5, w=[0, 4], distance=6)
    Nearest(end=End(places=3, labels_read=3, kind='facet', block=1, vertices=[[4, 0]]), nearest=2, within=[2, 3])
    """
    answer, facts, near = room(16, SIMPLEX_NUMBERS), _facts(), room(64, len(NEAR))
    lent = _run(sizes, divisions, start, labels)
    positions = room(16, _points(sizes, divisions))
    refusal = call("nearest", *lent, answer, number("budget", budget), lend("w", 16, w), number("distance", distance),
                   positions, Fixed(facts), Fixed(near))
    _accept(refusal, facts)
    fact = dict(zip(NEAR, near))
    return Nearest(_end(facts, answer, sum(sizes)), fact["position"], positions[:fact["listed"]].tolist())


def run_with_trail(sizes: Numbers, divisions: Numbers, start: Numbers, labels: Numbers,
                   budget: int = NO_LIMIT) -> tuple[End, bytes]:
    """A run that also writes its trail: one record for each place, the start's first.

    >>> end, trail = run_with_trail([2, 2], [1, 1], [1, 0, 1, 0], [2, 2, 2, 4])
    >>> trail.hex(" ")
    '01 03 00 65 02 00 04 04 05 65 00 00 02 02 05 43 01 00 02 00 01 5a 00 00 04 04 06'
    """
    lent, limit = _run(sizes, divisions, start, labels), number("budget", budget)
    longest = START_BYTES + MOST_RECORD_BYTES * run(sizes, divisions, start, labels, budget).places
    answer, trail, facts, written = room(16, SIMPLEX_NUMBERS), room(8, longest), _facts(), room(64, 1)
    _accept(call("run_with_trail", *lent, answer, limit, trail, Fixed(facts), Fixed(written)), facts)
    return _end(facts, answer, sum(sizes)), trail[:written[0]].tobytes()


def read_trail(sizes: Numbers, divisions: Numbers, start: Numbers, trail: bytes, record: int) -> Place:
    """The place at a record of a trail, the records counted from 1.

    >>> trail = bytes.fromhex("010300 650200040405 650000020205 430100020001 5a0000040406")
    >>> read_trail([2, 2], [1, 1], [1, 0, 1, 0], trail, 5)
    Place(points=[[1, 0, 1, 0], [0, 1, 1, 0]], t=[2], u=[4], labels_read=4)
    >>> read_trail([2, 2], [1, 1], [1, 0, 1, 0], trail, 6)  # doctest: +ELLIPSIS
    Traceback (most recent call last):
    leveretplate.questions.Refused: refused 17: ... is there such a record, each up to it that of a move?
    """
    points, place = room(16, SIMPLEX_NUMBERS), room(64, len(PLACE))
    _accept(call("read_trail", *_grid(sizes, divisions), lend("start", 16, start), lend("trail", 8, trail),
                 number("record", record), Fixed(points), Fixed(place)))
    fact = dict(zip(PLACE, place))
    return Place(rows(points, fact["points"], sum(sizes)), _indices(fact["t"]), _indices(fact["u"]),
                 fact["labels_read"])


def label(sizes: Numbers, divisions: Numbers, losses: Numbers) -> list[int]:
    """The labels that a game's losses give.

    >>> label([2, 2, 2], [1, 1, 1], [1, 2, 8, 5, 8, 8, 2, 2, 4, 2, 2, 1, 2, 6, 1, 3, 4, 1, 4, 2, 8, 8, 2, 1])
    [3, 6, 1, 1, 5, 2, 5, 4]
    """
    grid = _grid(sizes, divisions)
    labels = room(8, _points(*grid))
    _accept(call("label", *grid, lend("losses", 16, losses), labels, Fixed(room(64, 1))))
    return labels.tolist()


def boundary(sizes: Numbers, divisions: Numbers, labels: Numbers) -> list[int]:
    """The table with the same labels inside and the labels of rule (1.3) on the boundary.

    >>> boundary([3], [3], [1] * 10)
    [1, 1, 1, 3, 2, 1, 3, 2, 3, 2]
    """
    grid = _grid(sizes, divisions)
    written = room(8, _points(*grid))
    _accept(call("boundary", *grid, lend("labels", 8, labels), written, Fixed(room(64, 1))))
    return written.tolist()


def refine(sizes: Numbers, divisions: Numbers, start: Numbers, losses: Numbers, factor: int, levels: int) -> Refinement:
    """Runs a game on finer and finer grids, each next one `factor` times finer and started at the end before.

    >>> game_1 = [1, 2, 8, 5, 8, 8, 2, 2, 4, 2, 2, 1, 2, 6, 1, 3, 4, 1, 4, 2, 8, 8, 2, 1]
    >>> [end.places for end in refine([2, 2, 2], [1, 1, 1], [1, 0, 1, 0, 1, 0], game_1, factor=2, levels=6).ends]
    [4, 7, 8, 12, 27, 19]
    """
    grid, finer = _grid(sizes, divisions), (number("factor", factor), number("levels", levels))
    finest = factor ** min(max(levels - 1, 0), MOST_LEVELS - 1)
    labels = room(8, _points(sizes, [finest * d for d in divisions]))
    answer, facts = room(16, MOST_LEVELS * SIMPLEX_NUMBERS), _facts(MOST_LEVELS)
    _accept(call("refine", *grid, lend("start", 16, start), lend("losses", 16, losses), *finer, labels, answer,
                 Fixed(facts)))
    m = sum(sizes)
    apart = (m - len(sizes) + 1) * m
    ends = [_end(facts[level * len(FACTS):], answer[level * apart:], m) for level in range(levels)]
    return Refinement(ends, labels.tolist())


def check(sizes: Numbers, divisions: Numbers, labels: Numbers, points: Sequence[Numbers]) -> int | None:
    """The first block for which the points, in any order, are a complete simplex; None where they are none.

    >>> check([2, 2], [1, 1], [3, 1, 2, 4], [[0, 1, 0, 1], [1, 0, 1, 0], [1, 0, 0, 1]])
    2
    >>> check([2, 2], [1, 1], [3, 1, 2, 4], [[1, 0, 1, 0], [1, 0, 1, 0]]) is None
    True
    """
    numbers = lend("points", 16, (coordinate for point in points for coordinate in point))
    answer = call("check", *_grid(sizes, divisions), lend("labels", 8, labels), numbers, answer=ctypes.c_uint16)
    block, refusal = divmod(answer, 256)
    _accept(refusal)
    return block or None


def file(shelf: Numbers, named: int = 0) -> list[int]:
    """The shelf with one more sheet, which replaces the sheet named, or none. Entry i - 1 is what sheet i replaces.

    >>> file([0, 0, 1, 2], named=4)
    [0, 0, 1, 2, 4]
    >>> file([0, 0, 1, 2], named=1)
    Traceback (most recent call last):
    leveretplate.questions.Refused: refused 23: Is the sheet on the shelf and, to be replaced, not yet replaced?
    """
    entries = lend("shelf", 16, [*shelf, 0])
    _accept(call("file", entries, number("count", len(shelf)), number("named", named), Fixed(room(64, 1))))
    return entries.tolist()


def current(shelf: Numbers, sheet: int) -> int:
    """The current one of a sheet, reached by going from each to the sheet that replaces it.

    >>> current([0, 0, 1, 2, 4], 2)
    5
    """
    last = room(64, 1)
    _accept(call("current", lend("shelf", 16, shelf), number("count", len(shelf)), number("sheet", sheet), Fixed(last)))
    return last[0]


def _grid(sizes: Numbers, divisions: Numbers) -> tuple[array[int], ...]:
    return lend("sizes", 8, sizes), lend("divisions", 16, divisions)


def _run(sizes: Numbers, divisions: Numbers, start: Numbers, labels: Numbers) -> tuple[array[int], ...]:
    return *_grid(sizes, divisions), lend("start", 16, start), lend("labels", 8, labels)


def _points(sizes: Numbers, divisions: Numbers) -> int:
    """P, or the most points of a grid that is refused, so that no more room than that is ever made."""
    return min(count_points(sizes, divisions), MOST_POINTS)


def _facts(levels: int = 1) -> array[int]:
    return room(64, levels * len(FACTS))


def _accept(refusal: int, facts: Numbers = ()) -> None:
    """Raises a refusal. Numbers 9 and 16 of a run have told the places, and 16 the position of a label."""
    if refusal:
        raise Refused(refusal, *facts[:{9: 1, 16: 2}.get(refusal, 0)])


def _end(facts: Numbers, numbers: Numbers, m: int) -> End:
    fact = dict(zip(FACTS, facts))
    vertices = rows(numbers, fact["vertices"], m)
    return End(fact["places"], fact["labels_read"], KINDS[fact["kind"]], fact["block"], vertices)


def rows(numbers: Numbers, count: int, m: int) -> list[list[int]]:
    """The points that stand one after another in a buffer, m numbers each."""
    return [list(numbers[first:first + m]) for first in range(0, count * m, m)]


def _indices(mask: int) -> list[int]:
    """The indices of a set, from 1, of which bit h stands for index h + 1."""
    return [bit + 1 for bit in range(16) if mask >> bit & 1]
