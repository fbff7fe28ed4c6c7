"""A path place by place, with the move that leads from each place to the next, by the calls on a walk."""

from collections.abc import Iterator
from typing import NamedTuple

from .calls import End, Place
from .moves import Move, after, at_start
from .progress import shown
from .slips import Slip
from .walks import move_on, preview, walk_at_start, walk_points


class Path(NamedTuple):
    """The places of a path, the move from each to the next, so that there is one less, and the end."""

    places: list[Place]
    moves: list[Move]
    end: End


def follow(slip: Slip, labels: list[int]) -> Path:
    """The path of a slip over its label table.

    >>> path = follow(Slip([2, 2], [1, 1]), [2, 2, 2, 4])
    >>> path.places[1], path.moves[1].rule
    (Place(points=[[1, 0, 1, 0], [1, 0, 0, 1]], t=[4], u=[2], labels_read=2), 5)
    >>> path.end
    End(places=5, labels_read=4, kind='facet', block=1, vertices=[[0, 1, 1, 0]])
    """
    steps = list(shown(_steps(slip, labels), "places shown:"))
    moves = [coming for _, coming in steps if isinstance(coming, Move)]
    (end,) = (coming for _, coming in steps if isinstance(coming, End))
    return Path([place for place, _ in steps], moves, end)


def _steps(slip: Slip, labels: list[int]) -> Iterator[tuple[Place, Move | End]]:
    """Each place with what comes next."""
    walk = walk_at_start(slip.sizes, slip.divisions, slip.first(), labels)
    t, u = at_start(slip.first())
    while True:
        coming = preview(walk, labels)
        yield Place(walk_points(walk, labels), sorted(t), sorted(u), walk.labels_read()), coming
        if isinstance(coming, End):
            return
        t, u = after(coming, t, u)
        move_on(walk, labels)
