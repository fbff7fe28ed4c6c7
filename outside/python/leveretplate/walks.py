"""Walks: each call moves a lent walk on by one place, shows the coming move, or gives the points of its place."""

from __future__ import annotations

import ctypes
from array import array

from .calls import KINDS, SIMPLEX_NUMBERS, End, Numbers, rows
from .library import call, lend
from .moves import Move
from .questions import Refused

MOST_INDICES = 16
MOST_BLOCKS = 6


class KeptPlace(ctypes.Structure):
    """A place as the library keeps it: its first point, the indices of T in their order, and how many points it has."""

    _fields_ = [("first", ctypes.c_uint16 * MOST_INDICES), ("order", ctypes.c_uint32 * MOST_INDICES),
                ("count", ctypes.c_uint8)]


class KeptWalk(ctypes.Structure):
    """A walk as the library keeps it."""

    _fields_ = [("places", ctypes.c_uint64), ("labels_read", ctypes.c_uint64),
                ("present", KeptPlace), ("before", KeptPlace),
                ("start", ctypes.c_uint16 * MOST_INDICES), ("divisions", ctypes.c_uint16 * MOST_BLOCKS),
                ("sizes", ctypes.c_uint8 * MOST_BLOCKS), ("blocks", ctypes.c_uint8),
                ("carried", ctypes.c_uint8 * MOST_INDICES)]


class Walk(ctypes.Structure):
    """A walk that is lent to the calls below, and behind it what the last of them has answered."""

    _fields_ = [("walk", KeptWalk), ("vertices", ctypes.c_uint64), ("fields", ctypes.c_uint32 * 6),
                ("simplex", ctypes.c_uint16 * SIMPLEX_NUMBERS), ("number", ctypes.c_uint8), ("kind", ctypes.c_uint8),
                ("block", ctypes.c_uint8), ("rule", ctypes.c_uint8), ("map", ctypes.c_uint8)]

    def places(self) -> int:
        """The places so far."""
        return int(self.walk.places)

    def labels_read(self) -> int:
        """The labels read so far."""
        return int(self.walk.labels_read)


def walk_at_start(sizes: Numbers, divisions: Numbers, start: Numbers, labels: Numbers) -> Walk:
    """The walk at its start, with 1 as its places so far and the table's label of the start.

    >>> walk_at_start([2, 2], [1, 1], [1, 0, 1, 0], [2, 2, 2, 4]).places()
    1
    """
    walk = Walk()
    _ask(walk, "walk_at_start", lend("sizes", 8, sizes), lend("divisions", 16, divisions), lend("start", 16, start),
         lend("labels", 8, labels))
    return walk


def move_on(walk: Walk, labels: Numbers) -> int | End:
    """Moves the walk on by one place and tells the rule; at an end tells the end, and the walk stays.

    >>> labels = [2, 2, 2, 4]
    >>> walk = walk_at_start([2, 2], [1, 1], [1, 0, 1, 0], labels)
    >>> [move_on(walk, labels) for _ in range(4)]
    [5, 5, 1, 6]
    >>> move_on(walk, labels)
    End(places=5, labels_read=4, kind='facet', block=1, vertices=[[0, 1, 1, 0]])
    """
    _ask(walk, "move_on", lend("labels", 8, labels))
    return int(walk.rule) or _end(walk)


def preview(walk: Walk, labels: Numbers) -> Move | End:
    """The move that `move_on` would make, or the end that it would tell; the walk stays.

    >>> preview(walk_at_start([2, 2], [1, 1], [1, 0, 1, 0], [2, 2, 2, 4]), [2, 2, 2, 4])
    Move(point_in=2, point_out=None, into_t=4, out_of_t=None, into_u=None, out_of_u=4, rule=5)
    """
    _ask(walk, "preview", lend("labels", 8, labels))
    if not walk.rule:
        return _end(walk)
    named = [number if walk.map >> bit & 1 else None for bit, number in enumerate(walk.fields)]
    return Move._make([*named, walk.rule])


def walk_points(walk: Walk, labels: Numbers) -> list[list[int]]:
    """The points of the present place in rising coefficient sum.

    >>> walk_points(walk_at_start([2, 2], [1, 1], [1, 0, 1, 0], [2, 2, 2, 4]), [2, 2, 2, 4])
    [[1, 0, 1, 0]]
    """
    _ask(walk, "walk_points", lend("labels", 8, labels))
    return _vertices(walk)


def _ask(walk: Walk, name: str, *lent: array[int]) -> None:
    call(name, walk, *lent, answer=None)
    if walk.number:
        raise Refused(walk.number)


def _end(walk: Walk) -> End:
    return End(walk.places(), walk.labels_read(), KINDS[walk.kind], walk.block, _vertices(walk))


def _vertices(walk: Walk) -> list[list[int]]:
    return rows(walk.simplex, walk.vertices, sum(walk.walk.sizes))
