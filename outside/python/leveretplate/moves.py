"""A move from one place to the next: the fields of a trail's record, and the move in words."""

from collections.abc import Iterable, Iterator, Sequence
from typing import NamedTuple

# The bytes of each field of a record, in the order of the bits of its map.
WIDTHS = (2, 2, 1, 1, 1, 1, 1)

RULES = {
    1: "T and U stay",
    2: "{into_u} comes into U",
    3: "{out_of_u} leaves U",
    4: "{into_t} comes into T",
    5: "{into_t} goes from U to T",
    6: "{into_u} goes from T to U",
    7: "{out_of_t} leaves T",
}


class Move(NamedTuple):
    """Table positions of the points that come in and go out, indices into and out of T and U, and the rule.

    A field that the record of the move does not have is None. The record of the start has a point that comes in alone.
    """

    point_in: int | None = None
    point_out: int | None = None
    into_t: int | None = None
    out_of_t: int | None = None
    into_u: int | None = None
    out_of_u: int | None = None
    rule: int | None = None

    def words(self, points: Sequence[Iterable[int]]) -> str:
        """The move in words, over the grid points in the order of the table.

        >>> Move(point_in=1, into_t=2, out_of_u=2, rule=5).words([(0, 1), (1, 0)])
        'rule 5, 2 goes from U to T: 1 0 comes in'
        """
        ways = ((self.point_in, "comes in"), (self.point_out, "goes out"))
        moved = [f"{listed(points[position])} {way}" for position, way in ways if position is not None]
        rule = "the start" if self.rule is None else f"rule {self.rule}, {RULES[self.rule].format(**self._asdict())}"
        return f"{rule}: {', '.join(moved)}"


def listed(numbers: Iterable[int]) -> str:
    """Numbers with a space between; a dash where there is none."""
    return " ".join(map(str, numbers)) or "-"


def records(trail: bytes) -> Iterator[Move]:
    """The records of a trail that a run has written.

    >>> [move.rule for move in records(bytes.fromhex("010300 650200040405"))]
    [None, 5]
    """
    at = 0
    while at < len(trail):
        announced, at = trail[at], at + 1
        fields: list[int | None] = []
        for bit, width in enumerate(WIDTHS):
            there = width if announced >> bit & 1 else 0
            fields.append(int.from_bytes(trail[at:at + there], "little") if there else None)
            at += there
        yield Move(*fields)


def at_start(start: Sequence[int]) -> tuple[set[int], set[int]]:
    """T and U of the start's place: no index, and those at which the start is 0."""
    return set(), {index for index, number in enumerate(start, 1) if number == 0}


def after(move: Move, t: set[int], u: set[int]) -> tuple[set[int], set[int]]:
    """T and U after a move."""
    return _changed(t, move.into_t, move.out_of_t), _changed(u, move.into_u, move.out_of_u)


def _changed(indices: set[int], into: int | None, out: int | None) -> set[int]:
    return {index for index in indices | {into} if index is not None and index != out}
