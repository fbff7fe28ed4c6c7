"""Trails in words, move by move: that of a path, and one that is brought as bytes."""

from collections.abc import Iterator, Sequence

from .calls import End, Place, read_trail, run_with_trail
from .grids import grid_points
from .malformed import Malformed
from .moves import Move, after, at_start, listed, records
from .questions import Refused
from .slips import Slip

Points = Sequence[Sequence[int]]


def written(slip: Slip) -> tuple[End, bytes]:
    """The end of a slip's path, and the bytes of its trail."""
    return run_with_trail(slip.sizes, slip.divisions, slip.first(), slip.label_table(), slip.limit())


def lines(slip: Slip) -> Iterator[str]:
    """A line for each place with the move that led there, T and U, and a line for the end.

    >>> for line in lines(Slip([2, 2], [1, 1], labels=[2, 2, 2, 4])):
    ...     print(line)
    place 1: the start: 1 0 1 0 comes in; T -, U 2 4
    place 2: rule 5, 4 goes from U to T: 1 0 0 1 comes in; T 4, U 2
    place 3: rule 5, 2 goes from U to T: 0 1 0 1 comes in; T 2 4, U -
    place 4: rule 1, T and U stay: 0 1 1 0 comes in, 1 0 0 1 goes out; T 2 4, U -
    place 5: rule 6, 4 goes from T to U: 0 1 0 1 goes out; T 2, U 4
    end: facet, block 1: 0 1 1 0
    """
    end, trail = written(slip)
    yield from _places(slip, list(records(trail)))
    yield f"end: {end.kind}, block {end.block}: {', '.join(map(listed, end.vertices))}"


def read_lines(slip: Slip, trail: bytes) -> Iterator[str]:
    """A line for each place of a trail that was brought, up to the first record that the library refuses.

    The library reads all records up to one, and what it reads up to one it reads up to each before it, so the last that
    it reads is found by halving.
    """
    brought = list(records(trail))
    good, bad = 0, len(brought) + 1
    while bad - good > 1:
        middle = (good + bad) // 2
        if _reads(slip, trail, middle):
            good = middle
        else:
            bad = middle
    yield from _places(slip, brought[:good])
    if good < len(brought) or not good:
        yield f"record {good + 1} is refused"
        raise Refused(17)


def record_lines(slip: Slip, trail: bytes, record: int) -> Iterator[str]:
    """The place at a record of a trail that was brought, as the library rebuilds it.

    >>> trail = bytes.fromhex("010300 650200040405")
    >>> for line in record_lines(Slip([2, 2], [1, 1], labels=[2, 2, 2, 4]), trail, 2):
    ...     print(line)
    record 2: rule 5, 4 goes from U to T: 1 0 0 1 comes in
    points 2
    1 0 1 0
    1 0 0 1
    T 4
    U 2
    labels read 2
    """
    place = _read(slip, trail, record)
    move = list(records(trail))[record - 1]
    yield f"record {record}: {move.words(list(grid_points(slip.sizes, slip.divisions)))}"
    yield f"points {len(place.points)}"
    yield from map(listed, place.points)
    yield from (f"T {listed(place.t)}", f"U {listed(place.u)}", f"labels read {place.labels_read}")


def of_text(trail: bytes) -> bytes:
    """The bytes of a trail, also where they are written in hex, with spaces and line ends between them.

    >>> of_text(b"01 03 00 65" + bytes([10]) + b"02 00"), of_text(bytes([1, 3, 0]))
    (b'\\x01\\x03\\x00e\\x02\\x00', b'\\x01\\x03\\x00')
    """
    # The first record of a trail begins with a byte 1, which no text has.
    if trail[:1] == b"\1":
        return trail
    try:
        return bytes.fromhex(trail.decode("ascii"))
    except ValueError:
        raise Malformed("this is no trail, as bytes or in hex") from None


def _places(slip: Slip, moves: Sequence[Move]) -> Iterator[str]:
    points = list(grid_points(slip.sizes, slip.divisions))
    t, u = at_start(slip.first())
    for place, move in enumerate(moves, 1):
        t, u = after(move, t, u)
        yield f"place {place}: {move.words(points)}; T {listed(sorted(t))}, U {listed(sorted(u))}"


def _read(slip: Slip, trail: bytes, record: int) -> Place:
    return read_trail(slip.sizes, slip.divisions, slip.first(), trail, record)


def _reads(slip: Slip, trail: bytes, record: int) -> bool:
    try:
        _read(slip, trail, record)
    except Refused as refusal:
        if refusal.number != 17:
            raise
        return False
    return True
