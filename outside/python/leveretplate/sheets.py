"""Sheets that are brought back: their lines, their vertices, and what they state beside them.

    vertices 2
    1 0
    0 1

A line is one that a sheet has, or the numbers of a vertex, with commas and brackets or without. Nothing else is passed
over, since what cannot be read may be a vertex that is damaged.
"""

import re
from fractions import Fraction
from typing import NamedTuple

from .grids import centre
from .malformed import Malformed

NUMBER = r"[0-9]{1,20}"
NUMBERS = rf"{NUMBER}(?: {NUMBER})*"

# What stands behind each name that a sheet has. A sheet of rounded payoffs says so on a line of its own.
STATED = {"places": NUMBER, "labels read": NUMBER, "bound": NUMBER, "end": "place|facet", "block": NUMBER,
          "vertices": NUMBER, "centre": NUMBERS, "rounded": ".*"}
LINE = re.compile(rf"({'|'.join(STATED)})(?: +(.*))?")

# A point in brackets; a row of points may stand in brackets of its own.
BRACKETED = re.compile(rf"\(([^()\[\]]*)\)|\[([^()\[\]]*)\]")


class Sheet(NamedTuple):
    """The vertices of a sheet, and its other lines, each by its name with its line's number and what it states."""

    vertices: list[list[int]]
    stated: dict[str, tuple[int, str]]

    def false(self, block: int | None, sizes: list[int], divisions: list[int]) -> list[str]:
        """What a sheet states of its vertices that is not so: the first block for which they are complete, the centre.

        >>> read("block 2" + chr(10) + "1 0" + chr(10) + "centre 1 0", 2).false(1, [2], [1])
        ['line 1 says block 2', 'line 3 says centre 1 0, and the mean of the vertices is 10000 0']
        """
        said: list[str] = []
        at, stated = self.stated.get("block", (0, None))
        if block is not None and stated not in (None, str(block)):
            said.append(f"line {at} says block {stated}")
        at, stated = self.stated.get("centre", (0, None))
        mean = " ".join(map(str, rounded(centre(sizes, divisions, self.vertices))))
        if stated not in (None, mean):
            said.append(f"line {at} says centre {stated}, and the mean of the vertices is {mean}")
        return said

    def of_the_path(self) -> list[str]:
        """The lines that a check of the vertices says nothing of, since they are about the path or the grid."""
        return [name for name in ("places", "labels read", "bound", "end") if name in self.stated]


def rounded(numbers: list[Fraction]) -> list[int]:
    """Numbers in ten-thousandths, to the nearest whole one and at exactly half to the even one, as a sheet has them.

    >>> rounded([Fraction(1, 20000), Fraction(3, 20000), Fraction(1, 3)])
    [0, 2, 3333]
    """
    return [round(10_000 * number) for number in numbers]


def read(sheet: str, m: int) -> Sheet:
    """A sheet of vertices with m numbers each, or nothing but such vertices.

    >>> read("(1, 0)" + chr(10) + "0,1", 2).vertices
    [[1, 0], [0, 1]]
    >>> read("vertices 1" + chr(10) + "0 O", 2)
    Traceback (most recent call last):
    leveretplate.malformed.Malformed: line 2: '0 O' is no line of a sheet and no vertex
    """
    rows: list[list[int]] = []
    stated: dict[str, tuple[int, str]] = {}
    for at, line in enumerate(sheet.splitlines(), 1):
        line = " ".join(line.split())
        if not line:
            continue
        found = LINE.fullmatch(line)
        if not found:
            rows += vertices(at, line, m)
            continue
        name, value = found[1], found[2] or ""
        if name in stated:
            raise Malformed(f"a second line {name}", at)
        if not re.fullmatch(STATED[name], value):
            raise Malformed(f"{line[:40]!r} is no line of a sheet and no vertex", at)
        stated[name] = at, value
    at, count = stated.get("vertices", (0, str(len(rows))))
    if int(count) != len(rows):
        raise Malformed(f"vertices {count} are announced, and there are {len(rows)}", at)
    return Sheet(rows, stated)


def points(line: str) -> list[list[int]] | None:
    """The points of a line, each in brackets, or one without; None where it has anything but such points.

    >>> points("(1 0) (0 1)"), points("[[1, 0], [0, 1]]"), points("1, 0"), points("1 0 x")
    ([[1, 0], [0, 1]], [[1, 0], [0, 1]], [[1, 0]], None)
    """
    groups = [first or second for first, second in BRACKETED.findall(line)] or [line]
    around = re.sub(r"[,\s]", "", BRACKETED.sub("", line)) if BRACKETED.search(line) else ""
    items = [group.replace(",", " ").split() for group in groups]
    if around not in ("", "[]", "()") or not all(re.fullmatch(NUMBER, item) for row in items for item in row):
        return None
    return [[int(item) for item in row] for row in items]


def vertices(at: int, line: str, m: int) -> list[list[int]]:
    """The points of line `at`, m numbers each."""
    found = points(line)
    if found is None:
        raise Malformed(f"{line[:40]!r} is no line of a sheet and no vertex", at)
    for row in found:
        if len(row) != m:
            raise Malformed(f"a vertex needs {m} numbers, and here are {len(row)}", at)
    return found
