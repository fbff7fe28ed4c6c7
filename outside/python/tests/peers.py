"""The equilibria of two-player games that lrsnash, of Debian's package lrslib, finds, and distances to them."""

import pathlib
import subprocess
from collections.abc import Sequence
from fractions import Fraction
from itertools import combinations

from leveretplate.grids import split

# Points looked at between two equilibria.
BETWEEN = 400

Mix = list[Fraction]
Matrix = Sequence[Sequence[int]] | Sequence[Sequence[Fraction]]


def as_lrsnash(matrices: Sequence[Matrix]) -> str:
    """The same game as lrsnash reads it."""
    paragraphs = ["\n".join(" ".join(map(str, row)) for row in matrix) for matrix in matrices]
    return f"{len(matrices[0])} {len(matrices[0][0])}\n\n" + "\n\n".join(paragraphs) + "\n"


def lrsnash(matrices: Sequence[Matrix], folder: str) -> list[Mix]:
    """The extreme equilibria: each line 1 is a mix of the row player, which goes with each line 2 of its paragraph."""
    path = pathlib.Path(folder, "game")
    path.write_text(as_lrsnash(matrices))
    printed = subprocess.run(["lrsnash", str(path)], capture_output=True, text=True, check=True, timeout=60).stdout
    found: list[Mix] = []
    for paragraph in printed.split("\n\n"):
        lines = [line.split() for line in paragraph.splitlines() if line[:2] in ("1 ", "2 ")]
        rows, columns = ([[*map(Fraction, line[1:-1])] for line in lines if line[0] == player] for player in "12")
        found += [row + column for row in rows for column in columns]
    return found


def distance(a: Mix, b: Mix) -> Fraction:
    return max(abs(x - y) for x, y in zip(a, b))


def nearest_between(sizes: list[int], point: Mix, equilibria: list[Mix]) -> Fraction:
    """The distance to points between two equilibria that share a player's mix; these are equilibria too."""
    pairs = [(a, b) for a, b in combinations(equilibria, 2)
             if any(x == y for x, y in zip(split(sizes, a), split(sizes, b)))]
    parts = [Fraction(part, BETWEEN) for part in range(BETWEEN)]
    between = ([x + part * (y - x) for x, y in zip(a, b)] for a, b in pairs for part in parts)
    return min((distance(point, other) for other in between), default=Fraction(1))
