"""The games of samples/textbook on the last grid of a refinement, from divisions of 1 by doubling and to the finest.

    python3 -m tests.textbook

Distances are those from the centre of the end to the nearest equilibrium that lrsnash lists, or between two that share
a player's mix, as the largest difference of a weight; gains are the largest that a player still has at the centre, in
payoffs. Payoffs that have no exact losses are refused from divisions of 1 and rounded to the finest.
"""

import pathlib
import tempfile
from fractions import Fraction
from typing import NamedTuple

from leveretplate import gambit, refine
from leveretplate.games import largest_gain
from leveretplate.grids import centre, corner
from leveretplate.malformed import Malformed
from leveretplate.refining import aligned, decimal, most_levels, to_finest
from leveretplate.slips import Slip

from .commands import SAMPLES
from .peers import Mix, distance, lrsnash, nearest_between

GAMES = sorted((SAMPLES / "textbook").iterdir())
HEADINGS = ("game", "sizes", "division", "distance", "gain", "division", "distance", "gain")


class Found(NamedTuple):
    """The division of the last grid, the centre of its end, and the largest gain there, in payoffs."""

    division: int
    middle: Mix
    gain: Fraction


def found(game: gambit.Game, finest: bool) -> Found:
    """What a refinement finds, from divisions of 1 by doubling or to the finest grid."""
    losses = game.losses(rounding=finest).losses
    players = len(game.sizes)
    slip = Slip(game.sizes, [1] * players, losses=losses)
    first, factor, levels = to_finest(game.sizes) if finest else (1, 2, most_levels(slip, 2))
    ends = refine(game.sizes, [first] * players, corner(game.sizes, [first] * players), losses, factor, levels).ends
    division = first * factor ** (levels - 1)
    middle = centre(game.sizes, [division] * players, ends[-1].vertices)
    return Found(division, middle, largest_gain(game.sizes, game.missed(), middle).amount)


def distance_to_equilibrium(game: gambit.Game, middle: Mix, folder: str) -> Fraction | None:
    """The distance to the nearest equilibrium of a game of two players."""
    if len(game.sizes) != 2:
        return None
    rows, columns = map(range, game.sizes)
    matrices = [[[game.payoffs[row, column][player] for column in columns] for row in rows] for player in range(2)]
    equilibria = lrsnash(matrices, folder)
    listed = min(distance(middle, equilibrium) for equilibrium in equilibria)
    return min(listed, nearest_between(game.sizes, middle, equilibria))


def columns(game: gambit.Game, finest: bool, folder: str) -> tuple[str, str, str]:
    """The division, the distance and the gain, as the table has them."""
    try:
        last = found(game, finest)
    except Malformed:
        return "refused", "-", "-"
    far = distance_to_equilibrium(game, last.middle, folder)
    return str(last.division), "-" if far is None else decimal(far), decimal(last.gain)


def row(path: pathlib.Path, folder: str) -> tuple[str, ...]:
    """The row of a game; a star marks payoffs that are rounded to the finest grid."""
    game = gambit.read(path.read_text())
    star = " *" if game.losses(rounding=True).error else ""
    sizes = " ".join(map(str, game.sizes))
    return game.title + star, sizes, *columns(game, False, folder), *columns(game, True, folder)


def table() -> str:
    """The table of all games."""
    with tempfile.TemporaryDirectory() as folder:
        return aligned([HEADINGS, *(row(path, folder) for path in GAMES)])


if __name__ == "__main__":
    print(table(), end="")
