"""Refinements of random two-player games beside the equilibria that lrsnash, of Debian's package lrslib, finds.

For the centre of each level's end the distance to the nearest extreme equilibrium is measured, as the largest
difference of a coordinate. A path ends where no player gains much, so what holds of every game is a bound on the gain.
The distance follows it, except in two kinds of games, which are counted:

- between: lrsnash lists the corners of a connected set of equilibria, and the end is near a point between two of them;
- flat: a small gain is no sign of an equilibrium nearby, since payoffs differ by little, and the grid, at most 60,000
  points, ends too coarse to tell.
"""

import random
import statistics
import tempfile
import unittest
from collections import Counter, defaultdict
from fractions import Fraction
from typing import NamedTuple

from leveretplate import gambit, refine
from leveretplate.games import largest_gain
from leveretplate.grids import centre, corner
from leveretplate.progress import shown
from leveretplate.refining import aligned, most_levels
from leveretplate.slips import Slip

from .peers import Matrix, Mix, distance, lrsnash, nearest_between

GAMES = 400
SEED = 30

# An end is near an equilibrium within this many steps of its grid.
NEAR = 3


def random_matrices(choose: random.Random, most_payoff: int) -> list[Matrix]:
    """The payoffs of the row player and of the column player."""
    rows, columns = range(choose.randint(2, 4)), range(choose.randint(2, 4))
    return [[[choose.randint(0, most_payoff) for _ in columns] for _ in rows] for _ in range(2)]


def as_gambit(matrices: list[Matrix]) -> str:
    """A Gambit file of a game, in which the row changes first."""
    rows, columns = len(matrices[0]), len(matrices[0][0])
    payoffs = [str(matrix[row][column]) for column in range(columns) for row in range(rows) for matrix in matrices]
    return f'NFG 1 R "Random" {{ "Row" "Column" }} {{ {rows} {columns} }} {" ".join(payoffs)}'


def gain_bound(game: gambit.Game, division: int) -> Fraction:
    """A gain that no centre of an end exceeds.

    Coordinates of two vertices of an end differ by one step at most, so a mix of s strategies moves by at most half of
    s steps of weight. A player's gain then changes by at most `change` steps times the range of the payoffs. Every
    index of the end's block is played nowhere in the simplex or has the largest gain at one of its vertices, and the
    gains of a block, weighed by the mix, add up to 0: so the largest is at most twice the change.
    """
    row, column = (size // 2 for size in game.sizes)
    change = max(row + 2 * column, column + 2 * row)
    widest: Fraction = max(max(payoffs) - min(payoffs) for payoffs in zip(*game.payoffs.values()))
    return Fraction(2 * change, division) * widest


class Level(NamedTuple):
    """A level's division, the centre of its end, and the largest gain there, in payoffs."""

    division: int
    middle: Mix
    gain: Fraction


def levels(game: gambit.Game) -> list[Level]:
    losses = game.losses().losses
    count = most_levels(Slip(game.sizes, [1, 1], losses=losses), 2)
    found = []
    for level, end in enumerate(refine(game.sizes, [1, 1], corner(game.sizes, [1, 1]), losses, 2, count).ends):
        middle = centre(game.sizes, [2 ** level] * 2, end.vertices)
        found.append(Level(2 ** level, middle, largest_gain(game.sizes, game.missed(), middle).amount))
    return found


def kind(game: gambit.Game, last: Level, equilibria: list[Mix]) -> str:
    reach = Fraction(NEAR, last.division)
    if min(distance(last.middle, equilibrium) for equilibrium in equilibria) <= reach:
        return "near"
    return "between" if nearest_between(game.sizes, last.middle, equilibria) <= reach else "flat"


class Peers(unittest.TestCase):
    def compare(self, most_payoff: int) -> tuple[dict[int, float], Counter[str]]:
        """The median distance on each division, and how many games agree, or why not; both are printed."""
        distances: dict[int, list[Fraction]] = defaultdict(list)
        gains: dict[int, list[Fraction]] = defaultdict(list)
        kinds: Counter[str] = Counter()
        choose = random.Random(SEED)
        with tempfile.TemporaryDirectory() as folder:
            for _ in shown(range(GAMES), "games compared:"):
                matrices = random_matrices(choose, most_payoff)
                game, equilibria = gambit.read(as_gambit(matrices)), lrsnash(matrices, folder)
                losses = game.losses().losses
                self.assertEqual({largest_gain(game.sizes, losses, mix).amount for mix in equilibria}, {0})
                for division, middle, gain in (found := levels(game)):
                    self.assertLessEqual(gain, gain_bound(game, division))
                    distances[division].append(min(distance(middle, equilibrium) for equilibrium in equilibria))
                    gains[division].append(gain)
                kinds[kind(game, found[-1], equilibria)] += 1
        print(f"\n{GAMES} games with payoffs from 0 to {most_payoff}; on the last grid {dict(kinds)}")
        headings = ("division", "games", "median distance", "nine tenths within", "median gain", "largest gain")
        table: list[tuple[str, ...]] = [headings]
        for division in distances:
            far = sorted(map(float, distances[division]))
            near = (statistics.median(far), far[len(far) * 9 // 10])
            gained = (statistics.median(gains[division]), max(gains[division]))
            figures = [f"{number:.4f}" for number in near] + [f"{float(number):.3f}" for number in gained]
            table.append((str(division), str(len(far)), *figures))
        print(aligned(table), end="")
        return {division: float(statistics.median(far)) for division, far in distances.items()}, kinds

    def test_many_payoffs(self) -> None:
        medians, kinds = self.compare(most_payoff=99)
        self.assertEqual(sorted(medians.values(), reverse=True), list(medians.values()))
        self.assertLess(medians[128], medians[1] / 64)
        self.assertGreater(kinds["near"], GAMES * 9 / 10)

    def test_few_payoffs(self) -> None:
        medians, kinds = self.compare(most_payoff=3)
        self.assertEqual(sorted(medians.values(), reverse=True), list(medians.values()))
        self.assertGreater(kinds["near"] + kinds["between"], GAMES * 9 / 10)
