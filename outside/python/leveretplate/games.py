"""Games: the three that are built in, and what a player gains by leaving a mix."""

from collections.abc import Sequence
from dataclasses import dataclass
from fractions import Fraction
from itertools import product
from math import prod

from .grids import split

# Losses in document 01's order; fractions too, where nothing is lent to the library.
Losses = Sequence[int] | Sequence[Fraction]

# The sizes and losses of each game, from the appendix of the 1987 paper.
BUILT_IN: dict[int, tuple[list[int], list[int]]] = {
    1: ([2, 2, 2], [
        1, 2, 8, 5, 8, 8, 2, 2, 4, 2, 2, 1, 2, 6, 1, 3, 4, 1, 4, 2, 8, 8, 2, 1]),
    2: ([3, 3, 3], [
        2, 3, 4, 2, 3, 3, 4, 1, 5, 1, 1, 4, 3, 4, 1, 6, 8, 2, 4, 7, 2, 4, 5, 5, 3, 6, 4, 5, 6, 7, 4, 8, 9, 3, 5, 1, 1,
        1, 3, 3, 2, 1, 2, 2, 4, 2, 3, 6, 5, 3, 6, 7, 5, 8, 1, 3, 5, 1, 6, 2, 1, 2, 4, 2, 6, 5, 3, 3, 7, 8, 5, 5, 5, 2,
        2, 4, 6, 5, 8, 1, 3]),
    3: ([2, 2, 2, 2], [
        3, 3, 4, 2, 3, 3, 4, 1, 4, 1, 4, 3, 1, 1, 6, 8, 4, 6, 2, 4, 5, 3, 3, 6, 5, 2, 7, 4, 8, 6, 3, 5, 1, 6, 3, 3, 3,
        3, 3, 2, 2, 2, 6, 5, 4, 6, 1, 5, 6, 3, 5, 1, 3, 2, 3, 2, 2, 6, 5, 3, 4, 7, 1, 5]),
}


@dataclass(frozen=True)
class Gain:
    """How much less a player loses, at most, by another strategy: the amount, the player and the index, from 1."""

    amount: Fraction
    player: int
    index: int


def largest_gain(sizes: Sequence[int], losses: Losses, mix: Sequence[Fraction]) -> Gain:
    """The largest gain that any player still has at a mix, the one with the first index of equal ones.

    Document 01 works out the differences 0, -7, 0, 2, 0, -4 at this point of game 1.

    >>> differences(*BUILT_IN[1], [1, 0, 1, 0, 1, 0])
    [0, -7, 0, 2, 0, -4]
    >>> largest_gain(*BUILT_IN[1], [1, 0, 1, 0, 1, 0])
    Gain(amount=2, player=2, index=4)
    """
    gains = differences(sizes, losses, mix)
    index = max(range(len(gains)), key=gains.__getitem__)
    player = next(count for count in range(1, len(sizes) + 1) if index < sum(sizes[:count]))
    return Gain(gains[index], player, index + 1)


def differences(sizes: Sequence[int], losses: Losses, mix: Sequence[Fraction]) -> list[Fraction]:
    """For each index its player's expected loss less the loss if that strategy replaces the mix."""
    mixes, profiles = split(sizes, mix), prod(sizes)
    gains: list[Fraction] = []
    for player, own in enumerate(mixes):
        weights = [prod(weight) for weight in product(*mixes[:player], *mixes[player + 1:])]
        table = losses[player * profiles:(player + 1) * profiles]
        instead = [sum(weight * loss for weight, loss in zip(weights, table[first:]))
                   for first in range(0, profiles, len(weights))]
        expected = sum(share * loss for share, loss in zip(own, instead))
        gains += [expected - loss for loss in instead]
    return gains
