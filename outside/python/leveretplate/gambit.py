"""Gambit's files of games in strategic form (.nfg), by payoffs or by outcomes, and their losses.

    NFG 1 R "Matching pennies" { "Row" "Column" } { 2 2 }
    1 -1 -1 1 -1 1 1 -1

The library wants losses, whole numbers from 1 to 1,000. A label depends on what a player gains by another strategy
against the same strategies of the opponents, and on nothing else. So the map is

    loss = 1 + (largest payoff of the player against these opponents' strategies - payoff) / unit

with the largest unit that makes all of these whole. It is one unit for all players, so that the gains of different
players stay comparable: every label is that of the payoffs. A larger unit leaves fractions and a smaller one makes
larger losses, so where a loss is beyond 1,000 there is no such map, and the game is refused, or, where this is asked
for, its losses are rounded to the unit of which the largest difference has 999.
"""

import re
from dataclasses import dataclass
from fractions import Fraction
from itertools import product
from math import gcd, lcm, prod
from typing import NamedTuple

from .malformed import Malformed

MOST_UNITS = 999

# A text in quotes, a brace, a word, or a quote that is never closed. Commas separate as spaces do.
TOKEN = re.compile(r'"(?:\\.|[^"\\])*"|[{}]|[^\s,"{}]+|"', re.DOTALL)
TEXT = r'".*"'
COUNT = r"[0-9]{1,9}"
PAYOFF = r"[+-]?(?:[0-9]{1,30}/0*[1-9][0-9]{0,29}|(?:[0-9]{1,30}\.?[0-9]{0,30}|\.[0-9]{1,30})(?:[eE][+-]?[0-9]{1,2})?)"

Profile = tuple[int, ...]


class Losses(NamedTuple):
    """A game's losses in document 01's order, the unit of their map, and how far one of them is off, in payoffs."""

    losses: list[int]
    unit: Fraction
    error: Fraction = Fraction(0)

    def map(self) -> str:
        """The map from payoffs to these losses, in words."""
        return ("loss = 1 + (largest payoff of the player against these opponents' strategies - payoff) / "
                f"({self.unit})" + (f", {self.rounding()}" if self.error else ""))

    def rounding(self) -> str:
        """How the payoffs were rounded, in words.

        >>> Losses([1, 1000], Fraction(1, 999), Fraction(1, 3000)).rounding()
        'rounded to units of 1/999; the largest error in payoffs is 1/3000, some 0.00033'
        """
        return (f"rounded to units of {self.unit}; the largest error in payoffs is {self.error}, "
                f"some {float(self.error):.2g}")


@dataclass
class Game:
    """A game by its title, the names of its players and strategies, their numbers, and each profile's payoffs."""

    title: str
    players: list[str]
    strategies: list[list[str]]
    sizes: list[int]
    payoffs: dict[Profile, list[Fraction]]

    def losses(self, rounding: bool = False) -> Losses:
        """The losses of the payoffs, by the map of this module, rounded where that is asked for and needed.

        >>> read('NFG 1 R "Pennies" { "Row" "Column" } { 2 2 } 1 -1 -1 1 -1 1 1 -1').losses()
        Losses(losses=[1, 2, 2, 1, 2, 1, 1, 2], unit=Fraction(2, 1), error=Fraction(0, 1))
        >>> read('NFG 1 R "Fine" { "Row" "Column" } { 3 1 } 0 0 0.5001 0 1 0').losses(rounding=True).losses
        [1000, 500, 1, 1, 1, 1]
        """
        missed = self.missed()
        unit, most = _unit(missed), max(missed)
        if most <= MOST_UNITS * unit:
            return Losses([1 + int(difference / unit) for difference in missed], unit)
        if not rounding:
            raise Malformed(f"these payoffs have no exact losses from 1 to {1 + MOST_UNITS:,}: {unit} is the "
                            f"largest unit of a player's differences against the same opponents' strategies, and in it "
                            f"losses go up to {1 + most / unit}; --round rounds them")
        unit = most / MOST_UNITS
        units = [round(difference / unit) for difference in missed]
        error = max(abs(count * unit - difference) for count, difference in zip(units, missed))
        return Losses([1 + count for count in units], unit, error)

    def missed(self) -> list[Fraction]:
        """What each payoff lacks to the player's largest against the same opponents' strategies, in order of losses.

        These are exact losses, but for their range: what a player gains by another strategy is the same in both.

        >>> [str(loss) for loss in read('NFG 1 R "" { "Row" "Column" } { 2 2 } 1 0 0.5 1/3 9 0 9 1').missed()]
        ['0', '0', '1/2', '0', '0', '2/3', '0', '0']
        """
        made: list[Fraction] = []
        for player in range(len(self.sizes)):
            most: dict[Profile, Fraction] = {}
            for profile, payoffs in self.payoffs.items():
                others = profile[:player] + profile[player + 1:]
                most[others] = max(payoffs[player], most.get(others, payoffs[player]))
            made += [most[profile[:player] + profile[player + 1:]] - self.payoffs[profile][player]
                     for profile in self._own_first(player)]
        return made

    def _own_first(self, player: int) -> list[Profile]:
        """The profiles by the player's own strategy, then by those of the opponents in lexicographic order."""
        return sorted(self.payoffs, key=lambda profile: (profile[player], profile))


def read(text: str) -> Game:
    """The game of a Gambit file.

    >>> read('NFG 1 R "Half" { "Row" "Column" } { { "up" "down" } { "left" } } { { "" 1/2, 0.25 } } 1 0').payoffs
    {(0, 0): [Fraction(1, 2), Fraction(1, 4)], (1, 0): [Fraction(0, 1), Fraction(0, 1)]}
    >>> read('NFG 1 R "Half" { "Row" "Column" } { 2 2 } 1 2 3')
    Traceback (most recent call last):
    leveretplate.malformed.Malformed: payoffs: 8 are needed, and there are 3
    """
    tokens = _Tokens(text)
    for word in ("(?i:NFG)", "1", "(?i:[RD])"):
        tokens.take(word, "NFG 1 R, with which a game in strategic form begins,")
    title = _unquoted(tokens.take(TEXT, "the title"))
    players = [_unquoted(name) for name in tokens.braced(TEXT, "a player's name")]
    strategies = _strategies(tokens)
    sizes = [told if isinstance(told, int) else len(told) for told in strategies]
    if not players or len(players) != len(sizes) or 0 in sizes:
        raise Malformed(f"{len(players)} players with {' '.join(map(str, sizes)) or 'no'} strategies are no game")
    if tokens.next().startswith('"'):
        tokens.take(TEXT, "the comment")
    rows = _rows_of_outcomes(tokens, sizes) if tokens.next() == "{" else _rows_of_payoffs(tokens, sizes)
    # A file's profiles have the first player's strategy change first.
    profiles = (profile[::-1] for profile in product(*map(range, reversed(sizes))))
    names = [[str(number + 1) for number in range(told)] if isinstance(told, int) else told for told in strategies]
    return Game(title, players, names, sizes, dict(zip(profiles, rows)))


class _Tokens:
    """What is left to read of a file, token by token, each with its line."""

    def __init__(self, text: str):
        self.left: list[tuple[str, int]] = []
        line, seen = 1, 0
        for match in TOKEN.finditer(text):
            line, seen = line + text.count("\n", seen, match.start()), match.start()
            self.left.append((match[0], line))
        self.left.reverse()

    def next(self) -> str:
        return self.left[-1][0] if self.left else ""

    def take(self, pattern: str, what: str) -> str:
        if not self.left:
            raise Malformed(f"the file ends where {what} should stand")
        token, line = self.left.pop()
        if token == '"':
            raise Malformed("a quote is never closed", line)
        if not re.fullmatch(pattern, token, re.DOTALL):
            raise Malformed(f"{what} should stand here, not {token[:30]!r}", line)
        return token

    def braced(self, pattern: str, what: str) -> list[str]:
        self.take("{", "a brace")
        taken = []
        while self.next() != "}":
            taken.append(self.take(pattern, what))
        self.left.pop()
        return taken

    def rest(self, count: int, pattern: str, what: str) -> list[str]:
        if len(self.left) != count:
            raise Malformed(f"{what}s: {count} are needed, and there are {len(self.left)}")
        return [self.take(pattern, f"an {what}" if what[0] in "aeiou" else f"a {what}") for _ in range(count)]


def _strategies(tokens: _Tokens) -> list[list[str] | int]:
    """The names of each player's strategies, or where there are none their number."""
    tokens.take("{", "a brace")
    strategies: list[list[str] | int] = []
    while tokens.next() != "}":
        if tokens.next() == "{":
            strategies.append([_unquoted(name) for name in tokens.braced(TEXT, "a strategy's name")])
        else:
            strategies.append(int(tokens.take(COUNT, "a number of strategies")))
    tokens.take("}", "a brace")
    return strategies


def _rows_of_payoffs(tokens: _Tokens, sizes: list[int]) -> list[list[Fraction]]:
    players = len(sizes)
    payoffs = [Fraction(payoff) for payoff in tokens.rest(players * prod(sizes), PAYOFF, "payoff")]
    return [payoffs[first:first + players] for first in range(0, len(payoffs), players)]


def _rows_of_outcomes(tokens: _Tokens, sizes: list[int]) -> list[list[Fraction]]:
    """The payoffs of each profile's outcome; outcome 0 is the one that pays nothing."""
    outcomes = [[Fraction(0) for _ in sizes]]
    tokens.take("{", "a brace")
    while tokens.next() != "}":
        tokens.take("{", "the brace before an outcome")
        tokens.take(TEXT, "an outcome's name")
        outcomes.append([Fraction(tokens.take(PAYOFF, "an outcome's payoff")) for _ in sizes])
        tokens.take("}", "the brace behind an outcome")
    tokens.take("}", "a brace")
    chosen = [int(number) for number in tokens.rest(prod(sizes), COUNT, "outcome number")]
    if max(chosen) >= len(outcomes):
        raise Malformed(f"outcome {max(chosen)} is named, and there are {len(outcomes) - 1}")
    return [outcomes[number] for number in chosen]


def _unquoted(text: str) -> str:
    return re.sub(r"\\(.)", r"\1", text[1:-1], flags=re.DOTALL)


def _unit(numbers: list[Fraction]) -> Fraction:
    """The largest number of which all these are whole multiples; 1 if all are 0."""
    scale = lcm(*(number.denominator for number in numbers))
    return Fraction(gcd(*(int(number * scale) for number in numbers)), scale) or Fraction(1)
