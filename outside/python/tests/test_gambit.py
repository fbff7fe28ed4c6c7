"""A Gambit file's payoffs beside document 01's losses: their order, their labels, and those that have to be rounded."""

import pathlib
import random
import tempfile
import unittest
from fractions import Fraction
from itertools import product

from leveretplate import gambit, label
from leveretplate.games import differences
from leveretplate.grids import grid_points

from .commands import command

SIZES = 2, 3, 4


def missed(player: int, *profile: int) -> int:
    """What a player misses: nothing by the last strategy, else a number that tells the player and the profile."""
    a, b, c = profile
    return 0 if profile[player] == SIZES[player] - 1 else 1 + 200 * player + 100 * a + 10 * b + c


def payoff(player: int, *profile: int) -> int:
    """A payoff that has in it, besides, what the opponents alone decide."""
    return 10_000 * sum(profile[:player] + profile[player + 1:]) - missed(player, *profile)


class Order(unittest.TestCase):
    def setUp(self) -> None:
        first, second, third = map(range, SIZES)
        told = [payoff(player, a, b, c) for c in third for b in second for a in first for player in range(3)]
        self.heading = 'NFG 1 R "Told apart" { "1" "2" "3" } { 2 3 4 }'
        self.by_payoffs = f"{self.heading} {' '.join(map(str, told))}"

    def test_losses(self) -> None:
        a, b, c = map(range, SIZES)
        own_first = ([(i, j, k) for i, j, k in product(a, b, c)],
                     [(i, j, k) for j, i, k in product(b, a, c)],
                     [(i, j, k) for k, i, j in product(c, a, b)])
        expected = [1 + missed(player, *profile) for player, profiles in enumerate(own_first) for profile in profiles]
        self.assertEqual(gambit.read(self.by_payoffs).losses(), gambit.Losses(expected, Fraction(1)))

    def test_outcomes(self) -> None:
        first, second, third = map(range, SIZES)
        profiles = [(a, b, c) for c in third for b in second for a in first]
        outcomes = " ".join(f'{{ "" {payoff(0, *at)}, {payoff(1, *at)}, {payoff(2, *at)} }}' for at in profiles)
        numbers = " ".join(str(number + 1) for number in range(len(profiles)))
        by_outcomes = f"{self.heading} {{ {outcomes} }} {numbers}"
        self.assertEqual(gambit.read(by_outcomes).payoffs, gambit.read(self.by_payoffs).payoffs)


FOUR_DECIMALS = b'''NFG 1 D "Four decimals" { "Row" "Column" } { 2 3 }
1.2345 0.5000 -0.7071 3.1416 2.7183 1.4142 0.5772 1.6180 0.6931 -1.0000 3.3333 0.0001
'''
ROUNDED = b"rounded to units of 6283/1998000; the largest error in payoffs is 15511/9990000, some 0.0016"


class Labels(unittest.TestCase):
    def test_labels_are_those_of_the_payoffs(self) -> None:
        """Random payoffs with a part for each player that the opponents alone decide, however large it is."""
        choose = random.Random(45)
        for _ in range(60):
            sizes = choose.choice(([2, 2], [3, 2], [2, 4], [2, 2, 2], [3, 2, 2]))
            profiles = [profile[::-1] for profile in product(*map(range, reversed(sizes)))]
            of_others: dict[tuple[int, ...], Fraction] = {}
            payoffs: list[str] = []
            for profile in profiles:
                for player in range(len(sizes)):
                    others = (player, *profile[:player], -1, *profile[player + 1:])
                    part = of_others.setdefault(others, Fraction(choose.randint(-10 ** 9, 10 ** 9), 7))
                    payoffs.append(str(part + Fraction(choose.randint(-400, 400), 4)))
            names = " ".join('"P"' for _ in sizes)
            game = gambit.read(f'NFG 1 R "Random" {{ {names} }} {{ {" ".join(map(str, sizes))} }} {" ".join(payoffs)}')
            divisions = [choose.randint(1, 4) for _ in sizes]
            exact = [-game.payoffs[profile][player] for player in range(len(sizes))
                     for profile in sorted(profiles, key=lambda profile: (profile[player], profile))]
            points = grid_points(sizes, divisions)
            scales = [d for s, d in zip(sizes, divisions) for _ in range(s)]
            expected = []
            for point in points:
                gains = differences(sizes, exact, [Fraction(*pair) for pair in zip(point, scales)])
                expected.append(1 + gains.index(max(gains)))
            self.assertEqual(label(sizes, divisions, game.losses().losses), expected)

    def test_refused_only_beyond_999_units(self) -> None:
        for most, accepted in ((999, True), (1000, False)):
            game = gambit.read(f'NFG 1 R "" {{ "A" "B" }} {{ 3 1 }} 0 5 {most} 5000000 1 0')
            if accepted:
                self.assertEqual(game.losses().losses, [1000, 1, 999, 1, 1, 1])
            else:
                self.assertRaisesRegex(ValueError, "losses go up to 1001; --round rounds them", game.losses)

    def test_rounded_losses(self) -> None:
        game = gambit.read(FOUR_DECIMALS.decode())
        self.assertRaises(ValueError, game.losses)
        losses, unit, error = game.losses(rounding=True)
        exact = game.missed()
        self.assertEqual((min(losses), max(losses), unit), (1, 1000, max(exact) / 999))
        off = [abs((loss - 1) * unit - difference) for loss, difference in zip(losses, exact)]
        self.assertEqual(error, max(off))
        self.assertLessEqual(error, unit / 2)

    def test_every_output_says_that_it_is_rounded(self) -> None:
        shown = command("sheet", "-", "--divisions", 8, given=FOUR_DECIMALS)
        self.assertEqual((shown.returncode, shown.stdout), (2, b""))
        self.assertIn(b"--round rounds them", shown.stderr)
        sheet = command("sheet", "-", "--divisions", 8, "--round", given=FOUR_DECIMALS).stdout
        self.assertIn(ROUNDED, sheet.splitlines()[-1])
        said = sheet.splitlines()[-1]
        for words in (["slip", "--text"], ["refine", "--levels", "2"], ["trail"], ["page"]):
            shown = command(words[0], "-", *words[1:], "--divisions", 8, "--round", given=FOUR_DECIMALS)
            with self.subTest(words[0]):
                self.assertEqual((shown.returncode, shown.stderr), (0, b""))
                self.assertIn(said, shown.stdout)
        shown = command("slip", "-", "--divisions", 8, "--round", given=FOUR_DECIMALS)
        self.assertEqual(shown.stderr.strip(), said)

    def test_a_rounded_sheet_is_checked(self) -> None:
        with tempfile.TemporaryDirectory() as folder:
            game, sheet = pathlib.Path(folder, "game.nfg"), pathlib.Path(folder, "sheet")
            game.write_bytes(FOUR_DECIMALS)
            sheet.write_bytes(command("sheet", game, "--divisions", 8, "--round").stdout)
            shown = command("check", game, sheet, "--divisions", 8, "--round")
            self.assertEqual((shown.returncode, shown.stdout.splitlines()[-1]), (0, ROUNDED))
            shown = command("check", "--whole", game, sheet, "--divisions", 8, "--round")
            self.assertEqual((shown.returncode, shown.stdout), (0, b"every line agrees\n"))

    def test_rounding_is_not_said_where_nothing_is_rounded(self) -> None:
        exact = b'NFG 1 R "" { "A" "B" } { 2 2 } 1 -1 -1 1 -1 1 1 -1'
        self.assertEqual(command("sheet", "-", "--divisions", 4, "--round", given=exact).stdout,
                         command("sheet", "-", "--divisions", 4, given=exact).stdout)
