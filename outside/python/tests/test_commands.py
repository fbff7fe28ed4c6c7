"""The commands, each as a researcher gives it."""

import contextlib
import io
import pathlib
import random
import re
import tempfile
import unittest
from math import prod

import leveretplate
from leveretplate import Refused, run
from leveretplate.__main__ import FLAGS, main, parser
from leveretplate.grids import corner, count_points
from leveretplate.refining import finest, near, to_finest

from .commands import SAMPLES, command

DOCUMENT_01 = bytes.fromhex("04 02 02 02 01 00 01 00 02 02 02 04")
SHEET = b"places 5\nlabels read 4\nbound 68\nend facet\nblock 1\nvertices 1\n0 1 1 0\ncentre 0 10000 10000 0\n"


class Commands(unittest.TestCase):
    def answer(self, *words: object, given: bytes = b"") -> str:
        shown = command(*words, given=given)
        self.assertEqual((shown.returncode, shown.stderr), (0, b""))
        return shown.stdout.decode()

    def test_slip_there_and_back(self) -> None:
        text = self.answer("slip", "-", "--text", given=DOCUMENT_01)
        self.assertEqual(text, "sizes 2 2\nd 1 1\nlabels 3x2 4\n")
        self.assertEqual(command("slip", "-", given=text.encode()).stdout, DOCUMENT_01)

    def test_sheet(self) -> None:
        self.assertEqual(self.answer("sheet", "-", given=DOCUMENT_01), SHEET.decode())

    def test_refused_sheet(self) -> None:
        shown = command("sheet", SAMPLES / "square.txt", "--budget", 3)
        self.assertEqual((shown.returncode, shown.stdout), (1, b"refused 9\nplaces 3\n"))
        self.assertTrue(shown.stderr.endswith(b"refused 9: Has the path ended within the budget?\n"))

    def test_game_by_text_and_by_gambit(self) -> None:
        by_text = self.answer("sheet", SAMPLES / "square.txt")
        by_gambit = self.answer("sheet", SAMPLES / "matching-pennies.nfg", "--divisions", 10)
        self.assertIn("centre 5333 4667 4667 5333", by_text)
        self.assertIn("centre 5333 4667 4667 5333", by_gambit)

    def test_outcomes_and_their_map(self) -> None:
        text = self.answer("slip", SAMPLES / "battle.nfg", "--text", "--divisions", 3, 4, "--start", 3, 0, 0, 4)
        stated = ("Battle of the sexes, by outcomes; "
                  "loss = 1 + (largest payoff of the player against these opponents' strategies - payoff) / (1/2)")
        self.assertEqual(text, f"note {stated}\nsizes 2 2\nd 3 4\nstart 3 0 0 4\nlosses 1 2 3 1 1 3 2 1\n")

    def test_refine(self) -> None:
        lines = self.answer("refine", SAMPLES / "game-1.txt", "--divisions", 1).splitlines()
        self.assertEqual(len(lines), 7)
        self.assertIn("0.2031 0.7969 0.4297 0.5703 0.6953 0.3047  0.0444 by player 2, index 4", lines[-1])

    def test_gain_within_its_bound(self) -> None:
        chance = random.Random(44)
        for _ in range(200):
            sizes = [chance.randint(2, 3) for _ in range(chance.randint(1, 3))]
            losses = [chance.randint(1, 1000) for _ in range(len(sizes) * prod(sizes))]
            divisions = [chance.randint(1, 2) for _ in sizes]
            ends = leveretplate.refine(sizes, divisions, corner(sizes, divisions), losses, 2, 2).ends
            for level, end in enumerate(ends):
                finer = [2 ** level * division for division in divisions]
                gain, bound = near(sizes, finer, losses, end.vertices, end.block)
                self.assertLessEqual(gain, bound)

    def test_refine_refused(self) -> None:
        for options in (["--levels", 0], ["--factor", 1], ["--factor", 11, "--levels", 1]):
            shown = command("refine", SAMPLES / "game-1.txt", *options)
            self.assertEqual((shown.returncode, shown.stdout), (1, b""))
            self.assertIn(b"refused 18: Is the factor from 2 to 10", shown.stderr)

    def test_refine_to_the_finest_grid(self) -> None:
        lines = self.answer("refine", SAMPLES / "rock-paper-scissors.nfg", "--finest").splitlines()
        divisions = [re.split("  +", line)[1] for line in lines[1:]]
        self.assertEqual(divisions, ["5 5", "10 10", "20 20"])
        lines = self.answer("refine", SAMPLES / "game-1.txt", "--finest").splitlines()
        self.assertIn("38 38 38", lines[-1])
        for option in (["--divisions", 2], ["--start", 1, 0, 1, 0, 1, 0], ["--factor", 2], ["--levels", 1]):
            shown = command("refine", SAMPLES / "game-1.txt", "--finest", *option)
            self.assertEqual((shown.returncode, shown.stdout), (2, b""))
            self.assertIn(b"--finest chooses divisions, start, factor and levels itself", shown.stderr)

    def test_finest_division(self) -> None:
        """One step finer is refused with 4, for every size that the help shows and for others."""
        for sizes in ([2], [3], [4], [2, 2], [3, 3], [4, 4], [5, 5], [8, 8], [2, 2, 2], [3, 3, 3], [4, 4, 4], [2] * 4,
                      [3] * 4, [2] * 5, [2] * 6, [3, 2], [16], [2, 3, 4], [3, 3, 3, 3, 2, 2]):
            with self.subTest(sizes):
                division = finest(sizes)
                run(sizes, [division] * len(sizes), corner(sizes, [division] * len(sizes)),
                    [1] * count_points(sizes, [division] * len(sizes)))
                with self.assertRaises(Refused) as caught:
                    run(sizes, [division + 1] * len(sizes), [], [])
                self.assertEqual(caught.exception.number, 4)
                first, factor, levels = to_finest(sizes)
                self.assertEqual(first * factor ** (levels - 1), division)

    def test_version_and_statuses(self) -> None:
        self.assertEqual(self.answer("--version"), f"leveretplate {leveretplate.VERSION}\n")
        statuses = "The exit status is 0 for an answer; 1 for a refusal by number, for the answer no, and for a sheet"
        names = ("slip", "sheet", "refine", "trail", "read", "check", "page")
        for words in (["--help"], *([name, "--help"] for name in names)):
            self.assertIn(statuses, " ".join(self.answer(*words).split()))
        self.assertIn("2 2 2        38        59,319\n", self.answer("refine", "--help"))

    def test_refine_needs_a_game(self) -> None:
        shown = command("refine", SAMPLES / "triangle.txt")
        self.assertEqual(shown.returncode, 2)
        self.assertTrue(shown.stderr.endswith(b"this needs a game, and the slip has labels\n"))

    def test_options_of_another_command(self) -> None:
        for words in (["refine", "--budget", "3"], ["check", "--start", "1,0"], ["sheet", "--levels", "2"],
                      ["sheet", "--bud", "3"]):
            shown = command(words[0], SAMPLES / "game-1.txt", *words[1:])
            self.assertEqual((shown.returncode, shown.stdout), (2, b""))
            self.assertIn(f"unrecognized arguments: {' '.join(words[1:])}", shown.stderr.decode())

    def test_options_leave_the_file(self) -> None:
        for words in (["--divisions", 3, 4, SAMPLES / "battle.nfg"], ["--divisions", "3,4", SAMPLES / "battle.nfg"],
                      ["--start", 3, 0, 4, 0, "--divisions", 3, 4, SAMPLES / "battle.nfg"]):
            self.assertIn("centre", self.answer("sheet", *words))

    def test_a_second_file_behind_options(self) -> None:
        game = str(SAMPLES / "matching-pennies.nfg")
        with tempfile.NamedTemporaryFile() as sheet:
            sheet.write(self.answer("sheet", game, "--divisions", 10).encode())
            sheet.flush()
            for words in ([game, "--divisions", "10", sheet.name, "--whole"],
                          ["--whole", game, sheet.name, "--divisions", "10"],
                          ["--divisions", "10", game, "--whole", sheet.name]):
                self.assertEqual(self.answer("check", *words), "every line agrees\n")
        (commands,) = (action.choices for action in parser()._actions if isinstance(action.choices, dict))
        flags = {option for made in commands.values() for action in made._actions if action.nargs == 0
                 for option in action.option_strings}
        self.assertEqual(flags, set(FLAGS))

    def test_options_that_are_no_numbers(self) -> None:
        shown = command("sheet", SAMPLES / "battle.nfg", "--divisions", "ten")
        self.assertEqual((shown.returncode, shown.stdout), (2, b""))
        self.assertIn(b"whole numbers are needed, not 'ten'", shown.stderr)

    def test_no_file(self) -> None:
        shown = command("sheet", "no-such-file")
        self.assertEqual(shown.returncode, 2)
        self.assertEqual(shown.stderr, b"leveretplate: no-such-file: No such file or directory\n")


class Damaged(unittest.TestCase):
    """Samples with random damage: an answer, or one line, and never a traceback."""

    def test_damaged_samples(self) -> None:
        choose = random.Random(30)
        samples = [path.read_bytes() for path in sorted(SAMPLES.glob("**/*.*"))]
        with tempfile.TemporaryDirectory() as folder:
            path = pathlib.Path(folder, "damaged")
            for _ in range(1000):
                path.write_bytes(self.damaged(choose, choose.choice(samples)))
                words = choose.choice((["sheet"], ["refine", "--levels", "2"], ["check"], ["slip", "--text"]))
                divisions = ["--divisions", "2"] if choose.random() < 0.5 else []
                said = io.StringIO()
                with contextlib.redirect_stderr(said), contextlib.redirect_stdout(io.StringIO()):
                    status = main([words[0], str(path), *words[1:], *divisions])
                self.assertEqual((status > 0, status < 3), (said.getvalue().count("\n") == 1, True))

    @staticmethod
    def damaged(choose: random.Random, sample: bytes) -> bytes:
        for _ in range(choose.randint(1, 3)):
            at, until = sorted(choose.randrange(len(sample) + 1) for _ in range(2))
            put = choose.choice((b"", b"{", b"}", b'"', b"-1", b"9999999", b"1/3", b"\x00", b"\xff", b" ", b"\n", b"x"))
            sample = sample[:at] + put + sample[at if choose.random() < 0.7 else until:]
        return sample
