"""Texts as people write them: with comments, over several lines, and as editors save them."""

import codecs
import unittest

from .commands import SAMPLES, command

PLAIN = b"sizes 2 2\nd 1 1\nlabels 2 2 2 4\n"
SHEET = b"places 5\nlabels read 4\nbound 68\nend facet\nblock 1\nvertices 1\n0 1 1 0\ncentre 0 10000 10000 0\n"

# The same slip in other layouts.
ALIKE = {
    "comments": b"# the sample\nsizes 2 2 # two blocks\n\nd 1 1\n#\nlabels 2 2 2 4# the table\n",
    "several lines": b"labels 2 2\n  2\n\n4\nsizes 2\n2\nd\n1 1\n",
    "a byte order mark": codecs.BOM_UTF8 + PLAIN,
    "lines of another system": PLAIN.replace(b"\n", b"\r\n"),
    "commas": b"sizes 2, 2\nd 1, 1\nlabels 2,2,2,4\n",
    "a note with a number sign": b"note Sample #1\n" + PLAIN,
}


class Texts(unittest.TestCase):
    def test_layouts(self) -> None:
        for name, text in {"plain": PLAIN, **ALIKE}.items():
            with self.subTest(name):
                shown = command("sheet", "-", given=text)
                self.assertEqual((shown.returncode, shown.stdout, shown.stderr), (0, SHEET, b""))

    def test_note_and_points(self) -> None:
        text = b"note Sample #1 # of one\n" + PLAIN + b"points (0 1 1 0) # its end\n"
        self.assertEqual(command("check", "-", given=text).stdout, b"yes\nblock 1\n")
        self.assertTrue(command("slip", "-", "--text", given=text).stdout.startswith(b"note Sample #1 # of one\n"))

    def test_gambit_files(self) -> None:
        game = (SAMPLES / "matching-pennies.nfg").read_bytes()
        expected = command("sheet", SAMPLES / "matching-pennies.nfg", "--divisions", 10).stdout
        self.assertTrue(expected.startswith(b"places 20\n"))
        alike = {"lower case": game.replace(b"NFG 1 R", b"nfg 1 r"), "byte order mark": codecs.BOM_UTF8 + game,
                 "lines of another system": game.replace(b"\n", b"\r\n")}
        for name, text in alike.items():
            with self.subTest(name):
                self.assertEqual(command("sheet", "-", "--divisions", 10, given=text).stdout, expected)
