"""Sheets that are brought to be checked: whole, damaged in one line, and from other programs."""

import pathlib
import subprocess
import tempfile
import unittest

from .commands import command

SLIP = b"sizes 2 2\nd 1 1\nlabels 3 1 2 4\n"
SHEET = """places 3
labels read 3
bound 68
end place
block 2
vertices 3
1 0 1 0
1 0 0 1
0 1 0 1
centre 6667 3333 3333 6667
"""
NOT_COMPARED = "not compared: places, labels read, bound, end; --whole reruns and compares\n"


class Check(unittest.TestCase):
    def check(self, sheet: str, *words: str) -> subprocess.CompletedProcess[bytes]:
        with tempfile.TemporaryDirectory() as folder:
            path = pathlib.Path(folder, "sheet")
            path.write_text(sheet)
            return command("check", *words, "-", path, given=SLIP)

    def answer(self, status: int, sheet: str, *words: str) -> str:
        shown = self.check(sheet, *words)
        self.assertEqual((shown.returncode, shown.stderr), (status, b""))
        return shown.stdout.decode()

    def unreadable(self, sheet: str) -> str:
        shown = self.check(sheet)
        self.assertEqual((shown.returncode, shown.stdout), (2, b""))
        return shown.stderr.decode().partition("/sheet: ")[2]

    def test_the_sheet_itself(self) -> None:
        self.assertEqual(command("sheet", "-", given=SLIP).stdout.decode(), SHEET)
        self.assertEqual(self.answer(0, SHEET), f"yes\nblock 2\n{NOT_COMPARED}")
        self.assertEqual(self.answer(0, SHEET, "--whole"), "every line agrees\n")

    def test_vertices_in_other_ways(self) -> None:
        for points in ("1 0 1 0\n1 0 0 1\n0 1 0 1", "1,0,1,0\n1, 0, 0, 1\n0 1 0 1\n", "(1 0 1 0)(1 0 0 1)(0 1 0 1)",
                       "[[1, 0, 1, 0], [1, 0, 0, 1], [0, 1, 0, 1]]", "vertices 3\n[0 1 0 1]\n[1 0 1 0]\n[1 0 0 1]\n"):
            with self.subTest(points):
                self.assertEqual(self.answer(0, points), "yes\nblock 2\n")

    def test_no(self) -> None:
        self.assertEqual(self.answer(1, "1 0 1 0\n1 0 1 0\n"), "no\n")

    def test_what_cannot_be_read(self) -> None:
        vertex = "is no line of a sheet and no vertex\n"
        for old, new, said in (
                ("0 1 0 1", "0 1 0 O", f"line 9: '0 1 0 O' {vertex}"),
                ("0 1 0 1", "0 1 0", "line 9: a vertex needs 4 numbers, and here are 3\n"),
                ("0 1 0 1", "(0 1 0 1", f"line 9: '(0 1 0 1' {vertex}"),
                ("vertices 3", "vertices 4", "line 6: vertices 4 are announced, and there are 3\n"),
                ("vertices 3", "vertices three", f"line 6: 'vertices three' {vertex}"),
                ("bound 68", "limit 68", f"line 3: 'limit 68' {vertex}"),
                ("end place", "end", f"line 4: 'end' {vertex}"),
                ("bound 68", "places 3", "line 3: a second line places\n")):
            with self.subTest(new):
                self.assertEqual(self.unreadable(SHEET.replace(old, new)), said)

    def test_what_is_stated_falsely(self) -> None:
        self.assertEqual(self.answer(1, SHEET.replace("block 2", "block 1")),
                         f"yes\nblock 2\ndiffers: line 5 says block 1\n{NOT_COMPARED}")
        said = "line 10 says centre 6666 3333 3333 6667, and the mean of the vertices is 6667 3333 3333 6667"
        self.assertEqual(self.answer(1, SHEET.replace("6667 3333 3333", "6666 3333 3333")),
                         f"yes\nblock 2\ndiffers: {said}\n{NOT_COMPARED}")

    def test_every_line_by_a_new_run(self) -> None:
        """A sheet with one number or word changed, wherever it stands, differs on that line and on no other."""
        lines = SHEET.splitlines()
        for at, line in enumerate(lines):
            for word, item in enumerate(items := line.split()):
                other = {"place": "facet"}.get(item, "7" if item != "7" else "8")
                damaged = [*lines[:at], " ".join([*items[:word], other, *items[word + 1:]]), *lines[at + 1:]]
                with self.subTest(damaged[at]):
                    said = f"the sheet has {damaged[at]!r}, and the run gives {line!r}"
                    self.assertEqual(self.answer(1, "\n".join(damaged), "--whole"),
                                     f"line {at + 1} differs: {said}\n1 lines differ\n")
        said = f"line 10 differs: the sheet has no such line, and the run gives {lines[-1]!r}\n1 lines differ\n"
        self.assertEqual(self.answer(1, "\n".join(lines[:-1]), "--whole"), said)

    def test_no_sheet_to_compare(self) -> None:
        shown = command("check", "--whole", "-", given=SLIP)
        self.assertEqual((shown.returncode, shown.stderr), (2, b"leveretplate: -: a sheet is needed behind the slip\n"))

    def test_points_of_a_text(self) -> None:
        for points, answer in (("1 0 1 0 1 0 1 0", (1, b"no\n")), ("1,0,1,0, 1,0,0,1, 0,1,0,1", (0, b"yes\nblock 2\n")),
                               ("(1 0 1 0) (1 0 0 1) (0 1 0 1)", (0, b"yes\nblock 2\n"))):
            shown = command("check", "-", given=SLIP + f"points {points}\n".encode())
            self.assertEqual((shown.returncode, shown.stdout), answer)
        shown = command("check", "-", given=SLIP + b"points (1 0 1) (0 1 0 0 1)\n")
        self.assertTrue(shown.stderr.endswith(b"line 4: a vertex needs 4 numbers, and here are 3\n"))
