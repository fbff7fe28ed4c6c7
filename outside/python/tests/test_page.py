"""The page in headless Chromium: each sample is opened, stepped to its end and held to its sheet, and so in print.

Screenshots and prints are left in target/python/pages, to be looked at.
"""

import math
import pathlib
import re
import unittest
from itertools import combinations

from leveretplate.grids import grid_points
from leveretplate.moves import listed
from leveretplate.slips import decode

from .chromium import Chromium
from .commands import SAMPLES, command

PAGES = pathlib.Path(__file__).resolve().parents[3] / "target" / "python" / "pages"

# A segment, a triangle, a square, and as bars a game of three players and one of two with three strategies each.
SHOWN: dict[str, list[str]] = {"segment.txt": [], "triangle.txt": [], "square.txt": [], "game-1.txt": [],
         "battle.nfg": ["--divisions", "6", "--start", "3", "3", "2", "4"],
         "rock-paper-scissors.nfg": ["--divisions", "4"]}

READ = """({
    place: element("place").innerText,
    came: element("came").innerText.replaceAll("\\u00a0", " "),
    t: element("t").innerText, u: element("u").innerText,
    points: [...element("points").rows].map(row => row.cells[0].innerText),
    labels: [...element("points").rows].map(row => row.cells[1].innerText),
    kind: element("kind").innerText,
    vertices: [...element("vertices").children].map(vertex => vertex.innerText),
    drawn: element("picture").querySelectorAll("svg *").length,
    described: element("picture").querySelector("svg").getAttribute("aria-label"),
    read: element("read").innerText, centre: element("centre").innerText, counted: element("counted").innerText,
    atEnd: !element("ended").hidden,
})"""


class Page(unittest.TestCase):
    browser: Chromium

    @classmethod
    def setUpClass(cls) -> None:
        PAGES.mkdir(parents=True, exist_ok=True)
        cls.browser = cls.enterClassContext(Chromium())

    def made(self, name: str, options: list[str]) -> tuple[pathlib.Path, list[str], list[str]]:
        """The page of a sample, the lines of its sheet, and those of its trail in words."""
        written = PAGES / f"{pathlib.Path(name).stem}.html"
        shown = command("page", SAMPLES / name, *options, "--output", written)
        self.assertEqual((shown.returncode, shown.stderr), (0, b""))
        printed, told = (command(word, SAMPLES / name, *options).stdout.decode() for word in ("sheet", "trail"))
        return written, printed.splitlines(), told.splitlines()

    def hold_to_sheet(self, printed: list[str]) -> None:
        """Holds what is shown at the last place to the lines of the sheet."""
        fields = dict(line.split(" ", 1) for line in printed)
        vertices = [line for line in printed if line.replace(" ", "").isdigit()]
        shown = self.browser.run(READ)
        self.assertEqual(shown["place"], f"Place {fields['places']} of {fields['places']}")
        self.assertEqual(shown["kind"], f"The path ends: a {fields['end']} end, complete for block {fields['block']}")
        self.assertEqual(shown["vertices"], vertices)
        self.assertTrue(shown["atEnd"])
        self.assertEqual(shown["centre"], fields["centre"])
        read = fields["labels"].removeprefix("read ")
        self.assertEqual((shown["read"], shown["counted"]), (read, f"{fields['places']} places, {read} labels read."))
        for vertex in vertices:
            self.assertIn(vertex, shown["described"])
        self.assertGreater(shown["drawn"], 5)
        if fields["end"] == "place":
            self.assertEqual(shown["points"], vertices)
        else:
            self.assertEqual(len(shown["points"]), len(vertices) + 1)
            self.assertLessEqual(set(vertices), set(shown["points"]))

    def labels(self, name: str, options: list[str]) -> dict[str, str]:
        """The label of each grid point of a sample, both as they are written."""
        slip = decode(command("slip", SAMPLES / name, *options).stdout)
        return dict(zip(map(listed, grid_points(slip.sizes, slip.divisions)), map(str, slip.label_table())))

    def step_to_end(self, told: list[str], labels: dict[str, str]) -> int:
        """Steps forward to the end, each place held to the trail's words and the table; gives the steps it took."""
        steps = 0
        while True:
            shown = self.browser.run(READ)
            t, u = (shown[name].replace("none", "-") for name in "tu")
            came = shown["came"].removeprefix("Reached by ").removesuffix(".")
            how = came if steps else f"the start: {shown['points'][0]} comes in"
            self.assertEqual(told[steps], f"place {steps + 1}: {how}; T {t}, U {u}")
            self.assertEqual(shown["labels"], [labels[point] for point in shown["points"]])
            self.assertTrue(shown["described"].startswith(f"{shown['place']}; points "))
            for point in shown["points"]:
                self.assertIn(f"{point} with label {labels[point]}", shown["described"])
            if self.browser.run("element('forward').disabled"):
                return steps
            self.browser.run("element('forward').click()")
            steps += 1

    def test_paths(self) -> None:
        for name, options in SHOWN.items():
            with self.subTest(name):
                written, printed, told = self.made(name, options)
                self.browser.media("screen")
                self.browser.open(written)
                self.assertEqual(self.browser.run("performance.getEntriesByType('resource').length"), 0)
                steps = self.step_to_end(told, self.labels(name, options))
                self.assertEqual(steps, int(printed[0].split()[1]) - 1)
                self.hold_to_sheet(printed)
                self.browser.screenshot(written.with_suffix(".png"))
                self.browser.media("print")
                self.hold_to_sheet(printed)
                self.assertFalse(self.browser.run("element('forward').checkVisibility()"))
                self.browser.screenshot(written.with_name(f"{written.stem}-print.png"))
                self.browser.print(written.with_suffix(".pdf"))
                self.assertTrue(written.with_suffix(".pdf").read_bytes().startswith(b"%PDF"))

    def test_guess_first(self) -> None:
        written, _, told = self.made("square.txt", [])
        self.browser.media("screen")
        self.browser.open(written)
        preview = "element('preview').innerText.replaceAll('\\u00a0', ' ')"
        move = told[1].partition(": ")[2].partition(";")[0]
        self.assertEqual(self.browser.run(preview), f"By {move}.")
        self.browser.run("element('guess').click()")
        self.assertNotIn("rule 5", self.browser.run("document.body.innerText"))
        self.browser.screenshot(PAGES / "guess-first.png")
        self.browser.run("element('ask').click()")
        self.assertEqual(self.browser.run(preview), f"By {move}.")
        self.browser.run("element('forward').click()")
        self.assertEqual(self.browser.run(preview), "What comes in, what goes out, and by which rule?")
        self.browser.run("element('back').click()")
        self.assertEqual(self.browser.run("element('place').innerText"), "Place 1 of 20")

    def opened(self, name: str, *options: str, given: bytes = b"", width: int = 1200) -> pathlib.Path:
        """The page of an input, opened in a window of this size."""
        written = PAGES / f"{name}.html"
        shown = command("page", "-", *options, "--output", written, given=given)
        self.assertEqual((shown.returncode, shown.stderr), (0, b""))
        self.browser.media("screen")
        self.browser.open(written, width)
        return written

    def test_heads_stay_in_sight(self) -> None:
        self.opened("long", given=b"sizes 2\nd 300\nlabels 301x2\n")
        self.browser.run("element('last').click()")
        scrolled, head, top = self.browser.run("""[element("scroll").scrollTop,
            document.querySelector("#path th").getBoundingClientRect().top,
            element("scroll").getBoundingClientRect().top]""")
        self.assertGreater(scrolled, 1000)
        self.assertEqual(head, top)

    def test_names(self) -> None:
        game = (b'NFG 1 R "Names <b>" { "Row <i>" "Column" } { { "up & away" "down" } { "left" "a <script> name" } } '
                b"1 -1 -1 1 -1 1 1 -1")
        self.opened("names", "--divisions", "4", given=game)
        names = self.browser.run("element('names').textContent")
        self.assertEqual(names, "Row <i>: 1 up & away, 2 down; Column: 3 left, 4 a <script> name")
        drawn = self.browser.run("[...document.querySelectorAll('#picture text.quiet')].map(text => text.textContent)")
        self.assertEqual(drawn, ["1 up & away", "2 down", "3 left", "4 a <script>\u2026"])
        self.assertEqual(self.browser.run("document.querySelectorAll('b, i:not(.key i)').length"), 0)
        self.opened("no-names", given=b"sizes 2\nd 4\nlabels 5x2\n")
        self.assertEqual(self.browser.run("element('names').textContent"), "")

    def test_labels_left_out_are_said(self) -> None:
        for given, points in ((b"sizes 2 2\nd 60 60\nlabels 3721x2\n", "3,721"),
                              (b"sizes 2\nd 200\nlabels 201x2\n", "201"), (b"sizes 2\nd 4\nlabels 5x2\n", "")):
            self.opened("left-out", given=given)
            said = self.browser.run("element('left-out').textContent")
            self.assertEqual(f"the grid has {points} points" in said, points != "", said)

    def test_labels_can_be_told_apart(self) -> None:
        """Sixteen colours far from each other and dark below white letters, a number in each, a shape in small dots."""
        given = b"sizes 16\nd 1\nlabels 16 15 14 13 12 11 10 9 8 7 6 5 4 3 2 1\n"
        self.opened("sixteen", given=given)
        colours = [tuple(bytes.fromhex(colour[1:])) for colour in self.browser.run("LABELS")]
        self.assertEqual(len(set(colours)), 16)
        for one, other in combinations(colours, 2):
            self.assertGreater(math.dist(lightness(one), lightness(other)), 35, (one, other))
        for colour in colours:
            self.assertGreater(1.05 / (luminance(colour) + 0.05), 4.5, colour)
        self.opened("small-dots", given=b"sizes 2 2\nd 30 30\nlabels 240x1 240x2 240x3 241x4\n")
        shapes = self.browser.run("""["circle", "rect", "polygon"].map(
            (name, label) => document.querySelectorAll(`#picture ${name}[fill="${LABELS[label]}"]`).length)""")
        self.assertEqual(shapes, [240, 240, 240])

    def test_rows_by_keyboard(self) -> None:
        self.opened("keyboard", given=b"sizes 2\nd 20\nlabels 21x2\n")
        reached = "document.activeElement.sectionRowIndex"
        self.browser.run("element('rows').querySelector('[tabindex=\"0\"]').focus()")
        self.assertEqual(self.browser.run("element('rows').querySelectorAll('[tabindex=\"0\"]').length"), 1)
        keys = (("ArrowDown", 1), ("ArrowDown", 2), ("ArrowUp", 1), ("End", 20), ("Home", 0), ("ArrowUp", 0))
        for key, place in keys:
            for kind in ("keyDown", "keyUp"):
                self.browser.send("Input.dispatchKeyEvent", type=kind, key=key, code=key)
            self.assertEqual((self.browser.run(reached), self.browser.run("at")), (place, place), key)
        self.assertEqual(self.browser.run("document.activeElement.getAttribute('aria-current')"), "step")

    def test_three_widths(self) -> None:
        """Nothing stands out of the window, and letters are not made small, also with sixteen indices on a phone."""
        given = b"sizes 4 4 4 4\nd 2 2 2 2\nlabels 2500x3 2500x8 2500x11 2500x16\n"
        for width in (360, 820, 1280):
            with self.subTest(width):
                written = self.opened(f"sixteen-{width}", given=given, width=width)
                self.browser.run("element('last').click()")
                wide, scale, small = self.browser.run("""[document.documentElement.scrollWidth,
                    document.querySelector("#picture svg").getScreenCTM().a,
                    Math.min(...[...document.querySelectorAll("#picture text")].map(
                        text => parseFloat(getComputedStyle(text).fontSize)))]""")
                self.assertLessEqual(wide, width)
                self.assertGreaterEqual(scale * small, 12)
                self.browser.screenshot(written.with_suffix(".png"))

    def test_a_long_path_prints_on_few_sheets(self) -> None:
        written = self.opened("long-print", given=b"sizes 2\nd 1500\nlabels 1501x2\n")
        self.browser.media("print")
        self.browser.print(written.with_suffix(".pdf"))
        sheets = len(re.findall(rb"/Type\s*/Page\b", written.with_suffix(".pdf").read_bytes()))
        self.assertLessEqual(sheets, 10)
        # A sheet of A4 is 688 points wide between its margins.
        self.browser.open(written, 688)
        wide, room = self.browser.run("[element('scroll').scrollWidth, element('scroll').clientWidth]")
        self.assertLessEqual(wide, room)
        self.assertGreaterEqual(sheets, 4)
        self.assertIn("rule: + in, \u2212 out", self.browser.run("document.querySelector('#path thead').innerText"))
        self.assertIn("1: +1498\u00a02 \u22121500\u00a00", self.browser.run("element('rows').rows[2].innerText"))


def light(colour: tuple[int, ...]) -> list[float]:
    """The light of red, green and blue, each from 0 to 1."""
    return [part / 3294.6 if part <= 10 else float(((part / 255 + 0.055) / 1.055) ** 2.4) for part in colour]


def luminance(colour: tuple[int, ...]) -> float:
    red, green, blue = light(colour)
    return 0.2126 * red + 0.7152 * green + 0.0722 * blue


def lightness(colour: tuple[int, ...]) -> tuple[float, float, float]:
    """A colour as CIE L*a*b*, in which distances are about those that the eye sees."""
    red, green, blue = light(colour)
    x = (0.4124 * red + 0.3576 * green + 0.1805 * blue) / 0.95047
    y = 0.2126 * red + 0.7152 * green + 0.0722 * blue
    z = (0.0193 * red + 0.1192 * green + 0.9505 * blue) / 1.08883
    fx, fy, fz = (part ** (1 / 3) if part > 0.008856 else 7.787 * part + 16 / 116 for part in (x, y, z))
    return 116 * fy - 16, 500 * (fx - fy), 200 * (fy - fz)
