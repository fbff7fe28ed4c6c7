"""The trail in words, held to the places that the library rebuilds from the trail's bytes."""

import pathlib
import subprocess
import tempfile
import unittest

from leveretplate import inputs, read_trail, run_with_trail
from leveretplate.moves import listed, records
from leveretplate.slips import decode
from leveretplate.trails import lines

from .commands import SAMPLES, command

NOTHING_CHOSEN = inputs.Choices()


class Trail(unittest.TestCase):
    def test_words_against_places(self) -> None:
        for path in sorted(SAMPLES.glob("*.txt")):
            with self.subTest(path.name):
                slip = decode(inputs.read(str(path), NOTHING_CHOSEN).slip)
                start = slip.first()
                end, trail = run_with_trail(slip.sizes, slip.divisions, start, slip.label_table())
                told = list(lines(slip))
                self.assertEqual(len(told), end.places + 1)
                self.assertEqual(len(list(records(trail))), end.places)
                before: set[str] = set()
                for record, line in enumerate(told[:-1], 1):
                    place = read_trail(slip.sizes, slip.divisions, start, trail, record)
                    self.assertTrue(line.endswith(f"; T {listed(place.t)}, U {listed(place.u)}"), line)
                    points = set(map(listed, place.points))
                    moved = [f"{point} comes in" for point in points - before]
                    moved += [f"{point} goes out" for point in before - points]
                    self.assertEqual(line.rpartition(": ")[2].partition(";")[0], ", ".join(moved))
                    before = points
                vertices = ", ".join(map(listed, end.vertices))
                self.assertEqual(told[-1], f"end: {end.kind}, block {end.block}: {vertices}")

    def test_refusal(self) -> None:
        shown = command("trail", SAMPLES / "square.txt", "--budget", 3)
        self.assertEqual((shown.returncode, shown.stdout), (1, b""))
        self.assertTrue(shown.stderr.endswith(b"refused 9: Has the path ended within the budget? (places 3)\n"))


class Brought(unittest.TestCase):
    """Trails that are written as bytes and brought again."""

    def setUp(self) -> None:
        self.trail = command("trail", SAMPLES / "square.txt", "--bytes").stdout
        self.told = command("trail", SAMPLES / "square.txt").stdout.decode().splitlines()[:-1]

    def read(self, trail: bytes, *words: object) -> subprocess.CompletedProcess[bytes]:
        with tempfile.TemporaryDirectory() as folder:
            path = pathlib.Path(folder, "trail")
            path.write_bytes(trail)
            return command("read", SAMPLES / "square.txt", path, *words)

    def test_written_and_read(self) -> None:
        slip = decode(inputs.read(str(SAMPLES / "square.txt"), NOTHING_CHOSEN).slip)
        _, trail = run_with_trail(slip.sizes, slip.divisions, slip.first(), slip.label_table())
        self.assertEqual(self.trail, trail)
        for brought in (trail, trail.hex().encode(), trail.hex(" ").replace("65", "65\n").upper().encode()):
            shown = self.read(brought)
            self.assertEqual((shown.returncode, shown.stdout.decode().splitlines(), shown.stderr), (0, self.told, b""))

    def test_a_place_in_words(self) -> None:
        slip = decode(inputs.read(str(SAMPLES / "square.txt"), NOTHING_CHOSEN).slip)
        for record in range(1, len(self.told) + 1):
            place = read_trail(slip.sizes, slip.divisions, slip.first(), self.trail, record)
            move = self.told[record - 1].partition(": ")[2].partition("; T ")[0]
            expected = [f"record {record}: {move}", f"points {len(place.points)}", *map(listed, place.points),
                        f"T {listed(place.t)}", f"U {listed(place.u)}", f"labels read {place.labels_read}"]
            shown = self.read(self.trail, "--record", record)
            self.assertEqual((shown.returncode, shown.stdout.decode().splitlines()), (0, expected))

    def test_damaged(self) -> None:
        """A trail is told up to the first record that the library refuses, wherever that stands."""
        at = 3
        for record, length in enumerate(self.lengths(), 2):
            damaged = bytearray(self.trail)
            damaged[at + length - 1] ^= 7
            shown = self.read(bytes(damaged))
            lines = [*self.told[:record - 1], f"record {record} is refused"]
            self.assertEqual((shown.returncode, shown.stdout.decode().splitlines()), (1, lines))
            self.assertIn(b"/trail: refused 17: ", shown.stderr)
            at += length
        for trail, count in ((self.trail[:-1], len(self.told) - 1), (self.trail + b"\1", len(self.told)), (b"", 0)):
            lines = [*self.told[:count], f"record {count + 1} is refused"]
            self.assertEqual(self.read(trail).stdout.decode().splitlines(), lines)

    def lengths(self) -> list[int]:
        """The bytes of each record behind the first."""
        widths, at, found = (2, 2, 1, 1, 1, 1, 1), 3, []
        while at < len(self.trail):
            found.append(1 + sum(width for bit, width in enumerate(widths) if self.trail[at] >> bit & 1))
            at += found[-1]
        return found

    def test_what_is_no_trail(self) -> None:
        shown = self.read(b"not a trail")
        self.assertEqual(shown.returncode, 2)
        self.assertTrue(shown.stderr.endswith(b"/trail: this is no trail, as bytes or in hex\n"))
        for record in (0, len(self.told) + 1):
            shown = self.read(self.trail, "--record", record)
            self.assertEqual((shown.returncode, shown.stdout), (1, b""))
            self.assertIn(b"refused 17", shown.stderr)
