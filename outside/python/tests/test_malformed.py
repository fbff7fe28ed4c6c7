"""Files that cannot be read, or that the library refuses: each gets one clear line, the one stored in expected.txt."""

import unittest

from .commands import HERE, command

MALFORMED = HERE / "malformed"


class Malformed(unittest.TestCase):
    def test_each_gets_its_line(self) -> None:
        stored = dict(line.split(": ", 1) for line in (MALFORMED / "expected.txt").read_text("utf-8").splitlines())
        files = sorted(path for path in MALFORMED.iterdir() if path.name != "expected.txt")
        self.assertEqual([path.name for path in files], sorted(stored))
        for path in files:
            with self.subTest(path.name):
                divisions = ["--divisions", "10"] if path.suffix in (".nfg", ".efg") else []
                shown = command("sheet", path, *divisions)
                self.assertIn(shown.returncode, (1, 2))
                self.assertEqual(shown.stderr.decode(), f"leveretplate: {path}: {stored[path.name]}\n")
