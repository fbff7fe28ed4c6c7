"""Long work shows progress on a terminal, covers it at the end, and shows nothing in a pipe."""

import os
import pty
import subprocess
import sys
import unittest

from .commands import HERE, command

LONG = b"sizes 2\nd 1500\nlabels 1501x2\n"


class Progress(unittest.TestCase):
    def test_on_a_terminal(self) -> None:
        terminal, its_end = pty.openpty()
        made = subprocess.run([sys.executable, "-m", "leveretplate", "page", "-"], input=LONG, cwd=HERE.parent,
                              stdout=subprocess.PIPE, stderr=its_end, timeout=60)
        os.close(its_end)
        said = os.read(terminal, 1 << 16)
        os.close(terminal)
        self.assertEqual(made.returncode, 0)
        self.assertIn(b"\rplaces shown: 1\x1b[K", said)
        self.assertTrue(said.endswith(b"\r\x1b[K"))

    def test_in_a_pipe(self) -> None:
        made = command("page", "-", given=LONG)
        self.assertEqual((made.returncode, made.stderr), (0, b""))
