"""Runs the commands of the package as a researcher does."""

import pathlib
import subprocess
import sys

HERE = pathlib.Path(__file__).resolve().parent
SAMPLES = HERE.parent / "samples"


def command(*words: object, given: bytes = b"") -> subprocess.CompletedProcess[bytes]:
    """A command's exit status and what it wrote, with both its outputs going to pipes."""
    return subprocess.run([sys.executable, "-m", "leveretplate", *map(str, words)], input=given, capture_output=True,
                          cwd=HERE.parent, timeout=60)
