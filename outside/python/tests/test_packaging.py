"""The package as pip installs it, without a network, and its manual page."""

import os
import pathlib
import shutil
import subprocess
import sys
import tempfile
import unittest

import leveretplate
from leveretplate.__main__ import parser
from leveretplate.manual import manual

from .commands import HERE, SAMPLES, command

PACKAGE = HERE.parent


def pip_install(source: pathlib.Path, folder: str) -> subprocess.CompletedProcess[str]:
    """Installs into a folder; pip is told to look at no index, so that it must do without a network."""
    words = [sys.executable, "-m", "pip", "install", "--no-index", "--no-input", "--disable-pip-version-check",
             "--target", folder, str(source)]
    return subprocess.run(words, capture_output=True, text=True, timeout=120)


class Installed(unittest.TestCase):
    def test_install_without_a_network(self) -> None:
        with tempfile.TemporaryDirectory() as folder:
            done = pip_install(PACKAGE, folder)
            self.assertEqual(done.returncode, 0, done.stderr)
            environment = {**os.environ, "PYTHONPATH": folder}

            def installed(*words: str) -> str:
                return subprocess.run([f"{folder}/bin/leveretplate", *words], env=environment, cwd="/", check=True,
                                      capture_output=True, text=True, timeout=60).stdout

            self.assertEqual(installed("--version"), f"leveretplate {leveretplate.VERSION}\n")
            sample = str(SAMPLES / "square.txt")
            self.assertEqual(installed("sheet", sample).encode(), command("sheet", sample).stdout)
            self.assertIn("<title>", installed("page", sample))
            self.assertEqual(pathlib.Path(folder, "share/man/man1/leveretplate.1").read_text(), manual())
            self.assertTrue(pathlib.Path(folder, "leveretplate/libleveretplate.so").exists())

    def test_a_missing_library_is_said(self) -> None:
        with tempfile.TemporaryDirectory() as folder:
            source = pathlib.Path(folder, "a", "b", "python")
            shutil.copytree(PACKAGE, source, ignore=shutil.ignore_patterns("tests", "__pycache__"))
            done = pip_install(source, f"{folder}/installed")
            self.assertNotEqual(done.returncode, 0)
            self.assertIn("libleveretplate.so: `outside/run python` links it first", done.stderr + done.stdout)

    def test_version_of_the_project(self) -> None:
        self.assertIn(f'version = "{leveretplate.VERSION}"', (PACKAGE / "pyproject.toml").read_text())


class Manual(unittest.TestCase):
    def test_same_words_as_the_help(self) -> None:
        page = subprocess.run(["man", "--warnings", "--encoding=ascii", "-l", "-"], input=manual(), text=True,
                              capture_output=True, env={**os.environ, "MANWIDTH": "1000", "LC_ALL": "C"}, timeout=60)
        self.assertEqual((page.returncode, page.stderr), (0, ""))
        read = " ".join(page.stdout.split())
        (commands,) = (action.choices for action in parser()._actions if isinstance(action.choices, dict))
        for name, made in {"": parser(), **commands}.items():
            described = [made.description, *(action.help for action in made._actions)]
            for words in described:
                with self.subTest(f"{name}: {words}"):
                    self.assertIn(" ".join((words or "").split()), read)
        self.assertIn(" ".join((parser().epilog or "").split()), read)
        self.assertIn("2 2 2 2 2 2 5 46,656", read)
