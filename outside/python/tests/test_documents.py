"""The documents: the script that runs their samples, and tables that are held to the package."""

import pathlib
import re
import subprocess
import sys
import tempfile
import unittest

from leveretplate import QUESTIONS
from leveretplate.refining import finest_table

PROJECT = pathlib.Path(__file__).resolve().parents[3]
README = (PROJECT / "README.md").read_text("utf-8")

C = """```c
const uint8_t slip[] = {0};
static uint8_t sheet[LEVERETPLATE_SHEET];
fwrite(sheet, 1, leveretplate_sheet(slip, 1, sheet), stdout);
```
"""

# A document, and what is wrong with it.
SAMPLES = {
    "a right one": ("```sh\nprintf '1\\n2\\n'\n```\n\n```text\n1\n2\n```\n", "0 differences"),
    "another output": ("```sh\necho 1\n```\n\n```text\n2\n```\n", "-2\n+1\n"),
    "an exit status": ("```sh\nfalse\n```\n", "+exit status 1\n"),
    "right C": (C + "\n```text\nrefused 13\n```\n", "0 differences"),
    "other output in C": (C + "\n```text\nrefused 1\n```\n", "-refused 1\n+refused 13\n"),
    "C that does not compile": ("```c\nnumber = 1;\n```\n", "undeclared"),
    "right Python": ("```python\n>>> import leveretplate\n>>> leveretplate.file([])\n[0]\n```\n", "0 differences"),
    "other output in Python": ("```python\n>>> 1 + 1\n3\n```\n", "Expected:"),
    "an indented sample": ("A sample:\n\n    false\n", "line 3: nobody runs a block of the kind 'indented'"),
    "another language": ("```rust\nfn main() {}\n```\n", "nobody runs a block of the kind 'rust'"),
    "a text of nobody": ("```text\n1\n```\n", "line 1: no sample prints this"),
    "a link to nowhere": ("[here](no/such/file)\n", "there is no no/such/file"),
    "a long one": ("```sh long\nfalse\n```\n", "0 differences"),
}


class Documents(unittest.TestCase):
    def test_the_script(self) -> None:
        with tempfile.TemporaryDirectory() as folder:
            for name, (document, said) in SAMPLES.items():
                with self.subTest(name):
                    path = pathlib.Path(folder, "document.md")
                    path.write_text(document)
                    ran = subprocess.run([sys.executable, str(PROJECT / "outside" / "documents.py"), str(path)],
                                         capture_output=True, text=True, timeout=60)
                    self.assertIn(said, ran.stdout)
                    self.assertEqual(ran.returncode, 0 if said == "0 differences" else 1)

    def test_its_own_sample(self) -> None:
        subprocess.run([sys.executable, "-m", "doctest", str(PROJECT / "outside" / "documents.py")], check=True)

    def test_questions_of_the_readme(self) -> None:
        stated = dict(re.findall(r"^\| (\d+) \| (.*\?) \|$", README, re.MULTILINE))
        self.assertEqual(sorted(map(int, stated)), [1, 2, 3, 4, 5, 7, 9, 11, 13, 14, 15, 16])
        for number, question in stated.items():
            self.assertEqual(question, QUESTIONS[int(number)])

    def test_finest_divisions_of_the_readme(self) -> None:
        sizes, divisions, _ = zip(*finest_table())
        for row in (sizes, divisions):
            self.assertIn(f"| {' | '.join(row)} |\n", README)

    def test_length_of_the_readme(self) -> None:
        self.assertLessEqual(len(README.splitlines()), 120)
