"""Runs every command and sample of documents, and compares what it prints with what the document shows.

    outside/run documents [--long] [DOCUMENT ...]    those of the project if none is named

A document has its commands and samples in fenced blocks, and right behind one that prints something a block `text`
with what it prints:

- `sh`: commands, given to a shell in the folder of the project. A block `sh long` takes minutes or hours: it is run
  with --long alone, and the gate's own command never, since the gate runs it.
- `c`: statements, compiled as the body of a program that has the header and the standard output, and linked.
- `python`: a doctest over the Python package.

A block of any other kind, one that is indented, and a `text` that no sample prints, would be run by nobody, so they
are errors. So is a link to a file that is not there. Each difference is printed, and the last line counts them.
"""

import difflib
import doctest
import os
import pathlib
import re
import subprocess
import sys
import tempfile
from collections.abc import Iterator
from typing import NamedTuple

OUTSIDE = pathlib.Path(__file__).resolve().parent
PROJECT = OUTSIDE.parent
LIBRARY = PROJECT / "target" / "staticlib" / "libleveretplate.a"
DOCUMENTS = ("README.md", "docs/LIBRARY.md", "outside/c/README.md", "outside/python/README.md",
             "outside/rust/README.md")
GATE = ".ci/run"
EXIT = "exit status"

PROGRAM = """#include "leveretplate.h"
#include <stdio.h>

int main(void)
{{
{statements}return 0;
}}
"""


class Block(NamedTuple):
    """A fenced block: the line of its fence, its kind and its text."""

    line: int
    kind: str
    text: str


def blocks(document: str) -> Iterator[Block]:
    """The fenced blocks of a document; an indented one is given the kind that no block may have.

    >>> [(block.line, block.kind, block.text) for block in blocks("A sample:\\n\\n```sh\\necho 1\\n```\\n")]
    [(3, 'sh', 'echo 1\\n')]
    """
    fence, kind, held = 0, "", ""
    before = ""
    for at, line in enumerate(document.splitlines(), 1):
        if line.lstrip().startswith("```"):
            if fence:
                yield Block(fence, kind, held)
            fence, kind, held = (0, "", "") if fence else (at, line.strip("` "), "")
        elif fence:
            held += line + "\n"
        elif re.match(r" {4,}\S", line) and not before.strip():
            yield Block(at, "indented", line)
        before = line


def run(block: Block) -> str:
    """What a sample prints, with a line for an exit status that is not 0."""
    word = block.kind.split()[0]
    if word == "python":
        return run_python(block)
    with tempfile.TemporaryDirectory() as folder:
        if word == "sh":
            return printed(["sh", "-c", "set -e\n" + block.text])
        source, program = pathlib.Path(folder, "sample.c"), pathlib.Path(folder, "sample")
        source.write_text(PROGRAM.format(statements=block.text))
        flags = ["-std=c11", "-Wall", "-Wextra", "-Werror", "-I", str(OUTSIDE / "c")]
        return printed(["cc", *flags, "-o", str(program), str(source), str(LIBRARY)]) or printed([str(program)])


def printed(command: list[str]) -> str:
    # The package need not be installed: it is found in its folder.
    environment = {**os.environ, "PYTHONPATH": str(OUTSIDE / "python")}
    ran = subprocess.run(command, cwd=PROJECT, env=environment, capture_output=True, text=True)
    return ran.stdout + (f"{ran.stderr}{EXIT} {ran.returncode}\n" if ran.returncode else "")


def run_python(block: Block) -> str:
    sys.path[:0] = [str(OUTSIDE / "python")]
    said: list[str] = []
    test = doctest.DocTestParser().get_doctest(block.text, {}, "sample", None, 0)
    doctest.DocTestRunner(verbose=False).run(test, out=said.append)
    return "".join(said)


def faults(name: str, long: bool) -> Iterator[str]:
    """What is wrong with the samples of a document, and with its links."""
    path = pathlib.Path(PROJECT, name)
    document = path.read_text("utf-8")
    for link in re.findall(r"\]\(([^)#:]+)\)", document):
        if not (path.parent / link).exists():
            yield f"{name}: there is no {link}"
    found = list(blocks(document))
    shown_at = {block.line for block in found if block.kind == "text"}
    for at, block in enumerate(found):
        behind = found[at + 1] if at + 1 < len(found) and found[at + 1].kind == "text" else None
        if block.kind in ("sh", "sh long", "c", "python"):
            shown_at.discard(behind.line if behind else 0)
            if block.kind != "sh long" or long and block.text.strip() != GATE:
                given, shown = run(block), behind.text if behind else ""
                # What a command prints is compared where the document shows it, and a doctest prints faults alone.
                if given != shown and (behind or block.kind == "python" or EXIT in given):
                    yield f"{name}, line {block.line}:\n" + difference(shown, given)
        elif block.kind != "text":
            yield f"{name}, line {block.line}: nobody runs a block of the kind {block.kind!r}"
    for line in sorted(shown_at):
        yield f"{name}, line {line}: no sample prints this"


def difference(shown: str, given: str) -> str:
    lines = difflib.unified_diff(shown.splitlines(), given.splitlines(), "shown", "printed", lineterm="")
    return "\n".join(lines)


def main(words: list[str]) -> int:
    """Says what differs, and how much does."""
    named = [word for word in words if word != "--long"]
    count = 0
    for name in named or DOCUMENTS:
        for fault in faults(name, "--long" in words):
            count += 1
            print(fault)
    print(f"{len(named or DOCUMENTS)} documents, {count} differences")
    return 1 if count else 0


if __name__ == "__main__":
    sys.exit(main(sys.argv[1:]))
