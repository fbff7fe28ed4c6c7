"""The package beside the C header: the same constants and structs, and a function for each declared call."""

import ctypes
import pathlib
import re
import subprocess
import tempfile
import unittest

import leveretplate
from leveretplate import calls, walks

FOLDER = pathlib.Path(__file__).resolve().parents[2] / "c"
HEADER = (FOLDER / "leveretplate.h").read_text()

STRUCTS: dict[str, type[ctypes.Structure]] = {
    "leveretplate_place": walks.KeptPlace, "leveretplate_walk": walks.KeptWalk, "leveretplate_answered": walks.Walk}


def fields(kept: type[ctypes.Structure]) -> list[str]:
    return [field[0] for field in kept._fields_]


def laid_out_in_c() -> list[str]:
    """The size of each struct and where each of its fields stands, as a C compiler has it."""
    asked = [f"sizeof(struct {name})" for name in STRUCTS]
    asked += [f"offsetof(struct {name}, {field})" for name, kept in STRUCTS.items() for field in fields(kept)]
    lines = "".join(f'printf("{text} %zu\\n", {text});' for text in asked)
    with tempfile.TemporaryDirectory() as folder:
        source, program = pathlib.Path(folder, "layout.c"), pathlib.Path(folder, "layout")
        source.write_text(f'#include <stdio.h>\n#include "leveretplate.h"\nint main(void) {{ {lines} }}\n')
        subprocess.run(["cc", "-I", str(FOLDER), "-o", str(program), str(source)], check=True)
        return subprocess.run([str(program)], check=True, capture_output=True, text=True).stdout.splitlines()


def laid_out_here() -> list[str]:
    sizes = [f"sizeof(struct {name}) {ctypes.sizeof(kept)}" for name, kept in STRUCTS.items()]
    return sizes + [f"offsetof(struct {name}, {field}) {getattr(kept, field).offset}"
                    for name, kept in STRUCTS.items() for field in fields(kept)]


class Header(unittest.TestCase):
    def test_constants(self) -> None:
        stated = {name: int(number) for name, number in re.findall(r"#define LEVERETPLATE_(\w+) (\d+)", HEADER)}
        known = {"FACTS": len(calls.FACTS), "NEAR": len(calls.NEAR), "PLACE": len(calls.PLACE),
                 "LEVELS": calls.MOST_LEVELS, "SHEET": calls.SHEET_BYTES, "POINTS": calls.SIMPLEX_NUMBERS}
        self.assertEqual({name: stated[name] for name in known}, known)
        self.assertEqual(str(stated["VERSION"]), leveretplate.VERSION)

    def test_structs(self) -> None:
        self.assertEqual(laid_out_here(), laid_out_in_c())

    def test_refusals(self) -> None:
        stated = re.findall(r"/\* ([^*]+\?) \*/\s+LEVERETPLATE_REFUSED_\w+ = (\d+)", HEADER)
        self.assertEqual({int(number): question for question, number in stated}, leveretplate.QUESTIONS)

    def test_comments_are_whole(self) -> None:
        """A comment that was broken in another place keeps a star within a line."""
        comments = re.findall(r"/\*.*?\*/", HEADER, re.DOTALL)
        lines = [line.strip() for comment in comments for line in comment.splitlines()]
        self.assertEqual([line for line in lines if "  * " in line or len(line) > 120], [])

    def test_both_languages(self) -> None:
        for language, standard in (("c", "c11"), ("c++", "c++11")):
            subprocess.run(["cc", "-x", language, f"-std={standard}", "-Wall", "-Wextra", "-Werror", "-fsyntax-only",
                            str(FOLDER / "leveretplate.h")], check=True)
        linked = subprocess.run(["cc", "-x", "c++", "-E", str(FOLDER / "leveretplate.h")], check=True,
                                capture_output=True, text=True).stdout
        self.assertIn('extern "C" {', linked)

    def test_a_function_for_each_call(self) -> None:
        declared = re.findall(r"^\w+ leveretplate_(\w+)\(", HEADER, re.MULTILINE)
        self.assertGreater(len(declared), 14)
        self.assertEqual([name for name in declared if not callable(getattr(leveretplate, name, None))], [])
