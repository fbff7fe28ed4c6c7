#!/usr/bin/env python3
"""Prints what each customer's call, and each call for C, rests on: the files of definitions that its contract cites,
and those that these cite.

A promise is right if these definitions say what the papers say; every other file of specs/ is for proofs alone. A
definition counts where the text of another one that counts names it, so that a file is listed only for what is used
of it.

    python3 list.py            # a line for each call
    python3 list.py --names    # with the definitions of each file
"""
import pathlib
import re
import sys

CRATES = pathlib.Path(__file__).resolve().parents[2] / "crates"

CALLS = {
    "finder": ["run"],
    "game_labels": ["label"],
    "printer": ["print"],
    "checker": ["check"],
    "boundary": ["boundary"],
    "refinement": ["refine"],
    "nearest": ["run"],
    "trail_writer": ["run_with_trail"],
    "trail_reader": ["read"],
    "walk_calls": ["moved", "move_on"],
    "walk_preview": ["preview"],
    "walk_views": ["at_start", "turned", "points"],
    "shelf": ["file", "current"],
    "exports_c": ["leveretplate_run", "leveretplate_label", "leveretplate_boundary", "leveretplate_refine",
                  "leveretplate_check", "leveretplate_sheet", "leveretplate_file", "leveretplate_current"],
    "nearest_exports_c": ["leveretplate_nearest"],
    "trail_writer_exports_c": ["leveretplate_run_with_trail"],
    "trail_reader_exports_c": ["leveretplate_read_trail"],
    "walk_exports_c": ["leveretplate_walk_at_start", "leveretplate_move_on", "leveretplate_preview",
                       "leveretplate_walk_points"],
}

WORD = re.compile(r"[^\s(){}\[\],;λ→∷×≡.«»←⟦⟧=:|]+")
MODULE = re.compile(r"Rattle\.(\w+)\.specs\.([\w.-]+)$")
USE = re.compile(r"^(?:ghost )?use (\S+?)\.\{([^}]*)\};?$", re.M)


def imports(text):
    """Each name that a file brings in, with the crate, the module and the name there."""
    found = {}
    for module, names in USE.findall(text):
        where = MODULE.match(module)
        for name in names.split(","):
            there, _, here = name.strip().partition(" as ")
            if where:
                found[here or there] = (where[1], where[2], there)
    return found


def definitions(text):
    """The text of each definition of a file, by its name; a type's constructors have the type's text."""
    found, name, lines = {}, None, []
    for line in text.split("\n"):
        if line.startswith(("use ", "--", "pub mod")):
            continue
        head = re.match(r"(?:(?:abbrev|unfoldable|pub|record|data) )+([^\s({:]+)", line)
        head = head or re.match(r"([^\s({:]+) :(?: |$)", line)
        if head and head[1] != name:
            name, lines = head[1], []
        if name:
            lines.append(line)
            found[name] = "\n".join(lines)
            constructors = re.match(r"  ([\w' -]+?) : ", line)
            if constructors and re.match(r"(?:pub )?data ", lines[0]):
                for one in constructors[1].split():
                    found[one] = name
    return found


class Files:
    def __init__(self):
        self.known = {}

    def of(self, crate, module):
        if (crate, module) not in self.known:
            path = CRATES / crate / "specs" / (module.replace(".", "/") + ".antt")
            text = path.read_text() if path.exists() else ""
            self.known[crate, module] = imports(text), definitions(text)
        return self.known[crate, module]


def reached(files, crate, module, name, seen):
    if module.startswith("declared") or (crate, module, name) in seen:
        return
    brought, defined = files.of(crate, module)
    if name not in defined:
        return
    seen.add((crate, module, name))
    text = defined[name]
    if text in defined:
        reached(files, crate, module, text, seen)
        return
    for word in set(WORD.findall(text)):
        if word in defined:
            reached(files, crate, module, word, seen)
        elif word in brought:
            reached(files, *brought[word], seen)


def contract(crate, function):
    """The clauses of a function, and what its file brings in."""
    for path in sorted((CRATES / crate / "src").rglob("*.rt")):
        text = path.read_text()
        found = re.search(rf"^pub (?:extern \"C\" )?fn {function}\b.*?^\{{", text, re.M | re.S)
        if found:
            return found[0], imports(text)
    raise SystemExit(f"no function {crate}::{function}")


def main():
    files = Files()
    for crate, functions in CALLS.items():
        for function in functions:
            text, brought = contract(crate, function)
            seen = set()
            for word in set(WORD.findall(text)):
                if word in brought:
                    reached(files, *brought[word], seen)
            by_file = {}
            for owner, module, name in seen:
                by_file.setdefault(f"{owner}/{module}", set()).add(name)
            if "--names" in sys.argv:
                print(f"{crate}::{function}")
                for file in sorted(by_file):
                    print(f"  {file}: {' '.join(sorted(by_file[file]))}")
            else:
                print(f"{crate}::{function}: {', '.join(sorted(by_file))}")


if __name__ == "__main__":
    main()
