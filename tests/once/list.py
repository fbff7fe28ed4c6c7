#!/usr/bin/env python3
"""Says what stands twice and should stand once: a name with two definitions, and two laws with one statement.

A law's statement is compared up to the names that it binds, with those of the other crates and with those of the
toolchain's libraries that can be cited. A law in a section or behind a `where` is compared too, unless it speaks of
what is bound around it. The proofs of functions are left out, and so are the tables of worked rows: their names, as
`Row` and `given`, mean the same in each.
"""
import collections
import pathlib
import re
import subprocess
import sys

CRATES = pathlib.Path(__file__).resolve().parents[2] / "crates"
KIT = pathlib.Path(subprocess.run(["rt", "doc"], capture_output=True, text=True).stdout.strip()).parent / "rattle"
LIBRARIES = ["logic/Lib/*.antt", "logic/Borrow/Author/*.antt", "antt/lib/native/src/Mathlib/*.antt",
             "antt/port/mathlib/src/Core/*.antt"]

DECLARED = re.compile(r"^(?:abbrev |unfoldable )?(?:pub )?(?:record |data )?([^\s:({]+)\s*(?::|\()", re.M)
LAW = re.compile(r"^( *)(?:abbrev )?(pub )?([\w'\-]+) : (.*)$")
SECTION = re.compile(r"^( *)module _ (.*)$")
BINDER = re.compile(r"[({]([^(){}:]*?) :")
TOKEN = re.compile(r"[A-Za-zα-ω_][\w'\-]*|\S")
LEAST = 20
OF_FUNCTIONS = ("Proof.antt", "Invariants.antt", "Answers.antt")


def bound(statement):
    """The names that a statement binds, in binders and in functions."""
    binders = BINDER.findall(statement) + re.findall(r"λ ([^.()]*)\.", statement)
    return {name for names in binders for name in names.split()}


def shape(statement):
    """The statement with its bound names numbered in the order in which they appear, explicit or not."""
    names, numbers = bound(statement), {}
    words = TOKEN.findall(statement.replace("{", "(").replace("}", ")"))
    return " ".join(f"v{numbers.setdefault(word, len(numbers))}" if word in names else word for word in words)


def text(path):
    return [line for line in path.read_text().splitlines() if not line.startswith(("use ", "--"))]


def behind(lines, i, indent):
    """The lines that continue line i, which has this indent."""
    more = []
    while i + 1 < len(lines) and re.match(" " * (indent + 4), lines[i + 1]):
        i += 1
        more.append(lines[i].strip())
    return " ".join(more)


def laws(path, cited=False):
    """Each law of a file with its statement, but those that speak of names bound around them; if `cited`, only those that
    another file can cite."""
    lines, around, declared = text(path), [], []
    for i, line in enumerate(lines):
        depth = len(line) - len(line.lstrip())
        if line.strip():
            around = [(indent, names) for indent, names in around if indent < depth]
            declared = [(indent, name) for indent, name in declared if indent <= depth]
        section, law = SECTION.match(line), LAW.match(line)
        if section:
            whole = section[2] + " " + behind(lines, i, depth)
            around.append((depth, bound(whole.split(" where")[0])))
        elif law and (law[2] or not cited) and "≡" in (statement := law[4] + " " + behind(lines, i, depth)):
            outer = set().union(*(names for _, names in around)) | {name for _, name in declared}
            free = set(TOKEN.findall(statement)) - bound(statement)
            plain = depth == 0 or (around and max(indent for indent, _ in around) == depth - 2)
            if len(statement) > LEAST and plain and not free & outer:
                yield law[3], statement
        if law and depth:
            declared.append((depth, law[3]))


def found():
    names, statements = collections.defaultdict(set), collections.defaultdict(set)
    for path in CRATES.glob("*/specs/*.antt"):
        if path.name != "Worked.antt":
            for name in DECLARED.findall("\n".join(text(path))):
                names[name].add(str(path.relative_to(CRATES)))
    for path in CRATES.glob("*/proofs/**/*.antt"):
        if path.name not in (*OF_FUNCTIONS, "Worked.antt"):
            for name, statement in laws(path):
                statements[shape(statement)].add(f"{name} of {path.relative_to(CRATES)}")
    for pattern in LIBRARIES:
        for path in KIT.glob(pattern):
            for name, statement in laws(path, cited=True):
                if shape(statement) in statements:
                    statements[shape(statement)].add(f"{name} of the toolchain's {path.stem}")
    for name, places in sorted(names.items()):
        if len(places) > 1:
            yield f"{name}: {', '.join(sorted(places))}"
    for places in statements.values():
        if len(places) > 1:
            yield f"one law: {', '.join(sorted(places))}"


twice = list(found())
print("\n".join(twice) or "each stands once")
sys.exit(bool(twice))
