#!/usr/bin/env python3
"""Brings the names of definitions and lemmas to the spelling of today's Rattle, once, after port.py.

usage: python3 tools/respell.py          at the top of the repository; writes the files
       python3 tools/respell.py --look   writes nothing; prints the names that change, and those that fall together

A word is in snake case: `labelSet` becomes `label_set`. A dash stays where it joins two names, as in `length-filter`, and
else becomes an underscore. The proof of a function f is `f_spec`. Functions and other names of src/ keep their spelling,
and so do strings. A lemma whose spelling a definition of the same file then has gets `_lem`: LEMMAS has those that were in
snake case before, by the file that states each, and they change there and where they are imported from it.
"""
import collections
import os
import re
import sys

WORD = re.compile(r"[A-Za-z_ℕℤ0-9'₀-₉α-ωΑ-Ω⊎∙⁻¹+?-]+")
HEAD = re.compile(
    r"\s*(?:abbrev |unfoldable |opaque |record |data |ruleset )?(?:pub )?(?:abbrev |record |data |ruleset )?"
    r"([^\s:(){},.;]+)(?: (?:\{[^}]*\}|\([^)]*\)))* :(?= |$)"
)
# names of the library that own names are joined to by a dash
LIBRARY = "length map take drop set replicate reverse sum get_or append cond eqb leb ltb suc pred zero min max".split()
LEMMAS = {
    "combinatorics/proofs/EditsOfArrays": ["rotate_left", "rotate_right"],
    "grid_points/proofs/Points": ["position_in"],
    "path_laws/proofs/ListOfPlaces": ["in_order"],
    "path_laws/proofs/Run": ["goes_on"],
    "path_laws/proofs/Theorem": ["two_ways"],
    "slip_fields/proofs/Runs": ["out_of_range"],
    "trail/proofs/Tables": ["in_order"],
    "trail_pass/proofs/OnTrail": ["same_point"],
    "trail_steps/proofs/Named": ["position_at", "same_point"],
    "trail_writer/proofs/Claims": ["no_room"],
    "trail_writer/proofs/Endings": ["has_room"],
    "walk_calls/proofs/OnStructs": ["walk_after"],
    "walk_places/proofs/Alike": ["same_place"],
    "walk_preview/proofs/OnCopies": ["record_of"],
}
# `told_in` is in this file a name of Rattle's
APART = ["walk_calls/proofs/lending/move_on/Proof.antt"]


def files(top, kinds=(".antt", ".rt")):
    for folder, dirs, names in os.walk(os.path.join(top, "crates")):
        dirs[:] = sorted(d for d in dirs if d != "out")
        for name in sorted(names):
            if name.endswith(kinds):
                yield os.path.join(folder, name)


def read(path):
    with open(path, encoding="utf-8") as f:
        return f.read()


def snake(word):
    """`labelSet` is `label_set`; a first capital stays, since it is a type's."""
    return re.sub(r"(?<=[a-z0-9])([A-Z]+|[ℕℤ])", lambda m: "_" + (m.group(1).lower() if m.group(1).isascii() else m.group(1)), word)


def is_camel(word):
    return bool(re.match(r"[a-z]", word)) and bool(re.search(r"[a-z0-9][A-Zℕℤ]", word))


def own_names(top):
    """The names that the repository gives in specs/ and in proofs/, apart: those of goals, which Rattle gives, are left out."""
    stated, proved, goals = set(), set(), set()
    for path in files(top, (".antt",)):
        for line in read(path).splitlines():
            m = HEAD.match(line)
            if not m or line.lstrip().startswith("--"):
                continue
            if "tie." in line:
                goals.add(m.group(1))
            elif os.sep + "specs" + os.sep in path:
                stated.add(m.group(1))
            else:
                proved.add(m.group(1))
    return stated, proved, goals


def joined(word, names):
    """The word with a dash only where it joins two names."""
    parts = word.split("-")
    out, start = parts[0], 0
    for i in range(1, len(parts)):
        left = "_".join(parts[start:i])
        right = any("_".join(parts[i:j]) in names for j in range(i + 1, len(parts) + 1))
        if left in names and right:
            out += "-" + parts[i]
            start = i
        else:
            out += "_" + parts[i]
    return out


def imported(text):
    """The names that a file takes from the libraries, which keep their spelling."""
    found = set()
    for line in text.splitlines():
        m = re.match(r"(?:ghost )?use ((?:Rattle\.std|[a-z]|Prim|borrow|native|mathlib|lib)[\w.]*)\.\{([^}]*)\}", line.strip())
        if m and not re.match(r"Rattle\.(?!std)", m.group(1)):
            found |= {w.strip().split(" as ")[0] for w in m.group(2).split(",")}
    return found


def renaming(top):
    stated, proved, goals = own_names(top)
    names = {snake(n) if is_camel(n) else n for n in stated} | set(LIBRARY)
    names = {n.replace("-", "_") for n in names}
    new = {}
    seen = set()
    for path in files(top):
        seen |= set(WORD.findall(read(path)))
    for word in seen | stated | proved:
        if word.endswith("-spec") and word in proved:
            new[word] = word[: -len("-spec")].replace("-", "_") + "_spec"
            continue
        out = word
        if re.search(r"(?:^|-)[a-z]\w*?[a-z0-9][A-Zℕℤ]", word) and (word in stated | proved or is_camel(word)):
            out = "-".join(snake(p) if is_camel(p) else p for p in word.split("-"))
        if "-" in out and word in stated | proved and word not in goals and re.match(r"[A-Za-z]", word):
            out = joined(out, names)
        if out != word:
            new[word] = out
    # a lemma that would have another name's spelling, or that of a word of the library, gets `_lem`
    plain = {"bit_and", "bit_or"} | (stated | proved) - set(new) | {n for w, n in new.items() if "-" not in w}
    for word, out in new.items():
        if "-" in word and out in plain:
            new[word] = out + "_lem"
    return new


def lemmas(path, text):
    """The names of LEMMAS that a file states or imports, with their new spelling."""
    out = {}
    for where, words in LEMMAS.items():
        crate, _, module = where.split("/")
        taken = re.findall(r"use Rattle\." + crate + r"\.proofs\." + module + r"\.\{([^}]*)\}", text)
        for w in words:
            if path.endswith(where + ".antt") or any(w in re.split(r"[,\s]+", t) for t in taken):
                out[w] = w + "_lem"
    return out


def respell(text, new, kept, dotted):
    """The text with its words respelled; in a walk by hand a word behind a dot is a name of Rattle's, and is kept."""

    def one(m):
        word = m.group(0)
        if word in kept or word not in new:
            return word
        if m.start() and text[m.start() - 1] == "." and (dotted and "-" in word or new[word] == word + "_lem"):
            return word
        return new[word]

    return WORD.sub(one, text)


def spoken(text, path):
    """The names that a file speaks of; of a source file those of clauses, and of the code those that a clause could mean."""
    if path.endswith(".rt"):
        code = "\n".join(l.split("//")[0] for l in text.splitlines())
        bound = set(re.findall(r"([a-z_][a-z0-9_]*)\s*:(?!:)", code)) 
        return {w for w in WORD.findall(code) if w in bound or is_camel(w) or "-" in w}
    text = re.sub(r"--.*|Rattle\.[\w.+]*", "", text)
    return {m.group(0) for m in WORD.finditer(text) if not (m.start() and text[m.start() - 1] == ".")}


def strings_apart(text, turn):
    """Turns what stands outside strings."""
    parts = re.split(r'("(?:[^"\\\n]|\\.)*")', text)
    return "".join(p if i % 2 else turn(p) for i, p in enumerate(parts))


def main(argv):
    top = os.getcwd()
    look = "--look" in argv
    new = renaming(top)
    clash = collections.defaultdict(set)
    for path in files(top):
        text = read(path)
        kept = imported(text)
        words = spoken(text, path)
        here = new | lemmas(path, text)
        if path.endswith(tuple(APART)):
            continue
        for w in words & set(here):
            if w in kept:
                continue
            others = {v for v in words if v != w and (here.get(v, v) if v not in kept else v) == here[w]}
            if others:
                clash[(w, here[w])].add(os.path.relpath(path, top))
    if look:
        for w in sorted(new):
            print(w, "->", new[w])
        for (w, n), where in sorted(clash.items()):
            print("falls together:", w, "->", n, "in", " ".join(sorted(where)))
        return 0
    if clash:
        print("names fall together; see --look", file=sys.stderr)
        return 1
    for path in files(top):
        text = read(path)
        kept = imported(text)
        dotted = path.endswith("Proof.antt")
        here = new | lemmas(path, text)
        turn = lambda t: respell(t, here, kept, dotted)
        out = strings_apart(text, turn) if path.endswith(".rt") else turn(text)
        if out != text:
            with open(path, "w", encoding="utf-8") as f:
                f.write(out)
    return 0


if __name__ == "__main__":
    raise SystemExit(main(sys.argv[1:]))
