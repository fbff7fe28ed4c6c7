#!/usr/bin/env python3
"""The divisions and remainders left in each crate, read off the code that `rt check --generated` writes, with the reason
for each; the crates below it have to be proved. It fails where a crate that finds positions, prepares for them or reads
what is kept of them has one, and where a function of another has one without a reason.

    tests/divisions/list.py [CRATE ..]     all crates of crates.txt if none is named
"""
import pathlib
import re
import subprocess
import sys
import tempfile

ROOT = pathlib.Path(__file__).resolve().parents[2]

# the crates that find a point's position, prepare for it and read what is kept of it
WITHOUT = ["positions", "rules", "arrays", "moves", "ways", "marks", "path_pass", "finder", "checker", "nearest_met",
           "nearest_pass", "nearest", "trail_pass", "trail_reader", "walk_recogniser", "walk_places",
           "walk_labels", "walk_ways", "walk_next", "walk_calls", "walk_views"]

REASONS = {
    "game_weighed::lengths::fn::rests::from_fn": "which block and player a place stands for, 36 times a game",
    "slip::brought": "how many losses of two bytes a slip brings",
    "slip::fields::bit_stands": "one bit of the slip's first byte",
    "rounding::centre": "the centre in ten-thousandths, rounded",
    "text::decimal": "a number's decimal digits",
    "trail_following::low_bit": "one bit of a record's first byte",
    "trail_steps::way_on": "two bits of a record's first byte",
}


def crates():
    lines = (ROOT / "crates.txt").read_text().splitlines()
    return [line.split(":")[0].split()[0] for line in lines if line and not line.startswith("#")]


def counts(crate):
    """The number of divisions and of remainders in each function of the crate."""
    found = {}
    with tempfile.TemporaryDirectory() as folder:
        run = subprocess.run(["rt", "check", "--generated", f"{folder}/made"], cwd=ROOT / "crates" / crate,
                             capture_output=True, text=True)
        made = pathlib.Path(folder, "made", f"Rattle-{crate}-proofs")
        if not made.is_dir():
            sys.exit(run.stdout + run.stderr)
        for path in sorted(made.rglob("Code/*.antt")):
            # the code of a function, or of one that calls itself: f/Code/Mir.antt, or +f/Code/+f.antt
            *modules, function, _, _ = path.relative_to(made).parts
            code = path.read_text()
            pair = [len(re.findall(r"\(Syntax\.%s " % kind, code)) for kind in ("div", "rem")]
            if any(pair):
                found["::".join([crate, *modules, function.removeprefix("+")])] = pair
    return found


def main():
    bad = 0
    for crate in sys.argv[1:] or crates():
        found = counts(crate)
        if not found:
            print(f"{crate}: none")
        for name, (divisions, remainders) in sorted(found.items()):
            reason = REASONS.get(name)
            if crate in WITHOUT:
                reason, bad = "NOT ALLOWED: positions are found here", bad + 1
            elif reason is None:
                reason, bad = "NO REASON GIVEN", bad + 1
            print(f"{name}: {divisions} divisions, {remainders} remainders: {reason}")
    sys.exit(bad != 0)


if __name__ == "__main__":
    main()
