"""Turns answers.txt into a crate of theorems, computed by the checker, that our definitions give these answers.

    python3 crate.py CRATES      writes CRATES/NAME/, to be listed in crates.txt with what it depends on
"""
import os
import sys

NAME = "answers"
# Where the definitions stand.
USES = [
    "Rattle.std.specs.Prelude.{List, [], ◌∷◌, map, ◌≡◌, refl}",
    "Rattle.end_kinds.specs.declared.Kind.TheVariants.{Facet as facet_end, Place as place_end}",
    "Rattle.grid_points.specs.Grid.{next, previous, is_grid_point, points, bound}",
    "Rattle.place.specs.Coefficients.{coefficients}",
    "Rattle.questions.specs.Questions.{first_no}",
    "Rattle.place.specs.Ends.{is_complete, complete_for, place_ends, facet_ends, ends, ways}",
    "Rattle.place.specs.LabelsRead.{came_in, labels_read}",
    "Rattle.place.specs.Links.{exchanged, extended, linked, links}",
    "Rattle.place.specs.Path.{spent, ended, ways_on, path, answer}",
    "Rattle.place.specs.Places.{set_u, set_t, label_set, first_back_outside, goes_to, grown_at, every_block_free, is_unlabelled_place, is_place, places}",
    "Rattle.place.specs.Problem.{problem_of, label}",
    "Rattle.place.specs.Worked.{Row, given, row, row_with}",
]
# The definitions that the checker opens to compute, as for the nine marked ends.
UNFOLDING = ("next previous is_grid_point points label coefficients set_u set_t label_set first_back_outside goes_to grown_at every_block_free"
             " is_unlabelled_place is_place places exchanged extended linked links is_complete complete_for place_ends facet_ends"
             " ends ways ways_on bound path answer came_in labels_read first_no")
KINDS = {"place": "place_end", "facet": "facet_end"}
ROWS_TO_A_FILE = 25


def listed(items):
    return "(" + "".join(item + " ∷ " for item in items) + "[])"


def row(line):
    question, result = line.split(" -> ")
    *parts, budget = question.split("; ")
    problem = "(problem_of " + " ".join(listed(part.split()) for part in parts) + ")"
    if result.startswith("spent"):
        answer = "(" + result + ")"
    else:
        head, vertices = result.split(" (", 1)
        _, places, read, kind, block = head.split()
        points = [listed(vertex.split()) for vertex in vertices.rstrip(")").split(")(")]
        answer = "(ended {} {} {} {} {} {})".format(places, read, KINDS[kind], block, len(points), listed(points))
    if budget == "bound":
        return "row {} {}".format(problem, answer)
    return "row_with {} {} {}".format(problem, budget, answer)


def module(lines):
    rows = "\n".join("    " + ("∷ " if number else "") + row(line) for number, line in enumerate(lines))
    return """-- Answers of small problems, found outside by search over sets of grid points, hold of the definitions. Assumes nothing.
{}

abbrev rows : List Row
rows =
{}
    ∷ []

answers : map given rows ≡ map (λ r. r.result) rows
unfolding {}
answers = refl
""".format("\n".join("use " + use for use in USES), rows, UNFOLDING)


def main():
    folder = os.path.join(sys.argv[1], NAME)
    here = os.path.dirname(os.path.abspath(__file__))
    with open(os.path.join(here, "answers.txt")) as file:
        lines = file.read().splitlines()
    for part in "src", "proofs":
        os.makedirs(os.path.join(folder, part), exist_ok=True)
    modules = []
    for first in range(0, len(lines), ROWS_TO_A_FILE):
        modules.append("Answers{}".format(len(modules) + 1))
        with open(os.path.join(folder, "proofs", modules[-1] + ".antt"), "w") as file:
            file.write(module(lines[first:first + ROWS_TO_A_FILE]))
    with open(os.path.join(folder, "proofs", "Lib.antt"), "w") as file:
        file.write("".join("pub mod {}\n".format(name) for name in modules))
    with open(os.path.join(folder, "src", "lib.rt"), "w") as file:
        file.write("// Theorems about the definitions; no function.\n#![tactic(auto)]\n")
    print(len(lines), "rows in", len(modules), "modules")


main()
