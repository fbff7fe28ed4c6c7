"""Writes answers.txt: small problems with the answers that document 01's definitions give, one to a line.

    sizes; divisions; start; labels; budget -> ended places read kind block (vertex)(vertex)...
    sizes; divisions; start; labels; budget -> spent places

The labels stand in table order, `read` is the number of labels read. The budget is a number, or `bound` for the bound of the grid.
"""
import random
from itertools import product

from definitions import Grid, Labelled, Problem

# Sizes, divisions, and how many problems to write of that grid; 0 for all of them.
GRIDS = [
    ((2,), (1,), 0), ((2,), (2,), 0), ((2,), (3,), 16), ((2,), (5,), 12),
    ((3,), (1,), 27), ((3,), (2,), 30), ((3,), (3,), 24), ((4,), (1,), 20), ((4,), (2,), 16), ((5,), (1,), 12),
    ((2, 2), (1, 1), 40), ((2, 2), (1, 2), 24), ((2, 2), (2, 2), 20), ((2, 3), (1, 1), 20), ((3, 2), (1, 2), 12),
    ((2, 2, 2), (1, 1, 1), 16),
]


def numbers(values):
    return " ".join(map(str, values))


def row(labelled, budget):
    """A line of the table; the budget None stands for the bound."""
    grid = labelled.problem.grid
    answer = labelled.answer(budget if budget is not None else 10 ** 30)
    if answer[0] == "ended":
        vertices = "".join("({})".format(numbers(y)) for y in answer[5])
        result = "ended {} {} {} {} {}".format(*answer[1:5], vertices)
    else:
        result = "spent {}".format(answer[1])
    parts = [numbers(grid.sizes), numbers(grid.divisions), numbers(labelled.problem.start), numbers(labelled.table),
             "bound" if budget is None else str(budget)]
    return "; ".join(parts) + " -> " + result


def chosen(grid, count, source):
    """Problems of the grid: all of them, or random ones of which the longer paths are kept."""
    problems = [Problem(grid, start) for start in grid.points]
    indices = range(1, grid.m + 1)
    if count == 0:
        return [Labelled(problem, table) for problem in problems for table in product(indices, repeat=len(grid.points))]
    found = []
    for number in range(4 * count):
        left_out = source.choice(indices) if number % 2 else 0
        table = tuple(source.choice([h for h in indices if h != left_out]) for _ in grid.points)
        found.append(Labelled(problems[number % len(problems)], table))
    source.shuffle(found)
    found[count // 2:] = sorted(found[count // 2:], key=lambda labelled: -len(labelled.path()[0]))
    return found[:count]


def main():
    source = random.Random(1987)
    lines = []
    for sizes, divisions, count in GRIDS:
        for number, labelled in enumerate(chosen(Grid(sizes, divisions), count, source)):
            lines.append(row(labelled, None))
            length = len(labelled.path()[0])
            if number % 8 == 0:
                lines.append(row(labelled, length - 1))
            if number % 8 == 4:
                lines.append(row(labelled, length))
    with open("answers.txt", "w") as file:
        file.write("\n".join(lines) + "\n")
    print(len(lines), "rows in answers.txt")


main()
