"""Walks by the definitions: the moving call and the preview of requests 08 and 09 on stored cases, and places kept by first point and order.

    python3 walks.py CASE..    # each stored case of a walk over a grid of at most 10 points; prints what differs, and a count
    python3 walks.py           # every first point and order of small grids: those that meet the conditions are those whose points form a place
"""
import itertools
import math
import random
import sys
from definitions import Grid, Labelled, Problem, bound


def points_of(text):
    return None if text == "-" else [tuple(map(int, part.split())) for part in text.split("/")]


def numbers_of(text):
    """Numbers, where 12x3 is twelve times 3."""
    repeated = lambda word: [int(word.split("x")[-1])] * (int(word.split("x")[0]) if "x" in word else 1)
    return [number for word in text.split() for number in repeated(word)]


def accepted(sizes, divisions, start, labels):
    """The number of the first of questions 1 to 7 that is answered no, and the grid."""
    if not 1 <= len(sizes) <= 6: return 1, None
    if min(sizes) < 2 or sum(sizes) > 16: return 2, None
    if len(divisions) != len(sizes) or min(divisions) < 1: return 3, None
    grid = Grid(sizes, divisions)
    if tuple(start) not in grid.position: return 5, grid
    if len(labels) != len(grid.points): return 6, grid
    if not all(0 <= label <= grid.m for label in labels): return 7, grid
    return 0, grid


def next_of(grid, start, labels, present, before, places):
    """("refused", 20 or 16), ("end", kind, block, set) or ("moved", set): behind questions 1 to 7."""
    table = Labelled(Problem(grid, start), labels)
    here, came = frozenset(present), None if before is None else frozenset(before)
    if len(here) != len(present) or before is not None and len(came) != len(before): return ("refused", 20)
    if here not in table.place_t: return ("refused", 20)
    if came is not None and (came not in table.place_t or not table.linked(came, here)): return ("refused", 20)
    if (here == {tuple(start)}) != (came is None): return ("refused", 20)
    if not 1 <= places <= bound(grid): return ("refused", 20)
    if 0 in table.labels(here): return ("refused", 16)
    on = [way for way in table.ways(here) if way != ("link", came)]
    assert len(on) == 1, "one way on"
    return ("moved", on[0][1]) if on[0][0] == "link" else ("end",) + on[0]


def change(problem, a, b):
    """The record's fields but the rule, "-" where there is none, and the rule."""
    position, t, u = problem.grid.position, problem.set_t, problem.set_u
    one = lambda items: " ".join(map(str, sorted(items))) or "-"
    fields = [one(position[y] for y in b - a), one(position[y] for y in a - b), one(t(b) - t(a)), one(t(a) - t(b)), one(u(b) - u(a)), one(u(a) - u(b))]
    kept = {("-", "-", "-", "-"): 1, ("-", "-", "+", "-"): 2, ("-", "-", "-", "+"): 3, ("+", "-", "-", "-"): 4, ("+", "-", "-", "+"): 5,
            ("-", "+", "+", "-"): 6, ("-", "+", "-", "-"): 7}
    return fields, kept[tuple("-" if f == "-" else "+" for f in fields[2:])]


def lines_of(case):
    """What the calls of a stored case give, as its `expect` has it."""
    grid_field = lambda name: list(map(int, case[name][0].split()))
    sizes, divisions, start = grid_field("sizes"), grid_field("d"), grid_field("start")
    present, before, places = points_of(case["present"][0]) or [], points_of(case["before"][0]), int(case["places"][0])
    tables = [numbers_of(text) for text in case["labels"]]
    for call in range(int(case.get("calls", ["1"])[0])):
        labels = tables[min(call, len(tables) - 1)]
        number, grid = accepted(sizes, divisions, start, labels)
        what = ("refused", number) if number else next_of(grid, start, labels, present, before, places)
        if case["call"][0] == "move": yield f"call {call + 1}"
        if what[0] == "refused":
            yield f"refused {what[1]}"
            continue
        problem = Problem(grid, start)
        if what[0] == "end":
            yield f"end {what[1]}"
            yield f"block {what[2]}"
            yield f"vertices {len(what[3])}"
            yield from (" ".join(map(str, y)) for y in problem.in_order(what[3]))
            continue
        fields, rule = change(problem, frozenset(present), what[1])
        if case["call"][0] == "preview":
            yield from (f"{name} {field}" for name, field in zip(("in", "out", "into-T", "out-of-T", "into-U", "out-of-U"), fields))
            yield f"rule {rule}"
            continue
        present, before, places = problem.in_order(what[1]), problem.in_order(present), places + 1
        yield f"rule {rule}"
        for name, points in (("present", present), ("before", before)):
            yield f"{name} " + " / ".join(" ".join(map(str, y)) for y in points)
        yield f"places {places}"


def read(name):
    case, expect, part = {}, [], "case"
    for line in open(name).read().split("\n"):
        if line in ("expect", "later"): part = line
        elif part == "case" and line: case.setdefault(line.split(" ", 1)[0], []).append(line.partition(" ")[2].strip())
        elif part == "expect" and line: expect.append(line.strip())
    return case, expect


def stored(names):
    run = 0
    for name in names:
        case, expect = read(name)
        if "carried" in case or case["call"][0] not in ("move", "preview"): continue
        pairs = zip(map(int, case["sizes"][0].split()), map(int, case["d"][0].split()))
        if math.prod(math.comb(division + size - 1, division) for size, division in pairs if size > 0) > 10: continue
        given = list(lines_of(case))
        run += 1
        if given != [line for line in expect if not line.startswith("record ")]: print(name, "differs:", given, expect)
    print(run, "cases run")


def back_outside(grid, u, h):
    """"the first index met going back from h that is not in U"; h itself where there is none."""
    k = h
    for _ in next((block for block in grid.blocks if h in block), ()):
        k = grid.before[k]
        if k not in u: break
    return k


def kept():
    """For first points and orders, good and bad: their points form a place, in rising order of coefficient sum, exactly if they meet the conditions."""
    random.seed(1)
    tried = places = 0
    for sizes, divisions in [((2,), (3,)), ((3,), (2,)), ((3,), (3,)), ((4,), (2,)), ((2, 2), (2, 1)), ((2, 3), (2, 1)), ((2, 2, 2), (1, 1, 1))]:
        grid = Grid(sizes, divisions)
        for start in grid.points:
            problem = Problem(grid, start)
            for y in grid.points + [tuple(random.randrange(3) for _ in range(grid.m))]:
                for length in range(grid.n + 2):
                    orders = list(itertools.product(range(1, grid.m + 2), repeat=length))
                    for order in orders if len(orders) <= 150 else random.sample(orders, 150):
                        u = {k for k in grid.after if y[k - 1] == 0 and k not in order}
                        points, gives = [y], True
                        for h in order:
                            z, b = points[-1], back_outside(grid, u, h)
                            gives = gives and h in grid.after and z[b - 1] > 0
                            points.append(tuple(max(0, z[k - 1] + (k == h) - (k == b)) for k in grid.after))
                        meets = (y in grid.position and gives and len(set(order)) == length
                                 and all(any(h not in order and h not in u for h in block) for block in grid.blocks)
                                 and all(k in order or k in u or problem.coefficients[y][k - 1] == 0 for k in grid.after))
                        on_grid = all(z in grid.position for z in points)
                        sums = [sum(problem.coefficients[z]) for z in points] if on_grid else []
                        forms = on_grid and all(a < b for a, b in zip(sums, sums[1:])) and problem.grows_by_steps(points)
                        assert meets == forms, (sizes, divisions, start, y, order)
                        tried, places = tried + 1, places + forms
    print(tried, "first points and orders,", places, "of them places")


if __name__ == "__main__":
    stored(sys.argv[1:]) if sys.argv[1:] else kept()
