"""Checks on small grids that document 01's definitions have the properties that its demand 3 rests on.

For every start, and for every label table where these are few and for random ones otherwise: {v} has one way (a link or an end)
and every other place two; the path ends within the bound; no place stands on it twice.
"""
import random
from itertools import product

from definitions import Grid, Labelled, Problem, bound

GRIDS = [
    ((2,), (1,)), ((2,), (2,)), ((2,), (3,)), ((2,), (4,)), ((2,), (6,)),
    ((3,), (1,)), ((3,), (2,)), ((3,), (3,)), ((3,), (4,)), ((4,), (1,)), ((4,), (2,)), ((5,), (1,)), ((6,), (1,)),
    ((2, 2), (1, 1)), ((2, 2), (1, 2)), ((2, 2), (2, 2)), ((2, 2), (3, 2)),
    ((2, 3), (1, 1)), ((3, 2), (1, 2)), ((2, 3), (2, 2)), ((3, 3), (1, 1)), ((2, 4), (1, 1)),
    ((2, 2, 2), (1, 1, 1)), ((2, 2, 2), (2, 1, 1)), ((2, 2, 3), (1, 1, 1)), ((2, 2, 2, 2), (1, 1, 1, 1)),
]
ALL_TABLES = 5000
RANDOM_TABLES = 300


def tables(grid, source):
    count = grid.m ** len(grid.points)
    if count <= ALL_TABLES:
        yield from product(range(1, grid.m + 1), repeat=len(grid.points))
        return
    for number in range(RANDOM_TABLES):
        # Every second table leaves one index out, which makes the paths long.
        left_out = source.randint(1, grid.m) if number % 2 else 0
        choice = [h for h in range(1, grid.m + 1) if h != left_out]
        yield tuple(source.choice(choice) for _ in grid.points)


def main():
    source = random.Random(1987)
    all_runs = all_places = longest = 0
    for sizes, divisions in GRIDS:
        grid = Grid(sizes, divisions)
        runs = places = longest_here = 0
        for start in grid.points:
            problem = Problem(grid, start)
            for table in tables(grid, source):
                labelled = Labelled(problem, table)
                first = frozenset([start])
                for place in labelled.place_t:
                    ways = labelled.ways(place)
                    assert len(ways) == (1 if place == first else 2), (sizes, divisions, start, table, place)
                visited, _ = labelled.path()
                assert len(set(visited)) == len(visited), (sizes, divisions, start, table)
                assert len(visited) <= bound(grid)
                runs += 1
                places += len(labelled.place_t)
                longest_here = max(longest_here, len(visited))
        print(*sizes, ";", *divisions, ":", runs, "problems,", places, "places, longest path", longest_here, flush=True)
        all_runs, all_places, longest = all_runs + runs, all_places + places, max(longest, longest_here)
    print(all_runs, "problems and", all_places, "places: all have their ways; longest path", longest)


main()
