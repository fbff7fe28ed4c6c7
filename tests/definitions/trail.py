"""The definitions of request 03 once more, by search over sets of grid points, and what is proved of them, tried on small grids.

For every start of each grid: a move is a link over some label table, and each link over random tables is a move by one rule, back by its inverse;
the point that goes out, or else the index that comes into T, tells the next place; what a run writes is read back place by place, and no further.
"""
import random

from definitions import Grid, Labelled, Problem

GRIDS = [
    ((2,), (1,)), ((2,), (4,)), ((3,), (1,)), ((3,), (2,)), ((3,), (3,)), ((4,), (1,)), ((4,), (2,)), ((5,), (1,)),
    ((2, 2), (1, 1)), ((2, 2), (1, 2)), ((2, 2), (2, 2)), ((2, 3), (1, 1)), ((3, 2), (1, 2)), ((3, 3), (1, 1)), ((2, 2, 2), (1, 1, 1)),
]
INVERSE = {1: 1, 2: 3, 3: 2, 4: 7, 5: 6, 6: 5, 7: 4}


def change(problem, a, b):
    """Points in and out by position, indices into and out of T and U."""
    t, u, s, v = problem.set_t(a), problem.set_u(a), problem.set_t(b), problem.set_u(b)
    position = problem.grid.position
    return ([position[y] for y in b - a], [position[y] for y in a - b], sorted(s - t), sorted(t - s), sorted(v - u), sorted(u - v))


def rules(into_t, out_of_t, into_u, out_of_u):
    """The numbers of the rules whose sentence fits."""
    t, u = (len(into_t), len(out_of_t)), (len(into_u), len(out_of_u))
    keeps, gains, loses = (0, 0), (1, 0), (0, 1)
    tests = [t == keeps and u == keeps, t == keeps and u == gains, t == keeps and u == loses, t == gains and u == keeps,
             t == gains and u == loses and into_t == out_of_u, t == loses and u == gains and out_of_t == into_u, t == loses and u == keeps]
    return [number for number, holds in enumerate(tests, 1) if holds]


def encoded(fields):
    """"a bit map byte first and then only the fields whose bit stands, in bit order\""""
    return bytes([sum(1 << bit for bit, field in enumerate(fields) if field)] + sum(fields, []))


def position_bytes(positions):
    return [byte for position in positions for byte in (position % 256, position // 256)]


def record(problem, a, b):
    points_in, points_out, *sets = change(problem, a, b)
    return encoded([position_bytes(points_in), position_bytes(points_out)] + sets + [rules(*sets)])


def start_record(problem):
    return encoded([position_bytes([problem.grid.position[problem.start]])])


def is_move(problem, a, b):
    points_in, points_out, *sets = change(problem, a, b)
    return (b in problem.unlabelled and len(points_in) <= 1 and len(points_out) <= 1 and (points_in or points_out)
            and len(rules(*sets)) == 1)


def trail(problem, places):
    return start_record(problem) + b"".join(record(problem, a, b) for a, b in zip(places, places[1:]))


def rebuilt(problem, trail_bytes, number):
    """The place at a record's number, counted from 1, or None."""
    here, first = frozenset([problem.start]), start_record(problem)
    if number == 0 or not trail_bytes.startswith(first):
        return None
    rest = trail_bytes[len(first):]
    for _ in range(number - 1):
        fitting = [b for b in problem.unlabelled if is_move(problem, here, b) and rest.startswith(record(problem, here, b))]
        if not fitting:
            return None
        assert len(fitting) == 1, "a record tells its place"
        rest, here = rest[len(record(problem, here, fitting[0])):], fitting[0]
    return here


def over_some_table(problem, a, b):
    """A table over which two unlabelled places are linked, whatever its other labels, if there is one."""
    t, s = problem.unlabelled[a], problem.unlabelled[b]
    if a < b:
        carriers, names = a, s
    elif b < a:
        carriers, names = b, t
    else:
        carriers, names = a & b, t
    table = [1] * len(problem.grid.points)
    for y, h in zip(sorted(carriers), sorted(names)):
        table[problem.grid.position[y]] = h
    labelled = Labelled(problem, table)
    return a in labelled.place_t and b in labelled.place_t and labelled.linked(a, b)


def main():
    source = random.Random(3)
    pairs = moves = links = trails = 0
    for sizes, divisions in GRIDS:
        grid = Grid(sizes, divisions)
        for start in grid.points:
            problem = Problem(grid, start)
            for a in problem.unlabelled:
                told = {}
                for b in problem.unlabelled:
                    if len(a ^ b) > 2:
                        continue
                    pairs += 1
                    move = bool(is_move(problem, a, b))
                    assert move == (a != b and over_some_table(problem, a, b)), (sizes, divisions, start, a, b)
                    if move:
                        moves += 1
                        _, points_out, into_t, out_of_t, into_u, out_of_u = change(problem, a, b)
                        rule, = rules(into_t, out_of_t, into_u, out_of_u)
                        assert rules(out_of_t, into_t, out_of_u, into_u) == [INVERSE[rule]]
                        key = (tuple(points_out), tuple(into_t) if not points_out else ())
                        assert key not in told
                        told[key] = b
            for _ in range(4):
                labelled = Labelled(problem, [source.randint(1, grid.m) for _ in grid.points])
                for a in labelled.place_t:
                    for b in labelled.place_t:
                        if labelled.linked(a, b):
                            links += 1
                            assert is_move(problem, a, b)
                visited, _ = labelled.path()
                written = trail(problem, visited)
                assert len(written) <= 3 + 7 * (len(visited) - 1)
                assert [rebuilt(problem, written + b"\1\2", k) for k in range(1, len(visited) + 1)] == visited
                assert rebuilt(problem, written, len(visited) + 1) is None
                trails += 1
    print(pairs, "pairs,", moves, "moves,", links, "links,", trails, "trails: all as proved")


if __name__ == "__main__":
    main()
