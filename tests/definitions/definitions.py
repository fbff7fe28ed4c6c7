"""The definitions of document 01, from the grid to the answer, by search over sets of grid points.

Every function renders one sentence of the document and nothing is pivoted, so this is slow and only fit for small grids.
Indices count from 1, as in the document. A grid point is a tuple of m numbers, a set of points a frozenset.
"""
from itertools import combinations, product


class Grid:
    """Sizes and divisions, with the block of each index and the index before and after it round the block."""

    def __init__(self, sizes, divisions):
        self.sizes, self.divisions = tuple(sizes), tuple(divisions)
        self.m = sum(sizes)
        self.n = self.m - len(sizes)
        self.blocks, first = [], 1
        for size in sizes:
            self.blocks.append(range(first, first + size))
            first += size
        self.after, self.before = {}, {}
        for block in self.blocks:
            for h in block:
                following = h + 1 if h + 1 in block else block[0]
                self.after[h], self.before[following] = following, h
        self.points = list(grid_points(self))
        self.position = {point: place for place, point in enumerate(self.points)}


def grid_points(grid):
    """"m whole numbers, none negative, and those of block j add up to d_j", in rising lexicographic order."""
    per_block = [[numbers for numbers in product(range(division + 1), repeat=size) if sum(numbers) == division]
                 for size, division in zip(grid.sizes, grid.divisions)]
    return (sum(parts, ()) for parts in product(*per_block))


def coefficient_lists(grid, start, point):
    """Every list c with none negative, a zero in each block, and y_h = v_h + c_h - c_(h+1).

    Two coefficients of one block differ by at most the division, so with a zero in the block none is larger than it.
    """
    per_block = []
    for block, division in zip(grid.blocks, grid.divisions):
        per_block.append([numbers for numbers in product(range(division + 1), repeat=len(block))
                          if 0 in numbers and all(
                              point[h - 1] == start[h - 1] + numbers[h - block[0]] - numbers[grid.after[h] - block[0]]
                              for h in block)])
    return [sum(parts, ()) for parts in product(*per_block)]


class Problem:
    """A grid with a start; its places before the labels are asked for, found once."""

    def __init__(self, grid, start):
        self.grid, self.start = grid, tuple(start)
        self.coefficients = {}
        for point in grid.points:
            lists = coefficient_lists(grid, self.start, point)
            assert len(lists) == 1, "each grid point has one coefficient list"
            self.coefficients[point] = lists[0]
        self.unlabelled = {}
        for count in range(1, grid.n + 2):
            for points in combinations(grid.points, count):
                if self.grows_by_steps(points):
                    self.unlabelled[frozenset(points)] = self.set_t(points)

    def set_u(self, points):
        """"the set of indices h with y_h = 0 at all of them\""""
        return frozenset(h for h in self.grid.after if all(y[h - 1] == 0 for y in points))

    def set_t(self, points):
        """"the set of indices not in U whose coefficient is positive at one of them at least\""""
        u = self.set_u(points)
        return frozenset(h for h in self.grid.after
                         if h not in u and any(self.coefficients[y][h - 1] > 0 for y in points))

    def in_order(self, points):
        """"in rising order of coefficient sum\""""
        return sorted(points, key=lambda y: sum(self.coefficients[y]))

    def taken(self, u, h):
        """"the first index met going back from h that is not in U\""""
        b = self.grid.before[h]
        while b in u:
            b = self.grid.before[b]
        return b

    def grows_by_steps(self, points):
        """The first two conditions of a place, which no label enters."""
        u, t = self.set_u(points), self.set_t(points)
        if len(t) + 1 != len(points):
            return False
        if not all(any(h not in t and h not in u for h in block) for block in self.grid.blocks):
            return False
        used, order = [], self.in_order(points)
        for y, z in zip(order, order[1:]):
            steps = [h for h in t if z == moved(y, h, self.taken(u, h))]
            if len(steps) != 1:
                return False
            used += steps
        return sorted(used) == sorted(t)


def moved(point, h, b):
    """The point with 1 added at h and 1 taken at b."""
    numbers = list(point)
    numbers[h - 1] += 1
    numbers[b - 1] -= 1
    return tuple(numbers)


class Labelled:
    """A problem with a label table: its places, links, ends, path and answer."""

    def __init__(self, problem, labels):
        self.problem, self.table = problem, labels
        self.place_t = {points: t for points, t in problem.unlabelled.items() if t <= self.labels(points)}

    def labels(self, points):
        position = self.problem.grid.position
        return frozenset(self.table[position[y]] for y in points)

    def linked(self, p, q):
        if self.exchanged(p, q):
            return True
        return self.extended(p, q) or self.extended(q, p)

    def exchanged(self, p, q):
        """"the same T, share all points but one of each, and the shared points carry all labels of T\""""
        return (self.place_t[p] == self.place_t[q] and len(p - q) == 1 and len(q - p) == 1
                and self.place_t[p] <= self.labels(p & q))

    def extended(self, smaller, larger):
        """"one is the other plus one point, and the labels of the smaller are exactly the T of the larger\""""
        return smaller < larger and len(larger - smaller) == 1 and self.labels(smaller) == self.place_t[larger]

    def complete(self, points):
        """The blocks for which the set is complete, counted from 1."""
        have = self.labels(points) | self.problem.set_u(points)
        return [j for j, block in enumerate(self.problem.grid.blocks, 1) if have.issuperset(block)]

    def ends(self, p):
        """"ends are told apart by kind, block and set of points\""""
        found = [("place", j, p) for j in self.complete(p)]
        if len(p) >= 2:
            for y in p:
                rest = p - {y}
                if self.labels(rest) == self.place_t[p]:
                    found += [("facet", j, rest) for j in self.complete(rest)]
        return found

    def ways(self, p):
        """The links and ends of a place."""
        return [("link", q) for q in self.place_t if self.linked(p, q)] + self.ends(p)

    def path(self):
        """The places of the path and the end behind the last; asserts that there is one way on at each."""
        bound_here = bound(self.problem.grid)
        here, come_from = frozenset([self.problem.start]), None
        visited = []
        while True:
            visited.append(here)
            assert len(visited) <= bound_here, "the path ends within the bound"
            on = [way for way in self.ways(here) if way != ("link", come_from)]
            assert len(on) == 1, "besides the link the path came by, exactly one link or end"
            if on[0][0] != "link":
                return visited, on[0]
            here, come_from = on[0][1], here

    def answer(self, budget):
        """("spent", places) or ("ended", places, labels read, kind, block, vertices)."""
        visited, (kind, block, points) = self.path()
        if budget < len(visited):
            return ("spent", budget)
        return ("ended", len(visited), labels_read(visited), kind, block, self.problem.in_order(points))


def labels_read(visited):
    """"1 plus the moves by which a point came in\""""
    return 1 + sum(1 for before, here in zip(visited, visited[1:]) if not here <= before)


def bound(grid):
    """P times the sum 1 + m + m(m - 1) + ..., whose last term has n factors."""
    total, term = 0, 1
    for factors in range(grid.n + 1):
        total += term
        term *= grid.m - factors
    return len(grid.points) * total
