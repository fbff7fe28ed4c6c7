"""The input and the expected output of the program case_walks, from the walks in walks/.

A walk's places are points there; the lines behind `later` give them as the walk keeps them, the first point and the
order counted from 1. A place that has no such form cannot be lent: its walk is left out, unless a question before 20
refuses it, and then an empty place stands for it.

Labels are carried by point. Where a walk does not say which, it carries those of its first table, and its labels read
are 1.
"""
import functools
import itertools
import operator
import pathlib
import re

HERE = pathlib.Path(__file__).resolve().parent
CRATES = HERE.parent.parent / "crates"


def numbers(text):
    for item in text.split():
        count, _, value = item.rpartition("x")
        yield from itertools.repeat(int(value), int(count or 1))


def padded(values, count):
    values = list(values)[:count]
    return values + [0] * (count - len(values))


def kept(points):
    """The first point, the order from 0 and the count of a place's points in rising order."""
    order = []
    for a, b in itertools.pairwise(points):
        (index,) = [k for k in range(len(a)) if b[k] == a[k] + 1]
        order.append(index)
    return padded(points[0], 16), padded(order, 16), len(points)


EMPTY = padded([], 16), padded([], 16), 0


def points(text):
    return [] if text == "-" else [list(map(int, part.split())) for part in text.split("/")]


def stated(name, text, later, refused):
    if text == "-":
        return EMPTY
    first = re.search(rf"^{name}-first (.*)$", later, re.M)
    order = re.search(rf"^{name}-order(.*)$", later, re.M)
    if first and order and "none" not in order[1]:
        indices = [k - 1 for k in map(int, order[1].split())]
        return padded(map(int, first[1].split()), 16), padded(indices, 16), len(indices) + 1
    return EMPTY if refused else None


def block(size, d):
    """The points of a block in lexicographic order."""
    return [(d,)] if size == 1 else [(y, *rest) for y in range(d + 1) for rest in block(size - 1, d - y)]


@functools.cache
def positions(sizes, divisions):
    """The position of each grid point."""
    grid = itertools.product(*(block(size, d) for size, d in zip(sizes, divisions)))
    return {sum(parts, ()): position for position, parts in enumerate(grid)}


def label_of(fields, table, point):
    return table[positions(tuple(numbers(fields["sizes"])), tuple(numbers(fields["d"])))[tuple(point)]]


def goes_to(point, other, index):
    """Whether 1 is added at the index, and 1 taken elsewhere."""
    return other[index] == point[index] + 1 and sum(map(abs, map(operator.sub, other, point))) == 2


def rising(listed, place):
    """The points of a place as they are listed, put in the order in which it is kept."""
    first, order, _ = place
    chain, left = [], [tuple(point) for point in listed]
    for k in range(len(left)):
        raised = [q for q in left if chain and goes_to(chain[-1], q, order[k - 1])]
        chain.append(raised[0] if chain else tuple(first[: len(left[0])]))
        left.remove(chain[-1])
    return chain


def carried_at_first(fields, table, place, answers):
    """The labels that the walk carries, in the order in which its place is kept; none where it is refused before 20."""
    if place == EMPTY or re.match("refused [1-7]$", answers[0], re.M):
        return []
    listed = points(fields["present"])
    labels = [label_of(fields, table, point) for point in listed]
    if "carried" in fields:
        labels = list(numbers(fields["carried"]))
    if len(labels) < len(listed):
        return labels
    by_point = dict(zip(map(tuple, listed), labels))
    return [by_point[point] for point in rising(listed, place)]


def blocks(file, call=""):
    """The cases of a file, or those of one call."""
    for block in re.split(r"^(?=call [a-z])", (HERE / "walks" / file).read_text(), flags=re.M)[1:]:
        head, _, rest = block.partition("expect\n")
        if head.startswith(f"call {call}"):
            yield (head, *rest.partition("later\n")[::2])


def walks():
    for head, expect, later in [*blocks("walk.txt"), *blocks("carried.txt"), *blocks("two-faults.txt", "move")]:
        lines = [line.partition(" ")[::2] for line in head.splitlines()]
        fields = dict(lines)
        tables = [list(numbers(text)) for word, text in lines if word == "labels"]
        answers = re.split(r"^call \d+\n", expect, flags=re.M)[1:]
        refused = all(re.fullmatch(r"refused [1-7]\n", answer) for answer in answers)
        places = [stated(name, fields[name], later, refused) for name in ("present", "before")]
        if None not in places and len(answers) == int(fields.get("calls", 1)):
            yield fields, tables, answers, places


# ---- the program's input and output

BEGIN, MOVE, SHOW, POINT, LENT, TURN = range(1, 7)


def little(values, size):
    return b"".join(v.to_bytes(size, "little") for v in values)


def number(value):
    return int(value).to_bytes(8, "little")


def bytes_list(values):
    values = bytes(values)
    return number(len(values)) + values


def words_list(values):
    values = list(values)
    return number(len(values)) + little(values, 2)


def runs(name, values):
    return " ".join([name, *(f"{len(list(group))}x{value}" for value, group in itertools.groupby(values))]) + "\n"


def row(word, values):
    return " ".join([word, *map(str, values)]) + "\n"


class Walk:
    """A walk as it is lent: its arrays padded with 0."""

    def __init__(self, fields, present, before, read, carried):
        sizes = list(numbers(fields["sizes"]))
        self.sizes, self.blocks, self.divisions = padded(sizes, 6), len(sizes), padded(numbers(fields["d"]), 6)
        self.start, self.places, self.read = padded(numbers(fields["start"]), 16), int(fields.get("places", 1)), read
        self.present, self.before, self.carried = present, before, padded(carried, 16)

    def moved(self, present, read, carried):
        copy = Walk.__new__(Walk)
        copy.__dict__ = {**self.__dict__, "present": present, "before": self.present, "places": self.places + 1}
        copy.read, copy.carried = read, padded(carried, 16)
        return copy

    def turned(self, before):
        copy = Walk.__new__(Walk)
        copy.__dict__ = {**self.__dict__, "before": before}
        return copy

    def data(self):
        (first, order, count), (first2, order2, count2) = self.present, self.before
        lists = bytes_list(self.sizes) + bytes_list([self.blocks, count, count2]) + bytes_list(self.carried)
        lists += b"".join(map(words_list, (self.divisions, self.start, first, order, first2, order2)))
        return lists + number(self.places) + number(self.read)

    def text(self):
        text = f"places {self.places}\nlabels read {self.read}\n"
        for name, (first, order, count) in ("present", self.present), ("before", self.before):
            text += f"{name}\n count {count}\n" + runs(" first", first) + row(" order", order)
        text += f"blocks {self.blocks}\n"
        lists = ("sizes", self.sizes), ("divisions", self.divisions), ("start", self.start), ("carried", self.carried)
        return text + "".join(runs(*named) for named in lists)


class Answer:
    """What stands in the struct behind the walk."""

    def __init__(self, number=0, kind=0, block=0, vertices=0, rule=0, fields=(), simplex=()):
        there = sum(1 << bit for bit, field in enumerate(fields) if field != "-")
        self.facts = [number, kind, block, vertices, rule, there]
        self.fields = padded((0 if field == "-" else int(field) for field in fields), 6)
        self.simplex = padded(simplex, 256)

    def text(self):
        facts = row("number, kind, block, vertices, rule, map", self.facts)
        return facts + row("fields", self.fields) + runs("simplex", self.simplex)

    def told(self):
        """What the thin function tells of it."""
        number, kind, block, vertices, rule, _ = self.facts
        text = f"told refused {number}\n" if number else f"told rule {rule}\n"
        if vertices:
            text = f"told end of kind {kind}\ntold block {block}\ntold vertices {vertices}\n"
        return text + runs("told simplex", self.simplex)


def before_any():
    """The answer that the program begins with, which no call gives."""
    answer = Answer()
    answer.facts, answer.fields, answer.simplex = [7] * 6, [7] * 6, [7] * 256
    return answer


class Script:
    """A walk with the calls on it: what the program reads, and what it prints."""

    def __init__(self, name, walk):
        self.walk, self.answer, self.calls = walk, before_any(), []
        self.head, self.text = bytes_list(f"{name}\n".encode()) + walk.data(), f"{name}\n"

    def call(self, kind, table, answer, walk, more=b""):
        self.calls.append(number(kind) + bytes_list(table) + more)
        if kind == LENT:
            self.text += answer.told()
        elif kind != TURN:
            self.answer = answer
        self.walk = walk
        self.text += self.answer.text() + walk.text()

    def data(self):
        return self.head + number(len(self.calls)) + b"".join(self.calls)


def answer_of(lines):
    """The answer that a case's lines give: a refusal, an end with its vertices, or a rule."""
    found = dict(line.partition(" ")[::2] for line in lines.splitlines())
    if "refused" in found:
        return Answer(number=int(found["refused"]))
    if "end" in found:
        rows = lines.partition("vertices ")[2].split()[1:]
        kind = ("place", "facet").index(found["end"])
        return Answer(0, kind, int(found["block"]), int(found["vertices"]), simplex=map(int, rows))
    return Answer(rule=int(found["rule"]), fields=[found[name] for name in FIELDS if name in found])


def first_walk(fields, present, before, table, answers):
    carried = carried_at_first(fields, table, present, answers)
    return Walk(fields, present, before, int(fields.get("labels-read", 1)), carried)


def moving():
    """Each stored walk is moved on through the exported function, and again through the thin one."""
    for fields, tables, answers, (present, before) in [*walks(), *origin_moves()]:
        for kind, word in (MOVE, "move"), (LENT, "lent"):
            walk, listed = first_walk(fields, present, before, tables[0], answers), points(fields["present"])
            script = Script(f"{word} {fields['name']}", walk)
            for k, lines in enumerate(answers):
                table, answer = tables[min(k, len(tables) - 1)], answer_of(lines)
                if lines.startswith("rule"):
                    found = dict(line.partition(" ")[::2] for line in lines.splitlines())
                    old, listed = listed, points(found["present"])
                    carried = [label_of(fields, table, point) for point in listed]
                    read = script.walk.read + any(point not in old for point in listed)
                    walk = script.walk.moved(kept(listed), read, carried)
                    assert walk.before == kept(points(found["before"])) and walk.places == int(found["places"]), fields
                    assert carried == list(numbers(found["carried"])) if "carried" in found else True, fields
                    assert read == int(found.get("labels-read", read)), fields
                script.call(kind, table, answer, walk)
            yield script


FIELDS = ("in", "out", "into-T", "out-of-T", "into-U", "out-of-U")


def showing():
    for head, expect, later in [*blocks("preview.txt"), *blocks("two-faults.txt", "preview")]:
        fields = dict(line.partition(" ")[::2] for line in head.splitlines())
        refused_early = re.fullmatch(r"refused [1-7]\n", expect)
        places = [stated(name, fields[name], later, refused_early) for name in ("present", "before")]
        if None in places:
            continue
        table = list(numbers(fields["labels"]))
        walk = first_walk(fields, *places, table, [expect])
        script = Script(f"preview {fields['name']}", walk)
        script.call(SHOW, table, answer_of(expect), walk)
        yield script


class Table:
    """The grid, start and labels of a path, by the definitions: what names a place's T and U, its rule and its end."""

    def __init__(self, fields):
        sizes, divisions = list(numbers(fields["sizes"])), list(numbers(fields["d"]))
        ends = list(itertools.accumulate(sizes))
        self.blocks = [list(range(end - size, end)) for size, end in zip(sizes, ends)]
        self.start, self.labels = list(numbers(fields["start"])), list(numbers(fields["labels"]))
        parts = [block(size, d) for size, d in zip(sizes, divisions)]
        self.position = {sum(y, ()): at for at, y in enumerate(itertools.product(*parts))}

    def coefficients(self, point):
        found = {}
        for block in self.blocks:
            column = list(itertools.accumulate((self.start[h] - point[h] for h in block[:-1]), initial=0))
            found.update((h, c - min(column)) for h, c in zip(block, column))
        return found

    def set_u(self, place):
        return {h for block in self.blocks for h in block if all(y[h] == 0 for y in place)}

    def set_t(self, place):
        u, lists = self.set_u(place), [self.coefficients(y) for y in place]
        return {h for block in self.blocks for h in block if h not in u and any(c[h] for c in lists)}

    def rule(self, a, b):
        t, u = len(self.set_t(b)) - len(self.set_t(a)), len(self.set_u(b)) - len(self.set_u(a))
        return {(0, 0): 1, (0, 1): 2, (0, -1): 3, (1, 0): 4, (1, -1): 5, (-1, 1): 6, (-1, 0): 7}[t, u]

    def named(self, place):
        return {self.label(y) - 1 for y in place}

    def end(self, place):
        for kind, sets in (("place", [place]), ("facet", [[y for y in place if y != x] for x in place])):
            for rest in sets:
                if rest and (kind == "place" or self.named(rest) == self.set_t(place)):
                    for block, indices in enumerate(self.blocks, 1):
                        if self.named(rest) | self.set_u(rest) >= set(indices):
                            rows = "".join(row(" ", point) for point in rest)
                            return f"end {kind}\nblock {block}\nvertices {len(rest)}\n{rows}"

    def label(self, point):
        return self.labels[self.position[tuple(point)]]


EMPTY_FIELDS = {"sizes": "", "d": "", "start": "", "places": "0"}


def from_start(fields):
    grid = bytes_list(numbers(fields["sizes"])) + words_list(numbers(fields["d"]))
    return grid + words_list(numbers(fields["start"]))


def began(name, fields, table):
    """A script whose first call makes the walk at {v}."""
    nothing = Walk(EMPTY_FIELDS, EMPTY, EMPTY, 0, [])
    script = Script(name, nothing)
    walk = Walk(fields, kept([table.start]), EMPTY, 1, [table.label(table.start)])
    script.call(BEGIN, table.labels, Answer(), walk, from_start(fields))
    return script


def go(script, table, old, place, rule):
    """A move from a place to another by a rule."""
    read = script.walk.read + any(point not in old for point in place)
    script.call(MOVE, table.labels, Answer(rule=rule), script.walk.moved(kept(place), read, map(table.label, place)))


def show_points(script, table, place):
    script.call(POINT, table.labels, Answer(vertices=len(place), simplex=sum(place, [])), script.walk)


def refused():
    """Walks that are not begun, whose struct stays as it was, and walks whose points are not given."""
    for head, expect, _ in blocks("two-faults.txt", "begin"):
        fields = dict(line.partition(" ")[::2] for line in head.splitlines())
        script = Script(f"begin {fields['name']}", Walk(EMPTY_FIELDS, EMPTY, EMPTY, 0, []))
        script.call(BEGIN, numbers(fields["labels"]), answer_of(expect), script.walk, from_start(fields))
        yield script
    for head, expect, _ in blocks("two-faults.txt", "points"):
        fields = dict(line.partition(" ")[::2] for line in head.splitlines())
        script = Script(f"points {fields['name']}", first_walk(fields, EMPTY, EMPTY, [], [expect]))
        script.call(POINT, numbers(fields["labels"]), answer_of(expect), script.walk)
        yield script


OPPOSITE = {1: 1, 2: 3, 3: 2, 4: 7, 5: 6, 6: 5, 7: 4}


def backwards():
    """Each path by calls to its end; and once more to its last place, turned there, and by calls back to {v}."""
    for head, expect, _ in blocks("backwards.txt"):
        fields = dict(line.partition(" ")[::2] for line in head.splitlines())
        if fields["call"] != "backwards" or not expect.startswith("places"):
            continue
        table = Table(fields)
        path = [points(line.partition(" at ")[2]) for line in expect.splitlines()[1:]][::-1]
        rules = [table.rule(a, b) for a, b in itertools.pairwise(path)]
        there, back = (began(f"{way} {fields['name']}", fields, table) for way in ("there", "back"))
        for old, place, rule in zip(path, path[1:], rules):
            show_points(there, table, old)
            go(there, table, old, place, rule)
        show_points(there, table, path[-1])
        there.call(MOVE, table.labels, answer_of(table.end(path[-1])), there.walk)
        yield there
        if len(path) == 1:
            show_points(back, table, path[0])
        behind = back.walk
        for old, place, rule in zip(path, path[1:], rules):
            behind = back.walk
            go(back, table, old, place, rule)
        back.call(TURN, [], None, behind.turned(back.walk.present))
        for old, place, rule in zip(path[-2::-1], path[-3::-1], rules[-2::-1]):
            show_points(back, table, old)
            go(back, table, old, place, OPPOSITE[rule])
        back.call(MOVE, table.labels, Answer(number=20), back.walk)
        yield back


def origin_moves():
    """Each walk that has an origin, as a move from there."""
    for head, expect, _ in blocks("backwards.txt"):
        fields = dict(line.partition(" ")[::2] for line in head.splitlines())
        origin = dict(line.partition(" ")[::2] for line in expect.splitlines())
        if fields["call"] != "origin" or "present" not in origin:
            continue
        here, there = points(origin["present"]), points(fields["present"])
        before = EMPTY if origin["before"] == "-" else kept(points(origin["before"]))
        answer = f"rule {Table(fields).rule(here, there)}\n"
        answer += "".join(f"{name} {fields[name]}\n" for name in ("present", "before", "places"))
        yield {**fields, **origin}, [list(numbers(fields["labels"]))], [answer], [kept(here), before]


def write():
    scripts = [*moving(), *showing(), *refused(), *backwards()]
    data = number(len(scripts)) + b"".join(script.data() for script in scripts)
    (CRATES / "case_walks" / "stdin").write_bytes(data)
    (CRATES / "case_walks" / "stdout").write_text("".join(script.text for script in scripts))
    print(f"{len(scripts)} walks, {sum(len(script.calls) for script in scripts)} calls")


if __name__ == "__main__":
    write()
