#!/usr/bin/env python3
"""Makes the input and the expected output of the programs that run the stored cases in this folder.

Each case is a text of lines. `call` says what is called. A slip is given in hexadecimal, or by its fields; `60000x2`
stands for 60,000 times 2, and `-` for a field that is not there. The lines behind `expect`, up to `later`, are what is
expected. A shelf's calls stand in `file`, `ask` or `script`; behind `expect` stand a line for each and the list after
all of them. README.md says what each call has.

The program `case_calls` is given the calls' names, kinds and fields, and prints what the exported functions answer and
write: the number, the facts and each buffer whole. A buffer is lent full of a pattern, which stands where a call writes
nothing: 65535 in numbers of 16 bits, 255 in bytes, 7 in numbers of 64 bits.
"""
import itertools
import math
import pathlib
import re
import zlib

import walks

HERE = pathlib.Path(__file__).resolve().parent
CRATES = HERE.parent.parent / "crates"

# the kinds of calls, as the program knows them
KIOSK, SHEET, FILE, ASK, CHECK, BOUNDARY, LABEL, LABEL_BUILT_IN = range(1, 9)
RUN, NEAR, WRITE_TRAIL, READ_TRAIL, REFINE = range(9, 14)

LOSSES = {1: 24, 2: 81, 3: 64}
SHEET_BYTES = 4096
MOST_SHOWN = 2000


def cases(folder):
    """The cases of a folder. What stands in front of a file's first case is said of all of them."""
    for path in sorted(folder.glob("*.txt")):
        for block in re.split(r"^(?=call )", path.read_text(), flags=re.M)[1:]:
            head, expect = block.split("expect\n", 1)
            fields = dict(line.partition(" ")[::2] for line in head.splitlines())
            yield fields, expect.partition("later\n")[0].splitlines()


# ---- what is written into the input


def repeated(text):
    """The items of a text: `3x.` is three dots, and a dash is none."""
    for item in text.split():
        count, _, rest = item.rpartition("x")
        yield from [] if item == "-" else [rest] * int(count or 1)


def numbers(text):
    return [int(item) for item in repeated(text)]


def little(values, size):
    return b"".join(v.to_bytes(size, "little") for v in values)


def number(value):
    return int(value).to_bytes(8, "little")


def bytes_list(values):
    values = bytes(values)
    return number(len(values)) + values


def words_list(values):
    values = list(values)
    return number(len(values)) + little(values, 2)


def on_grid(fields):
    return bytes_list(numbers(fields["sizes"])) + words_list(numbers(fields["d"]))


def on_path(fields):
    return on_grid(fields) + words_list(numbers(fields["start"]))


def on_table(fields):
    return on_path(fields) + bytes_list(numbers(fields["labels"]))


def slip(fields):
    if "slip" in fields:
        return bytes.fromhex(fields["slip"])
    names = ("start", "budget", "labels", "game", "losses")
    there = [fields.get(name, "-") != "-" for name in names]
    sizes = numbers(fields["sizes"])
    out = bytes([sum(bit << k for k, bit in enumerate(there)), len(sizes), *sizes])
    out += little(numbers(fields["d"]), 2)
    for name, size, bit in zip(names, (2, 8, 1, 1, 2), there):
        if bit:
            out += little(numbers(fields[name]), size)
    return out


# ---- what is printed


def runs(name, values):
    """A line of runs of equal numbers: 3x0 stands for three times 0."""
    return " ".join([name, *(f"{len(list(group))}x{value}" for value, group in itertools.groupby(values))]) + "\n"


def in_bytes(name, values):
    values = bytes(values)
    return f"{name} crc32 {zlib.crc32(values)}\n" if len(values) > MOST_SHOWN else runs(name, values)


def line(name, values):
    return " ".join([name, *map(str, values)]) + "\n"


def filled(values, room, pattern):
    """What a buffer holds whose front is written."""
    return list(values) + [pattern] * (room - len(values))


def answered(fact):
    return f"number {fact}\n"


def said(expect):
    """The lines with a word in front, by that word; a line of numbers has none."""
    named = (text.rpartition(" ") if text.startswith("labels read ") else text.partition(" ") for text in expect)
    return {name: value for name, _, value in named if not name.isdigit()}


def refusal(expect):
    return int(said(expect).get("refused", 0))


def rows(expect):
    """The numbers of the lines that have no word."""
    return [int(item) for text in expect if text[0].isdigit() for item in text.split()]


def end_facts(found):
    kind = ("place", "facet").index(found["end"])
    return [int(found["places"]), int(found["labels read"]), kind, int(found["block"]), int(found["vertices"])]


def run_facts(expect):
    found = said(expect)
    if "refused" not in found:
        return end_facts(found)
    return [int(found[name]) for name in ("places", "position") if name in found]


def run_lines(expect):
    return answered(refusal(expect)) + line("facts", filled(run_facts(expect), 5, 7))


def left(text, pattern):
    """A buffer in which a dot stands for what was left as it was."""
    return [pattern if item == "." else int(item) for item in repeated(text)]


def answer_line(fields, expect):
    written = left(said(expect).get("answer-after", ""), 65535) or rows(expect)
    return runs("answer", filled(written, int(fields["answer"]), 65535))


# ---- each call: its kind, its input, and what is printed of it


def slip_case(fields, expect):
    sheet = "".join(text + "\n" for text in expect)
    yield KIOSK, number(len(slip(fields))) + slip(fields), sheet
    behind = in_bytes("behind", [255] * (SHEET_BYTES - len(sheet)))
    yield SHEET, bytes_list(slip(fields)), f"length {len(sheet)}\n{sheet}{behind}"


def run_case(fields, expect):
    data = on_table(fields) + number(fields["answer"]) + number(fields["budget"])
    yield RUN, data, run_lines(expect) + answer_line(fields, expect)


def near_case(fields, expect):
    data = on_table(fields) + words_list(numbers(fields["w"]))
    data += b"".join(number(fields[name]) for name in ("answer", "list", "budget", "distance"))
    found = said(expect)
    near = [int(found[name]) for name in ("nearest", "within") if name in found]
    listed = filled(numbers(found.get("list", "")), int(fields["list"]), 65535)
    text = run_lines(expect) + line("near", filled(near, 2, 7)) + answer_line(fields, expect) + runs("list", listed)
    yield NEAR, data, text


def along_an_edge(fields, found):
    """The trail of a path whose labels are all 1, on one block of size 2 from its last point on: {v}, the step into T,
    and then a point comes in and one goes out at each move. The case has its first and last 40 bytes, and the sum of
    each byte times its place, counted from 1."""
    division = int(fields["d"])
    assert (fields["sizes"], fields["start"], fields["labels"]) == ("2", f"0 {division}", f"{division + 1}x1")
    moves = (b"\x43" + little([point, point - 2], 2) + b"\x01" for point in range(2, division + 1))
    trail = b"\x01\0\0" + b"\x65\x01\0\x01\x01\x05" + b"".join(moves)
    weighed = sum(place * byte for place, byte in enumerate(trail, 1)) % 1000000007
    assert (len(trail), weighed) == (int(found["trail-bytes"]), int(found["trail-sum"]))
    assert (trail[:40].hex(), trail[-40:].hex()) == (found["trail-front"], found["trail-back"])
    return trail


def write_trail_case(fields, expect):
    data = on_table(fields) + b"".join(number(fields[name]) for name in ("answer", "trail", "budget"))
    found = said(expect)
    trail = along_an_edge(fields, found) if "trail-sum" in found else bytes.fromhex(found.get("trail", ""))
    text = run_lines(expect) + f"bytes {found.get('trail-bytes', 7)}\n" + answer_line(fields, expect)
    yield WRITE_TRAIL, data, text + in_bytes("trail", filled(trail, int(fields["trail"]), 255))


def mask(indices):
    """A set of indices, counted from 1, as the reader gives it."""
    return sum(1 << (index - 1) for index in numbers(indices))


def read_trail_case(fields, expect):
    """The points at the front of the buffer, what it held behind."""
    data = on_path(fields) + bytes_list(bytes.fromhex(fields["trail"])) + number(fields["record"])
    if refusal(expect):
        text = answered(refusal(expect)) + line("place", [7] * 4) + runs("points", [65535] * 256)
    else:
        found = said(expect)
        place = int(found["points"]), mask(found["T"]), mask(found["U"]), int(found["labels read"])
        text = answered(0) + line("place", place) + runs("points", filled(rows(expect), 256, 65535))
    yield READ_TRAIL, data, text


def check_case(fields, expect):
    found = said(expect)
    answer = found.get("refused", 256 * int(found.get("block", 0)))
    data = on_grid(fields) + bytes_list(numbers(fields["labels"])) + words_list(numbers(fields.get("points", "")))
    yield CHECK, data, answered(answer)


def labels_written(expect, labels, room):
    """The number, the count and the buffer of a call that fills a label buffer or leaves it as it is."""
    count = 7 if refusal(expect) else len(labels)
    return answered(refusal(expect)) + f"count {count}\n" + in_bytes("labels", filled(labels, room, 255))


def boundary_case(fields, expect):
    room, labels = int(fields["buffer"]), numbers(said(expect).get("labels-after", ""))
    data = on_grid(fields) + bytes_list(numbers(fields["labels"])) + number(room)
    yield BOUNDARY, data, labels_written(expect, labels, room)


def label_case(fields, expect):
    """The labels of the losses lent, or of a game that is built in."""
    room, labels = int(fields["buffer"]), numbers(said(expect).get("labels", ""))
    kind, losses = LABEL, words_list(numbers(fields.get("losses", "")))
    if "losses" not in fields:
        kind, losses = LABEL_BUILT_IN, bytes_list(numbers(fields["game"])) + number(LOSSES[int(fields["game"])])
    yield kind, on_grid(fields) + losses + number(room), labels_written(expect, labels, room)


def refine_case(fields, expect):
    """Five facts for each level. A label buffer that the case gives by its CRC-32 has too many bytes to be shown."""
    data = on_path(fields) + words_list(numbers(fields["losses"]))
    data += b"".join(number(fields[name]) for name in ("buffer", "answer", "k", "levels"))
    levels = re.split(r"^level \d+\n", "".join(text + "\n" for text in expect), flags=re.M)[1:]
    facts = [fact for level in levels for fact in end_facts(said(level.splitlines()))]
    after = said(expect).get("labels-after", f"{fields['buffer']}x255")
    if after.startswith("crc32"):
        _, total, _, count = after.split()
        assert int(count) > MOST_SHOWN
        labels = f"labels crc32 {int(total, 16)}\n"
    else:
        labels = in_bytes("labels", numbers(after))
    text = answered(refusal(expect)) + line("facts", filled(facts, 40, 7)) + answer_line(fields, expect)
    yield REFINE, data, text + labels


def shelf_calls(fields):
    if "script" in fields:
        return [call.split() for call in fields["script"].split(", ")]
    return [(word, fields[word]) for word in ("file", "ask") if word in fields]


def shelf_case(fields, expect):
    """Each call on the list and the count that the one before has left. The last list is the case's."""
    values, count = numbers(fields["list"]), int(fields["count"])
    *answers, last = expect
    for (word, sheet), answer in zip(shelf_calls(fields), answers, strict=True):
        data = words_list(values) + number(count) + number(sheet)
        name, _, fact = answer.partition(" ")
        if name == "count":
            count = int(fact)
            values = [*values[:count - 1], int(sheet), *values[count:]]
        text = answered(fact) + "to 7\n" if name == "refused" else f"{answered(0)}to {fact}\n"
        yield FILE if word == "file" else ASK, data, text + runs("list", values)
    assert values == numbers(last.removeprefix("list")), fields["name"]


def grid_case(fields, expect):
    """A grid by the calls: P is the count of a labelling; the bound stands on the sheet of a slip; a point's position
    is the one that a run from there gives where no label is known. Where all losses are 1 every label is 1, so that the
    path from the first index of each block ends at once, in block 1."""
    found, sizes, divisions = said(expect), numbers(fields["sizes"]), numbers(fields["d"])
    points, refused = int(found.get("points", 0)), expect if "points" not in found else expect[2:]
    m, n = sum(sizes), sum(sizes) - len(sizes)
    if points:
        losses = f"{len(sizes) * math.prod(sizes)}x1"
        yield from label_case({**fields, "losses": losses, "buffer": points}, ["labels " + f"{points}x1"])
        start = [x for size, d in zip(sizes, divisions) for x in [d] + [0] * (size - 1)]
        centre = [10000 * (x > 0) for x in start]
        sheet = ["places 1", "labels read 1", f"bound {found['bound']}", "end place", "block 1", "vertices 1"]
        sheet += [" ".join(map(str, start)), " ".join(map(str, ["centre", *centre]))]
        yield from slip_case({**fields, "losses": losses}, sheet)
    else:
        yield from label_case({**fields, "losses": "-", "buffer": 0}, refused)
    if fields["point"] != "-" or refused:
        position = ["refused 16", "places 0", *refused] if "position" in found else refused
        lent = {"start": fields["point"], "labels": f"{points}x0", "answer": (n + 1) * m % 257, "budget": 1}
        yield from run_case({**fields, **lent}, position)


def as_run(fields, expect):
    """A slip with a start and labels as a run with exactly the room that question 8 asks."""
    m = len(numbers(fields["start"]))
    room = (m - len(numbers(fields["sizes"])) + 1) * m
    lines = [text for text in expect if not text.startswith(("bound", "centre"))]
    budget = fields.get("budget", "-")
    return {**fields, "call": "run", "answer": room, "budget": 2**63 if budget == "-" else budget}, lines


CALLS = {
    "slip": slip_case, "run": run_case, "near": near_case, "run-with-trail": write_trail_case,
    "read-trail": read_trail_case, "check": check_case, "boundary": boundary_case, "label": label_case,
    "refine": refine_case, "shelf": shelf_case, "grid": grid_case,
}


def write(crate, data, text):
    (CRATES / crate / "stdin").write_bytes(data)
    (CRATES / crate / "stdout").write_text(text)


def main():
    stored = [*cases(HERE), *cases(HERE / "grids")]
    ends = [as_run(*case) for case in stored if case[0]["name"].startswith("end ") and case[0].get("start", "-") != "-"]
    calls = []
    for fields, expect in stored + ends:
        name = f"{fields['call']} {fields['name']}\n"
        for kind, data, text in CALLS[fields["call"]](fields, expect):
            calls.append((bytes_list(name.encode()) + number(kind) + data, name + text))
    write("case_calls", number(len(calls)) + b"".join(data for data, _ in calls), "".join(text for _, text in calls))
    (longest,) = [case for case in stored if case[0]["name"] == "longest slip"]
    write("kiosk", slip(longest[0]), "".join(text + "\n" for text in longest[1]))
    counted = [fields["call"] for fields, _ in stored + ends]
    print(f"{len(calls)} calls of", ", ".join(f"{counted.count(call)} {call}" for call in CALLS))
    walks.write()


if __name__ == "__main__":
    main()
