"""The stored cases of the project, through the package's calls and its text of a slip.

The package lends buffers of its own, so cases that are about what is lent are left out: those refused with 8, 12 or 22
for a buffer's length, those that look behind what a run writes, and shelves lent with more or less than their sheets.
"""

import pathlib
import re
import unittest
import zlib
from collections.abc import Callable, Iterator

import leveretplate
from leveretplate import End, Refused
from leveretplate.calls import NO_LIMIT
from leveretplate.games import BUILT_IN
from leveretplate.slips import decode
from leveretplate.texts import of_slip, to_bytes

STORED = pathlib.Path(__file__).resolve().parents[3] / "tests" / "stored_cases"
BUFFERS = ("refused 8\n", "refused 12\n", "refused 22\n")

Fields = dict[str, str]


def cases(call: str) -> Iterator[tuple[str, Fields, list[str]]]:
    """The text, the fields and the expected lines of each stored case of a call."""
    for path in sorted(STORED.glob("*.txt")):
        for case in re.split(r"^(?=call )", path.read_text(), flags=re.M)[1:]:
            text, _, expected = case.partition("later\n")[0].partition("expect\n")
            fields = dict(line.partition(" ")[::2] for line in text.splitlines())
            if fields["call"] == call and not is_about_buffers(fields, expected):
                yield text, fields, expected.splitlines()


def is_about_buffers(fields: Fields, expected: str) -> bool:
    if fields["call"] == "shelf" and ("script" in fields or int(fields["count"]) > len(numbers(fields["list"]))):
        return True
    return expected.startswith(BUFFERS) or fields["call"] == "run" and "answer-after" in expected


def numbers(items: str) -> list[int]:
    pairs = (item.rpartition("x")[::2] for item in items.split())
    return [int(number) for count, number in pairs for _ in range(int(count or 1))]


def joined(name: str, values: list[int]) -> str:
    return " ".join([name, *map(str, values)])


def grid(fields: Fields) -> tuple[list[int], list[int]]:
    return numbers(fields["sizes"]), numbers(fields["d"])


def table_run(fields: Fields) -> tuple[list[int], list[int], list[int], list[int]]:
    return *grid(fields), numbers(fields["start"]), numbers(fields["labels"])


def budget(fields: Fields) -> int:
    return NO_LIMIT if fields.get("budget", "-") == "-" else int(fields["budget"])


def end_lines(end: End) -> list[str]:
    return [f"places {end.places}", f"labels read {end.labels_read}", f"end {end.kind}",
            f"block {end.block}", f"vertices {len(end.vertices)}"]


def with_vertices(end: End) -> list[str]:
    return end_lines(end) + [" ".join(map(str, vertex)) for vertex in end.vertices]


def run_lines(fields: Fields) -> list[str]:
    return with_vertices(leveretplate.run(*table_run(fields), budget(fields)))


def nearest_lines(fields: Fields) -> list[str]:
    found = leveretplate.nearest(*table_run(fields), numbers(fields["w"]), int(fields["distance"]), budget(fields))
    near = [f"nearest {found.nearest}", f"within {len(found.within)}", joined("list", found.within)]
    return with_vertices(found.end) + near


def label_lines(fields: Fields) -> list[str]:
    losses = numbers(fields["losses"]) if "losses" in fields else BUILT_IN[int(fields["game"])][1]
    return [joined("labels", leveretplate.label(*grid(fields), losses))]


def boundary_lines(fields: Fields) -> list[str]:
    labels = leveretplate.boundary(*grid(fields), numbers(fields["labels"]))
    return [f"written {len(labels)}", joined("labels-after", labels)]


def check_lines(fields: Fields) -> list[str]:
    block = leveretplate.check(*grid(fields), numbers(fields["labels"]), [numbers(fields["points"])])
    return ["no"] if block is None else ["yes", f"block {block}"]


def refine_lines(fields: Fields) -> list[str]:
    ends, labels = leveretplate.refine(*grid(fields), numbers(fields["start"]), numbers(fields["losses"]),
                                       int(fields["k"]), int(fields["levels"]))
    levels = [line for level, end in enumerate(ends) for line in [f"level {level}", *end_lines(end)]]
    return levels + [sum_line(labels)]


def sum_line(labels: list[int]) -> str:
    return f"labels-after crc32 {zlib.crc32(bytes(labels)):08x} of {len(labels)}"


def shelf_lines(fields: Fields) -> list[str]:
    shelf = numbers(fields["list"])[:int(fields["count"])]
    if "ask" in fields:
        return [f"current {leveretplate.current(shelf, int(fields['ask']))}"]
    return [f"count {len(leveretplate.file(shelf, int(fields['file'])))}"]


CALLS: dict[str, Callable[[Fields], list[str]]] = {
    "run": run_lines, "near": nearest_lines, "label": label_lines, "boundary": boundary_lines, "check": check_lines,
    "refine": refine_lines, "shelf": shelf_lines,
}


def answered(call: str, fields: Fields) -> list[str]:
    try:
        return CALLS[call](fields)
    except Refused as refusal:
        facts = [("places", refusal.places), ("position", refusal.position)]
        return [f"refused {refusal.number}"] + [f"{name} {fact}" for name, fact in facts if fact is not None]


def expected_lines(call: str, lines: list[str]) -> list[str]:
    """What the package can show of what is expected, with equal numbers in a row written out."""
    kept = [re.sub(r"\b(\d+)x(\d+)", lambda run: " ".join([str(run[2])] * int(run[1])), line) for line in lines
            if not line.startswith("answer-after") and not (call == "shelf" and line.startswith("list"))]
    if call == "refine" and kept[-1].startswith("labels-after") and "crc32" not in kept[-1]:
        kept[-1] = sum_line(numbers(kept[-1].partition(" ")[2]))
    return kept


class StoredCases(unittest.TestCase):
    def test_calls(self) -> None:
        for call in CALLS:
            for _, fields, expected in cases(call):
                with self.subTest(fields["name"]):
                    self.assertEqual(answered(call, fields), expected_lines(call, expected))

    def test_slips(self) -> None:
        for text, fields, expected in cases("slip"):
            with self.subTest(fields["name"]):
                slip = to_bytes(text)
                self.assertEqual(leveretplate.sheet(slip).splitlines(), expected)
                if "sizes" in fields:
                    self.assertEqual(to_bytes(of_slip(decode(slip))), slip)
