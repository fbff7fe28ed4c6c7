"""A slip as readable text, in the field names of the stored cases.

    sizes 2 2
    d 10 10
    start 10 0 10 0
    losses 1 3 3 1 3 1 1 3

A field stands on a line of its own, in any order, and goes on over the next lines that begin with a number; "-" is a
field that is absent, 12x3 is twelve times 3. From # on a line is a comment. The field `note` is a title, and `points`
has the points that a check looks at. The lines `call`, `name` and `source` are not read, and nothing is from a line
`expect` on, so that a stored case is a text too. Its line `slip` has the bytes in hex: alone it is the slip, beside
other fields it must agree with them.
"""

import re
from itertools import groupby

from . import sheets
from .malformed import Malformed
from .slips import SINGLE, TABLES, WIDTHS, Slip

# The field that is called d in the stored cases.
FIELDS = {"d" if field == "divisions" else field: field for field in WIDTHS}
UNREAD = ("call", "name", "note", "source")

# No field of an accepted slip has more than 60,000 numbers.
MOST_NUMBERS = 100_000


def to_bytes(text: str) -> bytes:
    """The bytes of the slip that a text describes.

    >>> to_bytes("sizes 2 2" + chr(10) + "d 2x1" + chr(10) + "labels 3x2 4").hex(" ")
    '04 02 02 02 01 00 01 00 02 02 02 04'
    """
    lines = _lines(text)
    values = {FIELDS[name]: _numbers(name, *lines[name]) for name in FIELDS if name in lines}
    stated = _hex(*lines["slip"]) if "slip" in lines else None
    if stated is not None and not values:
        return stated
    for name in ("sizes", "d"):
        if name not in lines:
            raise Malformed(f"the field {name} is missing")
    if len(values.keys() & set(TABLES)) != 1:
        raise Malformed("exactly one of labels, game and losses is needed")
    made = Slip.of(values).encode()
    if stated not in (None, made):
        raise Malformed("these are not the bytes of the other fields", lines["slip"][0])
    return made


def of_slip(slip: Slip, remark: str | None = None) -> str:
    """The text of a slip, equal numbers in a row as one item, behind a note if there is a remark to make.

    >>> print(of_slip(Slip([2], [4], start=[3, 1], labels=[1] * 5), "A segment"), end="")
    note A segment
    sizes 2
    d 4
    start 3 1
    labels 5x1
    """
    there = ((name, slip.numbers(field)) for name, field in FIELDS.items())
    fields = "".join(f"{name} {_items(numbers)}\n" for name, numbers in there if numbers is not None)
    return f"note {' '.join(remark.split())}\n{fields}" if remark else fields


def note(text: str) -> str | None:
    """The note of a text, if it has one.

    >>> note("note A segment" + chr(10) + "sizes 2")
    'A segment'
    """
    found = re.search(r"^note +(.*\S)", text, re.MULTILINE)
    return found[1] if found else None


def points(text: str, m: int) -> list[list[int]]:
    """The field `points`, which a check reads: points in brackets of m numbers each, or all their numbers in a row.

    >>> points("points (1 0) (0 1)", 2), points("points 1 0 0 1", 2)
    ([[1, 0], [0, 1]], [[1, 0, 0, 1]])
    """
    lines = _lines(text)
    if "points" not in lines:
        raise Malformed("points are needed, in a second file or as the field points of a text")
    at, value = lines["points"]
    if not re.search(r"[][()]", value):
        return [_numbers("points", at, value)]
    lines_there = [(here, line) for here, line in enumerate(value.split("\n"), at) if line]
    return [point for here, line in lines_there for point in sheets.vertices(here, line, m)]


def _lines(text: str) -> dict[str, tuple[int, str]]:
    """The fields that are there, each with its line's number and what stands behind the name, line by line."""
    lines: dict[str, tuple[int, str]] = {}
    last = ""
    for at, line in enumerate(text.splitlines(), 1):
        line = line.partition("#")[0].strip()
        name, _, value = line.partition(" ")
        if name == "expect":
            break
        if re.match(r"[0-9(\[]", name) or not name:
            # Also an empty line is kept, so that what stands on the next one has its line's number.
            if last in lines:
                lines[last] = lines[last][0], f"{lines[last][1]}\n{line}"
            elif name:
                raise Malformed(f"{name[:20]!r} stands behind no field that has numbers", at)
            continue
        last = name
        if name in UNREAD or value.strip() == "-":
            continue
        if name not in (*FIELDS, "slip", "points"):
            raise Malformed(f"{name[:20]!r} is no field; the fields are {', '.join(FIELDS)}, points and note", at)
        if name in lines:
            raise Malformed(f"a second field {name}", at)
        lines[name] = at, value
    return lines


def _numbers(name: str, at: int, value: str) -> list[int]:
    numbers: list[int] = []
    for here, line in enumerate(value.split("\n"), at):
        for item in line.replace(",", " ").split():
            match = re.fullmatch(r"(?:([0-9]{1,6})x)?([0-9]{1,20})", item)
            if not match:
                raise Malformed(f"{name}: {item[:20]!r} is no whole number", here)
            numbers += [int(match[2])] * int(match[1] or 1)
            if len(numbers) > MOST_NUMBERS:
                raise Malformed(f"{name}: more than {MOST_NUMBERS:,} numbers", here)
    if not numbers:
        raise Malformed(f"{name}: numbers are needed, or - for none", at)
    if name in SINGLE and len(numbers) > 1:
        raise Malformed(f"{name}: one number is needed", at)
    return numbers


def _hex(at: int, value: str) -> bytes:
    try:
        return bytes.fromhex(value)
    except ValueError:
        raise Malformed("slip: bytes in hex are needed", at) from None


def _items(numbers: list[int]) -> str:
    runs = [(number, len(list(equal))) for number, equal in groupby(numbers)]
    return " ".join(f"{count}x{number}" if count > 2 else " ".join([str(number)] * count) for number, count in runs)
