"""A slip: its fields, its bytes, and the tables that it stands for."""

from dataclasses import dataclass

from .calls import NO_LIMIT, label
from .games import BUILT_IN
from .grids import corner
from .malformed import Malformed
from .questions import Refused

# The fields in their order, with the bytes of each number. The map has a bit for each from the start on.
WIDTHS = {"sizes": 1, "divisions": 2, "start": 2, "budget": 8, "labels": 1, "game": 1, "losses": 2}
OPTIONAL = tuple(WIDTHS)[2:]
TABLES = ("labels", "game", "losses")
SINGLE = ("budget", "game")


@dataclass
class Slip:
    """The fields of a slip. One that it does not have is None."""

    sizes: list[int]
    divisions: list[int]
    start: list[int] | None = None
    budget: int | None = None
    labels: list[int] | None = None
    game: int | None = None
    losses: list[int] | None = None

    @classmethod
    def of(cls, fields: dict[str, list[int]]) -> "Slip":
        """The slip of these fields, each as a list, also where it is a single number."""
        budget, game = (fields[field][0] if field in fields else None for field in SINGLE)
        return cls(fields["sizes"], fields["divisions"], fields.get("start"), budget, fields.get("labels"), game,
                   fields.get("losses"))

    def numbers(self, field: str) -> list[int] | None:
        """A field as a list, also where it is a single number."""
        value: list[int] | int | None = getattr(self, field)
        return [value] if isinstance(value, int) else value

    def encode(self) -> bytes:
        """The bytes of the slip.

        >>> Slip([2, 2], [1, 1], labels=[2, 2, 2, 4]).encode().hex(" ")
        '04 02 02 02 01 00 01 00 02 02 02 04'
        """
        if len(self.divisions) != len(self.sizes):
            raise Malformed("a division is needed for each block")
        if self.start is not None and len(self.start) != sum(self.sizes):
            raise Malformed("the start needs a number for each index")
        announced = sum(1 << bit for bit, field in enumerate(OPTIONAL) if self.numbers(field) is not None)
        fields = b"".join(_encode(field, self.numbers(field) or []) for field in WIDTHS)
        return bytes([announced]) + _encode("sizes", [len(self.sizes)]) + fields

    def first(self) -> list[int]:
        """The start, or the corner where a path without one starts."""
        return corner(self.sizes, self.divisions) if self.start is None else self.start

    def limit(self) -> int:
        """The budget, or one that no path spends."""
        return NO_LIMIT if self.budget is None else self.budget

    def loss_table(self) -> list[int]:
        """The losses of the slip's game, brought or built in."""
        if self.losses is not None:
            return self.losses
        if self.game is None:
            raise Malformed("this needs a game, and the slip has labels")
        sizes, losses = BUILT_IN.get(self.game, ([], []))
        if sizes != self.sizes:
            raise Refused(15)
        return losses

    def label_table(self) -> list[int]:
        """The labels, or those of the slip's game."""
        return label(self.sizes, self.divisions, self.loss_table()) if self.labels is None else self.labels


def decode(slip: bytes) -> Slip:
    """The fields of a slip's bytes.

    >>> decode(bytes.fromhex("04 02 02 02 01 00 01 00 02 02 02 04"))
    Slip(sizes=[2, 2], divisions=[1, 1], start=None, budget=None, labels=[2, 2, 2, 4], game=None, losses=None)
    >>> decode(bytes.fromhex("04 02 02"))
    Traceback (most recent call last):
    leveretplate.malformed.Malformed: the slip ends within its sizes
    """
    if len(slip) < 2:
        raise Malformed("the slip ends before its sizes")
    announced, blocks, rest = slip[0], slip[1], slip[2:]
    there = [field for bit, field in enumerate(OPTIONAL) if announced >> bit & 1]
    if announced >= 1 << len(OPTIONAL) or len(set(there) & set(TABLES)) != 1:
        raise Malformed(f"the slip's map, {announced}, does not announce exactly one of labels, game and losses")
    values: dict[str, list[int]] = {}
    for field in ("sizes", "divisions", *there):
        counts = {"sizes": blocks, "divisions": blocks, "start": sum(values.get("sizes", [])), "budget": 1, "game": 1}
        length = counts.get(field, len(rest) // WIDTHS[field]) * WIDTHS[field]
        if length > len(rest):
            raise Malformed(f"the slip ends within its {field}")
        values[field], rest = _decode(field, rest[:length]), rest[length:]
    if rest:
        raise Malformed("bytes follow the last field of the slip")
    return Slip.of(values)


def _encode(field: str, numbers: list[int]) -> bytes:
    width = WIDTHS[field]
    if any(not 0 <= number < 256 ** width for number in numbers):
        raise Malformed(f"{field}: a slip has numbers from 0 to {256 ** width - 1:,}")
    return b"".join(number.to_bytes(width, "little") for number in numbers)


def _decode(field: str, numbers: bytes) -> list[int]:
    width = WIDTHS[field]
    return [int.from_bytes(numbers[at:at + width], "little") for at in range(0, len(numbers), width)]
