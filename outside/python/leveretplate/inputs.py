"""What a researcher brings: a readable text, a Gambit file or the bytes of a slip, told apart by what they hold."""

import codecs
import pathlib
import re
import sys
from dataclasses import replace
from fractions import Fraction
from typing import NamedTuple

from . import gambit, texts
from .games import Losses
from .malformed import Malformed
from .refining import to_finest
from .slips import Slip, decode


class Brought(NamedTuple):
    """The bytes of a slip, the text that it came from, if any, a title, and the game with its losses, if one was."""

    slip: bytes
    text: str | None
    title: str
    game: gambit.Game | None = None
    losses: gambit.Losses | None = None

    def exact_losses(self) -> Losses:
        """The losses, in what was brought: payoffs, also where the slip has them rounded, or losses."""
        if self.game:
            return self.game.missed()
        return decode(self.slip).loss_table()

    def unit(self) -> Fraction:
        """What one of the slip's losses is worth in what was brought."""
        return self.losses.unit if self.losses else Fraction(1)

    def rounding(self) -> str | None:
        """How the payoffs were rounded, in words, or None where every label is that of what was brought."""
        return self.losses.rounding() if self.losses and self.losses.error else None


class Choices(NamedTuple):
    """What the command line says of the grid, the run and the payoffs, in place of what was brought."""

    divisions: list[int] | None = None
    start: list[int] | None = None
    budget: int | None = None
    rounding: bool = False
    finest: bool = False

    def applied(self, slip: Slip) -> Slip:
        """The slip with what was chosen for it."""
        made = {name: value for name in ("divisions", "start", "budget")
                if (value := getattr(self, name)) is not None}
        if self.divisions is not None and len(self.divisions) == 1:
            made["divisions"] = self.divisions * len(slip.sizes)
        if self.finest:
            made.update(divisions=[to_finest(slip.sizes)[0]] * len(slip.sizes), start=None)
        return replace(slip, **made) if made else slip


def read_bytes(path: str) -> bytes:
    """The bytes of a file, or of standard input where the path is "-"."""
    return sys.stdin.buffer.read() if path == "-" else pathlib.Path(path).read_bytes()


def read_text(path: str) -> str:
    """The text of a file; what is no character is taken as one that no field has."""
    return _text(read_bytes(path).removeprefix(codecs.BOM_UTF8))


def read(path: str, choices: Choices) -> Brought:
    """What a file holds, as a slip."""
    data = read_bytes(path).removeprefix(codecs.BOM_UTF8)
    begins = data.lstrip()[:20].upper()
    if begins.startswith(b"<"):
        raise Malformed("this is no game in strategic form (.nfg) but XML, as a workbook of Gambit's (.gbt) is")
    if begins.startswith(b"EFG"):
        raise Malformed("this is a game in extensive form (.efg), and one in strategic form (.nfg) is needed")
    if begins.startswith(b"NFG"):
        return _from_gambit(_text(data), choices)
    # The second byte of a slip is its number of blocks, and no text has such a byte.
    text = None if re.search(rb"[\x00-\x08]", data) else _text(data)
    slip = data if text is None else texts.to_bytes(text)
    if choices != Choices(rounding=choices.rounding):
        slip = choices.applied(decode(slip)).encode()
    name = "Standard input" if path == "-" else pathlib.Path(path).name
    return Brought(slip, text, texts.note(text or "") or name)


def _from_gambit(text: str, choices: Choices) -> Brought:
    game = gambit.read(text)
    losses = game.losses(choices.rounding)
    if choices.divisions is None and not choices.finest:
        raise Malformed("a Gambit file has no divisions: --divisions gives them")
    slip = choices.applied(Slip(game.sizes, [], losses=losses.losses))
    return Brought(slip.encode(), None, game.title, game, losses)


def _text(data: bytes) -> str:
    return data.decode("utf-8", "replace")
