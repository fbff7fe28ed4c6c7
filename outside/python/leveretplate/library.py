"""The proved library: where its shared object is, and how numbers are lent to its calls."""

from __future__ import annotations

import ctypes
import functools
import os
import pathlib
from array import array
from collections.abc import Iterable
from typing import NamedTuple

LOCATION = "LEVERETPLATE_SHARED_LIBRARY"

# An installed package has the library beside it; in the project `outside/run python` links it.
NAME = "libleveretplate.so"
INSTALLED = pathlib.Path(__file__).resolve().parent / NAME
LINKED = pathlib.Path(__file__).resolve().parents[min(3, len(INSTALLED.parents) - 1)] / "target" / "python" / NAME

# An array of length 0 still needs an address that is not null.
_NOWHERE = (ctypes.c_uint64 * 1)()


class Fixed(NamedTuple):
    """An array to be lent without its length, which the call knows."""

    numbers: array[int]


@functools.cache
def _library() -> ctypes.CDLL:
    path = os.environ.get(LOCATION, str(INSTALLED if INSTALLED.exists() else LINKED))
    if not os.path.exists(path):
        raise FileNotFoundError(f"no shared library {path}: `outside/run python` links it, or {LOCATION} names another")
    return ctypes.CDLL(path)


def lend(what: str, bits: int, numbers: Iterable[int]) -> array[int]:
    """An array of numbers of 8, 16 or 64 bits, to be lent to a call.

    >>> lend("labels", 8, [1, 300])
    Traceback (most recent call last):
    ValueError: labels: only whole numbers from 0 to 255 can be lent
    """
    try:
        return array({8: "B", 16: "H", 64: "Q"}[bits], numbers)
    except (OverflowError, TypeError):
        raise ValueError(f"{what}: only whole numbers from 0 to {2 ** bits - 1:,} can be lent") from None


def number(what: str, value: int) -> ctypes.c_uint64:
    """A number of 64 bits, for a call."""
    return ctypes.c_uint64(lend(what, 64, [value])[0])


def room(bits: int, count: int) -> array[int]:
    """An array of as many zeros, for a call to write to."""
    return lend("room", bits, [0] * count)


def call(name: str, *arguments: array[int] | Fixed | ctypes.c_uint64 | ctypes.Structure,
         answer: type | None = ctypes.c_uint8) -> int:
    """Makes an exported call. An array is lent with its length, if the call does not know it, a struct by address."""
    try:
        function = _library()["leveretplate_" + name]
    except AttributeError:
        raise OSError(f"the shared library has no call {name}: `outside/run python` links a new one") from None
    function.restype = answer
    passed: list[ctypes.c_void_p | ctypes.c_uint64] = []
    for argument in arguments:
        if isinstance(argument, Fixed):
            passed.append(_address(argument.numbers))
        elif isinstance(argument, array):
            passed += [_address(argument), ctypes.c_uint64(len(argument))]
        elif isinstance(argument, ctypes.Structure):
            passed.append(ctypes.c_void_p(ctypes.addressof(argument)))
        else:
            passed.append(argument)
    return function(*passed) or 0


def _address(numbers: array[int]) -> ctypes.c_void_p:
    return ctypes.c_void_p(numbers.buffer_info()[0] or ctypes.addressof(_NOWHERE))
