"""Progress of long work: one line on a terminal that the next one covers, and nothing in a pipe."""

import sys
import time
from collections.abc import Iterable, Iterator
from typing import TypeVar

Item = TypeVar("Item")

SECONDS_BETWEEN = 0.1


def shown(items: Iterable[Item], what: str) -> Iterator[Item]:
    """The items, with how many have gone by shown on the terminal of standard error, if there is one."""
    if not sys.stderr.isatty():
        yield from items
        return
    last = 0.0
    try:
        for count, item in enumerate(items, 1):
            if time.monotonic() - last > SECONDS_BETWEEN:
                last = time.monotonic()
                print(f"\r{what} {count:,}\033[K", end="", file=sys.stderr, flush=True)
            yield item
    finally:
        print("\r\033[K", end="", file=sys.stderr, flush=True)
