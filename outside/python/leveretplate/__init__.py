"""Leveretplate from Python: the calls of the proved library, with plain lists in and out.

    >>> import leveretplate
    >>> leveretplate.run([2, 2], [1, 1], [1, 0, 1, 0], [2, 2, 2, 4])
    End(places=5, labels_read=4, kind='facet', block=1, vertices=[[0, 1, 1, 0]])

`python3 -m leveretplate` has the commands. Nothing here is proved but what the library answers.
"""

from .calls import (End, Nearest, Place, Refinement, boundary, check, current, file, label, nearest, read_trail, refine,
                    run, run_with_trail, sheet)
from .moves import Move
from .questions import QUESTIONS, Refused
from .walks import Walk, move_on, preview, walk_at_start, walk_points

# That of the library's interface, LEVERETPLATE_VERSION in the header.
VERSION = "3"

__all__ = ["QUESTIONS", "VERSION", "End", "Move", "Nearest", "Place", "Refinement", "Refused", "Walk", "boundary",
           "check", "current", "file", "label", "move_on", "nearest", "preview", "read_trail", "refine", "run",
           "run_with_trail", "sheet", "walk_at_start", "walk_points"]
