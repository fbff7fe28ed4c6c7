"""A page that shows a path place by place: one file for any browser, with nothing to load."""

import html
import json
import pathlib
from typing import NamedTuple

from .calls import run
from .grids import centre, grid_points
from .malformed import Malformed
from .moves import Move
from .paths import follow
from .sheets import rounded
from .slips import Slip

SOURCES = pathlib.Path(__file__).parent
MOST_PLACES = 2_000

# The grids that the page draws in the plane, each point with its label; it shows all others as bars.
PLANES = ([2], [3], [2, 2])
MOST_DRAWN = 2_000

Point = tuple[int, ...]


class Heading(NamedTuple):
    """What stands above a path: a title, the names of players and of their strategies, and a remark, if there are."""

    title: str
    players: list[str] = []
    strategies: list[list[str]] = []
    remark: str | None = None


def page(slip: Slip, heading: Heading) -> str:
    """The page of a slip's path."""
    labels = slip.label_table()
    count = run(slip.sizes, slip.divisions, slip.first(), labels, slip.limit()).places
    if count > MOST_PLACES:
        raise Malformed(f"the path has {count:,} places, and a page shows at most {MOST_PLACES:,}")
    data = json.dumps(_data(slip, labels, heading), separators=(",", ":"))
    style, script, written = ((SOURCES / name).read_text("utf-8") for name in ("page.css", "page.js", "page.html"))
    remark = f'<p class="remark">{html.escape(heading.remark)}</p>' if heading.remark else ""
    parts = {"style": style, "script": script, "remark": remark, "data": data.replace("<", "\\u003c"),
             "title": html.escape(heading.title)}
    for name, part in parts.items():
        written = written.replace(f"{{{{{name}}}}}", part)
    return written


def _data(slip: Slip, labels: list[int], heading: Heading) -> dict[str, object]:
    """What the page shows, in the names that its script reads."""
    points = list(grid_points(slip.sizes, slip.divisions))
    label_at = dict(zip(points, labels))
    path = follow(slip, labels)
    return {
        "sizes": slip.sizes,
        "divisions": slip.divisions,
        "start": slip.first(),
        "players": heading.players,
        "strategies": [name for names in heading.strategies for name in names],
        "points": len(points),
        "table": list(label_at.items()) if slip.sizes in PLANES and len(points) <= MOST_DRAWN else [],
        "places": [{**place._asdict(), "labels": [label_at[tuple(point)] for point in place.points]}
                   for place in path.places],
        "moves": [_told(move, points) for move in path.moves],
        "end": path.end._asdict(),
        "centre": rounded(centre(slip.sizes, slip.divisions, path.end.vertices)),
    }


def _told(move: Move, points: list[Point]) -> dict[str, object]:
    coming, going = (None if position is None else points[position] for position in (move.point_in, move.point_out))
    return {"words": move.words(points), "rule": move.rule, "in": coming, "out": going}
