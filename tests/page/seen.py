"""What a browser draws of a page, read back: from pixels to the lines of directives and to nodes."""
from __future__ import annotations

import bisect
import pathlib
import re
from collections import Counter
from collections.abc import Iterable
from typing import Any

from tests.page.scripts import same
from tests.page.told import SIGN, Arrow, gist

CODE = (pathlib.Path(__file__).parent / "seen.js").read_text()
# How far from the middle of a band, in pixels, a line may begin, and one may end that leads to it: up to its tip, or to a cross that is
# short of it.
AT_BAND, NEAR = 8, 26
# How far a tip or a cross may be from the end of its line, across and down.
AT_END = 13, 2
CALL = re.compile(r"([MLHVC])([^A-Za-z]*)")
NUMBER = re.compile(r"-?[\d.]+")


def part_of(path: str) -> list[Any]:
    """A path's parts, each a list of the points that its calls end in."""
    parts: list[Any] = []
    for call, given in CALL.findall(path):
        numbers = list(map(float, NUMBER.findall(given)))
        x, y = parts[-1][-1] if call in "HV" else (0, 0)
        point = {"H": lambda: (numbers[-1], y), "V": lambda: (x, numbers[-1])}.get(call, lambda: tuple(numbers[-2:]))()
        parts += [[point]] if call == "M" else []
        parts[-1] += [] if call == "M" else [point]
    return parts


def parts_of(paths: Iterable[tuple[str, str]]) -> list[Any]:
    """The parts of several paths, each with its path's class; a part that was drawn twice counts once."""
    return sorted({(look, tuple(part)) for look, path in paths for part in part_of(path)})


class Sheet:
    """A whole picture: from where things stand to the lines of directives and to nodes."""

    def __init__(self, picture: dict[str, Any]) -> None:
        self.columns: list[float] = picture["columns"]
        self.parts: list[dict[str, Any]] = picture["parts"]
        self.width: float = picture["width"]
        places = sorted({(y, line) for line, y in self.gathered("places")})
        self.tops: list[float] = [y for y, _ in places]
        self.lines: list[int] = [line for _, line in places]

    def gathered(self, name: str) -> list[Any]:
        """All of a kind that the parts have, each once: where parts meet, both may have it."""
        return sorted({tuple(it) for part in self.parts for it in part[name]})

    def line_at(self, y: float) -> int:
        """The line of the directive whose row this is in."""
        return self.lines[max(0, bisect.bisect_right(self.tops, y) - 1)]

    def nearest(self, x: float) -> tuple[int, float]:
        """The node whose band is nearest, and how far that is."""
        far, id = min((abs(column - x), id) for id, column in enumerate(self.columns, 1))
        return id, far

    def node_near(self, x: float) -> int | None:
        id, far = self.nearest(x)
        return id if far <= NEAR else None

    # Arrows

    def arrows(self) -> list[tuple[Arrow, float, float]]:
        """The arrows from the top downwards, each with how far down it begins and ends."""
        lines: list[tuple[str, list[tuple[float, float]]]] = parts_of([(look.replace(" here", ""), path) for look, path in self.gathered("lines")])
        ends = {"tip": self.ends("tips", 0), "cross": self.ends("crosses", 4)}
        lines.sort(key=lambda line: line[1][0][1])
        arrows = [(self.arrow(look.split(), points, ends), points[0][1], points[-1][1]) for look, points in lines]
        same("the tips and crosses that end no arrow", ends, {"tip": [], "cross": []})
        return arrows

    def ends(self, name: str, off: float) -> list[Any]:
        """Where tips or crosses are, by the first point of each, which is so far above and to the left; and the kinds of tips."""
        return [(look.split()[1:], points[0][0] + off, points[0][1] + off) for look, points in parts_of(self.gathered(name))]

    def arrow(self, look: list[str], points: Any, ends: Any) -> Arrow:
        (x, y), (to_x, to_y) = points[0], points[-1]
        kind = look[1]
        signs = ["dots"] * ("waiting" in look) + ["upwards"] * (to_y < y) + ["outside"] * (to_x > self.width)
        for sign, places in ends.items():
            for place in [it for it in places if it[0] in ([kind], []) and abs(it[1] - to_x) <= AT_END[0] and abs(it[2] - to_y) <= AT_END[1]]:
                places.remove(place)
                signs.append(sign)
        side = -1 if to_x < x else 1
        return Arrow(kind, self.line_at(y), self.sender_at(x, side), side, self.line_at(to_y), self.node_near(to_x), " ".join(signs))

    def sender_at(self, x: float, side: int) -> int | None:
        """The node from whose band a line begins to this side."""
        id = self.nearest(x)[0]
        return id if 0 < side * (x - self.columns[id - 1]) <= AT_BAND else None

    # Words and bands

    def labels(self) -> Counter[Any]:
        return Counter(gist(title) for _, _, _, title in self.gathered("labels"))

    def marks(self) -> Counter[Any]:
        """How often each mark stands: the line, the node, the look, and its sign and numbers."""
        marks = self.gathered("marks")
        return Counter((self.line_at(y), self.nearest(x)[0], look.split()[1], tuple(SIGN.findall(title))) for look, x, y, title in marks)

    def notes(self) -> Counter[Any]:
        return Counter((self.line_at(y), title) for _, _, y, title in self.gathered("notes"))

    def bands(self) -> list[Any]:
        """The parts of bands: role, node, top and bottom. A part that is cut off where the picture was parted begins at a row's edge."""
        return [(look.split()[1], self.nearest(x + width / 2)[0], y, y + height) for look, x, y, width, height in self.gathered("bands")]

    def roles(self) -> dict[tuple[int, int], str]:
        """What role each node's band has at the end of each row: by line and node."""
        bands = self.bands()
        ends = [*self.tops[1:], max(bottom for *_, bottom in bands)]
        return {(line, id): role for line, end in zip(self.lines, ends) for role, id, top, bottom in bands if top < end <= bottom}

    def widths(self) -> list[Any]:
        """How wide the bands of each role are."""
        return sorted({(width, look.split()[1]) for look, _, _, width, _ in self.gathered("bands")})

    def turns(self) -> Counter[Any]:
        """Where each role begins: how often by line, node and role."""
        edges = [points[0][1] for _, points in parts_of(self.gathered("edges"))]
        begun = {(role, id, top) for role, id, top, _ in self.bands() if all(abs(top - edge) > 1 for edge in edges)}
        return Counter((self.line_at(top), id, role) for role, id, top in begun)
