"""The rows of a script's page (docs/FORMATS.md): all of them, those of some directives, and what of a script isn't as it was.

A page that has the rows of an earlier script gets those of the directives that an edit changes. Put into the earlier ones, they are the rows of the new
script. Rows are passed on as the program writes them.
"""
from __future__ import annotations

import dataclasses
import json
import re
from typing import Any

from .chunks import Shown

STEP = re.compile(rb'\n\["step",(\d+)\],')
END = re.compile(rb'\n(?=\["(?:warning|end)",)')
CELLS = re.compile(rb'\n\["cells",(\d+)\],\n')
COUNT = re.compile(rb'\["end",(\d+),\d+\]\]\s*\Z')


@dataclasses.dataclass(frozen=True)
class SomeRows:
    """The rows of some directives: so many directives are before the `first` of them, and their heads are on these lines. Of all the script: how many
    directives it has, how many cells comparing leaves (0 if that isn't known), and the warnings and the end."""

    first: int
    heads: tuple[int, ...]
    rows: bytes
    count: int
    cells: int
    end: bytes

    @property
    def last(self) -> int:
        """How many directives are up to the last of them."""
        return self.first + len(self.heads)

    def between(self, front: int, end: int) -> bytes:
        """The rows of the directives from one place up to another."""
        starts = [found.start() for found in STEP.finditer(self.rows)] if (front, end) != (self.first, self.last) else [0]
        return self.rows[starts[front - self.first] if front < self.last else len(self.rows):starts[end - self.first] if end < self.last else len(self.rows)].strip(b",\n")

    def of(self, place: int) -> list[list[Any]]:
        """The rows of a directive, from 1, as lists."""
        found: list[list[Any]] = json.loads(b"[%s]" % self.between(place - 1, place))
        return found


def read_some(answer: bytes, first: int) -> SomeRows | None:
    """Reads an answer to `raftbench/rows` about the directives after the first ones. None if it has no rows: the text isn't a script, or a page has no
    room for them."""
    cut, last = CELLS.search(answer), COUNT.search(answer)
    if not cut or not last:
        return None
    begin = STEP.search(answer)
    rows = answer[begin.start():cut.start()] if begin else b""
    return SomeRows(min(first, int(last[1])), lines_of(rows), rows, int(last[1]), int(cut[1]), answer[cut.end():].rstrip(b"\n"))


def lines_of(rows: bytes) -> tuple[int, ...]:
    """The lines of the heads of directives that have these rows."""
    return tuple(map(int, STEP.findall(rows)))


class PageRows:
    """All rows of a page."""

    def __init__(self, raw: bytes = b"[]") -> None:
        self.raw = raw
        starts = [found.start() for found in STEP.finditer(raw)]
        cut = END.search(raw, starts[-1] if starts else 0)
        self.starts = [*starts, cut.start() if cut else len(raw)]
        self.end = raw[cut.end():].rstrip(b"\n") if cut else b"]"

    @property
    def count(self) -> int:
        """How many directives there are."""
        return len(self.starts) - 1

    def heads(self) -> tuple[int, ...]:
        """The lines of their heads."""
        return lines_of(self.raw)

    def some(self, first: int, count: int) -> SomeRows:
        """The rows of so many directives after the first ones."""
        start, end = min(first, self.count), min(first + count, self.count)
        rows = self.raw[self.starts[start]:self.starts[end]]
        return SomeRows(start, lines_of(rows), rows, self.count, 0, self.end)


def stretch(old: Shown, now: Shown, some: SomeRows, front: int, back: int) -> bytes:
    """What of a script isn't as it was, as JSON. Between two lines another text is in place of what was there; and the rows of the directives after the
    first ones, `front`, and before the last ones, `back`, have become others, of which these are the first. Lines that stay move together."""
    text_front, text_back = old.blocks.ends(now.blocks)
    text_back = text_back if old.tail == now.tail else 0
    end = now.count - text_back
    lines = [line for block in now.blocks.between(text_front, end) for line in block.lines] + ([] if text_back else list(now.tail))
    after = now.blocks.lines_before(now.count) - now.blocks.lines_before(end) + len(now.tail) if text_back else 0
    said = {"front": front, "back": back, "linesBefore": now.blocks.lines_before(text_front), "linesAfter": after, "text": b"".join(lines).decode("latin-1")}
    return json.dumps(said).encode()[:-1] + b',"rows":[' + some.between(front, some.last) + b']' + ending(some, now) + b"}"


def ending(some: SomeRows, now: Shown) -> bytes:
    """Warnings and the end, of rows that are of the whole script."""
    return b',"end":[' + (some.end.removesuffix(b"]") if some.count == now.count else b"") + b"]"
