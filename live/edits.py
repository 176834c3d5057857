"""The edits of a script, by name. Each is a function of a branch and of the request."""
from __future__ import annotations

from collections.abc import Callable
from typing import Any

from .accepting import accepted
from .blocks import new_block
from .branch import Branch
from .chunks import Blocks
from .program import Refused

Asked = dict[str, Any]


class Doubtful(Refused):
    """A new directive errs: the user is asked whether it is meant. The hint says what probably was."""


def place_of(branch: Branch, asked: Asked) -> int:
    """The directive that an edit is about, from 1; 0 is before the first."""
    place = asked.get("place", 0)
    if not isinstance(place, int) or isinstance(place, bool) or not 0 <= place <= branch.count:
        raise Refused("there is no such directive")
    return place


def own_place(branch: Branch, asked: Asked) -> int:
    """The directive that an edit is about, which has to be one."""
    place = place_of(branch, asked)
    if place == 0:
        raise Refused("no directive is chosen")
    return place


def text_of(asked: Asked) -> list[bytes]:
    """The lines that were written. A text whose bytes aren't UTF-8 has a letter for each byte."""
    text = asked.get("text")
    if not isinstance(text, str) or not text.strip():
        raise Refused("nothing is written")
    try:
        data = text.encode("latin-1" if asked.get("isLatin") else "utf-8")
    except UnicodeEncodeError:
        raise Refused("this script isn't UTF-8, so only letters of one byte can be written into it") from None
    return data.strip(b"\r\n").split(b"\n")


def _hints(branch: Branch, blocks: Blocks, place: int) -> str:
    """The error of a directive, and what was probably meant."""
    rows = branch.written(blocks[:place].text).some(place - 1, 1).of(place)
    said = [str(row[1]) for row in rows if row[0] in ("error", "hint")]
    return "; ".join(said) or "it errs"


def insert(branch: Branch, asked: Asked) -> None:
    """Puts a directive after another, with its output accepted. One that errs is asked about first."""
    place = place_of(branch, asked)
    old, given = branch.shown.blocks, text_of(asked)
    end = old[0].end if old else b"\n"
    above = [block.closed() for block in old.between(max(0, place - 1), place)]

    def with_output(output: list[bytes]) -> Blocks:
        return old.with_these(place - len(above), place, [*above, new_block(given, output, end)])
    blocks = with_output([])
    output = branch.output(blocks, place + 1)
    if any(line.startswith(b"error: ") for line in output) and not asked.get("isSure"):
        raise Doubtful(_hints(branch, blocks, place + 1))
    branch.change(with_output(output), place + 1)


def replace(branch: Branch, asked: Asked) -> None:
    """Writes another head, input and comment. The expectation stays, so what differs shows as a mismatch."""
    place = own_place(branch, asked)
    blocks = branch.shown.blocks
    given = [line.rstrip(b"\r") for line in text_of(asked)]
    if any(line.strip(b" \t") == b"----" for line in given):
        raise Refused("a line ---- separates a directive from its expectation, so none can be written here")
    branch.change(blocks.with_these(place - 1, place, [blocks[place - 1].with_given(given)]), place)


def remove(branch: Branch, asked: Asked) -> None:
    """Takes a directive out."""
    place = own_place(branch, asked)
    branch.change(branch.shown.blocks.with_these(place - 1, place), max(1, place - 1))


def move(branch: Branch, asked: Asked) -> None:
    """Moves a directive one place up or down."""
    place, by = own_place(branch, asked), asked.get("by")
    blocks = branch.shown.blocks
    to = place + (1 if by == 1 else -1)
    if not 1 <= to <= len(blocks):
        raise Refused("it can't be moved farther")
    first = min(place, to)
    one, other = blocks.between(first - 1, first + 1)
    branch.change(blocks.with_these(first - 1, first + 1, [other.closed(), one.closed() if to > place else one]), to)


def duplicate(branch: Branch, asked: Asked) -> None:
    """Puts a copy of a directive after it."""
    place = own_place(branch, asked)
    blocks = branch.shown.blocks
    branch.change(blocks.with_these(place - 1, place, [blocks[place - 1].closed()] * 2), place + 1)


def accept(branch: Branch, asked: Asked) -> None:
    """Accepts the output of a directive, or with `all` of all of them, as `check --accept` does. What is left out is said."""
    place = None if asked.get("all") else own_place(branch, asked)
    line = None if place is None else branch.shown.blocks.head(place - 1)
    data, notes = accepted(branch.program, branch.data, line, bool(asked.get("isSure")))
    branch.change_text(data, place or branch.chosen)
    branch.notes = notes


EDITS: dict[str, Callable[[Branch, Asked], None]] = {
    "insert": insert, "replace": replace, "remove": remove, "move": move, "duplicate": duplicate, "accept": accept,
}
