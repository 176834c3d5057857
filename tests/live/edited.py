"""Scripts that are edited for a test: by each edit the rows that a page has, what it is told of the edit, and the rows of the page of the new script."""
from __future__ import annotations

import contextlib
import dataclasses
import json
from collections.abc import Iterator, Sequence
from typing import Any

from live.branch import Branch
from live.edits import EDITS
from live.program import Program
from live.somerows import RowServer
from tests.harness import PROGRAM

Row = list[Any]


@dataclasses.dataclass(frozen=True)
class Edited:
    """An edit. `told` has since when what has changed, or all rows; `more` are answers to what a page asks for then; `before` and `now` are the rows that
    `raftbench page` writes of the script."""

    what: str
    before: list[Row]
    told: dict[str, Any]
    more: list[dict[str, Any]]
    now: list[Row]

    @property
    def sent(self) -> int:
        """Of how many directives rows are sent at once."""
        rows = self.told["stretch"]["rows"] if "stretch" in self.told else self.told.get("rows", [])
        return steps_in(rows)


def steps_in(rows: Sequence[Row]) -> int:
    """How many directives have these rows."""
    return sum(row[0] == "step" for row in rows)


def page_rows(data: bytes) -> list[Row]:
    """The rows of a script's page."""
    rows: list[Row] = json.loads(Program(PROGRAM).rows(data).raw) if data else []
    return rows


@contextlib.contextmanager
def branch_of(data: bytes, server: RowServer | None = None) -> Iterator[Branch]:
    """A branch that is played with."""
    own = server or RowServer(PROGRAM)
    branch = Branch(1, Program(PROGRAM), own, data)
    branch.keep(0)
    try:
        yield branch
    finally:
        branch.close()
        own.close()


def edit(branch: Branch, kind: str, asked: dict[str, Any]) -> None:
    """Does something to a script, as the page asks for it."""
    branch.ran = 0
    try:
        if kind in EDITS:
            EDITS[kind](branch, asked)
        elif kind == "text":
            branch.change_text(asked["text"], 1)
        else:
            branch.go(kind == "undo")
    finally:
        branch.give_up()


def told_of(branch: Branch, what: str, before: list[Row], version: int) -> Edited:
    """What a page that has the version before this one is told, and asks for then."""
    branch.keep(version)
    told = json.loads(b"{" + branch.told(version - 1).removeprefix(b",") + b"}")
    more: list[dict[str, Any]] = []
    if "stretch" in told:
        at = told["stretch"]["front"] + steps_in(told["stretch"]["rows"])
        while at + told["stretch"]["back"] < branch.count:
            some = branch.some(at, 500)
            more.append({"from": at, "rows": json.loads(b"[" + some.between(some.first, some.last) + b"]"), "end": json.loads(b"[" + some.end)})
            at = some.last
    return Edited(what, before, {**told, "of": branch.count}, more, page_rows(branch.data))


def put(edited: Edited) -> list[Row]:
    """The rows that a page has after an edit: lines and rows between those that stay are others, and lines that stay have moved with them."""
    if "stretch" not in edited.told:
        rows: list[Row] = edited.told["rows"] if "rows" in edited.told else edited.before
        return rows
    given, rows = edited.told["stretch"], edited.before
    starts = [at for at, row in enumerate(rows) if row[0] == "step"]
    end = next(at for at, row in enumerate(rows) if row[0] in ("warning", "end"))
    steps = [rows[start:after] for start, after in zip(starts, [*starts[1:], end])]
    lines = rows[1][1].split("\n")
    after = lines[len(lines) - 1 - given["linesAfter"]:] if given["linesAfter"] and not lines[-1] else lines[len(lines) - given["linesAfter"]:] if given["linesAfter"] else []
    text = "".join(line + "\n" for line in lines[:given["linesBefore"]]) + given["text"] + "\n".join(after)
    moved = text.count("\n") - rows[1][1].count("\n")
    rest = [[["step", step[0][1] + moved], *step[1:]] for step in (steps[len(steps) - given["back"]:] if given["back"] else [])]
    own = [row for part in [given, *edited.more] for row in part["rows"]]
    ending = [part["end"] for part in [given, *edited.more] if part["end"]][-1]
    return [rows[0], ["text", text], *(row for step in steps[:given["front"]] for row in step), *own, *(row for step in rest for row in step), *ending]
