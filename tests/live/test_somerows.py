"""The rows after an edit, made of those before it and of the rows of some directives (live/somerows.py): they are those of `raftbench page`."""
from __future__ import annotations

import contextlib
import json
import pathlib
import random
from collections.abc import Iterator
from typing import Any

from live.branch import AT_ONCE, Branch
from live.chunks import Shown
from live.program import Refused
from live.somerows import RowServer
from tests.harness import PROGRAM, TOP
from tests.live.edited import Edited, branch_of, edit, page_rows, put, steps_in, told_of

SCRIPTS = [TOP / "examples" / "tour" / name for name in ("01-election.txt", "06-membership.txt", "12-broken.txt")]
EDITS_EACH = 30
# Directives that change the cluster for good, for a while, or not; one that errs, one with a comment, and one with input.
TEXTS = [
    "campaign 1", "raft-state", "log-level none", "log-level debug", "tick-election 2", "stabilize", "nonsense 7", "propose 1 x", "# why\ntick-heartbeat 1", "process-ready 3",
    "propose-conf-change 1\nv4", "deliver-msgs 2 drop=(3)", "restart 2", "# caf\u00e9\nstatus 1",
]


class Counting(RowServer):
    """One that remembers of how many directives it was asked."""

    def __init__(self, program: pathlib.Path) -> None:
        super().__init__(program)
        self.asked: list[int] = []

    def rows(self, now: Shown, first: int, count: int) -> Any:
        self.asked.append(count)
        return super().rows(now, first, count)


def random_edit(branch: Branch, numbers: random.Random) -> str:
    """Makes an edit, and says which. One that can't be made is none."""
    kind = numbers.choice(["insert", "insert", "insert", "replace", "remove", "duplicate", "move", "accept", "undo", "redo", "tail"])
    place = numbers.randint(1, max(1, branch.count))
    asked: dict[str, Any] = {"place": place, "text": numbers.choice(TEXTS), "by": numbers.choice([1, -1]), "isSure": True, "all": kind == "accept" and numbers.random() < 0.3}
    with contextlib.suppress(Refused):
        if kind == "tail":
            branch.change(branch.shown.blocks, branch.count, [] if branch.shown.tail else [b"# the end\n"])
        else:
            edit(branch, kind, {**asked, "place": numbers.randint(0, branch.count)} if kind == "insert" else asked)
    return f"{kind} {asked}"


def edited(branch: Branch, numbers: random.Random, edits: int) -> Iterator[Edited]:
    """A script's random edits. One that can't be made changes nothing."""
    for version in range(1, edits + 1):
        before = page_rows(branch.data)
        yield told_of(branch, random_edit(branch, numbers), before, version)


def test_rows_after_random_edits_are_those_of_the_page() -> Iterator[str]:
    few = many = 0
    for seed, path in enumerate(SCRIPTS):
        server = Counting(PROGRAM)
        with branch_of(path.read_bytes(), server) as branch:
            branch.server.rows(branch.shown, 0, 0)
            for it in edited(branch, random.Random(seed), EDITS_EACH):
                if put(it) != it.now:
                    yield f"{path.name}, {it.what}: {it.told}, and not {it.now}"
                few, many = few + (server.asked[-1] < steps_in(it.now) // 2), many + 1
    if few < many // 4:
        yield f"{few} of {many} edits ask for less than half of the rows"


def test_the_first_rows_after_an_edit_dont_wait_for_the_others() -> Iterator[str]:
    numbers = random.Random(5)
    server = RowServer(PROGRAM)
    with branch_of(SCRIPTS[1].read_bytes()) as branch:
        for it in edited(branch, numbers, 12):
            first, count = numbers.randrange(branch.count), numbers.choice([1, 3, 200])
            found, wanted = server.rows(branch.shown.first(first + count), first, count), branch.whole().some(first, count)
            if not found or (found.heads, found.between(first, found.last)) != (wanted.heads, wanted.between(first, wanted.last)) or found.count != found.last:
                yield f"{it.what}, {count} after {first}: {found}"
    server.close()


def test_a_server_that_holds_another_script_is_asked_alike() -> Iterator[str]:
    """Also one that has just been started, or was ended."""
    server = RowServer(PROGRAM)
    with branch_of(SCRIPTS[0].read_bytes(), server) as branch:
        for version in range(1, 13):
            before = page_rows(branch.data)
            if version % 3 == 1:
                server.rows(branch.shown.first(1), 0, 1)
            elif version % 3 == 2 and server.process:
                server.process.kill()
            it = told_of(branch, random_edit(branch, random.Random(version)), before, version)
            if put(it) != it.now:
                yield f"{version}, {it.what}: {it.told}"


def test_ends_of_lines_and_bytes() -> Iterator[str]:
    """A CR alone ends a line of an editor, and none of a script; of bytes that aren't UTF-8 the program writes all rows again."""
    plain = b"# one\nadd-nodes 1 voters=(1) index=10\n----\nINFO 1 started at 1/10 with voters=(1)\n\ncampaign 1\n----\n\nraft-state\n----\n\n"
    for data, is_sent in ((plain, True), (plain.replace(b"\n", b"\r\n"), True), (plain.replace(b"# one", b"# o\rne"), True), (plain.rstrip(b"\n"), True), (plain.replace(b"one", b"on\xe9"), False)):
        with branch_of(data) as branch:
            for it in edited(branch, random.Random(3), 8):
                if put(it) != it.now:
                    yield f"{data!r}, {it.what}: {it.told}"
            if (branch.server.rows(branch.shown, 0, 1) is not None) != (is_sent or b"\xe9" not in branch.data):
                yield f"{data!r}: {is_sent}"


def test_blocks_that_are_read_otherwise_are_not_taken() -> Iterator[str]:
    """A directive without an end takes the next one's lines for its output: the script has one directive fewer than blocks."""
    with branch_of(SCRIPTS[0].read_bytes()) as branch:
        before, blocks = branch.data, branch.shown.blocks
        open_block = blocks[2].with_given([b"raft-state"])
        for at in range(1, len(blocks)):
            cut = blocks.with_these(at, at, [type(open_block)(open_block.lines[:open_block.rule + 1], open_block.head, open_block.rule)])
            with contextlib.suppress(Refused):
                branch.change(cut, 1)
                yield f"an open one at {at}"
            if branch.data != before or branch.past:
                yield f"it changes the script at {at}"


def test_a_long_edit_sends_its_first_rows_at_once() -> Iterator[str]:
    """One after which nothing is as it was: the page asks for what follows them, whatever it has of the end. All are those of the page then."""
    data = b"add-nodes 3 voters=(1,2,3) index=10\n----\n\n" + b"raft-state\n----\n\n" * 900
    with branch_of(data) as branch:
        branch.begin()
        branch.give_up()
        for version, (place, text, kind) in enumerate([(100, "campaign 1", "insert"), (3, "campaign 2", "insert"), (0, "", "undo"), (850, "campaign 3", "insert")], 1):
            before = page_rows(branch.data)
            edit(branch, kind, {"place": place, "text": text})
            it = told_of(branch, text or kind, before, version)
            is_part = branch.count - it.told["stretch"]["front"] > AT_ONCE
            if put(it) != it.now or bool(it.more) != is_part or not 0 < it.sent <= AT_ONCE or bool(it.told["stretch"]["end"]) == is_part:
                yield f"{it.what}: {it.sent} directives, {len(it.more)} answers more"


def test_where_few_cells_are_left_all_rows_after_an_edit_are_sent_again() -> Iterator[str]:
    """Five comparisons of some 2,000 lines take all that a script has."""
    front = "add-nodes 1 voters=(1) index=10\n----\n\ncampaign 1\n----\n\nstabilize\n----\n\nlog-level none\n----\nok\n\n" + "propose 1 x\n----\nok\n\n" * 1_985
    lines = "".join(f"line {n}\n" for n in range(1_990))
    for level, is_few in (("info", True), ("none", False)):
        with branch_of((front + f"raft-log 1 log-level={level}\n----\n{lines}\n" * 5).encode()) as branch:
            branch.server.rows(branch.shown, 0, 0)
            before = page_rows(branch.data)
            edit(branch, "insert", {"place": 4, "text": "raft-state"})
            it = told_of(branch, "raft-state", before, 1)
            if (it.told["stretch"]["back"] == 0) != is_few or json.dumps(put(it)) != json.dumps(it.now):
                yield f"{level}: {it.told['stretch']['front']}, {it.sent}, {it.told['stretch']['back']}"
