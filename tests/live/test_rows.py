"""The rows that an edit sends: put into those that were shown before, they are the rows of the new script."""
from __future__ import annotations

import json
import random
from collections.abc import Iterator
from typing import Any

from live import chunks
from live.blocks import Block
from live.chunks import Blocks
from live.rows import PageRows, read_some
from tests.harness import TOP
from tests.live.edited import Edited, branch_of, edit, page_rows, put, steps_in, told_of

ELECTION = TOP / "examples" / "tour" / "01-election.txt"
LEVEL = b"log-level info\n----\nok\n\n"
# A session keeps a checkpoint at least after so many directives, so an edit that changes nothing for long runs no more than twice as many.
MOST_RUN = 32


def changes(data: bytes) -> Iterator[Edited]:
    """A script's edits. Some meet again, some never do, and a comment or the tail may change alone."""
    with branch_of(data) as branch:
        middle = branch.count // 2
        edits: list[tuple[str, dict[str, Any]]] = [
            ("insert", {"place": middle, "text": "raft-state"}), ("insert", {"place": branch.count + 1, "text": "tick-heartbeat 1"}), ("replace", {"place": 3, "text": "# why\nlog-level none"}),
            ("remove", {"place": 2}), ("duplicate", {"place": middle}), ("move", {"place": middle, "by": -1}), ("accept", {"all": True, "isSure": True}), ("undo", {}),
            ("insert", {"place": 0, "text": "log-level debug"}), ("replace", {"place": 1, "text": "# caf\u00e9\nlog-level info"}), ("undo", {}), ("redo", {}),
        ]
        for version, (kind, more) in enumerate(edits, 1):
            before = page_rows(branch.data)
            edit(branch, kind, more)
            yield told_of(branch, f"{kind} {more}", before, version)
        for version, text in enumerate((branch.shown.blocks.text + b"# the end\n", b"# \x1b[31m acts\n" + data, data[:-1], data), len(edits) + 1):
            before = page_rows(branch.data)
            edit(branch, "text", {"text": text})
            yield told_of(branch, f"a text of {len(text)} bytes", before, version)


def test_a_stretch_put_in_gives_the_rows_of_the_new_script() -> Iterator[str]:
    """The law, by the program's own page of each script."""
    spared = 0
    for data in (ELECTION.read_bytes(), ELECTION.read_bytes() + b"\n" + LEVEL * 100):
        for edited in changes(data):
            if put(edited) != edited.now:
                yield f"{edited.what}: {edited.told}"
            spared += edited.sent < steps_in(edited.now) // 2
    if spared < 12:
        yield f"only {spared} edits send less than half of the rows"


def test_an_edit_among_equal_directives_sends_its_own_rows() -> Iterator[str]:
    """Although many rows before and after it are the same, at both ends."""
    with branch_of(b"log-level info\n----\nok\n\n" * 700) as branch:
        branch.begin()
        branch.give_up()
        branch.server.rows(branch.shown, 0, 0)
        for version, (place, text) in enumerate([(350, "log-level debug"), (1, "log-level info")], 1):
            before = page_rows(branch.data)
            edit(branch, "insert", {"place": place, "text": text})
            edited = told_of(branch, text, before, version)
            if edited.sent > MOST_RUN or edited.more or put(edited) != edited.now:
                yield f"{text} after {place}: {edited.told}"


def random_blocks(dice: random.Random, most: int) -> list[Block]:
    """Blocks of which many are the same."""
    return [Block(tuple(b"%d\n" % dice.randint(1, 2) for _ in range(dice.randint(1, 2))), 0, 0) for _ in range(dice.randint(0, most))]


def test_blocks_in_chunks_are_as_a_list() -> Iterator[str]:
    """However many have room in a chunk: others in place of some, their lines and bytes, and how many are the same at both ends."""
    dice = random.Random(1)
    most = chunks.MOST
    try:
        for case in range(500):
            chunks.MOST = dice.choice((1, 2, 3, 8))
            wanted = random_blocks(dice, 40)
            blocks = Blocks(wanted)
            for _edit in range(6):
                front = dice.randint(0, len(wanted))
                end = min(len(wanted), front + dice.choice([0, 0, 1, 2, 30]))
                new, old, before = random_blocks(dice, dice.choice([0, 1, 2, 20])), blocks, wanted
                blocks, wanted = blocks.with_these(front, end, new), [*wanted[:front], *new, *wanted[end:]]
                yield from (f"{case}: {what}" for what in wrong_with(blocks, wanted, dice))
                least = min(len(before), len(wanted))
                same = next((at for at in range(least) if before[at] != wanted[at]), least)
                back = next((at for at in range(least - same) if before[-1 - at] != wanted[-1 - at]), least - same)
                if old.ends(blocks) != (same, back) or blocks.ends(old) != (same, back) or (old == blocks) != (before == wanted):
                    yield f"{before} and {wanted}: {old.ends(blocks)}, and not {same}, {back}"
    finally:
        chunks.MOST = most


def wrong_with(blocks: Blocks, wanted: list[Block], dice: random.Random) -> Iterator[str]:
    """What of blocks in chunks isn't that of a list."""
    first, last = sorted((dice.randint(0, len(wanted)), dice.randint(0, len(wanted))))
    if list(blocks) != wanted or len(blocks) != len(wanted) or [blocks[at] for at in range(len(wanted))] != wanted:
        yield f"{list(blocks)}, and not {wanted}"
    if blocks.between(first, last) != wanted[first:last] or list(blocks[first:last]) != wanted[first:last]:
        yield f"from {first} to {last} of {wanted}: {blocks.between(first, last)}"
    if blocks.lines_before(first) != sum(len(it.lines) for it in wanted[:first]) or blocks.text != b"".join(it.text for it in wanted):
        yield f"the lines before {first} of {wanted}: {blocks.lines_before(first)}"
    if blocks.heads() != [blocks.head(at) for at in range(len(wanted))] or any(not 0 < len(it.blocks) <= chunks.MOST for it in blocks.chunks):
        yield f"heads {blocks.heads()}, chunks {[len(it.blocks) for it in blocks.chunks]}"


def rows_of(steps: list[tuple[int, str]]) -> bytes:
    """Rows as a page has them: of each directive its line, and rows."""
    body = "".join(f'\n["step",{line}],{rows}' for line, rows in steps)
    return f'[["raftbench",2,"x"],\n["text","y"],{body}\n["end",{len(steps)},0]]'.encode()


def test_rows_of_some_directives_are_cut_alike_out_of_a_page_and_an_answer() -> Iterator[str]:
    """Also where a directive has no rows, and where it has those that another begins or ends with."""
    one, two, three = '\n["output","a"],', '\n["output","a"],\n["output","b"],', '\n["output","b"],'
    texts: list[list[str]] = [[], [one], [two, one], [three, two], [one, two, one], [""], ["", one], [one, ""], [three, one, two, three, one]]
    for given in texts:
        steps = [(1 + 3 * at, text) for at, text in enumerate(given)]
        page = PageRows(rows_of(steps))
        if (page.count, page.heads()) != (len(steps), tuple(line for line, _ in steps)):
            yield f"{page.raw!r}: {page.count} {page.heads()}"
        for first in range(len(steps) + 2):
            for end in range(first, len(steps) + 2):
                own = [json.loads(f'[["step",{line}]{"," * bool(rows)}{rows.strip(",")}]') for line, rows in steps[first:end]]
                answer = rows_of(steps[first:end]).replace(b'\n["text","y"],', b"").replace(b'\n["end",%d' % len(own), b'\n["cells",7],\n["end",%d' % len(steps))
                some = [page.some(first, end - first), read_some(answer, first)]
                for it in some:
                    if it is None or (it.first, it.last, it.count) != (min(first, len(steps)), min(end, len(steps)), len(steps)) or it.end != b'["end",%d,0]]' % len(steps):
                        yield f"{first} to {end} of {page.raw!r}: {it}"
                    elif [json.loads(b"[" + it.between(at, at + 1) + b"]") for at in range(it.first, it.last)] != own:
                        yield f"{first} to {end} of {page.raw!r}: {it}"
                    elif json.loads(b"[" + it.between(it.first, it.last) + b"]") != [row for step in own for row in step]:
                        yield f"{first} to {end} of {page.raw!r}: {it.rows!r}"
