"""Memory that is refused: each allocation of each command alone, and from each on all later ones. tests/faults/refuse.c refuses them."""
from __future__ import annotations

import functools
import pathlib
import shutil
import subprocess
import tempfile
from collections.abc import Iterator

from bench.faults.commands import COMMANDS, Came, Command, call, plain_of, room_with
from bench.faults.verdict import Tried, problem_of
from tests.harness import TESTS

REFUSED = b"refused\n"
# What a session answers to an edit for which there is no memory.
EDIT_REFUSED = b"refused OutOfMemory\n"
MOST = 1 << 20


@functools.cache
def library() -> pathlib.Path:
    """The library that refuses allocations, built for this run."""
    folder = pathlib.Path(tempfile.mkdtemp(prefix="raftbench-faults-"))
    subprocess.run(["cc", "-shared", "-fPIC", "-O2", "-o", folder / "refuse.so", TESTS / "faults" / "refuse.c", "-ldl"], check=True)
    return folder / "refuse.so"


def refusing(command: Command, at: int, onwards: bool) -> tuple[Came, bool]:
    """What a call gives if this allocation is refused, or all from it on; and whether there was one."""
    around = {"LD_PRELOAD": str(library()), "REFUSE_AT": str(at), **({"FROM_THERE_ON": "1"} if onwards else {})}
    with room_with() as place:
        came = call(command, place, around=around)
    return Came(came.output, came.errors.replace(REFUSED, b"", 1), came.status, came.files), REFUSED in came.errors


def is_here() -> bool:
    """Whether there is a compiler, and the program takes memory from the system: one without proof may have a store of its own."""
    return shutil.which("cc") is not None and refusing(COMMANDS[0], 1, True)[1]


def allocations_of(command: Command) -> int:
    """How many allocations a call makes: the last that is refused alone, by halves."""
    low, high = 0, 1
    while high < MOST and refusing(command, high, False)[1]:
        low, high = high, 2 * high
    while high - low > 1:
        middle = (low + high) // 2
        low, high = (middle, high) if refusing(command, middle, False)[1] else (low, middle)
    return low


def wrong(command: Command, plain: Came, came: Came) -> str | None:
    """What is wrong with a call to which memory was refused: a session goes on, and refuses the edits that find none."""
    if command.name == "session" and EDIT_REFUSED in came.output and came.status in (0, 1) and not came.errors:
        came = Came(plain.output, b"", plain.status, came.files)
    return problem_of(command, plain, came)


def tried(count: int) -> Iterator[Tried]:
    """Refuses at most `count` allocations of each command, evenly spread, each alone and with all later ones."""
    for command in COMMANDS:
        plain, whole = plain_of(command), allocations_of(command)
        taken = min(count, whole)
        for at in (1 + place * whole // taken for place in range(taken)):
            for onwards in (False, True):
                came, is_met = refusing(command, at, onwards)
                what = f"{command.name}: no memory at allocation {at}{' and from there on' if onwards else ''}"
                yield Tried(what, wrong(command, plain, came) if is_met else "no allocation was refused")
