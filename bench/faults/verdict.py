"""What may come of a call around which something failed."""
from __future__ import annotations

import dataclasses
import re

from bench.faults.commands import NAME, Came, Command
from tests.editors.client import unframed
from tests.faults.test_broken_streams import SCRIPT

# The statuses that docs/USING.md names: matched, mismatched, wrong words, refused, input or output failed, out of memory.
STATUSES = range(6)
# What no error may look like.
BROKEN = re.compile(rb"panick|Sanitizer|Traceback|assert|overflow|core dumped", re.IGNORECASE)
TEMPORARY = re.compile(r"\.raftbench-\d+\.new")


@dataclasses.dataclass(frozen=True)
class Tried:
    """A fault that was made, and what was wrong with what came of it."""

    what: str
    problem: str | None = None


def end_of(text: bytes) -> str:
    """The end of a text, for a message."""
    return repr(text[-200:])


def torn(plain: Came, came: Came) -> str | None:
    """What is wrong with the script after a call: it is the old one or the one that is accepted."""
    script = came.files.get(NAME)
    return None if script in (SCRIPT, plain.files[NAME]) else f"the script is torn: {end_of(script or b'')}"


def left(plain: Came, came: Came, is_killed: bool) -> str | None:
    """Which files were left that aren't the script, nor pages that are written; a call that is killed may leave the one that it was writing."""
    names = [name for name in came.files if name not in plain.files and not (is_killed and TEMPORARY.fullmatch(name))]
    torn_ones = [name for name, text in came.files.items() if name != NAME and name in plain.files and text != plain.files[name] and not is_killed]
    return f"it left {names}" if names else f"it tore {torn_ones}" if torn_ones else None


def is_plain(plain: Came, came: Came) -> bool:
    """Whether a call gave what it gives if nothing fails; of the script it is known already."""
    return (came.output, came.status, came.files.keys()) == (plain.output, plain.status, plain.files.keys())


def is_framed(command: Command, came: Came) -> bool:
    """Whether a server goes on, with an answer that says so where memory was refused: what it wrote are whole messages."""
    if command.name != "lsp" or came.status:
        return False
    try:
        unframed(came.output)
    except ValueError:
        return False
    return True


def unsaid(command: Command, plain: Came, came: Came) -> str | None:
    """What is wrong with the status, the output and the errors of a call that may have failed."""
    if is_plain(plain, came) or is_framed(command, came):
        return None
    if came.status not in STATUSES or came.status < 3 and not command.reports:
        return f"status {came.status}, {end_of(came.output)}, {end_of(came.errors)}"
    if came.status == plain.status == 0:
        return f"status 0 with another output: {end_of(came.output)}"
    # What goes to a reader that is gone, or to errors that can't be written, can't be told.
    if came.errors and not came.errors.startswith((b"raftbench: ", NAME.encode() + b": ")):
        return f"it said {end_of(came.errors)}"
    if not command.reports and not plain.output.startswith(came.output):
        return f"it answered {end_of(came.output)}"
    return None


def problem_of(command: Command, plain: Came, came: Came, is_killed: bool = False) -> str | None:
    """What is wrong with what came of a call, or None."""
    if BROKEN.search(came.errors):
        return f"it said {end_of(came.errors)}"
    kept = torn(plain, came) or left(plain, came, is_killed)
    if kept or is_killed:
        return kept
    return unsaid(command, plain, came)
