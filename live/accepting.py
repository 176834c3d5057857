"""Accepts outputs as `raftbench check --accept` does: the program does it, on a copy of the script."""
from __future__ import annotations

import re

from .program import Program

# What the report says beside the mismatches and the totals.
SAID = re.compile(r"^script\.txt(?::(\d+))?: (.*(?:was not accepted|was accepted|nothing to accept|accepts it too|accepted \d+ outputs?|warning: ).*)$")


def accepted(program: Program, data: bytes, line: int | None, errors: bool) -> tuple[bytes, list[str]]:
    """A script with the actual output of the directive at a line accepted, or with all. Also what the program says: what it leaves, and why."""
    checked = program.check(data, line, "--accept", *(["--accept-errors"] if errors else []))
    told = [found for found in map(SAID.match, checked.report.splitlines()) if found]
    return checked.script, [f"line {found[1]}: {found[2]}" if found[1] else found[2] for found in told]
