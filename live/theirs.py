"""Your own nodes next to the reference: `raftbench-nodes run` runs the script on both, and prints both outputs and their first difference."""
from __future__ import annotations

import dataclasses
import pathlib
import re
import shutil
import subprocess
import tempfile
from typing import Any

from .program import MOST_SECONDS, Refused

NAME = "script.txt"
HEAD = re.compile(r"^script\.txt:(\d+): (.*)$")


def found_tool(top: pathlib.Path, beside: pathlib.Path) -> list[str]:
    """The command that carries out scripts on others' nodes: of this clone or archive, or as it is installed."""
    if (top / "nodes" / "run").exists():
        return [str(top / "nodes" / "run")]
    installed = beside / "raftbench-nodes"
    found = str(installed) if installed.exists() else shutil.which("raftbench-nodes")
    if not found:
        raise Refused("there is no nodes/run and no raftbench-nodes, which --with needs")
    return [found, "run"]


@dataclasses.dataclass(frozen=True)
class Theirs:
    """What one's own nodes did, by the line of each directive."""

    outputs: dict[int, list[str]]
    differences: dict[int, list[str]]
    broken: dict[int, list[str]]
    faults: list[str]

    def shown(self, heads: tuple[int, ...]) -> dict[str, Any]:
        """The same by the place of each directive, from 1."""
        place = {line: at for at, line in enumerate(heads, 1)}
        by_place = [{str(place[line]): told for line, told in it.items() if line in place} for it in (self.outputs, self.differences, self.broken)]
        return {"outputs": by_place[0], "differences": by_place[1], "broken": by_place[2], "faults": self.faults}


def read(report: str, errors: str) -> Theirs:
    """What nodes/run wrote: under the head of each directive what the nodes printed, then differences and broken promises."""
    theirs = Theirs({}, {}, {}, [])
    into: list[str] = []
    indent = 0
    for line in report.splitlines():
        found = HEAD.match(line)
        if found and found[2].startswith("promise broken: "):
            theirs.broken.setdefault(int(found[1]), []).append(found[2])
        elif found:
            is_output = int(found[1]) not in theirs.outputs
            into, indent = (theirs.outputs if is_output else theirs.differences).setdefault(int(found[1]), []), 2 if is_output else 0
            into.extend([] if is_output else [found[2]])
        elif line.startswith(("  ", "- ", "+ ")):
            into.append(line[indent:])
    theirs.faults.extend(line for line in errors.splitlines() if "isn't built, so the reference isn't compared" not in line)
    return theirs


def run(tool: list[str], command: str, data: bytes) -> Theirs:
    """Carries out a script on the nodes behind a command."""
    with tempfile.TemporaryDirectory(prefix="raftbench-live-") as room:
        pathlib.Path(room, NAME).write_bytes(data)
        # The command may be a path below the folder that one is in: the tool runs there, and its report names the copy by its name.
        words = [*tool, "--with", command, "--verbose", str(pathlib.Path(room, NAME))]
        try:
            done = subprocess.run(words, capture_output=True, timeout=MOST_SECONDS, text=True, errors="replace", check=False)
        except (OSError, subprocess.TimeoutExpired) as fault:
            raise Refused(f"your nodes can't be run: {fault}") from None
        return read(done.stdout.replace(f"{room}/", ""), done.stderr.replace(f"{room}/", ""))
