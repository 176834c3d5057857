"""Finds the program, runs it on a script, and gives what it wrote."""
from __future__ import annotations

import dataclasses
import os
import pathlib
import re
import shutil
import subprocess
import tempfile
from collections.abc import Sequence

from .rows import PageRows

MOST_SECONDS = 120
BEGIN = b'<script type="application/json" id="steps">'
# What a copy of the script is called in a report.
COPY = "script.txt"


def rows_in(page: bytes) -> tuple[int, int] | None:
    """Between which places a page has its rows."""
    start = page.find(BEGIN) + len(BEGIN)
    # Rows have no character of an element: the first one ends them.
    return (start, page.index(b"<", start)) if start >= len(BEGIN) else None


class Refused(Exception):
    """What can't be done, as a sentence for the user."""


class Missing(Exception):
    """The program isn't here. The message says how to get it."""


def asked(words: Sequence[str | pathlib.Path], data: bytes = b"", folder: pathlib.Path | None = None) -> tuple[int, bytes, str]:
    """What a command ends with, writes, and says of itself. Raises Refused if it can't be run, or takes too long."""
    around = {**os.environ, "RAFTBENCH_EXPLAIN": "1"}
    try:
        done = subprocess.run(words, input=data, capture_output=True, timeout=MOST_SECONDS, cwd=folder, env=around, check=False)
    except (OSError, subprocess.TimeoutExpired) as fault:
        raise Refused(f"the program can't be run: {fault}") from None
    return done.returncode, done.stdout, done.stderr.decode("utf-8", "replace").strip()


@dataclasses.dataclass(frozen=True)
class Checked:
    """What `raftbench check` reports on a script, and the script that it leaves."""

    report: str
    script: bytes


@dataclasses.dataclass(frozen=True)
class Program:
    """A program `raftbench`. One that isn't proved may not write into scripts, unless that is allowed."""

    path: pathlib.Path
    may_save: bool = True

    def rows(self, data: bytes) -> PageRows:
        """Runs a script. Raises Refused with what is wrong with it."""
        status, output, said = self.page(data)
        found = rows_in(output)
        if found is None:
            raise Refused(said.removeprefix("raftbench: ") or f"the program ended with status {status}")
        return PageRows(output[slice(*found)])

    def page(self, data: bytes) -> tuple[int, bytes, str]:
        """The page of a script, as the program writes it."""
        return asked([self.path, "page", "-"], data)

    def check(self, data: bytes, line: int | None, *options: str) -> Checked:
        """Checks a copy of a script, or its directive at a line. Raises Refused if that can't be done."""
        with tempfile.TemporaryDirectory(prefix="raftbench-live-") as room:
            copy = pathlib.Path(room, COPY)
            copy.write_bytes(data)
            status, output, said = asked([self.path, "check", *options, "--color", "never", COPY if line is None else f"{COPY}:{line}"], folder=copy.parent)
            if status not in (0, 1):
                raise Refused(said or f"the program ended with status {status}")
            return Checked(output.decode("utf-8", "replace"), copy.read_bytes())

    def names(self) -> dict[str, str]:
        """The directives that it has, each with its words and options in short."""
        output = asked([self.path, "directives"])[1].decode("utf-8", "replace")
        heads = re.sub(r"\n {8}(?=\[)", " ", output)
        return {found[1]: found[2].strip() for found in re.finditer(r"^([a-z][a-z-]*)( .*|)$", heads, re.MULTILINE)}


def _built(top: pathlib.Path) -> Program:
    """The program of a clone, which is built first if it isn't yet."""
    subprocess.run([top / "raftbench", "--version"], stdout=subprocess.DEVNULL, check=False)
    proved = top / "crates" / "raftbench" / "out" / "raftbench"
    if proved.exists():
        return Program(proved)
    name = top / "crates" / "raftbench" / "out" / "unproved"
    found = sorted(name.glob("*"), key=lambda it: it.stat().st_mtime)
    if not found:
        raise Missing(f"{top / 'raftbench'} could not build the program")
    return Program(found[-1], bool(os.environ.get("RAFTBENCH_UNPROVED")))


def found_program(top: pathlib.Path, beside: pathlib.Path) -> Program:
    """The program that RAFTBENCH names, that this clone has, that is installed beside this command, or that is in the path."""
    if "RAFTBENCH" in os.environ:
        return Program(pathlib.Path(os.environ["RAFTBENCH"]))
    if (top / "crates").is_dir():
        return _built(top)
    installed = beside / "raftbench"
    found = str(installed) if installed.exists() else shutil.which("raftbench")
    if not found:
        raise Missing("there is no program raftbench beside this command or in the path")
    return Program(pathlib.Path(found))
