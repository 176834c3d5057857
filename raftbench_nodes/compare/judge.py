"""Checks the reference: on a script without runner's steps, the plain bench must print what the proved program prints."""
from __future__ import annotations

import os
import pathlib
import shutil
import subprocess
import tempfile

from typing import Mapping, Sequence

from plain.script import Block, Script, read_script

TOP = pathlib.Path(__file__).resolve().parents[2]
MOST_SECONDS = 60


def found_program(environment: Mapping[str, str] = os.environ) -> pathlib.Path:
    """The program that RAFTBENCH names, that this clone has built, that was unpacked beside nodes/, or that is installed."""
    built = TOP / "crates" / "raftbench" / "out" / "raftbench"
    if "RAFTBENCH" in environment:
        return pathlib.Path(environment["RAFTBENCH"])
    if (TOP / "crates").exists():
        return built if built.exists() else unproved_program() or built
    # In an archive next to nodes/, or where share/raftbench is installed.
    beside = [path for path in (TOP / "bin" / "raftbench", TOP.parent.parent / "bin" / "raftbench") if path.exists()]
    return beside[0] if beside else pathlib.Path(shutil.which("raftbench") or built)


def unproved_program() -> pathlib.Path | None:
    """The program that this clone has compiled without proof."""
    folder = TOP / "crates" / "raftbench" / "out" / "unproved"
    built = sorted(folder.glob("[0-9a-f]*"), key=lambda path: path.stat().st_mtime)
    return built[-1] if built else None


class Unjudged(Exception):
    """The proved program gave no outputs of a script."""


class Judge:
    """The proved program: its outputs of a script are what the plain bench has to print."""

    def __init__(self, is_asked: bool = True) -> None:
        self.program = found_program()
        self.is_there = is_asked and self.program.exists()

    def note(self) -> str | None:
        """What a reader has to know of this judge: that none is there, or that it isn't proved."""
        if not self.program.exists():
            return "raftbench isn't built, so the reference isn't compared with it: ./raftbench --help builds it"
        return "the reference is compared with raftbench as compiled without proof" if "unproved" in self.program.parts[-3:-1] and "RAFTBENCH" not in os.environ else None

    def identity(self) -> str:
        """What tells this program from others; nothing if none is asked."""
        try:
            found = self.program.stat() if self.is_there else None
        except OSError:
            found = None
        return f"{self.program} {found.st_size} {found.st_mtime_ns}" if found else ""

    def outputs(self, blocks: Sequence[Block]) -> list[list[str]]:
        """What each directive prints, in lines of text; Unjudged where the program doesn't say."""
        text = Script(tuple(blocks), ()).text()
        try:
            done = subprocess.run([self.program, "rewrite", "-"], input=text, capture_output=True, timeout=MOST_SECONDS)
        except (OSError, subprocess.TimeoutExpired) as fault:
            raise Unjudged(f"{self.program}: {fault}") from None
        if done.returncode:
            raise Unjudged(f"{self.program}: status {done.returncode}: {done.stderr.decode('utf-8', 'replace').strip()}")
        return [[line.decode() for line in block.expected] for block in read_script(done.stdout).blocks]

    def page(self, text: bytes) -> bytes | None:
        """The page of a script's text, or None if the program doesn't give one."""
        with tempfile.NamedTemporaryFile(suffix=".txt") as file:
            file.write(text)
            file.flush()
            try:
                done = subprocess.run([self.program, "page", file.name], capture_output=True, timeout=MOST_SECONDS)
            except (OSError, subprocess.TimeoutExpired):
                return None
        return done.stdout if done.stdout.lstrip()[:1] == b"<" else None

    def first_wrong(self, blocks: Sequence[Block], outputs: Sequence[list[str]]) -> int | None:
        """The place, from 1 on, of the first directive where the plain bench printed something else, or None; None also without a program."""
        if not self.is_there or not blocks:
            return None
        return next((at for at, (own, lines) in enumerate(zip(self.outputs(blocks), outputs), 1) if own != lines), None)
