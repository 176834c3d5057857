"""Scripts that stand in the tree, with which a search begins: the classics, by name, and distilled ones, which reach what long searches reached."""
from __future__ import annotations

import functools
import lzma
import pathlib
from typing import NamedTuple, Sequence

from plain.script import read_script

from ..compare.runner_steps import step_of
from ..compare.script import Step, steps_of_blocks

CLASSICS = pathlib.Path(__file__).resolve().parents[2] / "examples" / "classics"
INSTALLED = pathlib.Path(__file__).resolve().parents[3] / "doc" / "raftbench" / "examples" / "classics"
DISTILLED = pathlib.Path(__file__).with_name("distilled.txt.xz")
# What the first line of each classic begins with.
BEGINS = "# Shows "


class TreeScript(NamedTuple):
    """A script with what it is called."""

    title: str
    steps: tuple[Step, ...]


def folder_of_classics() -> pathlib.Path:
    return CLASSICS if CLASSICS.is_dir() else INSTALLED


@functools.lru_cache(maxsize=1)
def classics() -> tuple[TreeScript, ...]:
    """The classics by their names; none where they aren't installed."""
    files = sorted(folder_of_classics().glob("*.txt"))
    return tuple(TreeScript(file.name, tuple(steps_of_blocks(read_script(file.read_bytes()).blocks))) for file in files)


@functools.lru_cache(maxsize=1)
def distilled() -> tuple[TreeScript, ...]:
    text = lzma.decompress(DISTILLED.read_bytes()).decode("latin-1") if DISTILLED.exists() else ""
    scripts = (tuple(map(step_in, script.strip("\n").split("\n"))) for script in text.split("\n\n") if script.strip("\n"))
    return tuple(TreeScript(f"distilled {number}", steps) for number, steps in enumerate(scripts, 1))


def write_distilled(scripts: Sequence[Sequence[Step]]) -> int:
    """Writes the distilled scripts; answers how many bytes they take."""
    text = "\n\n".join("\n".join(step.text() for step in steps) for steps in scripts) + "\n"
    return DISTILLED.write_bytes(lzma.compress(text.encode("latin-1"), preset=9 | lzma.PRESET_EXTREME))


def step_in(line: str) -> Step:
    """The step that `Step.text` wrote."""
    parts = line.split(" / ")
    before = [step for part in parts if (step := step_of(part))]
    return Step(parts[len(before)], tuple(parts[len(before) + 1:]), tuple(before))
