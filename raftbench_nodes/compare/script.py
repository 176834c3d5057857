"""A directive that can be drawn, mutated and shrunk, and the text of a script of them."""
from __future__ import annotations

import functools
from typing import NamedTuple, Sequence

from plain.script import Block, Directive, Fault, read_block

from .runner_steps import RunnerStep, steps_above


class Step(NamedTuple):
    """A directive: its head, its input lines, and the runner's steps before it."""

    head: str
    given: tuple[str, ...] = ()
    before: tuple[RunnerStep, ...] = ()

    def block(self) -> Block | None:
        """The block, or None where no script may have such lines."""
        return block_of(self)

    def text(self) -> str:
        """All of it in one line."""
        return " / ".join([*(step.text() for step in self.before), self.head, *self.given])


@functools.lru_cache(maxsize=50_000)
def block_of(step: Step) -> Block | None:
    try:
        return read_block("\n".join([*(each.text() for each in step.before), step.head, *step.given, "----", ""]).encode("latin-1"))
    except Fault:
        return None


@functools.lru_cache(maxsize=50_000)
def directive_of(block: Block) -> Directive:
    return block.directive()


def blocks_of(steps: Sequence[Step]) -> list[Block]:
    """The blocks of steps that scripts may have."""
    return [block for step in steps if (block := step.block()) is not None]


def steps_of_blocks(blocks: Sequence[Block]) -> list[Step]:
    return [
        Step(b" ".join(line.rstrip(b" \t\\") for line in block.head).decode("latin-1"), tuple(line.decode("latin-1") for line in block.input), tuple(steps_above(block)))
        for block in blocks
    ]
