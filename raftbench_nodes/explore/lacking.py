"""Which classics nodes can't do as they stand, since they lack a call or an option."""
from __future__ import annotations

from typing import Sequence

from ..compare.runner_steps import steps_above
from ..compare.script import blocks_of
from ..compare.stage import lacking
from ..protocol.capabilities import reduced
from ..protocol.encoding import Hello
from .explorer import Explorer
from .library import TreeScript


def lacking_lines(explorer: Explorer, given: Sequence[TreeScript]) -> list[str]:
    """A line for each thing that nodes lack, with the classics that need it."""
    if not explorer.process.is_started:
        explorer.process.reset()
    named: dict[str, list[str]] = {}
    for each in given:
        for what in what_is_left_out(each, explorer.process.hello, explorer.chosen.comparison.has_steps):
            named.setdefault(what, []).append(each.title)
    return [f"{what} in {len(names)} classic{'s' * (len(names) != 1)}: {', '.join(names)}" for what, names in sorted(named.items())]


def what_is_left_out(given: TreeScript, hello: Hello, has_steps: bool) -> list[str]:
    """What of a script is left out, and for want of what."""
    blocks = blocks_of(given.steps)
    words = {word for block in blocks if has_steps and block.lead for step in steps_above(block) if (word := lacking(step, hello))}
    found = [f"without {word}, steps are left out" for word in sorted(words)]
    return [*found, *(["directives are left out"] if any(reduced(block, hello) is None for block in blocks) else [])]
