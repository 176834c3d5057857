"""Removes from directives what the library lacks, and adds what it always does, on both sides. What is left can still be compared."""
from __future__ import annotations

import functools
from typing import AbstractSet, Sequence

from plain.script import Argument, Block, Directive

from .encoding import Hello

# The call that a directive needs of a node.
NEEDS = {
    b"campaign": "campaign", b"tick-election": "tick", b"tick-heartbeat": "tick", b"forget-leader": "forget_leader",
    b"propose-conf-change": "propose_change", b"set-randomized-election-timeout": "set_timeout", b"transfer-leadership": "transfer",
    b"report-unreachable": "report_unreachable", b"compact": "compact", b"send-snapshot": "snapshot",
}
# The option of `add-nodes` that a word takes off, or that is always on.
OPTIONS = {
    b"inflight": "inflight", b"prevote": "prevote", b"checkquorum": "checkquorum", b"step-down-on-removal": "step_down_on_removal",
    b"learners": "learners",
}


def needs_joint(arguments: Sequence[Argument], words: Sequence[bytes]) -> bool:
    """Whether a change needs a joint configuration."""
    is_stated = any(a.key == b"transition" and a.values != (b"auto",) for a in arguments)
    return is_stated or len(words) != 1


def changes_order(arguments: Sequence[Argument]) -> bool:
    """Whether a `deliver-msgs` delivers messages before earlier ones of their sender and type."""
    return any(a.key == b"skip" for a in arguments) and any(not a.has_equals for a in arguments)


def is_left_out(directive: Directive, hello: Hello) -> bool:
    name, arguments, given = directive
    without = hello.without
    if NEEDS.get(name) in without or name == b"compact" and without & {"applied", "log"}:
        return True
    if name == b"restart":
        return "restart" not in hello.calls
    if name == b"deliver-msgs":
        return hello.is_ordered and changes_order(arguments)
    if name != b"propose-conf-change":
        return False
    words = b" ".join(given).split()
    return "joint" in without and needs_joint(arguments, words) or "learners" in without and any(word.startswith(b"l") for word in words)


def written(argument: Argument) -> bytes:
    if not argument.has_equals:
        return argument.key
    values = argument.values
    return argument.key + b"=" + (values[0] if len(values) == 1 and values[0] else b"(" + b",".join(values) + b")")


def always_on(always: AbstractSet[str]) -> dict[bytes, bytes]:
    """The options of `add-nodes` that can't be switched off, with their values."""
    return {key: b"1" if name == "inflight" else b"true" for key, name in OPTIONS.items() if name in always or f"{name}=1" in always}


@functools.lru_cache(maxsize=50_000)
def reduced(block: Block, hello: Hello) -> Block | None:
    """The block with what is left of its directive, or None where nothing is."""
    without = hello.without
    if not without and not hello.always and not hello.is_ordered and "restart" in hello.calls:
        return block
    directive = block.directive()
    if is_left_out(directive, hello):
        return None
    if directive.name != b"add-nodes":
        return block
    fixed = always_on(hello.always)
    kept = tuple(a for a in directive.arguments if OPTIONS.get(a.key) not in without and a.key not in fixed)
    kept += tuple(Argument(key, True, (value,)) for key, value in fixed.items())
    if kept == directive.arguments:
        return block
    return Block(block.lead, (b" ".join([directive.name, *map(written, kept)]),), block.input, block.expected)
