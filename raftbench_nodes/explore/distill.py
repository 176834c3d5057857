"""Renews the distilled scripts: makes scripts as a search does, on the reference alone, and keeps few that reach nearly all that they reached.

    python3 -m raftbench_nodes.explore.distill [--scripts N] [--keep N] [--seed S]

Run it after a change of the dice, the stories, or where `coverage` says that a script leads. It takes some 15 ms of processor a script.
"""
from __future__ import annotations

import argparse
import random
from typing import NamedTuple, Sequence

from plain.node import Node

from ..compare.comparison import Comparison
from ..compare.plan import PlanningReference
from ..compare.runner_steps import steps_above
from ..compare.script import Step, blocks_of, directive_of
from ..protocol.encoding import LIMITS, OPTIONAL_CALLS, Hello
from .dice import steps_of
from .library import write_distilled
from .mutation import Mutator

HELLO = Hello("plain", calls=frozenset(OPTIONAL_CALLS), limits=frozenset(LIMITS), is_open=True, is_apart=True)
# Of ten scripts so many are children, once there are some.
CHILDREN = 5
# What is reached by this many scripts or more needs none of its own.
LONGEST = 70


class ReachedScript(NamedTuple):
    steps: tuple[Step, ...]
    met: frozenset[int]


def reached_by(steps: Sequence[Step]) -> ReachedScript:
    """Where a script leads the reference."""
    cluster = PlanningReference(Node, Comparison().begins_at_0, HELLO, False)
    for block in blocks_of(steps):
        if block.lead:
            cluster.carry_out(steps_above(block))
        cluster.run(directive_of(block))
    return ReachedScript(tuple(steps), frozenset(cluster.met))


def made(count: int, seed: int) -> list[ReachedScript]:
    """Scripts that reached something new, in the order in which they were made."""
    dice, met, kept = random.Random(f"distill {seed}"), set[int](), list[ReachedScript]()
    for number in range(count):
        if kept and dice.randrange(10) < CHILDREN:
            parent = kept[int(len(kept) * max(dice.random(), dice.random()))]
            steps = Mutator(dice.getrandbits(32)).child(parent.steps, dice.choice(kept).steps)
        else:
            steps = steps_of(seed + number, "mixed")
        found = reached_by(steps[:LONGEST])
        if found.met - met:
            met |= found.met
            kept.append(found)
    return kept


def chosen(scripts: Sequence[ReachedScript], most: int) -> list[ReachedScript]:
    """Few of them that reach nearly all: each time the one that adds most for its length."""
    rest, met, found = list(scripts), set[int](), list[ReachedScript]()
    gains = {id(each): len(each.met) / (20 + len(each.steps)) for each in rest}
    while rest and len(found) < most:
        rest.sort(key=lambda each: gains[id(each)], reverse=True)
        while True:
            # What a script adds only falls: the first whose gain is still its own is the best.
            best = rest[0]
            gain = len(best.met - met) / (20 + len(best.steps))
            if gain == gains[id(best)]:
                break
            gains[id(best)] = gain
            at = next((at for at in range(1, len(rest)) if gains[id(rest[at])] <= gain), len(rest))
            rest.insert(at - 1, rest.pop(0))
        if gain == 0:
            break
        found.append(rest.pop(0))
        met |= best.met
    return found


def main() -> None:
    parser = argparse.ArgumentParser(description="Renews the distilled scripts.")
    parser.add_argument("--scripts", type=int, default=20_000)
    parser.add_argument("--keep", type=int, default=500)
    parser.add_argument("--seed", type=int, default=1_000_000)
    given = parser.parse_args()
    scripts = made(given.scripts, given.seed)
    few = chosen(scripts, given.keep)
    everything, kept = (frozenset[int]().union(*(each.met for each in group)) for group in (scripts, few))
    size = write_distilled([each.steps for each in few])
    print(f"{len(few)} of {len(scripts)} scripts reach {len(kept)} of {len(everything)} situations, in {size} bytes")


if __name__ == "__main__":
    main()
