"""Children of scripts that reached something new: with a directive more or less, with another step of the runner, or spliced."""
from __future__ import annotations

import random
from typing import Sequence

from ..compare.runner_steps import RunnerStep
from ..compare.script import Step
from .dice import CRASHED, Sane, Theme, with_runner

MOST_DIRECTIVES = 150


class Mutator(random.Random):
    """Makes children, by a seed."""

    def child(self, steps: Sequence[Step], mate: Sequence[Step]) -> list[Step]:
        steps = list(steps)
        for _ in range(self.choice([1, 1, 2, 3, 5])):
            steps = self.choice([self.inserted, self.inserted, self.without_some, self.disturbed, self.disturbed, self.changed, self.swapped])(steps)
        if self.random() < 0.2:
            steps = self.spliced(steps, mate)
        return [step for step in steps if step.block() is not None][:MOST_DIRECTIVES]

    def place(self, steps: Sequence[Step]) -> int:
        return self.randint(1, max(1, len(steps)))

    def nodes(self, steps: Sequence[Step]) -> int:
        """How many nodes a script adds."""
        counts = (step.head.split()[1] for step in steps if step.head.startswith("add-nodes ") and len(step.head.split()) > 1)
        return max(1, min(32, sum(int(count) for count in counts if count.isascii() and count.isdigit() and len(count) < 3)))

    def inserted(self, steps: list[Step]) -> list[Step]:
        dice = Sane(self.random(), Theme("any"))
        dice.nodes, dice.favourite = self.nodes(steps), self.randint(1, self.nodes(steps))
        at = self.place(steps)
        if self.random() < 0.25:
            theme = Theme("any", story=1.0)
            more = list(with_runner(dice, theme, [Step("raft-state"), Step("raft-state")]))[1:]
        else:
            thrown = [dice.any_directive() for _ in range(self.choice([1, 1, 2]))]
            more = [Step(head, tuple(given)) for head, given in thrown if not head.startswith("add-nodes") or self.random() < 0.2]
        return [*steps[:at], *more, *steps[at:]]

    def without_some(self, steps: list[Step]) -> list[Step]:
        at = self.place(steps)
        return steps[:at] + steps[at + self.choice([1, 1, 2, 4]):]

    def disturbed(self, steps: list[Step]) -> list[Step]:
        at, nodes = min(self.place(steps), len(steps) - 1), self.nodes(steps)
        one, other = self.randint(1, nodes), self.randint(1, nodes)
        network = [RunnerStep(name, one) for name in ("reverse", "double", "late")] + [RunnerStep(name, one, other) for name in ("hold", "release", "again")]
        network.append(RunnerStep("cut", one, self.choice([0, 1])))
        crash = [RunnerStep(name, one) for name in (*CRASHED, "save", "save")]
        step = steps[at]
        return [*steps[:at], step._replace(before=(*step.before, self.choice(network + crash))), *steps[at + 1:]]

    def changed(self, steps: list[Step]) -> list[Step]:
        """A number of a directive is another."""
        at = min(self.place(steps), len(steps) - 1)
        words = steps[at].head.split(" ")
        places = [place for place, word in enumerate(words) if place and word.isdigit()]
        if not places or words[0] == "add-nodes":
            return steps
        place = self.choice(places)
        words[place] = str(self.randint(1, self.nodes(steps))) if int(words[place]) < 8 else str(max(1, int(words[place]) + self.choice([-1, 1, 2])))
        return [*steps[:at], steps[at]._replace(head=" ".join(words)), *steps[at + 1:]]

    def swapped(self, steps: list[Step]) -> list[Step]:
        at = min(self.place(steps), len(steps) - 2)
        return [*steps[:at], steps[at + 1], steps[at], *steps[at + 2:]] if at > 0 else steps

    def spliced(self, steps: list[Step], mate: Sequence[Step]) -> list[Step]:
        """Its beginning, and the end of another without its nodes."""
        at, start = self.place(steps), self.randint(0, max(0, len(mate) - 1))
        return [*steps[:at], *(step for step in mate[start:] if not step.head.startswith("add-nodes"))]
