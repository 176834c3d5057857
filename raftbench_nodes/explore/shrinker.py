"""Shrinking: a script that shows something loses directives in ever smaller pieces, then words and numbers, and its directives give way to simpler
ones, as long as it shows what it showed.
"""
from __future__ import annotations

import re
import time
from typing import Callable, Iterator, NamedTuple, Sequence

from ..compare.runner_steps import LIMITED
from ..compare.script import Step

Steps = list[Step]
# An option with a value or a list of them, and a number that may be smaller.
OPTION = re.compile(r"([a-z-]+=)\(?([^()]*)\)?")
NUMBERED = re.compile(r"((?:[a-z-]+=)?)(\d+)")
ADDS = re.compile(r"add-nodes (\d+)(.*)")
LIST = re.compile(r"(?<==\()[^()]*(?=\))")


class Budget(NamedTuple):
    """What shrinking a script may cost: runs, directives in all, and a time at which it ends (of `time.monotonic`)."""

    runs: int
    directives: int = 1 << 60
    until: float = float("inf")


class Shortened(NamedTuple):
    """What shrinking came to: the steps, how many directives it took, and whether the budget ended it."""

    steps: Steps
    used: int
    is_cut: bool


class Place(NamedTuple):
    """How far shrinking is: the steps when this turn began, and what is tried: without `size` steps at a place, simpler scripts, or smaller steps at a place."""

    before: Steps
    phase: str
    size: int = 0
    at: int = 0


def first_place(steps: Steps) -> Place:
    return Place(steps, "fewer", max(1, len(steps) // 2))


def candidates(steps: Steps, place: Place) -> Iterator[tuple[Place, Steps]]:
    """The scripts that are tried one after another from a place on, as long as none of them shows it. A turn that changed nothing is the last."""
    before, phase, size, at = place
    while True:
        while phase == "fewer" and size:
            for left in range(at, len(steps), size):
                yield Place(before, phase, size, left), steps[:left] + steps[left + size:]
            size, at = size // 2, 0
        for simpler in simpler_scripts(steps) if phase != "smaller" else ():
            yield Place(before, "simpler"), simpler
        for smaller in range(at if phase == "smaller" else 0, len(steps)):
            for step in smaller_steps(steps[smaller]):
                yield Place(before, "smaller", 0, smaller), [*steps[:smaller], step, *steps[smaller + 1:]]
        if steps == before:
            return
        before, phase, size, at = first_place(steps)


class Trial(NamedTuple):
    """A script that is tried, and what is left of the budget after it."""

    place: Place
    steps: Steps
    left: int
    used: int


class Shrinker:
    """Shortens steps within a budget. It names the scripts to try, in order, and is told of each whether that shows what the steps show. So others may be
    tried in advance; what comes of it is the same.
    """

    def __init__(self, steps: Steps, budget: Budget) -> None:
        self.steps, self.left, self.directives, self.until = steps, budget.runs, budget.directives, budget.until
        self.used = 0  # directives
        self.tried: set[tuple[Step, ...]] = set()
        self.ahead: list[Trial] = []
        self.source = candidates(steps, first_place(steps))
        self.is_spent = False  # whether the budget ends it, if nothing of what is ahead shows it

    def look(self, number: int = 0) -> Steps | None:
        """The script that is tried next, after so many others; None if it is over then."""
        while len(self.ahead) <= number and not self.is_spent:
            trial = self.next_trial()
            if trial is None:
                break
            self.ahead.append(trial)
        return self.ahead[number].steps if number < len(self.ahead) else None

    def next_trial(self) -> Trial | None:
        left, used = (self.ahead[-1].left, self.ahead[-1].used) if self.ahead else (self.left, self.used)
        for place, steps in self.source:
            key = tuple(steps)
            if not steps or key in self.tried or any(step.block() is None for step in steps):
                continue
            self.is_spent = left <= 0 or used + len(steps) > self.directives or time.monotonic() >= self.until
            if self.is_spent:
                return None
            self.tried.add(key)
            return Trial(place, steps, left - 1, used + len(steps))
        return None

    def answer(self, shows: bool) -> None:
        """Whether the next script shows it. If so, what was ahead of it isn't tried any more."""
        place, steps, self.left, self.used = self.ahead.pop(0)
        if shows:
            self.tried -= {tuple(trial.steps) for trial in self.ahead}
            self.steps, self.ahead, self.is_spent, self.source = steps, [], False, candidates(steps, place)

    def shortened(self) -> Shortened:
        return Shortened(self.steps, self.used, self.is_spent or self.left <= 0)


def shrunk(steps: Steps, has: Callable[[Steps], bool], budget: Budget) -> Steps:
    """The shortest steps found that show it, which `has` answers."""
    shrinker = Shrinker(steps, budget)
    while (tried := shrinker.look()) is not None:
        shrinker.answer(has(tried))
    return shrinker.steps


# Simpler scripts: as long or shorter


def simpler_scripts(steps: Steps) -> Iterator[Steps]:
    yield from with_commas(steps)
    yield from with_campaigns(steps)
    yield from with_joined_nodes(steps)
    yield from renumbered(steps)


def with_commas(steps: Steps) -> Iterator[Steps]:
    """Lists have commas alone between their members, so that a script that two kinds show is the same text."""
    heads = [step.head if step.head.startswith("propose ") else LIST.sub(lambda found: ",".join(re.findall("[^, ]+", found[0])), step.head) for step in steps]
    simpler = [step._replace(head=head) for step, head in zip(steps, heads)]
    if simpler != steps:
        yield simpler


def with_campaigns(steps: Steps) -> Iterator[Steps]:
    """A run of ticks of a node, or `tick-election`, is a campaign."""
    for at, step in enumerate(steps):
        words = step.head.split(" ")
        if words[0] not in ("tick-election", "tick-heartbeat") or len(words) < 2:
            continue
        end = at + 1
        while end < len(steps) and steps[end] == Step(step.head):
            end += 1
        yield [*steps[:at], step._replace(head=f"campaign {words[1]}"), *steps[end:]]


def with_joined_nodes(steps: Steps) -> Iterator[Steps]:
    """Two `add-nodes` are one."""
    places = [at for at, step in enumerate(steps) if ADDS.fullmatch(step.head)]
    for first, second in zip(places, places[1:]):
        one, other = ADDS.fullmatch(steps[first].head), ADDS.fullmatch(steps[second].head)
        assert one and other
        joined = steps[first]._replace(head=f"add-nodes {int(one[1]) + int(other[1])}{one[2]}")
        yield [*steps[:first], joined, *steps[first + 1:second], *steps[second + 1:]]


def renumbered(steps: Steps) -> Iterator[Steps]:
    """A node that isn't used gives its number to the last one, and the last is gone."""
    first = ADDS.fullmatch(steps[0].head) if steps else None
    if not first or int(first[1]) < 2 or any(ADDS.fullmatch(step.head) for step in steps[1:]):
        return
    count = int(first[1])
    used = {id for step in steps[1:] for id in ids_of(step)}
    voters = ",".join(map(str, range(1, count)))
    fewer = re.sub(r"voters=(\([^()]*\)|\d+)", f"voters=({voters})", f"add-nodes {count - 1}{first[2]}")
    for gone in sorted(set(range(1, count + 1)) - used):
        rest = [with_ids(step, {id: id - (id > gone) for id in range(1, count + 1)}) for step in steps[1:]]
        yield [steps[0]._replace(head=fewer), *rest]
    if sorted(used) != list(range(1, len(used) + 1)):
        lower = {id: rank for rank, id in enumerate(sorted(used), 1)}
        yield [steps[0], *(with_ids(step, lower) for step in steps[1:])]


def ids_of(step: Step) -> set[int]:
    """The nodes that a directive names, or may name."""
    text = step.head if not step.head.startswith("propose ") else " ".join(step.head.split(" ")[:2])
    found = {int(number) for number in re.findall(r"(?<![\w.])\d{1,2}(?!\w)", text)} | {int(number) for line in step.given for number in re.findall(r"\d{1,2}", line)}
    return found | {number for before in step.before for number in (before.node, before.number) if number}


def with_ids(step: Step, ids: dict[int, int]) -> Step:
    def other(found: re.Match[str]) -> str:
        return str(ids.get(int(found[0]), int(found[0])))

    words = step.head.split(" ")
    cut = 2 if words[0] in ("propose", "compact", "set-randomized-election-timeout", "stabilize") and len(words) > 2 and words[0] != "stabilize" else len(words)
    named = [word if word.startswith(("rounds=", "log-level=", "type=", "index=", "timeout=", "skip=", "count=")) else re.sub(r"(?<!\w)\d{1,2}(?!\w)", other, word) for word in words[:cut]]
    before = tuple(each._replace(node=ids.get(each.node, each.node), number=ids.get(each.number, each.number) if each.name not in ("cut", *LIMITED) else each.number) for each in step.before)
    return Step(" ".join([*named, *words[cut:]]), tuple(re.sub(r"\d{1,2}", other, line) for line in step.given), before)


# Smaller steps


def smaller_steps(step: Step) -> Iterator[Step]:
    """Steps with a little less in them than this one, each of which is shorter or has smaller numbers."""
    for at in range(len(step.before)):
        yield step._replace(before=step.before[:at] + step.before[at + 1:])
    for less in smaller_heads(step.head):
        yield step._replace(head=less)
    pieces = " ".join(step.given).split()
    for left in range(len(pieces)):
        rest = " ".join(pieces[:left] + pieces[left + 1:])
        yield step._replace(given=(rest,) if rest else ())
    if len(step.given) > 1 or step.given and not pieces:
        yield step._replace(given=(" ".join(pieces),) if pieces else ())


def smaller_heads(head: str) -> Iterator[str]:
    words = head.split(" ")
    for at in range(1, len(words)):
        yield " ".join(words[:at] + words[at + 1:])
    for at in range(1, len(words)):
        for word in smaller_words(words[at]):
            yield " ".join([*words[:at], word, *words[at + 1:]])
    if words[0] == "propose" and len(words) == 3 and words[2] != "a":
        yield f"propose {words[1]} a"
    if words[0] == "stabilize" and len(words) > 1:
        yield "stabilize"


def smaller_words(word: str) -> Iterator[str]:
    option = OPTION.fullmatch(word)
    members: Sequence[str] = re.split("[, ]+", option[2]) if option else []
    if option and len(members) > 1:
        for left in range(len(members)):
            rest = [*members[:left], *members[left + 1:]]
            yield option[1] + (rest[0] if len(rest) == 1 else f"({','.join(rest)})")
    number = NUMBERED.fullmatch(word)
    if number and int(number[2]) > 1:
        for less in sorted({1, 2, int(number[2]) - 1} - {int(number[2])}):
            if less < int(number[2]):
                yield f"{number[1]}{less}"
