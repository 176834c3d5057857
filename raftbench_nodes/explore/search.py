"""The search of an exploration: rounds of scripts, thrown by seeds or children of those that reached something new. A round depends only on
earlier rounds, so the same seeds give the same result, however many workers there are.
"""
from __future__ import annotations

import collections
import random
import time
from typing import Callable, Iterator, NamedTuple, Sequence

from ..compare.script import Step
from ..process.workers import Fleet
from .explorer import WITHIN, CorpusScript, Explorer, ScriptResult, ShownKind, Spec
from .library import TreeScript

# A slow script holds up those in its chunk alone, so chunks are short.
ROUND, CHUNK = 96, 2
# Rounds under way: a round is made when this many before it are through.
AHEAD = 2
MOST_CANDIDATES = 12
# One of so many scripts in which states differ within directives alone is too much.
LOUD = 6


def explore(explorer: Explorer, spec: Spec) -> ScriptResult:
    return explorer.explore(spec)


def early(explorer: Explorer, _: None) -> list[Spec]:
    return explorer.early()


class Candidate(NamedTuple):
    """A script that shows a kind."""

    place: int
    number: int
    seed: int
    is_alone: bool
    steps: tuple[Step, ...]
    origin: str


class Kind:
    """A kind of what was found: how many scripts show it, and the shortest of them."""

    def __init__(self, name: str) -> None:
        self.name, self.count = name, 0
        self.first: tuple[int, str] | None = None  # the number and the origin of the first script that shows it
        self.candidates: list[Candidate] = []

    def origin(self) -> str:
        """Where the first script that shows it is from."""
        return self.first[1] if self.first else ""

    def add(self, found: ScriptResult, shown: ShownKind) -> None:
        self.count += 1
        spec = found.spec
        self.first = min(self.first or (spec.number, spec.origin()), (spec.number, spec.origin()))
        self.candidates.append(Candidate(shown.place, spec.number, spec.seed, spec.is_alone, found.steps[:shown.place], spec.origin()))
        self.candidates.sort(key=lambda candidate: (candidate.place, candidate.number))
        del self.candidates[MOST_CANDIDATES:]


class Limits(NamedTuple):
    """When a search ends: after `most` scripts, or at a time."""

    seed: int
    stride: int  # between the seeds: the number of shards
    most: int | None
    until: float


class Library(NamedTuple):
    """Scripts of the tree. The classics begin a search, and don't count; every second script after them is a distilled one, as long as there are any."""

    classics: Sequence[TreeScript] = ()
    distilled: Sequence[TreeScript] = ()


class Search:
    """`children`: how many of ten scripts are children of others, once there are any."""

    def __init__(self, fleet: Fleet, limits: Limits, alone: int, library: Library = Library(), children: int = 5, asks_early: bool = False) -> None:
        self.fleet, self.limits, self.alone, self.children = fleet, limits, alone, children
        self.asks_early = asks_early
        self.classics, self.distilled = library.classics, iter(library.distilled)
        self.classics_tried = self.classics_same = 0
        self.early: set[bytes] = set()  # scripts that were asked first
        self.corpus: list[CorpusScript] = []
        self.met: set[int] = set()
        self.kinds: dict[str, Kind] = {}
        self.thrown = self.numbered = self.rounds = 0
        self.made: collections.Counter[str] = collections.Counter()
        self.scripts = self.same = self.compared = self.agreed = self.left_out = self.quick = 0
        self.has_given_up = False  # asking scripts at once
        self.wrong: list[int] = []
        self.faults: list[str] = []  # tracebacks of the reference

    def run(self, is_stopped: Callable[[], bool], look: Callable[[Search], None]) -> None:
        under_way: list[int] = []
        while self.goes_on(is_stopped) or under_way:
            while len(under_way) < AHEAD and self.goes_on(is_stopped):
                under_way.append(self.give_round())
            for _ in range(under_way.pop(0)):
                if self.is_over(is_stopped):
                    self.fleet.drop()
                for found in self.fleet.take():
                    self.add(found)
            look(self)

    def is_over(self, is_stopped: Callable[[], bool]) -> bool:
        return time.monotonic() >= self.limits.until or is_stopped()

    def goes_on(self, is_stopped: Callable[[], bool]) -> bool:
        has_more = self.limits.most is None or self.numbered < self.limits.most
        return has_more and not self.is_over(is_stopped)

    def give_round(self) -> int:
        """Gives the workers a round; answers in how many chunks."""
        size = ROUND if self.limits.most is None else min(ROUND, self.limits.most - self.numbered)
        specs = [*self.specs_of_classics(), *self.specs_of_last_time(), *self.specs(size)]
        chunks = [specs[at:at + CHUNK] for at in range(0, len(specs), CHUNK)]
        for chunk in chunks:
            self.fleet.give(explore, chunk)
        self.rounds += 1
        return len(chunks)

    def specs_of_classics(self) -> Iterator[Spec]:
        """All classics, in the first round."""
        for at, given in enumerate(self.classics if self.rounds == 0 else ()):
            yield Spec(at - len(self.classics), 0, self.alone == 1, given=given)

    def specs_of_last_time(self) -> Iterator[Spec]:
        """In the first round, those in which something was found."""
        if self.rounds == 0 and self.asks_early:
            self.fleet.give(early, [None])
            yield from (spec for found in self.fleet.take() for spec in found if self.limits.most is None or spec.number < self.limits.most)

    def specs(self, size: int) -> Iterator[Spec]:
        dice = random.Random(f"round {self.limits.seed} {self.rounds}")
        for _ in range(size):
            number, self.numbered = self.numbered, self.numbered + 1
            is_alone = self.alone > 0 and number % self.alone == self.alone - 1
            given = next(self.distilled, None) if number % 2 and (not is_alone or self.alone == 1) else None
            if given:
                yield Spec(number, 0, is_alone, given=given)
            elif self.corpus and dice.randrange(10) < self.children and not is_alone:
                parent = self.corpus[int(len(self.corpus) * max(dice.random(), dice.random()))]
                yield Spec(number, dice.getrandbits(32), is_alone, parent, dice.choice(self.corpus))
            else:
                seed = self.limits.seed + self.thrown * self.limits.stride
                self.thrown += 1
                yield Spec(number, seed, is_alone)

    def add(self, found: ScriptResult) -> None:
        if found.spec.early:
            self.early.add(found.name)
            return self.add_kinds(found)
        if found.spec.number < 0:
            self.classics_tried += 1
            self.classics_same += not found.kinds
        else:
            self.scripts += 1
            self.same += not found.kinds
        self.made.update(dict(found.made))
        self.compared += found.compared
        self.agreed += found.agreed
        self.left_out += found.left_out
        self.quick += found.was_quick
        self.has_given_up = self.has_given_up or found.has_given_up
        if found.is_reference_wrong:
            self.wrong.append(found.spec.number)
            self.faults += [f"{found.spec.origin()}: the reference failed:\n{found.fault}"] if found.fault else []
        if found.steps and found.met - self.met and not found.spec.is_alone:
            self.corpus.append(CorpusScript(found.name, found.steps))
        self.met |= found.met
        return None if found.name in self.early else self.add_kinds(found)

    def add_kinds(self, found: ScriptResult) -> None:
        for shown in found.kinds:
            self.kinds.setdefault(shown.kind, Kind(shown.kind)).add(found, shown)

    def drop_loud_states(self) -> dict[str, str]:
        """Takes away what differs within directives alone, if it does in many scripts: such nodes do things in other calls. Says so, and in how many."""
        loud = [name for name in self.kinds if name.endswith(WITHIN)]
        count = sum(self.kinds[name].count for name in loud)
        if count * LOUD < self.scripts + self.classics_tried:
            return {}
        for name in loud:
            del self.kinds[name]
        return {"states within directives": f"{count} of {self.scripts + self.classics_tried} scripts"} if loud else {}

    def sorted_kinds(self) -> list[Kind]:
        """What is most surprising first."""
        return sorted(self.kinds.values(), key=lambda kind: (surprise(kind.name), kind.count, kind.name))


# What a difference in a part means: the more, the earlier it is shown.
GRAVE = ("commit ahead", "log", "applied", "content", "vote", "role leader for", "never comes to rest", "term behind")


def surprise(kind: str) -> int:
    """Failed calls and broken promises first, then what is closest to a broken promise."""
    if kind.startswith("failed "):
        return 0
    if kind.startswith("promise broken: "):
        return 1
    if kind.startswith(GRAVE):
        return 2
    return 4 if kind.startswith("promise broken in ") else 3


def contains(steps: Sequence[Step], short: Sequence[Step]) -> bool:
    """Whether the directives of a short script come in a longer one, in their order."""
    rest = iter(step.head for step in steps)
    return all(any(head == wanted for head in rest) for wanted in (step.head for step in short if not step.head.startswith("add-nodes")))
