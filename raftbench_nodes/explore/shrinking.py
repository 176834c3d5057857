"""Shrinks the kinds that a search found, all of them together with a bounded number of directives."""
from __future__ import annotations

import dataclasses
import time
from typing import NamedTuple, Sequence

from ..compare.report import difference_lines
from ..compare.script import Step, blocks_of
from ..process.workers import Fleet
from ..promises.run import run_alone
from .explorer import MOST_RUNS, WITHIN, Explorer, budget_of, is_slow
from .results import KindResult, order_of
from .search import Candidate, Kind, contains, surprise
from .shrinker import Budget, Shortened, Shrinker

# Kinds that are shrunk besides broken promises, all of which are; the others are counted.
MOST_SHRUNK = 12
# Shrinking may carry out this many directives in any case. Else it may carry out a part of those of the search: many of these were asked at once, which
# takes a third of the time.
LEAST_DIRECTIVES, PART = 8000, 3
# How many kinds are shrunk first, and how many next; the others follow. A kind that a short script shows too needs no shrinking.
FIRST = 1, 3
# In how many rounds scripts whose share didn't suffice get what others have left, and the least share that is worth a round.
ROUNDS, LEAST_SHARE = 2, 100
# How many scripts of other kinds are tried for one.
MOST_SHORTER = 3
# For each worker so many scripts are being tried, or wait for one.
IN_ADVANCE = 2


@dataclasses.dataclass(frozen=True)
class ShrinkTask:
    """A kind with the script to shrink."""

    kind: str
    count: int
    first: str
    candidate: Candidate
    budget: Budget = Budget(MOST_RUNS)


class ShrunkKind(NamedTuple):
    """A kind with its shortest script, all kinds that this shows, the directives that it took, and whether more might shorten it."""

    result: KindResult
    steps: list[Step]
    kinds: tuple[str, ...] = ()
    used: int = 0
    is_cut: bool = False

    def rank(self) -> int:
        """How many kinds the script shows before this one."""
        return self.kinds.index(self.result.kind) if self.result.kind in self.kinds else len(self.kinds)


class AdoptTask(NamedTuple):
    """A kind, and scripts of others that are shorter than its own."""

    item: ShrinkTask
    shrunk: ShrunkKind
    shorter: list[list[Step]]


class Trying(NamedTuple):
    """A script that may show the kind of a task."""

    item: ShrinkTask
    steps: list[Step]


class Shortest(NamedTuple):
    """A kind with the shortest script that was found, the directives that this took, and whether more might shorten it."""

    item: ShrinkTask
    short: Shortened


def tries(explorer: Explorer, trying: Trying) -> bool:
    return explorer.has(trying.steps, trying.item.kind, trying.item.candidate.is_alone)


def show(explorer: Explorer, shortest: Shortest) -> ShrunkKind:
    return shown_by(explorer, shortest.item, shortest.short.steps)._replace(used=shortest.short.used, is_cut=shortest.short.is_cut)


def adopt(explorer: Explorer, compared: AdoptTask) -> ShrunkKind:
    """The kind with the shortest of the other scripts, if that shows it too."""
    item = compared.item
    found = next((steps for steps in compared.shorter if explorer.has(steps, item.kind, item.candidate.is_alone)), None)
    return shown_by(explorer, item, found) if found else compared.shrunk


def shown_by(explorer: Explorer, item: ShrinkTask, steps: list[Step]) -> ShrunkKind:
    """A kind with a script that shows it."""
    kind, candidate = item.kind, item.candidate
    shown = shown_of(explorer, kind, steps, candidate.is_alone)
    if shown is None:
        shown = ["    it didn't show again: these nodes don't always do the same"]
    first_line = f"{kind}: {candidate.origin}"
    text = explorer.script(steps, [first_line, *(line for line in shown if line[:2] in ("- ", "+ "))])
    texts = [step.text() for step in steps]
    result = KindResult(kind, item.count, candidate.seed, candidate.place, texts, shown, text.decode("latin-1"), first=item.first, origin=candidate.origin)
    return ShrunkKind(result, steps, tuple(name for name, _ in explorer.kinds_of(steps, candidate.is_alone)))


def shown_of(explorer: Explorer, kind: str, steps: Sequence[Step], is_alone: bool) -> list[str] | None:
    """The lines that show a kind, with what the nodes said last; None where it isn't shown."""
    if kind.endswith(WITHIN):
        state = explorer.other_state(steps, is_alone)
        return list(difference_lines(f"    directive {state.place}", state)) if state and state.kind() == kind else None
    if is_alone:
        alone = run_alone(blocks_of(steps), explorer.process, explorer.chosen.comparison)
        if alone.failed and alone.failed.kind() == kind:
            return list(difference_lines(f"    directive {alone.failed.place}", alone.failed))
        return next(([f"    directive {broken.place}: {broken.text}"] for broken in alone.broken if broken.kind() == kind), None)
    outcome = explorer.outcome(steps)
    said = [f"    {line}" for line in (outcome.came[-1] if outcome.came else []) if line.startswith(("INFO ", "WARN ", "ERROR "))][-4:]
    if outcome.first and outcome.first.kind() == kind:
        return [*difference_lines(f"    directive {outcome.first.place}", outcome.first), *(["    the nodes said:"] if said else []), *said]
    return next(([f"    directive {broken.place}: {broken.text}"] for broken in outcome.broken if broken.kind() == kind), None)


def unshrunk(kind: Kind) -> KindResult:
    shortest = kind.candidates[0]
    return KindResult(kind.name, kind.count, shortest.seed, shortest.place, [], [], "", first=kind.origin())


def chosen_of(kinds: Sequence[Kind]) -> list[Kind]:
    """The kinds that are shrunk: each broken promise, and some more."""
    promises = [kind for kind in kinds if kind.name.startswith("promise broken: ")]
    more = [kind for kind in kinds if kind not in promises][:max(0, MOST_SHRUNK - len(promises))]
    return [kind for kind in kinds if kind in promises or kind in more]


class Purse:
    """How many directives shrinking may still carry out."""

    def __init__(self, directives: int) -> None:
        self.left = directives

    def shares(self, count: int) -> list[int]:
        """What each of some scripts may take now: the first, which is shown first, most."""
        whole = sum(1 / (at + 1) for at in range(count))
        return [int(self.left / whole / (at + 1)) for at in range(count)]

    def pay(self, directives: int) -> bool:
        """Takes out what something costs, if that is there."""
        if directives > self.left:
            return False
        self.left -= directives
        return True


class SideBySide:
    """Shortens several scripts at once. Each worker has something to try: the next script of each kind, and then those that come after it if it shows
    nothing, as most do. Each shrinker is answered in its own order, so that what comes of it doesn't depend on how many workers there are.
    """

    def __init__(self, fleet: Fleet, tasks: Sequence[ShrinkTask], shrinkers: Sequence[Shrinker]) -> None:
        self.fleet, self.tasks, self.shrinkers = fleet, tasks, shrinkers
        self.waiting = [0] * len(tasks)  # how many scripts of each are being tried
        self.turns = [0] * len(tasks)  # how often each was shortened: what was tried in advance before that counts for nothing
        self.given: list[tuple[int, int]] = []  # which shrinker's, in which turn

    def run(self) -> None:
        # A lone worker tries nothing in advance.
        most = self.fleet.jobs * IN_ADVANCE if self.fleet.jobs > 1 else 1
        while True:
            while len(self.given) < most and self.give():
                pass
            if not self.given:
                return
            self.take()

    def give(self) -> bool:
        """Gives a worker the next script of the shrinker of which fewest are being tried; answers whether there is one."""
        for at in sorted(range(len(self.tasks)), key=self.waiting.__getitem__):
            steps = self.shrinkers[at].look(self.waiting[at])
            if steps is not None:
                self.fleet.give(tries, [Trying(self.tasks[at], steps)])
                self.given.append((at, self.turns[at]))
                self.waiting[at] += 1
                return True
        return False

    def take(self) -> None:
        (at, turn), shows = self.given.pop(0), self.fleet.take()[0]
        if turn != self.turns[at]:
            return
        self.shrinkers[at].answer(shows)
        self.waiting[at] = 0 if shows else self.waiting[at] - 1
        self.turns[at] += shows


class Shrinking:
    """Shrinks kinds until a time, by a fleet, with what is in a purse. What comes of it doesn't depend on how many workers there are."""

    def __init__(self, fleet: Fleet, purse: Purse, until: float) -> None:
        self.fleet, self.purse, self.until = fleet, purse, until

    def shrunk(self, tasks: Sequence[ShrinkTask]) -> list[ShrunkKind]:
        """Shrinks each script, but those of kinds that a shorter one shows; and at the end those again whose share didn't suffice."""
        results: dict[int, ShrunkKind] = {}
        for size in (*FIRST, len(tasks)):
            waiting = [at for at in range(len(tasks)) if at not in results]
            batch = waiting[:size]
            results.update(zip(batch, self.round([tasks[at] for at in batch], self.purse.shares(len(waiting)))))
            results.update(self.adopted(tasks, [results[at] for at in batch], waiting[size:]))
        for _ in range(ROUNDS):
            cut = [at for at in range(len(tasks)) if results[at].is_cut]
            shares = self.purse.shares(len(cut))
            cut = [at for at, share in zip(cut, shares) if share >= LEAST_SHARE]
            if not cut or self.is_late():
                break
            again = [dataclasses.replace(tasks[at], candidate=tasks[at].candidate._replace(steps=tuple(results[at].steps))) for at in cut]
            results.update(zip(cut, self.round(again, shares)))
        return [results[at] for at in range(len(tasks))]

    def adopted(self, tasks: Sequence[ShrinkTask], shorter: Sequence[ShrunkKind], waiting: Sequence[int]) -> dict[int, ShrunkKind]:
        """The kinds of tasks that wait, which one of some shorter scripts shows too."""
        tried = []
        for at in waiting:
            task = tasks[at]
            found = next((each for each in shorter if task.kind in each.kinds and len(each.steps) < len(task.candidate.steps)), None)
            if found and self.purse.pay(len(found.steps)):
                tried.append(at)
                unshrunk_yet = ShrunkKind(found.result, list(task.candidate.steps), is_cut=True)
                self.fleet.give(adopt, [AdoptTask(task, unshrunk_yet, [found.steps])])
        adopted = {at: self.fleet.take()[0] for at in tried}
        return {at: result for at, result in adopted.items() if result.result.kind == tasks[at].kind}

    def is_late(self) -> bool:
        return time.monotonic() >= self.until

    def round(self, tasks: Sequence[ShrinkTask], shares: Sequence[int]) -> list[ShrunkKind]:
        shrinkers = [
            Shrinker(list(task.candidate.steps), budget_of(task.kind, Budget(MOST_RUNS, share, self.until))) for task, share in zip(tasks, shares)
        ]
        SideBySide(self.fleet, tasks, shrinkers).run()
        for task, shrinker in zip(tasks, shrinkers):
            short = shrinker.shortened()
            self.fleet.give(show, [Shortest(task, short._replace(is_cut=short.is_cut and not is_slow(task.kind)))])
        results: list[ShrunkKind] = [self.fleet.take()[0] for _ in tasks]
        self.purse.pay(min(self.purse.left, sum(result.used for result in results)))
        return results

    def with_free(self, tasks: Sequence[ShrinkTask], kinds: Sequence[Kind], results: list[ShrunkKind]) -> list[ShrunkKind]:
        """A kind whose script has another's in it is shrunk once more from a script that hasn't, if there is one."""
        again: dict[int, ShrinkTask] = {}
        for at, (task, kind) in enumerate(zip(tasks, kinds)):
            own = results[at].steps
            hidden = next((other.steps for other in results if len(other.steps) < len(own) and contains(own, other.steps)), None)
            free = next((each for each in kind.candidates[1:] if hidden and not contains(each.steps, hidden)), None)
            if free:
                again[at] = dataclasses.replace(task, candidate=free)
        if again and self.purse.shares(len(again))[-1] >= LEAST_SHARE and not self.is_late():
            for at, result in zip(again, self.round(list(again.values()), self.purse.shares(len(again)))):
                results[at] = result
        return results

    def with_shorter(self, tasks: Sequence[ShrinkTask], results: list[ShrunkKind]) -> list[ShrunkKind]:
        """Kinds that a shorter script of another shows too have that. A few short scripts are tried even if the purse is empty."""
        scripts = sorted({tuple(result.steps) for result in results}, key=lambda steps: (len(steps), [step.text() for step in steps]))[:MOST_SHORTER]
        tried = []
        for at, (task, result) in enumerate(zip(tasks, results)):
            shorter = [list(steps) for steps in scripts if len(steps) < len(result.steps)]
            if shorter and not self.is_late():
                self.purse.pay(min(self.purse.left, sum(map(len, shorter))))
                tried.append(at)
                self.fleet.give(adopt, [AdoptTask(task, result, shorter)])
        for at in tried:
            results[at] = self.fleet.take()[0]
        return results


def shrunk_kinds(fleet: Fleet, kinds: Sequence[Kind], directives: int, until: float) -> list[KindResult]:
    """The kinds with their shortest scripts. `directives`: those of the search."""
    chosen = chosen_of(kinds)
    tasks = [ShrinkTask(kind.name, kind.count, kind.origin(), kind.candidates[0]) for kind in chosen]
    shrinking = Shrinking(fleet, Purse(max(LEAST_DIRECTIVES, directives // PART)), until)
    results = shrinking.with_shorter(tasks, shrinking.with_free(tasks, chosen, shrinking.shrunk(tasks)))
    rest = [unshrunk(kind) for kind in kinds if kind not in chosen]
    return by_cause(sorted(joined(results), key=lambda shrunk: order_of(shrunk.result))) + rest


def by_cause(results: Sequence[ShrunkKind]) -> list[KindResult]:
    """Kinds that probably have one cause stand together: a script has another's in it, or the same steps of the runner. The first is to be mended first."""
    groups: list[list[ShrunkKind]] = []
    for shrunk in results:
        group = next((group for group in groups if has_cause(shrunk.steps, group[0].steps)), None)
        if group:
            cause = group[0].result.kind
            group.append(shrunk._replace(result=dataclasses.replace(shrunk.result, cause=cause)))
        else:
            groups.append([shrunk])
    return [shrunk.result for group in groups for shrunk in group]


def has_cause(steps: Sequence[Step], short: Sequence[Step]) -> bool:
    names, others = ({each.name for step in script for each in step.before} for script in (steps, short))
    return bool(others) and names == others or len(steps) > len(short) and contains(steps, short)


def joined(results: Sequence[ShrunkKind]) -> list[ShrunkKind]:
    """Kinds with the same script as one: the one that the script shows first, with the names of the others."""
    same: dict[tuple[Step, ...], list[ShrunkKind]] = {}
    for result in results:
        same.setdefault(tuple(result.steps), []).append(result)
    groups = (sorted(group, key=lambda shrunk: (surprise(shrunk.result.kind), shrunk.rank())) for group in same.values())
    return [
        first._replace(result=dataclasses.replace(first.result, also=[other.result.kind for other in others])) for first, *others in groups
    ]
