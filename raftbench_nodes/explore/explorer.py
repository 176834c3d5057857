"""Runs scripts from seeds, and mutations of scripts that reached something new, on the nodes and on the reference. Shrinks one script of each kind of
finding.
"""
from __future__ import annotations

import pathlib
import traceback
from typing import Iterable, NamedTuple, Sequence

from plain.script import Block, Script

from ..compare.comparison import Comparison, Difference, Outcome, run_beside
from ..compare.exceptions import AcceptedKinds
from ..compare.judge import Judge, Unjudged
from ..compare.plan import Plan, asked_at_once, keeps_promises_at_once, plan_of
from ..compare.runner_steps import is_stepped
from ..compare.script import Step, blocks_of
from ..compare.stage import Reference
from ..process.cache import ScriptRecord, name_of_script
from ..process.process import Process
from ..promises.run import made_by, run_alone
from .dice import steps_of
from .library import TreeScript, step_in
from .mutation import Mutator
from .reuse import Recall
from .shrinker import Budget, shrunk

MOST_RUNS = 250
# A node that doesn't answer takes its whole time at each try.
MOST_SLOW_RUNS = 12
# How often a script continues without a directive whose failure is accepted.
MOST_KNOWN_FAILURES = 4
# One in this many scripts without runner's steps is also run by the proved program.
JUDGED = 40
# One in this many scripts that only check promises also reads at followers. Nodes that forward reads are then asked in a batch, with the switch
# reads-are-forwarded.
READ_EVERYWHERE = 4
# The first MOST_TRIED scripts are batched. Later ones only if at least one in LEAST_AGREED agreed.
MOST_TRIED, LEAST_AGREED = 40, 6
# The same of scripts that are tried in shrinking.
MOST_SHORT, LEAST_SHORT = 12, 4
# This many scripts of earlier findings are asked first.
MOST_EARLY = 400
# What a mistake in the reference, or in a switch, raises.
FAULTS = (AssertionError, IndexError, KeyError)
# The end of a kind's name, if the difference is seen within a directive, and is gone after it.
WITHIN = " within a directive"


class Settings(NamedTuple):
    """What all scripts of an exploration share. Every `alone`th script only checks promises, with reads; 1: all do, 0: none."""

    comparison: Comparison
    dice: str
    alone: int
    accepted: AcceptedKinds
    program: str = "explore"
    search: str = ""  # what gives scripts their numbers


class CorpusScript(NamedTuple):
    """A script that led somewhere new."""

    name: bytes
    steps: tuple[Step, ...]


class EarlyScript(NamedTuple):
    """A script in which the last exploration found something. It is asked first."""

    name: bytes
    origin: str
    steps: tuple[Step, ...]


class Spec(NamedTuple):
    """A script to try: one that stands in the tree, thrown by a seed, or a child of another. Classics have negative numbers."""

    number: int
    seed: int
    is_alone: bool
    parent: CorpusScript | None = None
    mate: CorpusScript | None = None
    given: TreeScript | None = None
    early: EarlyScript | None = None

    def origin(self) -> str:
        """What makes the script again: a classic's file, or its number, for --script; and where it is from."""
        if self.early:
            return self.early.origin
        if self.given and self.number < 0:
            return self.given.title
        return f"script {self.number}, {self.given.title if self.given else 'a child of others' if self.parent else f'from seed {self.seed}'}"

    def steps(self, dice: str) -> list[Step]:
        if self.early or self.given:
            return list(self.early.steps if self.early else self.given.steps if self.given else ())
        if self.parent and self.mate:
            return Mutator(self.seed).child(self.parent.steps, self.mate.steps)
        return steps_of(self.seed, dice, self.is_alone)

    def name(self, dice: str, has_all_reads: bool) -> bytes:
        """What the script and how it is run depend on."""
        if self.early:
            return self.early.name
        if self.given:
            return name_of_script("given", *(step.text() for step in self.given.steps), self.is_alone, has_all_reads)
        made_from = (self.parent.name.hex(), self.mate.name.hex()) if self.parent and self.mate else ("thrown", dice)
        return name_of_script(self.seed, *made_from, self.is_alone, has_all_reads)


class ShownKind(NamedTuple):
    """A kind of what a script showed, and the directive at which."""

    kind: str
    place: int


class ScriptResult(NamedTuple):
    """What a script came to. `steps` are left out where nobody needs them."""

    spec: Spec
    name: bytes
    compared: int
    agreed: int
    left_out: int
    kinds: tuple[ShownKind, ...]
    met: frozenset[int]
    steps: tuple[Step, ...]
    is_reference_wrong: bool
    was_quick: bool
    made: tuple[tuple[str, int], ...] = ()  # what the script makes the reference do
    fault: str = ""  # the traceback of a reference that failed
    has_given_up: bool = False  # whether scripts aren't asked at once any more, since few agreed


class Explorer:
    """Tries scripts; one a worker."""

    def __init__(self, process: Process, judge: Judge, chosen: Settings, remembers_in: pathlib.Path | None = None) -> None:
        self.process, self.judge, self.chosen = process, judge, chosen
        self.recall = Recall(process, chosen.comparison, remembers_in, judge.identity())
        self.met: set[int] = set()
        self.judged = self.tried = self.agreed = self.short_tried = self.short_agreed = 0

    def outcome(self, steps: Sequence[Step], goes_on: bool = True) -> Outcome:
        return run_beside(blocks_of(steps), self.process, self.chosen.comparison, goes_on)

    def explore(self, spec: Spec) -> ScriptResult:
        """Runs a script, or finds that the nodes still answer as when they agreed in it."""
        if not self.process.is_started:
            self.process.reset()
        name = spec.name(self.chosen.dice, self.has_all_reads(spec))
        known = self.recall.again(name, spec.early is not None)
        if known:
            return self.found_again(spec, name, known)
        self.recall.listen()
        steps = spec.steps(self.chosen.dice)
        try:
            return self.explore_alone(spec, name, steps) if spec.is_alone else self.explore_beside(spec, name, steps)
        except FAULTS:
            self.process.transcript = None
            return ScriptResult(spec, name, 0, 0, 0, (), frozenset(), (), True, False, fault=traceback.format_exc())

    def explore_beside(self, spec: Spec, name: bytes, steps: list[Step]) -> ScriptResult:
        """Compares the nodes with the reference."""
        plan = plan_of(blocks_of(steps), self.process, self.chosen.comparison)
        new = self.new_places(spec, plan.met)
        is_wrong = self.is_wrong(steps)
        less, agreed, state = self.agreed_at_once(steps, plan)
        if agreed:
            counts, all_kinds = (agreed.directives, agreed.directives, agreed.left_out), list[tuple[str, int]]()
        else:
            less, outcome = self.beyond_known(steps)
            counts, all_kinds = (outcome.compared, outcome.agreed, outcome.left_out), list(outcome.kinds()) or kinds_of_state(state)
        removed, kinds = missing(steps, less), self.unknown(all_kinds)
        if not is_wrong:
            self.recall.note(name, counts, all_kinds, removed, plan.met, plan.made, self.again(spec, steps) if all_kinds else ())
        kept = self.kept(less, kinds, new)
        return ScriptResult(
            spec, name_without(name, removed), *counts, kinds, new, kept, is_wrong, agreed is not None, plan.made, has_given_up=self.has_given_up(),
        )

    def new_places(self, spec: Spec, met: Iterable[int]) -> frozenset[int]:
        """Where a script leads that none did before. One that is asked first leads there when its turn comes."""
        new = frozenset(met) - self.met
        self.met |= frozenset() if spec.early else new
        return new

    def has_all_reads(self, spec: Spec) -> bool:
        """Whether a script that is held to promises alone has reads at nodes that don't lead too."""
        return spec.given is None and spec.number // max(1, self.chosen.alone) % READ_EVERYWHERE == 0

    def explore_alone(self, spec: Spec, name: bytes, steps: list[Step]) -> ScriptResult:
        """Holds the nodes to the promises alone. Where such scripts lead the reference counts for nothing, since none of them has children."""
        blocks, has_all_reads = blocks_of(steps), self.has_all_reads(spec)
        at_once, state = keeps_promises_at_once(blocks, self.process, self.chosen.comparison, has_all_reads) if self.may_ask_at_once() else (None, None)
        self.note_at_once(at_once is not None)
        alone = at_once or run_alone(blocks, self.process, self.chosen.comparison, has_all_reads)
        made = alone.made if at_once else tuple(made_by(blocks, self.process, self.chosen.comparison).items())
        all_kinds = alone.kinds() or (kinds_of_state(state) if self.chosen.program == "explore" else [])
        counts, kinds, none = (alone.directives, alone.directives, alone.left_out), self.unknown(all_kinds), frozenset[int]()
        self.recall.note(name, counts, all_kinds, (), none, made, self.again(spec, steps) if all_kinds else ())
        kept = self.kept(steps, kinds, none)
        return ScriptResult(spec, name, *counts, kinds, none, kept, False, at_once is not None, made, has_given_up=self.has_given_up())

    def found_again(self, spec: Spec, name: bytes, known: ScriptRecord) -> ScriptResult:
        """What a script comes to that the nodes answer as before."""
        new, kinds = self.new_places(spec, known.met), self.unknown(known.kinds)
        steps = spec.steps(self.chosen.dice) if new or kinds else []
        less = tuple(step for place, step in enumerate(steps) if place not in known.removed)
        return ScriptResult(spec, name_without(name, known.removed), known.compared, known.agreed, known.left_out, kinds, new, less, False, True, known.made)

    # What was found the last time

    def again(self, spec: Spec, steps: Sequence[Step]) -> tuple[str, ...]:
        """What makes a script again; nothing for those of the tree, which come soon anyway, nor if its text isn't read back as the same."""
        texts = [step.text() for step in steps]
        if spec.given or list(map(step_in, texts)) != list(steps):
            return ()
        return self.chosen.search, str(spec.number), str(int(spec.is_alone)), spec.origin(), *texts

    def early(self) -> list[Spec]:
        """The first scripts in which something was found by the same search the last time."""
        if not self.process.is_started:
            self.process.reset()
        found = [
            Spec(int(number), 0, is_alone == "1", early=EarlyScript(name, origin, tuple(map(step_in, steps))))
            for name, (search, number, is_alone, origin, *steps) in self.recall.showing() if search == self.chosen.search
        ]
        return sorted(found, key=lambda spec: spec.number)[:MOST_EARLY]

    # Asking at once

    def may_ask_at_once(self) -> bool:
        """Whether it may pay: nodes that mostly do something else than the reference are asked one call at a time from the start."""
        return self.has_batch() and not self.has_given_up()

    def has_batch(self) -> bool:
        """Whether scripts can be asked at once."""
        return self.process.hello.has_batch and "lines" not in self.chosen.comparison.aspects

    def has_given_up(self) -> bool:
        """Whether asking at once didn't pay."""
        return self.has_batch() and self.tried >= MOST_TRIED and self.agreed * LEAST_AGREED < self.tried

    def note_at_once(self, has_agreed: bool) -> None:
        self.tried, self.agreed = self.tried + 1, self.agreed + has_agreed

    def agreed_at_once(self, steps: list[Step], plan: Plan) -> tuple[list[Step], Plan | None, Difference | None]:
        """The plan with which all nodes agreed, or the first state that differs. The script is taken without directives whose failure is accepted."""
        if not self.may_ask_at_once():
            return steps, None, None
        tried = steps
        for _ in range(MOST_KNOWN_FAILURES):
            result = asked_at_once(plan, self.process, self.chosen.comparison)
            if result.failure is None or self.chosen.accepted.reason_of(result.failure.kind()) is None:
                self.note_at_once(result.agrees)
                return (tried, plan, None) if result.agrees else (steps, None, result.state)
            tried = tried[:result.failure.place - 1] + tried[result.failure.place:]
            plan = plan_of(blocks_of(tried), self.process, self.chosen.comparison)
        return steps, None, None

    def other_state(self, steps: Sequence[Step], is_alone: bool) -> Difference | None:
        """How the first state differs that a script's calls show, where it is the first answer that does."""
        blocks, chosen = blocks_of(steps), self.chosen.comparison
        if not self.process.hello.has_batch:
            return None
        if is_alone:
            return keeps_promises_at_once(blocks, self.process, chosen, True)[1]
        return asked_at_once(plan_of(blocks, self.process, chosen), self.process, chosen).state

    def unknown(self, kinds: Iterable[tuple[str, int]]) -> tuple[ShownKind, ...]:
        found = (ShownKind(*pair) for pair in kinds)
        return tuple(shown for shown in found if self.chosen.accepted.reason_of(shown.kind) is None)

    @staticmethod
    def kept(steps: Sequence[Step], kinds: Sequence[ShownKind], new: frozenset[int]) -> tuple[Step, ...]:
        return tuple(steps) if kinds or new else ()

    def beyond_known(self, steps: list[Step]) -> tuple[list[Step], Outcome]:
        """A script without the directives whose failure is accepted, so that later ones are looked at too."""
        for _ in range(MOST_KNOWN_FAILURES):
            outcome = self.outcome(steps)
            first = outcome.first
            if first is None or not first.is_failure() or self.chosen.accepted.reason_of(first.kind()) is None:
                break
            steps = steps[:first.place - 1] + steps[first.place:]
        return steps, outcome

    def is_wrong(self, steps: Sequence[Step]) -> bool:
        """Whether the proved program prints something else than the reference without switches, of some scripts."""
        blocks = blocks_of(steps)
        if not self.judge.is_there or is_stepped(blocks):
            return False
        self.judged += 1
        return self.judged % JUDGED == 1 and is_reference_wrong(self.judge, blocks)

    # Shrinking

    def kinds_of(self, steps: Sequence[Step], is_alone: bool) -> list[tuple[str, int]]:
        if is_alone:
            return run_alone(blocks_of(steps), self.process, self.chosen.comparison).kinds()
        return list(self.outcome(steps).kinds())

    def has(self, steps: Sequence[Step], kind: str, is_alone: bool) -> bool:
        try:
            if kind.endswith(WITHIN):
                state = self.other_state(steps, is_alone)
                return state is not None and state.kind() == kind
            if self.shows_nothing(steps, is_alone):
                return False
            if is_alone:
                return kind in dict(run_alone(blocks_of(steps), self.process, self.chosen.comparison).kinds())
            return kind in dict(self.outcome(steps, goes_on=kind.startswith("promise")).kinds())
        except FAULTS:
            return False

    def shows_nothing(self, steps: Sequence[Step], is_alone: bool) -> bool:
        """Whether nodes that are asked at once do in all as the reference. Most scripts that are tried show nothing any more."""
        if not self.has_batch() or self.short_tried >= MOST_SHORT and self.short_agreed * LEAST_SHORT < self.short_tried:
            return False
        blocks, chosen = blocks_of(steps), self.chosen.comparison
        if is_alone:
            agrees = keeps_promises_at_once(blocks, self.process, chosen, True)[0] is not None
        else:
            agrees = asked_at_once(plan_of(blocks, self.process, chosen), self.process, chosen).agrees
        self.short_tried, self.short_agreed = self.short_tried + 1, self.short_agreed + agrees
        return agrees

    def shrunk(self, steps: Sequence[Step], kind: str, is_alone: bool, budget: Budget = Budget(MOST_RUNS)) -> list[Step]:
        """The shortest steps found that show a kind."""
        return shrunk(list(steps), lambda tried: self.has(tried, kind, is_alone), budget_of(kind, budget))

    def script(self, steps: Sequence[Step], comments: Sequence[str]) -> bytes:
        """The text of a script with the proved program's expectations; the reference's where that knows nothing of it. Comments stand above the last directive."""
        outcome = self.outcome(steps, goes_on=False)
        blocks = [block for _, block in outcome.kept]
        outputs = list(outcome.outputs) + [[] for _ in blocks[len(outcome.outputs):]]
        if self.judge.is_there and not is_stepped(blocks):
            try:
                outputs = self.judge.outputs(blocks)
            except Unjudged as fault:
                comments = [*comments, str(fault)]
        if blocks:
            blocks[-1] = blocks[-1]._replace(lead=(*(f"# {line}".encode() for line in comments), *blocks[-1].lead))
        return Script(tuple(blocks), ()).text([tuple(line.encode() for line in lines) for lines in outputs])


def is_slow(kind: str) -> bool:
    """Whether each script that shows a kind takes long."""
    return "no answer within" in kind


def budget_of(kind: str, budget: Budget) -> Budget:
    """What may be spent on a kind."""
    return budget._replace(runs=MOST_SLOW_RUNS) if is_slow(kind) else budget


def kinds_of_state(state: Difference | None) -> list[tuple[str, int]]:
    """What a state comes to that differs within a directive, and no more at its end."""
    return [(state.kind(), state.place)] if state else []


def missing(steps: Sequence[Step], less: Sequence[Step]) -> tuple[int, ...]:
    """The places of steps that aren't in a list of fewer."""
    places, rest = [], list(less[::-1])
    for place, step in enumerate(steps):
        if rest and step == rest[-1]:
            rest.pop()
        else:
            places.append(place)
    return tuple(places)


def name_without(name: bytes, removed: Sequence[int]) -> bytes:
    """The name of a script without some directives."""
    return name_of_script(name.hex(), *removed) if removed else name


def is_reference_wrong(judge: Judge, blocks: Sequence[Block]) -> bool:
    cluster = Reference()
    return judge.first_wrong(blocks, [cluster.run(block.directive()) for block in blocks]) is not None
