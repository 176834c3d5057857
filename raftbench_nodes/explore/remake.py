"""A script of a search again, by its number. Which scripts have children depends on the reference alone: so the search is made again up to that one, and the
nodes are asked only if an accepted failure may take directives from a script.
"""
from __future__ import annotations

from ..compare.plan import plan_of
from ..compare.script import blocks_of
from ..process.workers import Fleet
from .explorer import FAULTS, Explorer, ScriptResult, Spec
from .search import Library, Limits, Search


class Remaker(Explorer):
    """Finds where scripts lead the reference."""

    def explore(self, spec: Spec) -> ScriptResult:
        if not self.process.is_started:
            self.process.reset()
        if self.chosen.accepted.has_failures():
            return super().explore(spec)
        found = ScriptResult(spec, spec.name(self.chosen.dice, self.has_all_reads(spec)), 0, 0, 0, (), frozenset(), (), False, True)
        if spec.is_alone:
            return found
        steps = spec.steps(self.chosen.dice)
        try:
            new = frozenset(plan_of(blocks_of(steps), self.process, self.chosen.comparison).met - self.met)
        except FAULTS:
            return found
        self.met |= new
        return found._replace(met=new, steps=self.kept(steps, (), new))


class Remade(Search):
    """A search that notes the script with a number."""

    def __init__(self, fleet: Fleet, limits: Limits, alone: int, library: Library) -> None:
        super().__init__(fleet, limits, alone, library)
        self.last: Spec | None = None

    def add(self, found: ScriptResult) -> None:
        self.last = found.spec
        super().add(found)


def remade(fleet: Fleet, limits: Limits, alone: int, library: Library, number: int) -> Spec | None:
    """The script with a number, from 0 on."""
    search = Remade(fleet, limits._replace(most=number + 1, until=float("inf")), alone, library)
    search.run(lambda: False, lambda _: None)
    return search.last


def text_of(explorer: Explorer, spec: Spec) -> bytes:
    """The text of a script, with where it is from above its last directive."""
    return explorer.script(spec.steps(explorer.chosen.dice), [spec.origin()])
