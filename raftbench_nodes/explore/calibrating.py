"""Finds out what can be compared beyond states: the aspects in which a library agrees with the reference in the first scripts, or nearly all of them."""
from __future__ import annotations

import collections
from typing import Iterable, NamedTuple

from ..compare.exceptions import AcceptedKinds
from ..compare.judge import Judge
from ..process.workers import Fleet
from .explorer import Explorer, Settings, Spec

CALIBRATING = 24
# An aspect in which more scripts differ first isn't compared by default.
MOST_LOUD = 4
# The aspects that may be compared, and what nodes that can't show them have in `without`.
ASPECTS = {"views": "status", "messages": "", "ready": "ready"}


class Trial(NamedTuple):
    """A script, and in which aspects it is compared."""

    aspects: frozenset[str]
    seed: int


def aspect_of(kind: str) -> str | None:
    """The aspect that a kind of difference is of; None for a state's."""
    if kind.startswith("views"):
        return "views"
    if kind.startswith("ready: "):
        return "ready"
    return "messages" if "Msg" in kind.split(" after ")[0] or " of messages" in kind else None


def lacking_aspects(explorer: Explorer, _: None) -> frozenset[str]:
    """The aspects that the nodes don't show."""
    if not explorer.process.is_started:
        explorer.process.reset()
    return frozenset(aspect for aspect, word in ASPECTS.items() if word in explorer.process.without)


def shown_aspects(fleet: Fleet, aspects: Iterable[str]) -> frozenset[str]:
    """Those of some aspects that the nodes show."""
    fleet.give(lacking_aspects, [None])
    return frozenset(aspects).difference(*fleet.take())


def first_aspect(explorer: Explorer, trial: Trial) -> str | None:
    """The aspect in which a script differs first, if it does in one."""
    comparison = explorer.chosen.comparison._replace(aspects=trial.aspects)
    other = Explorer(explorer.process, Judge(is_asked=False), Settings(comparison, "mixed", 0, AcceptedKinds()))
    kinds = other.explore(Spec(trial.seed, trial.seed, False)).kinds
    return aspect_of(kinds[0].kind) if kinds else None


def strictest(fleet: Fleet) -> tuple[frozenset[str], dict[str, str]]:
    """The aspects that are compared, and those that aren't, with in how many of the first scripts they differ first."""
    aspects, all_dropped = shown_aspects(fleet, ASPECTS), dict[str, str]()
    while aspects:
        for seed in range(CALIBRATING):
            fleet.give(first_aspect, [Trial(aspects, seed)])
        loud = collections.Counter(fleet.take()[0] for _ in range(CALIBRATING))
        dropped = {aspect: f"{loud[aspect]} of {CALIBRATING} scripts" for aspect in sorted(aspects) if loud[aspect] >= MOST_LOUD}
        if not dropped:
            break
        aspects -= frozenset(dropped)
        all_dropped.update(dropped)
    return aspects, all_dropped
