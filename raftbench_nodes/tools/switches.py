"""raftbench-nodes switches: finds the switches with which most scripts agree. It adds one switch at a time, always the one that helps most."""
from __future__ import annotations

import argparse
import functools
import pathlib
from typing import Iterator, NamedTuple, Sequence

from plain.node import Node
from plain.script import Fault, read_script

from ..compare.comparison import Comparison, run_beside
from ..compare.script import Step, blocks_of, steps_of_blocks
from ..explore.dice import steps_of
from ..process.process import CallFailure, Process
from ..process.workers import WorkerError, Fleet
from ..rules.lists import kind_like, kind_with
from ..rules.switches import SWITCHES
from .arguments import add_common, add_comparing, add_seeds, checked, comparison_of, complain, parser_for, scripts_of


# Of the scripts that differ so many are tried with each switch, those that differ first; and so many directives after that one.
MOST_TRIED, MORE = 12, 40
Switches = frozenset[str]


class Trial(NamedTuple):
    """A script by its number, cut after some directives, and the reference's switches."""

    number: int
    most: int | None
    switches: Switches


class Agreement(NamedTuple):
    """How far a script agrees. `is_judged` is false if a call fails, which no rule explains."""

    does: bool
    directives: int
    is_judged: bool


class TrialWorker:
    """A worker: a process of the nodes, and what is compared."""

    def __init__(self, process: Process, comparison: Comparison, scripts: Sequence[list[Step]]) -> None:
        self.process, self.comparison, self.scripts = process, comparison, scripts


def tried(worker: TrialWorker, trial: Trial) -> Agreement:
    if not worker.process.is_started:
        worker.process.reset()
    comparison = worker.comparison._replace(kind=kind_of(trial.switches))
    outcome = run_beside(blocks_of(worker.scripts[trial.number][:trial.most]), worker.process, comparison, goes_on=False)
    return Agreement(outcome.first is None, outcome.agreed, outcome.first is None or not outcome.first.is_failure())


kind_of = functools.cache(kind_with)


class Suggestion(NamedTuple):
    """A switch, and how many of the scripts that differed before agree with it."""

    name: str
    agree: int
    of: int


class SwitchSearch:
    """The search for switches, from those that are known."""

    def __init__(self, fleet: Fleet, known: Switches) -> None:
        self.fleet, self.chosen = fleet, known

    def results(self, trials: Sequence[Trial]) -> list[Agreement]:
        for trial in trials:
            self.fleet.give(tried, [trial])
        return [self.fleet.take()[0] for _ in trials]

    def differing(self, seeds: Sequence[int]) -> list[tuple[int, int]]:
        """The scripts that differ, with how far they agree: those that differ first come first."""
        found = self.results([Trial(seed, None, self.chosen) for seed in seeds])
        return sorted((agreed.directives, seed) for seed, agreed in zip(seeds, found) if agreed.is_judged and not agreed.does)

    def best(self, scripts: Sequence[tuple[int, int]]) -> Suggestion | None:
        """The switch with which the most of these scripts agree, and the furthest."""
        names = ["", *(name for name in SWITCHES if name not in self.chosen)]
        switches = [self.chosen | ({name} if name else frozenset()) for name in names]
        found = self.results([Trial(seed, directives + MORE, chosen) for chosen in switches for directives, seed in scripts])
        scores = []
        for at, name in enumerate(names):
            part = found[at * len(scripts):(at + 1) * len(scripts)]
            scores.append((sum(agreed.does for agreed in part), sum(agreed.directives for agreed in part), -at, name))
        agree, _, _, name = max(scores)
        return Suggestion(name, agree, len(scripts)) if name else None

    def suggested(self, seeds: Sequence[int]) -> Iterator[Suggestion]:
        while scripts := self.differing(seeds)[:MOST_TRIED]:
            best = self.best(scripts)
            if best is None:
                return
            self.chosen |= {best.name}
            yield best


def make_worker(command: str, seconds: float, comparison: Comparison, scripts: Sequence[list[Step]]) -> TrialWorker:
    return TrialWorker(Process(command, seconds), comparison, scripts)


def read_words(words: Sequence[str]) -> argparse.Namespace:
    parser = parser_for("switches", "Finds switches with which the reference does as your nodes, and prints them as a list for --like.")
    add_common(parser)
    add_comparing(parser, "states")
    add_seeds(parser, 60)
    parser.add_argument("--filter", default="", metavar="WORD", help="only paths that contain WORD")
    parser.add_argument("paths", nargs="*", type=pathlib.Path, metavar="PATH", help="scripts to agree with; without one, scripts are drawn")
    return parser.parse_args(words)


def scripts_in(given: argparse.Namespace) -> list[list[Step]]:
    """The scripts of the paths, or scripts that are drawn."""
    if given.paths:
        files = scripts_of(given.paths, given.filter)
        if not files:
            raise FileNotFoundError("no script was found")
        return [steps_of_blocks(read_script(file.read_bytes()).blocks) for file in files]
    return [steps_of(seed) for seed in range(given.seed, given.seed + given.count)]


def run(words: Sequence[str]) -> int:
    """The status: 0, or 2 for wrong arguments, 3 for a refused script, 4 if a file fails or the nodes don't start."""
    given = read_words(words)
    try:
        return checked("switches", lambda: suggest(given))
    except Fault as fault:
        complain("switches", f"script refused: {fault}")
        return 3
    except (WorkerError, CallFailure, OSError) as failed:
        complain("switches", failed)
        return 4
    except KeyboardInterrupt:
        complain("switches", "interrupted")
        return 130


def suggest(given: argparse.Namespace) -> int:
    known: Switches = getattr(kind_like(given.like), "switches", frozenset())
    comparison, scripts = comparison_of(given)._replace(kind=Node), scripts_in(given)
    fleet = Fleet(max(1, given.jobs), functools.partial(make_worker, given.command, given.seconds, comparison, scripts))
    is_through, numbers = False, range(len(scripts))
    try:
        search = SwitchSearch(fleet, known)
        before = len(search.differing(numbers))
        for found in search.suggested(numbers):
            print(f"{found.name:28} {SWITCHES[found.name]} ({found.agree} of {found.of} scripts agree then)", flush=True)
        after = len(search.differing(numbers))
        print(f"# Of {len(scripts)} scripts {len(scripts) - before} agree without these switches, and {len(scripts) - after} with them.")
        is_through = True
    finally:
        fleet.end(is_through)
    return 0
