"""What a search does before it begins: it finds out what can be compared, with all its workers; and how long these have nothing to do is counted."""
from __future__ import annotations

import subprocess
import sys
from collections.abc import Iterator, Sequence

from raftbench_nodes.compare.comparison import Comparison
from raftbench_nodes.compare.exceptions import AcceptedKinds
from raftbench_nodes.compare.judge import Judge
from raftbench_nodes.explore.calibrating import CALIBRATING, MOST_LOUD, Trial, first_aspect, lacking_aspects, shown_aspects, strictest
from raftbench_nodes.explore.explorer import Explorer, Settings
from raftbench_nodes.process.process import Process
from raftbench_nodes.rules.lists import kind_with
from tests.harness import TOP
from tests.nodes.test_classics import InPlace

PLAIN = str(TOP / "nodes" / "plain")
ALL, NONE = frozenset({"views", "messages", "ready"}), frozenset[str]()


class Told:
    """A fleet whose nodes lack some aspects, and whose scripts differ in the aspects that they are told to, the first of those that are compared."""

    def __init__(self, lacks: frozenset[str], differ: dict[int, tuple[str, ...]]) -> None:
        self.lacks, self.differ = lacks, differ
        self.given: list[Trial | None] = []

    def give(self, _: object, chunk: Sequence[Trial | None]) -> None:
        self.given += chunk

    def take(self) -> list[object]:
        trial = self.given.pop(0)
        if trial is None:
            return [self.lacks]
        return [next((aspect for aspect in self.differ.get(trial.seed, ()) if aspect in trial.aspects), None)]


def test_what_differs_often_is_dropped(room: object) -> Iterator[str]:
    """An aspect in which some scripts differ first is dropped, and what they differ in then is looked at."""
    loud, quiet = range(MOST_LOUD), range(MOST_LOUD - 1)
    said = f"{MOST_LOUD} of {CALIBRATING} scripts"
    cases: list[tuple[frozenset[str], dict[int, tuple[str, ...]], frozenset[str], dict[str, str]]] = [
        (NONE, {}, ALL, {}),
        (NONE, {seed: ("views",) for seed in quiet}, ALL, {}),
        (NONE, {seed: ("views",) for seed in loud}, ALL - {"views"}, {"views": said}),
        (NONE, {seed: ("views", "messages") for seed in loud}, frozenset({"ready"}), {"views": said, "messages": said}),
        (NONE, {seed: ("ready", "messages", "views") for seed in loud}, NONE, {"ready": said, "messages": said, "views": said}),
        (frozenset({"views"}), {seed: ("views",) for seed in loud}, ALL - {"views"}, {}),
    ]
    for lacks, differ, *wanted in cases:
        came = list(strictest(Told(lacks, differ)))  # type: ignore[arg-type]
        if came != wanted:
            yield f"{differ}: {came}, and not {wanted}"
    if (shown := shown_aspects(Told(ALL - {"messages"}, {}), ("views", "messages", "order"))) != {"messages", "order"}:  # type: ignore[arg-type]
        yield f"shown: {shown}"


def explorer_of(process: Process, comparison: Comparison) -> Explorer:
    return Explorer(process, Judge(is_asked=False), Settings(comparison, "mixed", 0, AcceptedKinds()))


def test_what_nodes_lack(room: object) -> Iterator[str]:
    """Views and readies are compared of nodes that show them."""
    process = InPlace()
    process.process = subprocess.Popen("true")
    process.process.wait()
    for without, wanted in ((set[str](), set[str]()), ({"status"}, {"views"}), ({"ready", "sync"}, {"ready"})):
        process.hello = process.hello._replace(without=frozenset(without))
        if (came := lacking_aspects(explorer_of(process, Comparison()), None)) != wanted:
            yield f"without {without}: {came}"


def test_first_aspects(room: object) -> Iterator[str]:
    """Plain nodes agree with the plain reference. From one that never probes they differ in a view first, or in a message if that isn't compared."""
    for switches, aspects, wanted in (((), ALL, {None}), (("leader-never-probes",), ALL, {"views"}), (("leader-never-probes",), ALL - {"views"}, {"messages"})):
        process = Process(PLAIN, 600.0, 3600.0)
        try:
            explorer = explorer_of(process, Comparison(kind_with(switches)))
            came = {first_aspect(explorer, Trial(aspects, seed)) for seed in range(3)}
        finally:
            process.close()
        if came != wanted:
            yield f"{switches}, {sorted(aspects)}: {came}"


# Gives two lists of items, and waits in between. Says whether that is counted.
WAITS = """
import sys, time
sys.path.insert(0, sys.argv[1])
from raftbench_nodes.process.process import Process
from raftbench_nodes.process.workers import Fleet

class Idle:
    process = Process("true")

def work(worker: Idle, item: int) -> int:
    return item + 1

fleet = Fleet(1, Idle)
fleet.give(work, [1, 2])
first, before = fleet.take(), fleet.waited
time.sleep(0.5)
fleet.give(work, [3])
print(first, fleet.take(), fleet.waited - before > 0.4)
fleet.end()
"""


def test_waiting_is_counted(room: object) -> Iterator[str]:
    """A fleet says for how long its workers had nothing to do."""
    done = subprocess.run([sys.executable, "-c", WAITS, str(TOP)], capture_output=True, text=True, timeout=60)
    if done.stdout != "[2, 3] [4] True\n":
        yield f"{done}"
