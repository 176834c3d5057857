"""Measures how soon explore finds each planted bug, in the form of tests/nodes/bugs.txt: the first script that shows it, what it shows there, and the
processor seconds of the bench and the nodes until then, without calibration. The last line has the counts of docs/MEASURES.md.

    python3 -m raftbench_nodes.bugs.measure [--most N] [--jobs N] [--compare WORDS] [--without-classics] [BUG ..]
"""
from __future__ import annotations

import argparse
import multiprocessing
import pathlib
import resource
import time
from typing import Any, NamedTuple, Sequence

from ..compare.comparison import Comparison
from ..compare.exceptions import AcceptedKinds
from ..compare.judge import Judge
from ..explore.calibrating import strictest
from ..explore.explorer import Explorer, ScriptResult, Settings
from ..explore.library import classics, distilled
from ..explore.search import Library, Limits, Search, surprise
from ..process.process import Process
from ..process.workers import Task
from ..tools.explore import ALONE
from .registry import BUGS

TOP = pathlib.Path(__file__).resolve().parents[2]
PLAIN = [str(TOP / "raftbench-nodes"), "plain"]
# The time for an answer and for a script: no bug makes a node slow, but a machine may be busy.
SECONDS, SCRIPT_SECONDS = 60.0, 600.0


class Shows(Exception):
    """A script shows a bug: its number, and the kind."""


class InPlace:
    """A fleet of one, which works when it is asked. A script that shows a bug ends the search."""

    def __init__(self, explorer: Explorer) -> None:
        self.explorer = explorer
        self.given: list[tuple[Task, Sequence[Any]]] = []

    def give(self, task: Task, chunk: Sequence[Any]) -> None:
        self.given.append((task, chunk))

    def drop(self) -> None:
        self.given = [(task, ()) for task, _ in self.given]

    def take(self) -> list[Any]:
        task, chunk = self.given.pop(0)
        results = []
        for item in chunk:
            results.append(task(self.explorer, item))
            if isinstance(results[-1], ScriptResult):
                self.look_at(results[-1])
        return results

    @staticmethod
    def look_at(found: ScriptResult) -> None:
        shown = next((shown.kind for shown in found.kinds if surprise(shown.kind) < 4 and "took more than" not in shown.kind), None)
        if shown:
            raise Shows(found.spec.number, shown)


class Row(NamedTuple):
    """Where a bug is found."""

    bug: str
    script: int  # its number, from 1 on, the classics included; 0 where it isn't found
    seconds: float
    kind: str

    def text(self) -> str:
        return f"{self.bug} {self.script} {self.seconds:.1f} {self.kind}" if self.script else f"# {self.bug}: not found, {self.seconds:.1f} s"


# The columns of the table: so many scripts.
WITHIN = (10, 30, 100, 300, 1000)


def summary(rows: Sequence[Row], has_classics: bool) -> str:
    """A row of the table: how many bugs the classics show, or each number of scripts without them; and which none shows."""
    found = [row.script for row in rows if row.script]
    counts = [len(found)] if has_classics else [sum(script <= most for script in found) for most in WITHIN]
    never = ", ".join(row.bug for row in rows if not row.script)
    return f"| {len(rows)} bugs | {' | '.join(map(str, counts))} | {never or 'none'} |"


def processor_seconds() -> float:
    own, children = resource.getrusage(resource.RUSAGE_SELF), resource.getrusage(resource.RUSAGE_CHILDREN)
    return own.ru_utime + own.ru_stime + children.ru_utime + children.ru_stime


def explorer_of(process: Process, comparison: Comparison) -> Explorer:
    return Explorer(process, Judge(is_asked=False), Settings(comparison, "mixed", ALONE, AcceptedKinds()))


def first_found(bug: str, most: int, compare: str, has_classics: bool = True) -> Row:
    """The first script of the default search that shows a bug, but by a promise that any Raft breaks in clusters joined by hand."""
    process = Process([*PLAIN, "--bug", bug] if bug else PLAIN, SECONDS, SCRIPT_SECONDS)
    comparison = Comparison()
    try:
        aspects = strictest(InPlace(explorer_of(process, comparison)))[0] if compare == "auto" else frozenset(compare.split(","))  # type: ignore[arg-type]
        process.close()
        begun = processor_seconds()
        explorer = explorer_of(process, comparison._replace(aspects=aspects))
        library = Library(classics() if has_classics else (), distilled())
        search = Search(InPlace(explorer), Limits(0, 1, most, time.monotonic() + 3600), ALONE, library)  # type: ignore[arg-type]
        number, kind = -1 - len(library.classics), ""
        try:
            search.run(lambda: False, lambda _: None)
        except Shows as shown:
            number, kind = shown.args
        process.close()
        return Row(bug, number + 1 + len(library.classics), processor_seconds() - begun, kind)
    finally:
        process.close()


def main() -> None:
    parser = argparse.ArgumentParser()
    parser.add_argument("bugs", nargs="*", metavar="BUG")
    parser.add_argument("--most", type=int, default=3000)
    parser.add_argument("--compare", default="auto")
    parser.add_argument("--jobs", type=int, default=2)
    parser.add_argument("--without-classics", action="store_true", help="measures what comes after them")
    chosen = parser.parse_args()
    with multiprocessing.Pool(chosen.jobs, maxtasksperchild=1) as pool:
        asked = [pool.apply_async(first_found, (bug, chosen.most, chosen.compare, not chosen.without_classics)) for bug in chosen.bugs or BUGS]
        rows = []
        for each in asked:
            rows.append(each.get())
            print(rows[-1].text(), flush=True)
    print(summary(rows, not chosen.without_classics))


if __name__ == "__main__":
    main()
