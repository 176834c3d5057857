"""raftbench-nodes run, shrink and promises, over scripts in files and folders."""
from __future__ import annotations

import argparse
import collections
import pathlib
import sys
import time
from typing import Iterator, Sequence

from plain.script import Block, Fault, Script, read_with_lines

from ..compare.comparison import EXCUSES, BrokenPromise, Comparison, Difference, Outcome, run_beside
from ..compare.exceptions import AcceptedKinds
from ..compare.judge import Judge, Unjudged
from ..compare.made import made_line
from ..compare.report import Totals, difference_lines
from ..compare.runner_steps import is_stepped, steps_above
from ..compare.script import steps_of_blocks
from ..compare.stage import Reference, lacking
from ..explore.explorer import Explorer, Settings
from ..explore.library import folder_of_classics
from ..explore.shrinker import Budget
from ..explore.shrinking import shown_of
from ..page.page import Mark, NoViewer, PageWriter
from ..process.process import CallFailure, Process
from ..promises.checker import PROMISES
from ..promises.run import made_by, promise_run, run_alone
from .arguments import (
    PROGRAM, add_common, add_comparing, add_exploring, add_files, checked, comparison_of, complain, parser_for, scripts_of,
)
from .explore import explore, words_of


class Files:
    """Scripts that are run, and the status: the greatest of each."""

    program = ""

    def __init__(self, given: argparse.Namespace) -> None:
        self.given, self.status, self.findings = given, 0, 0
        self.comparison, self.accepted = comparison_of(given), AcceptedKinds(given.accepted)
        self.process = Process(given.command, given.seconds)
        self.judge = Judge()
        self.pages = 0
        self.lacking: dict[str, list[str]] = {}  # what the nodes lack for steps of the runner, and in which scripts

    def complain(self, text: str, status: int) -> None:
        print(text, file=sys.stderr)
        self.status = max(self.status, status)

    def run_all(self) -> None:
        files = scripts_of(self.given.paths, self.given.filter)
        if not files:
            return self.complain(f"{PROGRAM} {self.program}: no script was found", 4)
        try:
            for file in files:
                self.read_and_run(file)
        except (CallFailure, NoViewer) as failed:
            self.complain(f"{PROGRAM} {self.program}: {failed}", 4)
        except KeyboardInterrupt:
            self.complain(f"{PROGRAM} {self.program}: interrupted", 130)
        finally:
            self.process.close()

    def read_and_run(self, file: pathlib.Path) -> None:
        try:
            script, lines = read_with_lines(file.read_bytes())
        except OSError as fault:
            return self.complain(f"{file}: {fault.strerror}", 4)
        except Fault as fault:
            return self.complain(f"{file}: script refused: {fault}", 3)
        marks = self.run(file, script.blocks, lines)
        for word in sorted({word for block in script.blocks if block.lead for step in steps_above(block) if (word := lacking(step, self.process.hello))}):
            self.lacking.setdefault(word, []).append(file.name)
        if self.given.page:
            self.write_page(file, script.blocks, marks)
        return None

    def tell_lacking(self) -> None:
        """Says which scripts have steps that were left out."""
        for word, names in self.lacking.items() if self.comparison.has_steps else ():
            print(f"without {word}, steps are left out in {len(names)} script{'s' * (len(names) != 1)}: {', '.join(names)}")

    def run(self, file: pathlib.Path, blocks: Sequence[Block], lines: Sequence[int]) -> list[Mark]:
        """Runs a script and shows what is found, which is also marked on its page."""
        raise NotImplementedError

    def tell(self) -> None:
        raise NotImplementedError

    def write_page(self, file: pathlib.Path, blocks: Sequence[Block], marks: Sequence[Mark]) -> None:
        """Numbers the page if another script has the same name."""
        target = self.given.page / f"{file.stem}.html"
        if target.exists() and self.pages:
            target = self.given.page / f"{file.stem}-{self.pages + 1}.html"
        try:
            PageWriter(self.process, self.judge, self.comparison).write(target, str(file), blocks, marks)
        except OSError as fault:
            return self.complain(f"{target}: {fault.strerror}", 4)
        self.pages += 1
        print(f"{file}: page {target}")

    def show_kind(self, file: pathlib.Path, kind: str, shown: Iterator[str]) -> None:
        """Shows a finding. It counts if it isn't accepted."""
        reason = self.accepted.reason(file, kind)
        self.status = max(self.status, 0 if reason else 1)
        self.findings += 1
        for line in shown:
            print(line)
        if reason:
            print(f"  accepted: {reason}")

    def show_broken(self, file: pathlib.Path, lines: Sequence[int], broken: BrokenPromise) -> None:
        """Shows a broken promise. It doesn't count where the script does what breaks promises of any Raft."""
        where = f"{file}:{lines[broken.place - 1]}"
        if broken.excuse:
            print(f"{where}: not counted, since {EXCUSES[broken.excuse]}: {broken.text}")
        else:
            self.show_kind(file, broken.kind(), iter([f"{where}: promise broken: {broken.text}"]))

    def show_outputs(self, file: pathlib.Path, lines: Sequence[int], kept: Sequence[tuple[int, Block]], came: Sequence[list[str]]) -> None:
        for (place, block), printed in zip(kept, came if self.given.verbose else []):
            print(f"{file}:{lines[place - 1]}: {b' '.join(block.head).decode('latin-1')}")
            for line in printed:
                print(f"  {line}")

    def show_more(self) -> None:
        """How to see more of what was found."""
        if self.findings and not self.given.verbose and not self.given.page:
            print("--verbose prints what your nodes did; --page FOLDER draws it next to the reference")


def mark_of(difference: Difference) -> Mark:
    """The mark of a difference on a page."""
    title, *sides = difference_lines("first difference", difference)
    return Mark(difference.place, "; ".join([title, *sides]))


class ComparisonFiles(Files):
    """Scripts next to the reference."""

    program = "run"

    def __init__(self, given: argparse.Namespace) -> None:
        super().__init__(given)
        self.totals, self.begun = Totals(), time.monotonic()
        note = self.judge.note()
        if note:
            complain("run", note)

    def run(self, file: pathlib.Path, blocks: Sequence[Block], lines: Sequence[int]) -> list[Mark]:
        outcome = run_beside(blocks, self.process, self.comparison)
        self.totals.add(outcome)
        self.show_outputs(file, lines, outcome.kept, outcome.came)
        if outcome.first:
            self.show_kind(file, outcome.first.kind(), difference_lines(f"{file}:{lines[outcome.first.place - 1]}", outcome.first))
        for broken in outcome.broken:
            self.show_broken(file, lines, broken)
        self.look_at_reference(file, lines, outcome)
        return [*([mark_of(outcome.first)] if outcome.first else []), *(Mark(broken.place, f"promise broken: {broken.text}") for broken in outcome.broken)]

    def look_at_reference(self, file: pathlib.Path, lines: Sequence[int], outcome: Outcome) -> None:
        """The reference, without switches, has to print what raftbench does."""
        blocks = [block for _, block in outcome.kept]
        if not self.judge.is_there or not blocks or is_stepped(blocks):
            return
        cluster = Reference()
        try:
            wrong = self.judge.first_wrong(blocks, [cluster.run(block.directive()) for block in blocks])
        except Unjudged as fault:
            return self.complain(f"{file}: the reference could not be judged: {fault}", 4)
        if wrong:
            place = outcome.kept[wrong - 1][0]
            self.complain(f"{file}:{lines[place - 1]}: the reference is wrong here: the proved program prints something else", 4)
        return None

    def tell(self) -> None:
        compared = ", ".join(["states", *sorted(self.comparison.aspects)])
        print(f"{self.process.name}, compared by {compared}:")
        for line in self.totals.lines(time.monotonic() - self.begun):
            print(line)
        self.tell_lacking()
        self.show_more()


class PromiseFiles(Files):
    """Scripts on the nodes alone."""

    program = "promises"

    def __init__(self, given: argparse.Namespace) -> None:
        super().__init__(given)
        self.scripts = self.kept = self.joined = 0
        self.made: collections.Counter[str] = collections.Counter()

    def run(self, file: pathlib.Path, blocks: Sequence[Block], lines: Sequence[int]) -> list[Mark]:
        run = promise_run(blocks, self.process, self.comparison)
        alone = run.result()
        self.scripts += 1
        self.kept += not alone.kinds()
        self.made.update(made_by(blocks, self.process, self.comparison))
        self.show_outputs(file, lines, run.kept, run.came)
        if alone.failed:
            self.show_kind(file, alone.failed.kind(), difference_lines(f"{file}:{lines[alone.failed.place - 1]}", alone.failed))
        for broken in alone.broken:
            self.joined += bool(broken.excuse)
            self.show_broken(file, lines, broken)
        return [*([mark_of(alone.failed)] if alone.failed else []), *(Mark(broken.place, f"promise broken: {broken.text}") for broken in alone.broken)]

    def tell(self) -> None:
        print(made_line(self.made))
        joined = f", {self.joined} broken in joined clusters and not counted" if self.joined else ""
        print(f"{self.process.name}, held to Raft's promises: {self.scripts} script{'s' * (self.scripts != 1)}, {self.kept} in which all are kept{joined}")
        self.tell_lacking()
        self.show_more()


def run_files(files: Files) -> int:
    files.run_all()
    if files.process.name:
        files.tell()
    return files.status


def run(words: Sequence[str]) -> int:
    """raftbench-nodes run."""
    parser = parser_for("run", "Runs scripts on your own nodes and on the reference.")
    add_common(parser)
    add_comparing(parser, "states")
    add_files(parser, "*")
    given = parser.parse_args(words)
    given.paths = given.paths or [folder_of_classics()]
    return checked("run", lambda: run_files(ComparisonFiles(given)))


def promises(words: Sequence[str]) -> int:
    """raftbench-nodes promises: lists the promises, checks files, or explores."""
    parser = parser_for("promises", "Checks whether your own nodes keep Raft's promises, without the reference.")
    if list(words) == ["--list"]:
        print("\n".join(f"{name:42}{what}" for name, what in PROMISES.items()))
        return 0
    add_common(parser)
    add_exploring(parser)
    add_files(parser, "*")
    parser.add_argument("--list", action="store_true", help="lists the promises")
    given = parser.parse_args(words)
    if given.paths:
        return checked("promises", lambda: run_files(PromiseFiles(given)))
    return checked("promises", lambda: explore(words_of("promises", given)))


# Shrinking a script that one has


def shrink(words: Sequence[str]) -> int:
    """raftbench-nodes shrink: writes the shorter script, and says on standard error what it shows."""
    parser = parser_for("shrink", "Shortens a script as long as it shows the same kind of difference.")
    add_common(parser)
    add_comparing(parser, "states")
    parser.add_argument("--kind", help="the kind that the script has to show; by default the first that it shows")
    parser.add_argument("--alone", action="store_true", help="checks promises only, without the reference")
    parser.add_argument("--runs", type=int, default=1000, help="runs the script at most this often")
    parser.add_argument("file", type=pathlib.Path, metavar="FILE")
    given = parser.parse_args(words)
    return checked("shrink", lambda: shrink_file(given, comparison_of(given)))


def shrink_file(given: argparse.Namespace, comparison: Comparison) -> int:
    try:
        script = read_with_lines(given.file.read_bytes())[0]
    except OSError as fault:
        print(f"{given.file}: {fault.strerror}", file=sys.stderr)
        return 4
    except Fault as fault:
        print(f"{given.file}: script refused: {fault}", file=sys.stderr)
        return 3
    process = Process(given.command, given.seconds)
    try:
        explorer = Explorer(process, Judge(), Settings(comparison, "mixed", 0, AcceptedKinds(given.accepted), "shrink"))
        return shrink_script(explorer, script, given)
    except CallFailure as failed:
        complain("shrink", failed)
        return 4
    finally:
        process.close()


def shrink_script(explorer: Explorer, script: Script, given: argparse.Namespace) -> int:
    steps, is_alone = steps_of_blocks(script.blocks), bool(given.alone)
    kinds = run_alone(script.blocks, explorer.process, explorer.chosen.comparison).kinds() if is_alone else list(explorer.outcome(steps).kinds())
    kind = given.kind or (kinds[0][0] if kinds else None)
    if kind is None or kind not in dict(kinds):
        print(f"{PROGRAM} shrink: it shows {', '.join(name for name, _ in kinds) or 'nothing'}", file=sys.stderr)
        return 1
    less = explorer.shrunk(steps[:dict(kinds)[kind]], kind, is_alone, Budget(given.runs))
    shown = shown_of(explorer, kind, less, is_alone) or []
    print(f"{kind}: {len(steps)} directives, shrunk to {len(less)}", *shown, sep="\n", file=sys.stderr)
    sys.stdout.buffer.write(explorer.script(less, [kind]))
    return 0
