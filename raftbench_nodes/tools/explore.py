"""raftbench-nodes explore, and promises without a PATH: reads the arguments, searches, shrinks what is found, and prints the result."""
from __future__ import annotations

import argparse
import functools
import pathlib
import sys
import time
from typing import Callable, NamedTuple, Sequence

from plain.script import Fault, read_script

from ..compare.exceptions import AcceptedKinds
from ..compare.judge import Judge, Unjudged
from ..compare.made import THINGS
from ..explore.calibrating import CALIBRATING, shown_aspects, strictest
from ..explore.costs import REPAIR, repair_of
from ..explore.explorer import Explorer, Settings
from ..explore.lacking import lacking_lines
from ..explore.library import classics, distilled
from ..explore.remake import Remaker, remade, text_of
from ..explore.results import Result
from ..explore.search import Kind, Library, Limits, Search, surprise
from ..explore.shrinking import chosen_of, shrunk_kinds, unshrunk
from ..page.page import Mark, NoViewer, PageWriter
from ..process.cache import default_folder
from ..process.process import CallFailure, Process
from ..process.workers import WorkerError, Fleet, interruptible
from .arguments import MINUTES, add_common, add_comparing, add_exploring, checked, comparison_of, complain, parser_for

# Of the minutes shrinking has this part.
SHRINKS = 1 / 3
# Shrinking some kinds on each processor takes about this many seconds, twice: with what others show, and again.
SECONDS_OF_SHRINKING = 5.0
# So many failures of the reference are shown.
MOST_FAULTS = 3
# What is said if nodes that take batches are asked one call at a time.
GAVE_UP = "scripts weren't asked at once any more, since few agreed: each call waits for its answer, which is slower; --like has switches for other rules"
# Of how many scripts of explore one is held to promises alone, with reads and healing.
ALONE = 6


class Words(NamedTuple):
    """The arguments of a call, read."""

    command: str
    seconds: float
    chosen: Settings
    compare: str  # "auto", or what is compared
    limits: Limits
    jobs: int
    remembers_in: pathlib.Path | None
    out: pathlib.Path | None
    json: pathlib.Path | None
    junit: pathlib.Path | None
    library: Library
    is_first: bool  # ends at the first kind
    at_least: int
    shard: str = ""  # of several, as it was given
    script: int | None = None  # the number of one that is wanted again
    dropped: dict[str, str] = {}  # what isn't compared, since it differed too often
    is_calibrated: bool = True  # whether what differs too often isn't compared


def words_of(program: str, given: argparse.Namespace) -> Words:
    """The arguments, read. Unknown for words that aren't known."""
    comparison = comparison_of(given)
    minutes = given.minutes if given.minutes is not None else MINUTES if given.count is None else float("inf")
    shard, shards = given.shard
    library = Library(classics()[shard - 1::shards], distilled()[shard - 1::shards]) if given.seed is None and given.dice == "mixed" else Library()
    search = f"{given.seed} {shard}/{shards} {given.dice} {program}"
    return Words(
        given.command, given.seconds, Settings(comparison, given.dice, ALONE if program == "explore" else 1, AcceptedKinds(given.accepted), program, search),
        getattr(given, "compare", "states"), Limits((given.seed or 0) + shard - 1, shards, given.count, time.monotonic() + 60 * minutes), max(1, given.jobs),
        None if given.fresh else default_folder(), given.out, given.json, given.junit, library, given.first, given.at_least,
        f"{shard}/{shards}" if shards > 1 else "", given.script, is_calibrated=program == "explore" and not given.like,
    )


class Progress:
    """How far it is, in one line on a terminal."""

    def __init__(self) -> None:
        self.is_shown = sys.stderr.isatty()

    def look(self, search: Search) -> None:
        if self.is_shown:
            print(f"\r{search.scripts} scripts, {len(search.corpus)} kept, {len(search.kinds)} kinds ", end="", file=sys.stderr, flush=True)

    def end(self) -> None:
        if self.is_shown:
            print("\r\x1b[K", end="", file=sys.stderr, flush=True)


def make_explorer(words: Words) -> Explorer:
    return Explorer(Process(words.command, words.seconds), Judge(), words.chosen, words.remembers_in)


def make_remaker(words: Words) -> Remaker:
    return Remaker(Process(words.command, words.seconds), Judge(), words.chosen, words.remembers_in)


def calibrated(words: Words) -> Words:
    """With what is compared, where that is to be found out."""
    if words.compare != "auto" or not words.is_calibrated:
        return words
    fleet, is_through = Fleet(min(words.jobs, CALIBRATING), functools.partial(make_explorer, words)), False
    try:
        aspects, dropped = strictest(fleet)
        is_through = True
    finally:
        fleet.end(is_through)
    return words._replace(chosen=words.chosen._replace(comparison=words.chosen.comparison._replace(aspects=aspects)), dropped=dropped)


def explored(words: Words) -> Result:
    """Explores and shrinks; WorkerError or CallFailure where the nodes don't start, KeyboardInterrupt at a second interrupt."""
    with interruptible() as is_stopped:
        return searched(calibrated(words), is_stopped)


def searched(words: Words, is_stopped: Callable[[], bool]) -> Result:
    begun, progress, aspects = time.monotonic(), Progress(), words.chosen.comparison.aspects
    jobs = words.jobs if words.limits.most is None else max(1, min(words.jobs, words.limits.most))
    fleet, is_through = Fleet(jobs, functools.partial(make_explorer, words)), False
    search = Search(fleet, words.limits, words.chosen.alone, words.library, asks_early=words.remembers_in is not None)
    try:
        search.run(lambda: is_stopped() or is_enough(search, words, begun), progress.look)
        dropped = words.dropped | search.drop_loud_states() if words.is_calibrated else words.dropped
        kinds = shrunk_kinds(fleet, chosen_first(search.sorted_kinds(), words.is_first), search.compared, words.limits.until)
        notes = [*costs(fleet, words.library), *left_out(fleet, words.library), *([GAVE_UP] if search.has_given_up else [])]
        aspects = shown_aspects(fleet, aspects)
        seconds = time.monotonic() - begun
        is_through = True
    except KeyboardInterrupt:
        seconds, dropped, notes = time.monotonic() - begun, words.dropped, []
        kinds = [unshrunk(kind) for kind in search.sorted_kinds()]
    finally:
        progress.end()
        fleet.end(is_through)
        print(*search.faults[:MOST_FAULTS], sep="\n", end="", file=sys.stderr)
    kinds = [kind.in_shard(words.shard) for kind in kinds] if words.shard else kinds
    return Result(
        words.chosen.program, fleet.name, sorted(aspects), search.scripts, search.same, search.compared, search.agreed, search.left_out,
        seconds, search.wrong, kinds, search.classics_tried, search.classics_same, {what: search.made[what] for what in THINGS}, dropped, notes,
    )


def costs(fleet: Fleet, library: Library) -> list[str]:
    """What it costs to repair a log, if the search began with the classic for that."""
    given = [each for each in library.classics if each.title == REPAIR]
    for each in given:
        fleet.give(repair_of, [each])
    return [line for _ in given for line in fleet.take() if line]


def left_out(fleet: Fleet, library: Library) -> list[str]:
    """The classics of which the nodes can't do all."""
    if not library.classics:
        return []
    fleet.give(lacking_lines, [library.classics])
    return [line for lines in fleet.take() for line in lines]


def write_again(words: Words, number: int) -> int:
    """Writes a script of this search to standard output, before it was shrunk."""
    fleet, is_through = Fleet(words.jobs, functools.partial(make_remaker, words)), False
    try:
        found = remade(fleet, words.limits, words.chosen.alone, words.library, number)
        fleet.give(text_of, [found] if found else [])
        for text in fleet.take():
            sys.stdout.buffer.write(text)
        is_through = True
    finally:
        fleet.end(is_through)
    return 0


def is_enough(search: Search, words: Words, begun: float) -> bool:
    """Whether the search ends before its time: what is left of that is for shrinking; or one kind was asked for."""
    if not search.kinds:
        return False
    if words.is_first and any(surprise(name) < 4 for name in search.kinds):
        return True
    rounds = 1 + -(-len(chosen_of(list(search.kinds.values()))) // words.jobs)
    return time.monotonic() >= words.limits.until - min(rounds * SECONDS_OF_SHRINKING, (words.limits.until - begun) * SHRINKS)


def chosen_first(kinds: list[Kind], is_first: bool) -> list[Kind]:
    """All kinds, or the first that was met, of those that count."""
    met = sorted((kind for kind in kinds if kind.first and surprise(kind.name) < 4), key=lambda kind: kind.first or (0, ""))
    return met[:1] if is_first and met else kinds


def write_pages(words: Words, result: Result) -> None:
    """Next to each short script, the page of what the nodes did in it. Without raftbench there are no pages."""
    judge, process = Judge(), Process(words.command, words.seconds)
    try:
        for file, kind in result.files(words.out) if words.out and judge.is_there else ():
            writer = PageWriter(process, judge, words.chosen.comparison)
            blocks = read_script(kind.script.encode("latin-1")).blocks
            writer.write(file.with_suffix(".html"), file.name, blocks, [Mark(len(blocks), "; ".join([kind.kind, *(line.strip() for line in kind.shown)]))])
    except (NoViewer, CallFailure, Fault) as fault:
        complain(words.chosen.program, f"no page: {fault}")
    finally:
        process.close()


def run(arguments: Sequence[str]) -> int:
    """raftbench-nodes explore."""
    parser = parser_for("explore", "Looks for differences between your own nodes and the reference, and for broken promises.")
    add_common(parser)
    add_comparing(parser, "auto")
    add_exploring(parser)
    given = parser.parse_args(arguments)
    note = Judge().note()
    if note:
        complain("explore", note)
    return checked("explore", lambda: explore(words_of("explore", given)))


def explore(words: Words) -> int:
    """The status: 0 if nothing is found, 1 if something is, 4 if the nodes don't start or the reference is wrong."""
    program = words.chosen.program
    try:
        if words.script is not None:
            return write_again(words, words.script)
        result = explored(words)
    except (WorkerError, CallFailure, Unjudged) as fault:
        complain(program, fault)
        return 4
    except KeyboardInterrupt:
        complain(program, "interrupted")
        return 130
    print(result.text(), end="")
    for number in result.wrong:
        print(f"script {number}: the reference is wrong here: it fails, or the proved program prints something else", file=sys.stderr)
    try:
        result.write(words.json, words.junit, words.out)
        if words.out and result.kinds:
            write_pages(words, result)
    except OSError as fault:
        complain(program, fault)
        return 4
    if result.scripts < words.at_least:
        print(f"raftbench-nodes {program}: {result.scripts} scripts were run, and --at-least {words.at_least} were asked for", file=sys.stderr)
        return max(result.status(), 3)
    return result.status()
