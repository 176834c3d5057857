"""raftbench-nodes replay: checks calls and answers that a library's own tests or a live cluster recorded (docs/TRACES.md).

Raft's promises are checked on all calls. Each node's calls are also made to a node of the reference, and the answers are compared.
"""
from __future__ import annotations

import argparse
import collections
import pathlib
import sys
from typing import Sequence

from ..compare.report import sides
from ..protocol.encoding import printable
from ..rules.lists import kind_like
from ..rules.switches import Unknown
from ..traces.replay import NOT_IN_TRACES, Replay, TraceFinding, Unreadable, read_traces, with_timeout


def read_words(words: Sequence[str]) -> argparse.Namespace:
    parser = argparse.ArgumentParser(prog="raftbench-nodes replay", description="Checks a trace: calls and answers of a run that took place.")
    parser.add_argument("traces", nargs="+", type=pathlib.Path, metavar="TRACE")
    parser.add_argument("--like", default="", metavar="NAME|FILE", help="switches of the reference: rules in which your library differs")
    parser.add_argument("--timeout", type=int, default=0, metavar="TICKS", help="ticks of an election timeout; elections are then `campaign` calls of the trace. Without it, ticks lead to elections")
    parser.add_argument("--except", dest="ignored", action="append", default=[], metavar="PROMISE", help="a promise that isn't checked")
    parser.add_argument("--all", action="store_true", help="shows each finding, and not only the first of each kind")
    return parser.parse_args(words)


def show(found: TraceFinding) -> None:
    print(f"{found.place}: {found.kind}")
    for line in sides(found.wanted, found.came):
        print(line)


def replayed(chosen: argparse.Namespace) -> int:
    """Shows what is found in the traces. Gives the status."""
    kind = kind_like(chosen.like)
    records, is_ordered = read_traces(chosen.traces)
    replay = Replay(with_timeout(kind, chosen.timeout) if chosen.timeout else kind, is_ordered, frozenset(chosen.ignored))
    kinds: collections.Counter[str] = collections.Counter()
    for found in replay.run(records):
        kinds[found.kind] += 1
        if chosen.all or kinds[found.kind] == 1:
            show(found)
    for name, count in sorted(kinds.items(), key=lambda pair: (not pair[0].startswith("promise"), -pair[1], pair[0])):
        print(f"{count:6}  {name}")
    counts, total = replay.counts, sum(kinds.values())
    print(f"{printable(replay.hello.name)}: {counts['calls']} calls, {counts['compared']} compared with the reference, {total} finding{'' if total == 1 else 's'}")
    if replay.unchecked:
        unchecked = ", ".join(f"{name} ({count})" for name, count in replay.unchecked.most_common())
        print(f"not checked, since the trace doesn't show what they need: {unchecked}")
    print(f"no trace is held to: {', '.join(NOT_IN_TRACES)}")
    return 1 if kinds else 0


def run(words: Sequence[str]) -> int:
    """The status: 0 if nothing was found, 1 if something was, 2 for wrong arguments, 3 for a trace that can't be read, 4 if a file fails."""
    statuses: dict[type[Exception], int] = {Unknown: 2, Unreadable: 3, UnicodeDecodeError: 3, OSError: 4}
    try:
        return replayed(read_words(words))
    except BrokenPipeError:
        raise
    except tuple(statuses) as fault:
        print(f"raftbench-nodes replay: {printable(str(fault))}", file=sys.stderr)
        return next(status for kind, status in statuses.items() if isinstance(fault, kind))
