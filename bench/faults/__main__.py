"""Makes everything around the program fail, and prints a table of what was tried and what was wrong.

    python3 -m bench.faults [KIND..] [--count N]

KIND is one of those below; all, where none is given. N bounds the places of each command, the names, the scripts of a folder.
RAFTBENCH names the program. The status is 0 if nothing is wrong, else 1. tests/faults/many makes each byte's read and write fail, too.
"""
from __future__ import annotations

import argparse
import dataclasses
import sys
from collections.abc import Callable, Iterator

from bench.faults import changing, crowds, full_disk, memory, names, system_calls
from bench.faults.verdict import Tried

MOST_SHOWN = 20


@dataclasses.dataclass(frozen=True)
class Kind:
    """A kind of fault: what it is, how many are made of it by default, and whether what it needs is here."""

    what: str
    tried: Callable[[int], Iterator[Tried]]
    count: int = 1_000_000
    is_here: Callable[[], bool] = lambda: True


KINDS = {
    "system-calls": Kind("each system call of each command fails", system_calls.all_failing, is_here=system_calls.is_here),
    "memory": Kind("each allocation of each command is refused", memory.tried, is_here=memory.is_here),
    "kills": Kind("a kill at each system call of check --accept", system_calls.all_killed, is_here=system_calls.is_here),
    "full-disk": Kind("a file system without room", full_disk.tried, is_here=full_disk.is_here),
    "changing": Kind("scripts that change while they are read", changing.tried, is_here=changing.is_here),
    "crowds": Kind("folders of very many scripts", crowds.tried, 100_000),
    "names": Kind("names and arguments that act", names.tried),
}


def asked() -> argparse.Namespace:
    """The kinds that are asked for, and how many of each."""
    words = argparse.ArgumentParser(prog="python3 -m bench.faults", description="Makes everything around the program fail, and prints a table.")
    words.add_argument("kinds", nargs="*", metavar="KIND", help=", ".join(f"{name}: {kind.what}" for name, kind in KINDS.items()))
    words.add_argument("--count", type=int, help="at most so many places of each command, names, or scripts of a folder")
    given = words.parse_args()
    unknown = set(given.kinds) - set(KINDS)
    if unknown:
        words.error(f"no kind {', '.join(sorted(unknown))}; there are {', '.join(KINDS)}")
    return given


def main() -> int:
    """Tries the kinds in turn. Gives the status."""
    given, wrong = asked(), 0
    print(f"{'kind':14} {'tried':>8} {'wrong':>6}")
    for name in given.kinds or KINDS:
        kind = KINDS[name]
        if not kind.is_here():
            print(f"{name:14} what it needs is not here")
            continue
        made = list(kind.tried(given.count or kind.count))
        problems = [it for it in made if it.problem]
        print(f"{name:14} {len(made):8,} {len(problems):6,}", *(f"  {it.what}: {it.problem}" for it in problems[:MOST_SHOWN]), sep="\n", flush=True)
        wrong += len(problems)
    return 1 if wrong else 0


if __name__ == "__main__":
    sys.exit(main())
