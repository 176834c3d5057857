"""Shows differences as `raftbench check` does (docs/USING.md), and a table of their kinds."""
from __future__ import annotations

import collections
from typing import Iterator, Sequence

from .comparison import Difference, Outcome
from .made import made_line


def sides(wanted: Sequence[str], came: Sequence[str]) -> Iterator[str]:
    """Lines of both sides: plain are the longest common beginning and, of the rest, the longest common end."""
    front = next((at for at, (a, b) in enumerate(zip(wanted, came)) if a != b), min(len(wanted), len(came)))
    left = min(len(wanted), len(came)) - front
    back = next((at for at in range(left) if wanted[-1 - at] != came[-1 - at]), left)
    yield from (f"  {ended(line)}" for line in wanted[:front])
    yield from (f"- {ended(line)}" for line in wanted[front:len(wanted) - back])
    yield from (f"+ {ended(line)}" for line in came[front:len(came) - back])
    yield from (f"  {ended(line)}" for line in wanted[len(wanted) - back:])


def ended(line: str) -> str:
    """A line whose end is seen."""
    return line + "$" if not line or line[-1] in " \t$" else line


def difference_lines(where: str, difference: Difference) -> Iterator[str]:
    who = f" of node {difference.node}" if difference.node else ""
    yield f"{where}: {difference.directive}: {difference.field}{who} {difference.after}"
    yield from sides(difference.wanted, difference.came)


class Totals:
    """What runs come to: how many directives agree up to each script's first difference, and the kinds of differences."""

    def __init__(self) -> None:
        self.counts: collections.Counter[str] = collections.Counter()
        self.kinds: collections.Counter[str] = collections.Counter()
        self.made: collections.Counter[str] = collections.Counter()

    def add(self, outcome: Outcome) -> None:
        is_same = outcome.first is None and all(broken.excuse for broken in outcome.broken)
        self.counts.update(scripts=1, same=int(is_same), compared=outcome.compared, agreed=outcome.agreed, left=outcome.left_out)
        self.kinds.update(kind for kind, _ in outcome.kinds())
        self.made.update(outcome.made)

    def lines(self, seconds: float) -> Iterator[str]:
        counts = self.counts
        share = 100 * counts["agreed"] / counts["compared"] if counts["compared"] else 100.0
        for kind, count in self.kinds.most_common():
            yield f"{count:6}  {kind}"
        yield made_line(self.made)
        yield (
            f"{counts['scripts']} script{'s' * (counts['scripts'] != 1)}, {counts['same']} without a difference; {counts['agreed']} of {counts['compared']} directives agree "
            f"up to each script's first difference ({share:.1f} %), {counts['left']} left out, {seconds:.1f} s"
        )
