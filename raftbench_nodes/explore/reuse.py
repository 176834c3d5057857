"""Repeats the calls of an earlier exploration. If the nodes give the same answers, a script has the same result."""
from __future__ import annotations

import pathlib
from typing import Iterable, Iterator, Sequence

from ..compare.comparison import Comparison
from ..process.cache import Memory, ScriptRecord, Transcript
from ..process.process import CallFailure, Process
from ..rules.own import Ruled

# The first MOST_TRIED scripts are asked again. Later ones only if at least one in LEAST_SAME was answered as before.
MOST_TRIED, LEAST_SAME = 40, 6


def rules_of(chosen: Comparison) -> str:
    """All that a script's outcome depends on, besides the script, the bench and the nodes."""
    switches = sorted(chosen.kind.switches) if issubclass(chosen.kind, Ruled) else []
    return f"{chosen.kind.__name__} {switches} {sorted(chosen.aspects)} {chosen.begins_at_0} {chosen.has_steps} {sorted(chosen.known_promises)}"


class Recall:
    """A memory of what a process was asked, for one judge of the reference. Without a folder, and with nodes that have no digests, it has nothing."""

    def __init__(self, process: Process, chosen: Comparison, folder: pathlib.Path | None, judge: str) -> None:
        self.process, self.chosen, self.folder, self.judge = process, chosen, folder, judge
        self.opened: Memory | None = None
        self.tried = self.same = 0

    def memory(self) -> Memory | None:
        if self.opened is None and self.folder and self.process.hello.has_digest:
            self.opened = Memory(self.folder, f"{self.process.about} {rules_of(self.chosen)} {self.judge}")
        return self.opened

    def again(self, name: bytes, is_early: bool) -> ScriptRecord | None:
        """A script's earlier result, if the nodes give the same answers again. Scripts that are asked first say nothing about the others."""
        memory = self.memory()
        known = memory.find(name) if memory and (is_early or self.tried < MOST_TRIED or self.same * LEAST_SAME >= self.tried) else None
        if known is None:
            return None
        try:
            is_same = self.process.digest_of(known.calls, known.asked) == known.digest
        except CallFailure:
            is_same = False
        if not is_early:
            self.tried, self.same = self.tried + 1, self.same + is_same
        return known if is_same else None

    def listen(self) -> None:
        """Takes all calls and answers from now on."""
        self.process.transcript = Transcript() if self.memory() else None

    def note(self, name: bytes, counts: tuple[int, int, int], kinds: Iterable[tuple[str, int]], removed: Sequence[int], met: Iterable[int], made: Iterable[tuple[str, int]] = (), again: Sequence[str] = ()) -> None:
        """Keeps what was asked since then, if the process is still the same. `counts`: how many directives were compared, agreed and were left out."""
        said, self.process.transcript = self.process.transcript, None
        if said and said.asked and self.opened:
            self.opened.note(name, ScriptRecord(b"".join(said.calls), said.asked, said.digest.digest(), *counts, tuple(kinds), tuple(removed), frozenset(met), tuple(made), tuple(again)))

    def showing(self) -> Iterator[tuple[bytes, tuple[str, ...]]]:
        """The scripts in which something was found the last time, and what makes them again."""
        memory = self.memory()
        for name in sorted(memory.showing) if memory else ():
            known = memory.find(name) if memory else None
            if known:
                yield name, known.again

