"""Runs a script directive by directive from the empty cluster. A session runs its whole script again after each edit.

How many directives an edit executes is found by comparing the states after each directive, as docs/USING.md and the definitions in
crates/rb_replay/specs/Reuse.antt and Points.antt say.
"""
from __future__ import annotations

from typing import Any, Sequence

from .cluster import Cluster
from .script import LONGEST_LINE, LONGEST_SCRIPT, Fault, Script, edited, is_blank, joined, lines_of, read_block, read_script

MOST_GIVEN = 65_536
# The lines that a directive prints, and a state of the cluster.
Output = tuple[bytes, ...]
State = tuple[object, ...]


def outputs_of(script: Script) -> tuple[list[Output], list[State]]:
    """What each directive prints, and the state of the cluster before the first and after each."""
    cluster, outputs = Cluster(), []
    states = [cluster.frozen()]
    for block in script.blocks:
        outputs.append(tuple(line.encode() for line in cluster.run(block.directive())))
        states.append(cluster.frozen())
    return outputs, states


def run_quickly(script: Script) -> list[Output]:
    """What each directive prints."""
    cluster = Cluster()
    return [tuple(line.encode() for line in cluster.run(block.directive())) for block in script.blocks]


def mismatches_of(script: Script, outputs: Sequence[Output]) -> list[int]:
    return [k for k, (block, lines) in enumerate(zip(script.blocks, outputs), 1) if block.expected != lines]


def report_of(script: Script, outputs: Sequence[Output]) -> bytes:
    wrong, lines = mismatches_of(script, outputs), []
    for k in wrong:
        expected, came = script.blocks[k - 1].expected, outputs[k - 1]
        lines += [b"mismatch %d" % k, *(b"- " + line for line in expected), *(b"+ " + line for line in came)]
    return joined([*lines, b"%d directives, %d mismatches" % (len(script.blocks), len(wrong))])


def run(data: bytes, mode: str) -> tuple[bytes, int]:
    """The output and the status of `run` and `rewrite`; a Fault where the script is refused."""
    script = read_script(data)
    outputs = run_quickly(script)
    if mode == "rewrite":
        return script.text(outputs), 0
    return report_of(script, outputs), 1 if mismatches_of(script, outputs) else 0


def thinned(every: int, points: Sequence[int]) -> list[int]:
    """Drops a point, from left to right, whose kept predecessor and successor are at most so far apart; never the ends."""
    kept: list[int] = []
    for i, point in enumerate(points):
        if kept and i + 1 < len(points) and points[i + 1] - kept[-1] <= every:
            continue
        kept.append(point)
    return kept


def reused(
    every: int, kept: Sequence[int], old: Sequence[State], new: Sequence[State], front: int, old_rest: int, new_rest: int,
) -> tuple[int, int, list[int]]:
    """Where an edit starts and stops to execute directives, and the points that are kept then. It leaves a front of directives as it
    was, and the rest, which began at one point and begins at another now. The states are those at each point, before and after."""
    back = new_rest - old_rest
    start = max(point for point in kept if point <= front)
    meets = (at for at in range(max(start, new_rest), len(new)) if at - back in kept and new[at] == old[at - back])
    met = next(meets, None)
    stop = len(new) - 1 if met is None else met
    points = {point for point in kept if point <= start} | set(range(start + every, stop + 1, every))
    if met is not None:
        points |= {point + back for point in kept if point + back >= stop}
    return start, stop, thinned(every, sorted(points))


class Session:
    def __init__(self, data: bytes, every: int) -> None:
        self.every, self.script = every, read_script(data)
        self.outputs, self.states = outputs_of(self.script)
        self.kept = list(range(0, len(self.script.blocks) + 1, every))
        self.stop = 0

    def edit(self, kind: str, place: int, given: Any) -> int:
        """Makes an edit; answers how many directives it executes."""
        script = edited(self.script, kind, place, given, self.outputs)
        start = self.stop = 0
        if kind in ("insert", "replace", "remove"):
            old = self.states
            self.outputs, self.states = outputs_of(script)
            old_rest, new_rest = place - (kind == "insert"), place - (kind == "remove")
            start, self.stop, self.kept = reused(self.every, self.kept, old, self.states, place - 1, old_rest, new_rest)
        self.script = script
        return self.stop - start

    def mismatches(self) -> list[int]:
        return mismatches_of(self.script, self.outputs)

    def status(self) -> int:
        return 1 if self.mismatches() else 0


def number_of(word: bytes) -> int | None:
    return int(word) if 1 <= len(word) <= 10 and all(b in b"0123456789" for b in word) else None


def command_of(line: bytes) -> tuple[str, list[int]] | None:
    """The name and the numbers of a command, or None."""
    words = [word for word in line.replace(b"\t", b" ").split(b" ") if word]
    counts = {b"insert": 2, b"replace": 2, b"expect": 2, b"remove": 1, b"show": 1, b"accept": 0, b"report": 0, b"script": 0, b"rewrite": 0}
    numbers = [number for word in words[1:] if (number := number_of(word)) is not None]
    if len(words) - 1 != counts.get(words[0], -1) or len(numbers) != len(words) - 1 or len(numbers) == 2 and numbers[1] > MOST_GIVEN:
        return None
    return words[0].decode(), numbers


class Talk:
    """A conversation: the lines that come in, cut into commands, and what is answered."""

    def __init__(self, session: Session, data: bytes) -> None:
        self.session, self.lines, self.at = session, lines_of(data), 0
        self.said: list[bytes] = []

    def answers(self) -> tuple[bytes, int]:
        """All that is answered, and the status."""
        try:
            while self.at < len(self.lines):
                line = self.next_line()
                if not is_blank(line):
                    self.said.append(self.answer(line))
        except Fault as fault:
            return b"".join(self.said) + f"refused {fault}\n".encode(), 4
        return b"".join(self.said), self.session.status()

    def next_line(self) -> bytes:
        if self.at == len(self.lines):
            raise Fault("CutOff")
        self.at += 1
        if len(self.lines[self.at - 1]) > LONGEST_LINE:
            raise Fault("LineTooLong")
        return self.lines[self.at - 1]

    def answer(self, line: bytes) -> bytes:
        command = command_of(line)
        if command is None:
            return b"refused BadCommand\n"
        kind, numbers = command
        given = [self.next_line() for _ in range(numbers[1])] if len(numbers) == 2 else []
        try:
            return self.asked(kind, *numbers[:1]) if kind in ("show", "report", "script", "rewrite") else self.made(kind, numbers, given)
        except Fault as fault:
            return f"refused {fault}\n".encode()

    def made(self, kind: str, numbers: list[int], given: list[bytes]) -> bytes:
        if len(joined(given)) > LONGEST_SCRIPT:
            raise Fault("TooLong")
        what = read_block(joined(given)) if kind in ("insert", "replace") else given
        executed = self.session.edit(kind, numbers[0] if numbers else 0, what)
        return b"done executed=%d mismatches=%d\n" % (executed, len(self.session.mismatches()))

    def asked(self, kind: str, place: int = 0) -> bytes:
        script, outputs = self.session.script, self.session.outputs
        if kind == "show":
            if not 1 <= place <= len(outputs):
                raise Fault("NoSuchPlace")
            return joined([b"output %d" % len(outputs[place - 1]), *outputs[place - 1]])
        return {"report": report_of(script, outputs), "script": script.text(), "rewrite": script.text(outputs)}[kind]
