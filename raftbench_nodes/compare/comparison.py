"""Runs a script on your nodes and on the reference at the same time, directive by directive, and finds where they first differ."""
from __future__ import annotations

from itertools import zip_longest
from typing import Callable, Iterator, Mapping, NamedTuple, Sequence

from plain.node import Node
from plain.records import AnyNode
from plain.script import Block

from ..process.process import CallFailure, Process
from ..promises.checker import name_of
from ..promises.clusters import WatchedHosts, WatchedReference, breaks
from ..protocol.capabilities import reduced
from ..rules.own import Ruled
from .answers import config_line, differing_part, direction, log_lines, log_of, message_line, ready_lines, state_line, view_lines
from .runner_steps import steps_above
from .script import directive_of
from .stage import AFTER, CallRecord, Stage, allowed

# What may be compared besides states.
ASPECTS = ("views", "messages", "order", "ready", "lines")


class Comparison(NamedTuple):
    """How scripts are run and compared."""

    kind: type[Node] = Node  # of the reference's nodes
    aspects: frozenset[str] = frozenset()
    begins_at_0: bool = False
    has_steps: bool = True  # of the runner; without, they stay comments
    known_promises: frozenset[str] = frozenset()  # not looked at


class Difference(NamedTuple):
    place: int  # of the directive, from 1 on
    directive: str
    field: str  # the part that differs, with its direction
    node: int  # 0 where it is of no single node
    wanted: Sequence[str]  # lines of the reference
    came: Sequence[str]  # lines of the nodes
    after: str  # the call or message after which they differ, and at which role; or the directive

    def kind(self) -> str:
        return f"{self.field} {self.after}"

    def is_failure(self) -> bool:
        return self.field.startswith("failed ")


# What scripts may do that breaks promises of any Raft.
EXCUSES = {
    "joined clusters": "the script joins clusters by hand",
    "torn changes": "a save is cut in two while the configuration changes: save the hard state first, or with the entries",
}


class BrokenPromise(NamedTuple):
    """A promise that the nodes break and the reference keeps."""

    place: int
    text: str
    excuse: str = ""  # what the script does that breaks promises of any Raft, of `EXCUSES`

    def kind(self) -> str:
        return f"promise broken{' in ' if self.excuse else ''}{self.excuse}: {name_of(self.text)}"


class Outcome(NamedTuple):
    compared: int  # directives that both sides carried out, up to the first difference
    agreed: int
    left_out: int
    kept: Sequence[tuple[int, Block]]  # the places and blocks that both sides carried out
    outputs: Sequence[list[str]]  # what the reference printed
    came: Sequence[list[str]]  # what the nodes printed
    first: Difference | None
    broken: Sequence[BrokenPromise]
    made: Mapping[str, int]  # what the script makes the reference do, up to where it ended

    def kinds(self) -> Iterator[tuple[str, int]]:
        """Each kind of what was found, and its place."""
        if self.first:
            yield self.first.kind(), self.first.place
        for broken in self.broken:
            yield broken.kind(), broken.place


DifferenceParts = tuple[str, int, Sequence[str], Sequence[str]]


class Beside:
    """Both clusters, and what differs between them after a directive."""

    def __init__(self, process: Process, chosen: Comparison) -> None:
        self.without, self.chosen, self.process = process.without, chosen, process
        self.ours = WatchedReference(chosen.kind, chosen.begins_at_0)
        self.theirs = WatchedHosts(process, chosen.begins_at_0)

    def differs(self, place: int, name: str, lines: Sequence[str], other_lines: Sequence[str]) -> Difference | None:
        found = next(self.differences(lines, other_lines), None)
        if found is None:
            return None
        field, node, wanted, came = found
        return Difference(place, name, field, node, wanted, came, place_of(self.ours, self.theirs, name, self.without))

    def differences(self, lines: Sequence[str], other_lines: Sequence[str]) -> Iterator[DifferenceParts]:
        ids = sorted((self.ours.touched | self.theirs.touched) & self.ours.nodes.keys() & self.theirs.nodes.keys())
        pairs = [(self.ours.nodes[id], self.theirs.nodes[id]) for id in ids]
        aspects = self.chosen.aspects
        for ours, theirs in pairs:
            yield from self.state_differences(ours, theirs)
        if "config" not in self.without:
            yield from text_differences("config", pairs, lambda node: [config_line(node.id, node.config, self.without)])
        if "log" not in self.without:
            yield from text_differences("log", pairs, lambda node: log_lines(log_of(node), self.without))
        if "views" in aspects and "status" not in self.without:
            yield from text_differences("views", pairs, lambda node: view_lines(node.id, node.views) if node.role == "leader" else [])
        if "ready" in aspects and "ready" not in self.without:
            yield from self.ready_differences()
        if aspects & {"messages", "order"}:
            yield from self.message_differences()
        if "lines" in aspects and lines != other_lines:
            yield "lines", 0, lines, other_lines
        if self.theirs.is_stuck != self.ours.is_stuck:
            yield "never comes to rest" if self.theirs.is_stuck else "comes to rest early", 0, lines[-1:], other_lines[-1:]

    def state_differences(self, ours: AnyNode, theirs: AnyNode) -> Iterator[DifferenceParts]:
        skipped = self.without | (ours.unsettled() if isinstance(ours, Ruled) else frozenset())
        part = differing_part(ours, theirs, skipped)
        if part:
            yield direction(part, ours, theirs), ours.id, [state_line(ours.id, ours, skipped)], [state_line(theirs.id, theirs, skipped)]

    def ready_differences(self) -> Iterator[DifferenceParts]:
        wanted, came = ([line for id, ready in side.readies for line in ready_lines(id, ready, self.without)] for side in (self.ours, self.theirs))
        if wanted != came:
            first = next(one or other or "" for one, other in zip_longest(wanted, came) if one != other)
            yield "ready: " + {"hard": "hard state", "must": "sync", "need": "sync"}.get(first.split()[1], first.split()[1]), int(first.split()[0]), wanted, came

    def message_differences(self) -> Iterator[DifferenceParts]:
        wanted, came = ([message_line(m, self.without) for m in cluster.sent] for cluster in (self.ours, self.theirs))
        if "order" not in self.chosen.aspects:
            wanted, came = sorted(wanted), sorted(came)
        if wanted == came:
            return
        lacking = next((text for text in wanted if text not in came), None)
        excess = next((text for text in came if text not in wanted), None)
        first = lacking or excess
        if first is None:
            what = "order of messages" if len(wanted) == len(came) else "number of messages"
        else:
            what = f"{'other' if lacking and excess else 'lacking' if lacking else 'additional'} {next(word for word in first.split() if word.startswith('Msg'))}"
        yield what, 0, wanted, came


def text_differences(field: str, pairs: Sequence[tuple[AnyNode, AnyNode]], lines_of: Callable[[AnyNode], list[str]]) -> Iterator[DifferenceParts]:
    for ours, theirs in pairs:
        wanted, came = lines_of(ours), lines_of(theirs)
        if wanted != came:
            yield field, ours.id, wanted, came


def place_of(ours: Stage, theirs: Stage, directive: str, without: frozenset[str]) -> str:
    """After which call, at which role, the sides begin to differ; the directive, where their calls already differ before."""
    compared = [at for at, name in enumerate(AFTER) if name not in without]
    for one, other in zip(ours.calls, theirs.calls):
        if (one.node, one.what) != (other.node, other.what):
            break
        if any(one.after[at] != other.after[at] for at in compared):
            return after_of(one, ours)
    last = ours.calls[-1] if ours.calls and len(ours.calls) == 1 else None
    return after_of(last, ours) if last else f"after {directive}"


def after_of(called: CallRecord, cluster: Stage) -> str:
    restarted = " that was restarted" if called.node in cluster.restarted and called.what != "restart" else ""
    return f"after {called.what} at a {called.role}{restarted}" if called.role else f"after {called.what}"


def excuse_of(blocks: Sequence[Block]) -> str:
    """What a script does that breaks promises of any Raft, or nothing: it joins clusters by hand, by nodes that begin with configurations of their own, or
    snapshots that nobody needs.
    """
    heads = [directive_of(block) for block in blocks]
    begun = [arguments for name, arguments, _ in heads if name == b"add-nodes" and any(a.key == b"voters" for a in arguments)]
    return "joined clusters" if len(begun) > 1 or any(name == b"send-snapshot" for name, *_ in heads) else ""


def excuse_without_reference(blocks: Sequence[Block]) -> str:
    """The same, where no reference is asked whether it breaks a promise too: the script may also save entries without their commit while the configuration
    changes.
    """
    if joined := excuse_of(blocks):
        return joined
    heads = [directive_of(block) for block in blocks]
    is_torn = any(step.name == "in save" for block in blocks if block.lead for step in steps_above(block))
    return "torn changes" if is_torn and any(name == b"propose-conf-change" for name, *_ in heads) else ""


def failure(place: int, name: str, failed: CallFailure, role: str) -> Difference:
    what = f"failed {failed.call} ({failed.short})"
    return Difference(place, name, what, failed.node, ["an answer"], [str(failed)], f"at a {role}" if role else f"in {name}")


class Run:
    """One script on both sides."""

    def __init__(self, blocks: Sequence[Block], process: Process, chosen: Comparison) -> None:
        process.reset()
        less = ((place, reduced(block, process.hello)) for place, block in enumerate(blocks, 1))
        self.kept = [(place, block) for place, block in less if block is not None]
        self.left_out = len(blocks) - len(self.kept)
        self.process, self.chosen, self.beside = process, chosen, Beside(process, chosen)
        self.outputs: list[list[str]] = []
        self.came: list[list[str]] = []
        self.compared = 0
        self.first: Difference | None = None
        self.broken: list[tuple[int, str]] = []

    def outcome(self, goes_on: bool) -> Outcome:
        for place, block in self.kept:
            if not self.carry_out(place, block) or self.first and not goes_on:
                break
        return Outcome(
            self.compared, self.compared - (self.first is not None), self.left_out, self.kept, self.outputs, self.came, self.first, self.broken_promises(),
            self.beside.ours.made,
        )

    def carry_out(self, place: int, block: Block) -> bool:
        """Runs a directive on both sides; answers whether the nodes can go on."""
        directive = directive_of(block)
        name = directive.name.decode("latin-1")
        ours, theirs = self.beside.ours, self.beside.theirs
        steps = allowed(steps_above(block), self.process) if self.chosen.has_steps and block.lead else []
        self.compared += self.first is None
        if steps:
            ours.carry_out(steps)
            if not self.on_theirs(place, "a step of the runner", lambda: theirs.carry_out(steps)):
                self.outputs.append(ours.run(directive))
                return False
            if self.first is None:
                self.first = self.beside.differs(place, steps[-1].name, [], [])
        self.outputs.append(ours.run(directive))
        if not self.on_theirs(place, name, lambda: self.came.append(theirs.run(directive))):
            return False
        if self.first is None:
            try:
                self.first = self.beside.differs(place, name, self.outputs[-1], self.came[-1])
            except CallFailure as failed:
                self.first = failure(place, name, failed, "")
                return False
        return True

    def on_theirs(self, place: int, name: str, act: Callable[[], None]) -> bool:
        theirs = self.beside.theirs
        try:
            act()
            theirs.look_at_logs()
        except CallFailure as failed:
            self.first = self.first or failure(place, name, failed, theirs.role_before)
            return False
        seen = {text for _, text in self.broken}
        self.broken += [(place, text) for text in theirs.promises.broken if text not in seen]
        return True

    def broken_promises(self) -> list[BrokenPromise]:
        """The first of each promise that is broken, without those that the reference breaks too and accepted ones."""
        firsts: dict[str, tuple[int, str]] = {}
        for place, text in self.broken:
            if name_of(text) not in self.chosen.known_promises:
                firsts.setdefault(name_of(text), (place, text))
        if not firsts:
            return []
        blocks = [block for _, block in self.kept]
        excused = breaks(WatchedReference(self.chosen.kind, self.chosen.begins_at_0), blocks, self.process)
        excuse = excuse_of(blocks)
        return [BrokenPromise(place, text, excuse) for name, (place, text) in firsts.items() if name not in excused]


def run_beside(blocks: Sequence[Block], process: Process, chosen: Comparison = Comparison(), goes_on: bool = True) -> Outcome:
    """With `goes_on` the nodes go on after the first difference, so that promises which are broken later are seen."""
    return Run(blocks, process, chosen).outcome(goes_on)
