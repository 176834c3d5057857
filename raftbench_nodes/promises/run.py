"""Runs scripts on your nodes alone, and checks Raft's promises. Nothing is compared with the reference."""
from __future__ import annotations

import collections
import random
from typing import Callable, NamedTuple, Sequence

from plain.config import both
from plain.records import AnyNode
from plain.script import Block

from ..compare.comparison import BrokenPromise, Comparison, Difference, excuse_without_reference, failure
from ..compare.runner_steps import RunnerStep, steps_above
from ..compare.script import Step, blocks_of, directive_of
from ..compare.stage import NEVER, Reference, allowed
from ..process.process import CallFailure, Process
from ..protocol.capabilities import reduced
from ..rules.own import Ruled
from .checker import name_of
from .clusters import WatchedHosts, WatchedReference, WatchedCluster

# How often all clocks tick until the nodes have to be healed. Nodes with equal timeouts may miss each other for ever. Then each clock ticks by chance,
# and if nobody leads after that, timeouts are drawn at each tick, from one to three times the usual one, where nodes let others set them.
MOST_TICKS = 24
DRAWN_TICKS = 3, 9
TICKS_OF_A_TIMEOUT, TRIES = 3, 4
PAYLOAD = "healed"


class PromiseResult(NamedTuple):
    """What a script came to."""

    directives: int
    left_out: int
    broken: Sequence[BrokenPromise]
    failed: Difference | None
    made: tuple[tuple[str, int], ...] = ()  # what the script makes the reference do, if it was asked

    def kinds(self) -> list[tuple[str, int]]:
        """Each kind of what was found, and its place. What a script's own doing may break doesn't count."""
        failed = [(self.failed.kind(), self.failed.place)] if self.failed else []
        return failed + [(broken.kind(), broken.place) for broken in self.broken if not broken.excuse]


class Chance:
    """How time passes that isn't the same for all: each clock may stop at a tick, or timeouts are drawn. The same each time."""

    def __init__(self, stops: float, has_drawn_timeouts: bool = False) -> None:
        self.dice, self.stops, self.has_drawn_timeouts = random.Random("clocks"), stops, has_drawn_timeouts

    def stops_clock(self) -> bool:
        return self.dice.random() < self.stops


class PromiseRun:
    """One script on a cluster that is held to the promises."""

    def __init__(self, blocks: Sequence[Block], process: Process, chosen: Comparison, cluster: WatchedCluster) -> None:
        self.process, self.chosen, self.cluster, cluster.sends_early = process, chosen, cluster, True
        less = ((place, reduced(block, process.hello)) for place, block in enumerate(blocks, 1))
        self.kept = [(place, block) for place, block in less if block is not None]
        self.left_out, self.length = len(blocks) - len(self.kept), len(blocks)
        self.found: dict[str, tuple[int, str]] = {}
        self.came: list[list[str]] = []
        self.failure: Difference | None = None  # of a call while it heals

    def result(self) -> PromiseResult:
        failed = None
        for place, block in self.kept:
            failed = self.carry_out(place, block)
            if failed:
                break
        excuse = excuse_without_reference([block for _, block in self.kept])
        if not failed and not excuse and not self.found:
            failed = self.heal() or self.failure
        broken = [BrokenPromise(place, text, excuse) for name, (place, text) in self.found.items() if name not in self.chosen.known_promises]
        return PromiseResult(len(self.kept), self.left_out, broken, failed)

    def carry_out(self, place: int, block: Block) -> Difference | None:
        """Runs a directive; answers the failure of a call, or None."""
        directive = directive_of(block)
        try:
            if block.lead and self.chosen.has_steps:
                self.cluster.carry_out(allowed(steps_above(block), self.process))
                self.look(place)
            lines = self.cluster.run(directive)
            self.came.append(lines)
            if self.cluster.is_stuck:
                self.note(place, f"comes to rest: {NEVER}")
            self.look(place)
        except CallFailure as failed:
            return failure(place, directive.name.decode("latin-1"), failed, self.cluster.role_before)
        return None

    def look(self, place: int) -> None:
        self.cluster.look_at_logs()
        for text in self.cluster.promises.broken:
            self.note(place, text)

    def note(self, place: int, text: str) -> None:
        self.found.setdefault(name_of(text), (place, text))

    # Healing

    def heal(self) -> Difference | None:
        """Delivers all, lets time pass, and proposes: there has to be a leader, and all members have to catch up."""
        nodes, self.cluster.network.held = self.cluster.nodes, set()
        if not nodes or self.process.without & {"tick", "commit", "log", "config"} or not self.can_heal():
            return None
        failed = self.one("stabilize") or self.report_snapshots() or self.pass_time(MOST_TICKS, is_over=self.is_healed)
        for chance in (Chance(0.5), Chance(0.0, has_drawn_timeouts=True)):
            if not failed and not self.found and self.leader() is None:
                failed = self.pass_time(MOST_TICKS, self.is_healed, chance)
        wrong = "" if failed or self.found else self.wrong_with_leader()
        # A transfer of the lead that doesn't end keeps proposals out, for a timeout.
        for _ in range(TRIES):
            if not wrong:
                break
            failed = self.pass_time(TICKS_OF_A_TIMEOUT, is_over=lambda: False)
            wrong = "" if failed or self.found else self.wrong_with_leader()
        if wrong:
            self.note(self.length, f"heals: {wrong}")
        return failed

    def report_snapshots(self) -> Difference | None:
        """Reports snapshots as lost that may be, as applications do."""
        told = [RunnerStep("snapshot-lost", sender, to) for sender, to in sorted(self.cluster.snapshots & self.cluster.lost)]
        try:
            self.cluster.carry_out(allowed(told, self.process))
        except CallFailure as failed:
            self.failure = failure(self.length, "a step of the runner", failed, self.cluster.role_before)
        return self.failure

    def is_healed(self) -> bool:
        return self.leader() is not None and self.behind() is None

    def pass_time(self, ticks: int, is_over: Callable[[], bool], chance: Chance | None = None) -> Difference | None:
        """Ticks each node so many times, or by chance, and delivers all after each tick."""
        for _ in range(ticks):
            for id in list(self.cluster.nodes):
                if chance and chance.stops_clock():
                    continue
                failed = self.draw_timeout(id, chance) or self.one(f"tick-heartbeat {id}") or self.one("stabilize")
                if failed or self.found:
                    return failed
            if is_over():
                break
        return None

    def draw_timeout(self, id: int, chance: Chance | None) -> Difference | None:
        if not chance or not chance.has_drawn_timeouts or "set_timeout" in self.process.without or self.cluster.nodes[id].role == "leader":
            return None
        return self.one(f"set-randomized-election-timeout {id} timeout={chance.dice.randint(*DRAWN_TICKS)}")

    def wrong_with_leader(self) -> str:
        """What is wrong with who leads now, or nothing. Proposes a payload."""
        leader = self.leader()
        # Who leads and is no member has removed itself: whether it steps down is an option. Members may be nodes that aren't there.
        if not self.can_heal() or leader is not None and leader.id not in leader.config.voters():
            return ""
        if leader is None:
            return f"nobody leads after {MOST_TICKS} ticks, nor with clocks that tick by chance{'' if 'set_timeout' in self.process.without else ' or drawn timeouts'}"
        last = leader.commit
        for head in (f"propose {leader.id} {PAYLOAD}", "stabilize", f"tick-heartbeat {leader.id}", "stabilize"):
            if self.one(head) or self.found:
                return ""
        if leader.role != "leader" or leader.commit <= last:
            return f"{leader.id} leads, and commits nothing after {last}"
        behind = self.behind()
        return "" if behind is None else f"{behind} never catches up with {leader.id}"

    def one(self, head: str) -> Difference | None:
        self.failure = self.failure or next((failed for block in blocks_of([Step(head)]) if (failed := self.carry_out(self.length, block))), None)
        return self.failure

    def can_heal(self) -> bool:
        """Whether there are enough nodes: a quorum of the configuration of who has committed most, and of each of its voters', without nodes that aren't its
        voters: a member that was demoted may have a longer log than who needs its vote.
        """
        nodes = self.cluster.nodes
        newest = max(nodes.values(), key=lambda node: (node.commit, node.applied))
        voters = newest.config.voters() & set(nodes)
        configs = [newest.config, *(nodes[id].config for id in voters)]
        if not any(id in nodes[id].config.voters() for id in voters):
            return False  # none of them knows that it may campaign
        return all(both(config, lambda id: id in voters) for config in configs if config.voters()) and bool(newest.config.voters())

    def leader(self) -> AnyNode | None:
        leaders = [node for node in self.cluster.nodes.values() if node.role == "leader"]
        return max(leaders, key=lambda node: node.term) if leaders else None

    def behind(self) -> int | None:
        """A member that hasn't what its leader has, or None."""
        leader = self.leader()
        if leader is None:
            return None
        nodes = self.cluster.nodes
        members = [nodes[id] for id in sorted(leader.config.members()) if id in nodes]
        return next((node.id for node in members if node.term != leader.term or (node.commit, node.applied) < (leader.commit, leader.applied)), None)


def promise_run(blocks: Sequence[Block], process: Process, chosen: Comparison) -> PromiseRun:
    """One script on somebody's nodes."""
    process.reset()
    return PromiseRun(blocks, process, chosen, WatchedHosts(process, chosen.begins_at_0))


def made_by(blocks: Sequence[Block], process: Process, chosen: Comparison) -> collections.Counter[str]:
    """What a script makes the reference do."""
    cluster = Reference(chosen.kind, chosen.begins_at_0)
    for block in blocks:
        less = reduced(block, process.hello)
        if less is None:
            continue
        if less.lead and chosen.has_steps:
            cluster.carry_out(allowed(steps_above(less), process))
        cluster.run(directive_of(less))
    return cluster.made


def run_alone(blocks: Sequence[Block], process: Process, chosen: Comparison, has_all_reads: bool = True) -> PromiseResult:
    """One script on somebody's nodes. A promise that the reference with switches breaks too doesn't count."""
    run = promise_run(blocks, process, chosen)
    run.cluster.has_all_reads = has_all_reads
    result = run.result()
    if not result.broken or not issubclass(chosen.kind, Ruled):
        return result
    reference = WatchedReference(chosen.kind, chosen.begins_at_0)
    reference.has_all_reads = has_all_reads
    excused = {broken.kind() for broken in PromiseRun(blocks, process, chosen, reference).result().broken}
    return result._replace(broken=[broken for broken in result.broken if broken.kind() not in excused])
