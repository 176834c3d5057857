"""Nodes that break one promise each, and scripts that show it; and helpers that several tests of nodes share."""
from __future__ import annotations

import re
from collections.abc import Iterator, Sequence

from plain.cluster import Cluster
from plain.config import Config
from plain.node import Node
from plain.records import Body, Entry, Message, Options, Read, Ready
from raftbench_nodes.compare.runner_steps import step_of, steps_above
from raftbench_nodes.compare.script import Step, blocks_of
from raftbench_nodes.explore.library import classics
from raftbench_nodes.promises.checker import PROMISES, Promises, name_of
from raftbench_nodes.promises.clusters import WatchedReference
from raftbench_nodes.protocol.encoding import WireMessage
from tests.harness import TOP

Checks = Iterator[tuple[str, "str | None"]]


def is_equal(came: object, wanted: object) -> str | None:
    return None if came == wanted else f"{came!r}, and not {wanted!r}"


def script(*lines: str) -> list[Step]:
    """Steps, one a line; the runner's steps stand before their directive, with ` / ` between."""
    return [Step(parts[-1], (), tuple(step for part in parts[:-1] if (step := step_of(part)))) for parts in (line.split(" / ") for line in lines)]


def broken_by(kind: type[Node], *lines: str) -> set[str]:
    cluster = WatchedReference(kind)
    cluster.sends_early = True
    for block in blocks_of(script(*lines)):
        cluster.carry_out(steps_above(block))
        cluster.look_at_logs()
        cluster.run(block.directive())
        cluster.look_at_logs()
    return set(map(name_of, cluster.promises.broken))


class ForgetsVote(Node):
    def restart(self, saved: str = "nothing") -> None:
        super().restart(saved)
        self.vote = 0


class ForgetsEntries(Node):
    def restart(self, saved: str = "nothing") -> None:
        super().restart(saved)
        self.entries, self.durable = [], self.base


class Acknowledges(Node):
    def send(self, kind: str, to: int, **parts: object) -> None:
        if kind == "MsgAppResp" and to != self.id and not parts.get("refused"):
            parts["index"] = self.last() + 1
        super().send(kind, to, **parts)


class VotesForAnyLog(Node):
    def is_new(self, term: int, index: int) -> bool:
        return True


class ForgetsWithinTerm(Node):
    def take_beat(self, m: Message) -> None:
        super().take_beat(m)
        self.vote = 0


class CountsLateVotes(Node):
    def step(self, m: Message) -> None:
        super().step(m._replace(term=max(m.term, self.term)) if m.kind == "MsgVoteResp" else m)


class CommitsWhatItHears(Node):
    def take_append(self, m: Message) -> None:
        super().take_append(m)
        self.commit = max(self.commit, min(m.commit, self.last()))


class CutsBehindSnapshots(Node):
    def take_snapshot(self, m: Message) -> None:
        super().take_snapshot(m)
        assert m.snapshot
        self.entries = self.entries[:m.snapshot.index - self.base]
        self.durable = min(self.durable, self.last())


class SavesNoVote(Node):
    def ready(self) -> Ready:
        ready = super().ready()
        return ready._replace(hard=ready.hard and ready.hard._replace(vote=0))


class AnswersNobody(Node):
    def ready(self) -> Ready:
        return super().ready()._replace(reads=(Read(9, self.commit),))


class SendsBeforeSaving(Node):
    """Acknowledgements go out before the save, as the thesis allows for what needs no disk, and for nothing else (10.2.1)."""

    def ready(self) -> Ready:
        ready = super().ready()
        return ready._replace(messages=[sent_early(m) for m in ready.messages])


def sent_early(m: Message) -> WireMessage:
    wired = WireMessage(*m)
    wired.json = {"before_save": m.kind == "MsgAppResp"}
    return wired


class CommitsAlone(Node):
    def commits(self) -> bool:
        moves, self.commit = self.last() > self.commit, self.last()
        return moves


class ForgetsItsOwnLast(Node):
    """A leader that loses its last entry when it proposes again."""

    def propose(self, body: Body) -> None:
        if self.role == "leader" and self.last() > self.commit:
            self.entries = self.entries[:-1]
        super().propose(body)


class TakesAllForActive(Node):
    def new_view(self, id: int, active: bool) -> None:
        super().new_view(id, True)


def classic(name: str) -> tuple[str, ...]:
    """The lines of a classic."""
    return tuple(step.text() for given in classics() if given.title == f"{name}.txt" for step in given.steps)


ASKED = ("add-nodes 3 voters=(1,2,3) index=10", "campaign 1", "process-ready 1", "deliver-msgs 2", "process-ready 2")
BEGUN = ("add-nodes 3 voters=(1,2,3) index=10", "campaign 1", "stabilize", "propose 1 a", "stabilize")
BREAKING: list[tuple[type[Node], tuple[str, ...], set[str]]] = [
    (Node, (*BEGUN, "# node: restart 2 / raft-state", "# node: crash 1 before save / stabilize"), set()),
    (Node, (*BEGUN, "campaign 2", "# node: crash 2 before save / raft-state", "campaign 2", "stabilize"), set()),
    (ForgetsVote, (*BEGUN, "# node: restart 2 / raft-state"), {"a restart keeps term and vote"}),
    (ForgetsEntries, (*BEGUN, "# node: restart 2 / raft-state"), {"a restart keeps saved entries", "a restart keeps acknowledged entries"}),
    (ForgetsEntries, ("add-nodes 3 voters=(1,2,3) index=10", "# node: restart 2 / raft-state"), set()),
    (Acknowledges, BEGUN, {"acknowledged entries are held"}),
    (VotesForAnyLog, (*BEGUN, "propose 1 b", "stabilize 1 2", "deliver-msgs drop=3", "campaign 3", "process-ready 3", "deliver-msgs 2"), {"votes go to new logs"}),
    (ForgetsWithinTerm, (*BEGUN, "tick-heartbeat 1", "process-ready 1", "deliver-msgs 2"), {"one vote per term"}),
    (CountsLateVotes, (*ASKED, "campaign 1", "process-ready 1", "deliver-msgs 1 type=MsgVoteResp"), {"earlier terms change nothing", "a leader has a quorum of votes"}),
    (CommitsWhatItHears, classic("commit-past-the-append"), {"followers commit what they are told", "no two nodes commit different entries", "no two nodes apply different entries"}),
    (CutsBehindSnapshots, classic("snapshot-below-the-tail"), {"acknowledged entries are held", "a quorum holds what a leader commits"}),
    (SavesNoVote, BEGUN, {"what is saved is the state"}),
    (AnswersNobody, BEGUN, {"a read is answered where it was asked"}),
    (SendsBeforeSaving, (*BEGUN, "# node: restart 2 / raft-state", "propose 1 b", "stabilize"), set()),
    (SendsBeforeSaving, (*BEGUN, "propose 1 b", "process-ready 1", "deliver-msgs 2", "# node: crash 2 before save / raft-state"), {"a restart keeps acknowledged entries"}),
    (Node, (*BEGUN, "propose 1 b", "process-ready 1", "deliver-msgs 2", "# node: crash 2 before save / raft-state"), set()),
    (ForgetsItsOwnLast, (*BEGUN, "propose 1 b", "propose 1 c"), {"a leader only appends"}),
    (Node, ("add-nodes 3 voters=(1,2,3) index=10 checkquorum=true", "campaign 1", "stabilize 1 2", "propose 1 b", "stabilize"), set()),
    (TakesAllForActive, ("add-nodes 3 voters=(1,2,3) index=10 checkquorum=true", "campaign 1", "stabilize 1 2"), {"active members were heard"}),
    (TakesAllForActive, ("add-nodes 3 voters=(1,2,3) index=10", "campaign 1", "stabilize 1 2"), set()),
    (CommitsAlone, ("add-nodes 3 voters=(1,2,3) index=10", "campaign 1", "process-ready 1", "deliver-msgs 2", "process-ready 2", "deliver-msgs 1", "propose 1 a", "process-ready 1"), {"a quorum holds what a leader commits"}),
]


def part_promises_of_restarts() -> Checks:
    for number, (kind, lines, wanted) in enumerate(BREAKING, 1):
        yield f"{kind.__name__}, {number}", is_equal(broken_by(kind, *lines), wanted)
    shown = (TOP / "raftbench_nodes/promises/checker.py").read_text() + (TOP / "raftbench_nodes/promises/one_step.py").read_text()
    noted = set(re.findall(r"(?:note\(f\"|note\(self\.length, f\"|note\(place, f\")([a-z',\- ]+):", shown + (TOP / "raftbench_nodes/promises/run.py").read_text()))
    yield "each promise is in the table", None if noted <= set(PROMISES) and len(PROMISES) == 26 else f"{noted - set(PROMISES)}"


class Reported(Node):
    """A node that has these numbers and this log, whose entries are terms and bodies from index 1 on."""

    def __init__(
        self, id: int, term: int, role: str = "follower", vote: int = 0, commit: int = 0, applied: int = 0, content: bytes = b"",
        log: Sequence[tuple[int, bytes]] = (),
    ) -> None:
        super().__init__(id, Config(frozenset()), 0, content, Options())
        self.term, self.role, self.vote, self.commit, self.applied = term, role, vote, commit, applied
        self.entries = [Entry(*entry) for entry in log]


A, B = (1, b"a"), (1, b"b")
# Nodes, one after the other, and the promise that is broken by it, if one is (Ongaro's thesis, figure 3.2, and 3.4).
REPORTED = [
    ("one leader per term", [Reported(1, 2, "leader"), Reported(2, 2, "leader")]),
    (None, [Reported(1, 2, "leader"), Reported(2, 3, "leader"), Reported(1, 4, "leader")]),
    ("one vote per term", [Reported(1, 2, vote=1), Reported(1, 2, vote=2)]),
    ("one vote per term", [Reported(1, 2, vote=1), Reported(1, 2), Reported(1, 2, vote=3)]),
    (None, [Reported(1, 2, vote=1), Reported(1, 3, vote=2), Reported(2, 3, vote=1)]),
    ("terms and commits don't fall", [Reported(1, 2), Reported(1, 1)]),
    ("terms and commits don't fall", [Reported(1, 2, commit=1, log=[A]), Reported(1, 2, log=[A])]),
    ("terms and commits don't fall", [Reported(1, 2, commit=1, applied=1, log=[A]), Reported(1, 2, commit=1, log=[A])]),
    ("logs match", [Reported(1, 2, log=[A, (2, b"c")]), Reported(2, 2, log=[B, (2, b"c")])]),
    ("logs match", [Reported(1, 2, log=[A]), Reported(2, 2, log=[B])]),
    (None, [Reported(1, 2, log=[A, (2, b"c")]), Reported(2, 3, log=[A, (3, b"d")])]),
    ("no two nodes commit different entries", [Reported(1, 2, commit=1, log=[A]), Reported(2, 2, commit=1, log=[(2, b"a")])]),
    ("no two nodes apply different entries", [Reported(1, 2, commit=1, applied=1, content=b"a", log=[A]), Reported(2, 2, commit=1, applied=1, content=b"aa", log=[A])]),
    ("a leader has all committed entries", [Reported(1, 2, commit=1, log=[A]), Reported(2, 3, "leader")]),
    ("a leader has all committed entries", [Reported(1, 2, commit=1, log=[A]), Reported(2, 3, "leader", log=[(3, b"")])]),
    (None, [Reported(1, 2, commit=1, log=[A]), Reported(2, 3, "leader", log=[A, (3, b"")])]),
    ("a leader only appends", [Reported(1, 2, "leader", log=[A, (2, b"")]), Reported(1, 2, "leader", log=[A])]),
    (None, [Reported(1, 2, "leader", log=[A, (2, b"")]), Reported(1, 2, log=[A]), Reported(1, 3, "leader", log=[A])]),
]


def part_promises() -> Checks:
    """Each promise, broken and kept."""
    for number, (wanted, nodes) in enumerate(REPORTED, 1):
        promises, cluster = Promises(), Cluster()
        for node in nodes:
            cluster.nodes[node.id], cluster.touched = node, {node.id}
            promises.look(node, cluster.nodes)
            promises.look_at_logs(cluster.nodes, cluster.touched)
        broken = set(map(name_of, promises.broken))
        yield f"{wanted or 'nothing'} is broken, {number}", None if broken == ({wanted} if wanted else set()) else f"{promises.broken}"
