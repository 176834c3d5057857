"""Counts what a script makes nodes do (elections, crashes, conflicts ..), by what the reference does in it. If nothing was found, the counts say how
much was tried.
"""
from __future__ import annotations

import collections
import dataclasses
from typing import Any, Callable, Iterator, Mapping, Sequence

from plain.node import Node
from plain.records import Entry, Message

# In the order in which they are shown. What isn't met at all is marked.
THINGS = (
    "elections won", "votes refused by log", "conflicts cut", "snapshots restored", "snapshots over other entries", "changes applied", "leaders removed",
    "crashes", "crashes with unsaved entries", "reads at deposed leaders", "transfers of the lead", "leads lost without a quorum",
)


def made_line(made: Mapping[str, int]) -> str:
    """What nodes were made to do, and how often; what they never did stands last."""
    done = ", ".join(f"{made[what]} {what}" for what in THINGS if made.get(what))
    never = ", ".join(what for what in THINGS if not made.get(what))
    return f"what the nodes were made to do: {done or 'nothing'}{f'; NEVER: {never}' if never else ''}"


@dataclasses.dataclass(slots=True)
class NodeBefore:
    """What a node was before a call."""

    role: str
    term: int
    base: int
    last: int
    durable: int
    commit: int
    entries: Sequence[Entry]
    config: object

    @classmethod
    def of(cls, node: Node) -> NodeBefore:
        return cls(node.role, node.term, node.base, node.last(), node.durable, node.commit, node.entries, node.config)


def note_start(made: collections.Counter[str], node: Node) -> None:
    """Counts a lone voter that leads from its start, as some libraries' do."""
    if node.role == "leader":
        made["elections won"] += 1


Made = collections.Counter[str]


def note_call(made: Made, what: str, before: NodeBefore, node: Node, message: Message | None, nodes: Mapping[int, Node]) -> None:
    """Counts what a call made a node do. `what` is its name, or the type of the message that it brought."""
    if node.role == "leader" and before.role != "leader":
        made["elections won"] += 1
    if what in NOTED:
        for thing in NOTED[what](before, node, message, nodes):
            made[thing] += 1


# What is counted of a call or a message: each yields names of `THINGS`.
Noting = Callable[[NodeBefore, Node, Any, Mapping[int, Node]], Iterator[str]]


def noted_restart(before: NodeBefore, node: Node, *_: object) -> Iterator[str]:
    yield "crashes"
    if before.durable < before.last:
        yield "crashes with unsaved entries"
    if node.role == before.role == "leader":
        yield "elections won"


def noted_read(before: NodeBefore, node: Node, _: object, nodes: Mapping[int, Node]) -> Iterator[str]:
    if before.role == "leader" and any(other.role == "leader" and other.term > node.term for other in nodes.values()):
        yield "reads at deposed leaders"


def noted_tick(before: NodeBefore, node: Node, *_: object) -> Iterator[str]:
    if before.role == "leader" and node.role != "leader":
        yield "leads lost without a quorum"


def noted_advance(before: NodeBefore, node: Node, *_: object) -> Iterator[str]:
    if node.config is not before.config:
        yield "changes applied"
        if before.role == "leader" and not node.config.is_voter(node.id):
            yield "leaders removed"


def noted_vote(_: NodeBefore, node: Node, m: Message, __: object) -> Iterator[str]:
    if m.term == node.term and node.vote != m.sender and not node.is_new(m.log_term, m.index):
        yield "votes refused by log"


def noted_append(before: NodeBefore, node: Node, m: Message, _: object) -> Iterator[str]:
    if node.entries is not before.entries:
        pairs = enumerate(m.entries, m.index - before.base)
        if any(0 <= at < len(before.entries) and before.entries[at].term != entry.term for at, entry in pairs):
            yield "conflicts cut"


def noted_snapshot(before: NodeBefore, node: Node, *_: object) -> Iterator[str]:
    if node.base != before.base:
        yield "snapshots restored"
        if before.last > before.commit:
            yield "snapshots over other entries"


def noted_handing_over(before: NodeBefore, node: Node, *_: object) -> Iterator[str]:
    if before.role == "follower" and node.role == "candidate":
        yield "transfers of the lead"


NOTED: dict[str, Noting] = {
    "restart": noted_restart, "read": noted_read, "tick": noted_tick, "advance": noted_advance, "MsgVote": noted_vote, "MsgApp": noted_append,
    "MsgSnap": noted_snapshot, "MsgTimeoutNow": noted_handing_over,
}
