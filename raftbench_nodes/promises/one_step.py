"""Checks the promises that a single call shows: what a node may do at a message, given its state before. A broken promise is a text that begins with
the promise's name.
"""
from __future__ import annotations

from typing import Callable, NamedTuple

from plain.records import AnyNode, Message, Ready

# What a leader tells a follower about entries.
FROM_LEADERS = ("MsgApp", "MsgHeartbeat", "MsgSnap")


class StateBefore(NamedTuple):
    """What was known of a node after its last call."""

    role: str
    term: int
    vote: int
    commit: int
    applied: int
    config: object


class LeaderNews(NamedTuple):
    """What a node may commit: what it had committed when it began or led, and what the leaders of a term told it, up to what it matched."""

    term: int
    known: int  # as a leader, at its start, or by a snapshot or heartbeat
    commit: int  # of the appends of this term
    matched: int

    def most(self) -> int:
        return max(self.known, min(self.commit, self.matched))

    def after(self, m: Message) -> LeaderNews:
        told = self if m.term <= self.term else LeaderNews(m.term, self.most(), 0, 0)
        if m.kind == "MsgSnap" and m.snapshot:
            return told._replace(known=max(told.known, m.snapshot.index))
        if m.kind == "MsgHeartbeat":
            return told._replace(known=max(told.known, m.commit))
        return told._replace(commit=max(told.commit, m.commit), matched=max(told.matched, m.index + len(m.entries)))


class StepPromises:
    """`note` takes what is broken; `shows` says whether the nodes show parts of their state."""

    def __init__(self, note: Callable[[str], None], shows: Callable[..., bool]) -> None:
        self.note, self.shows = note, shows
        self.told: dict[int, LeaderNews] = {}

    def look(self, node: AnyNode, was: StateBefore | None, message: Message | None) -> None:
        """After a call that is no restart; `message` is the one that it brought."""
        if was is None:
            self.told[node.id] = LeaderNews(node.term, node.commit, 0, 0)
            return
        if message:
            self.look_at_term(node, was, message)
            self.look_at_vote(node, was, message)
        if self.shows("vote") and was.vote and not node.vote and was.term == node.term:
            self.note(f"one vote per term: {node.id} forgets in term {node.term} that it voted for {was.vote}")
        self.look_at_commit(node, was, message)

    def begin_again(self, node: AnyNode) -> None:
        """A node has started again."""
        self.told[node.id] = LeaderNews(node.term, max(node.commit, self.told[node.id].most() if node.id in self.told else 0), 0, 0)

    def look_at_term(self, node: AnyNode, was: StateBefore, m: Message) -> None:
        if not 0 < m.term < was.term:
            return
        shown = [name for name in ("role", "term", "vote") if self.shows(name)]
        changed = [name for name in shown if getattr(node, name) != getattr(was, name)]
        if changed:
            what = ", ".join(f"{name} {getattr(was, name)} to {getattr(node, name)}" for name in changed)
            self.note(f"earlier terms change nothing: {m.kind} of term {m.term} from {m.sender} changes {node.id} in term {was.term}: {what}")

    def look_at_vote(self, node: AnyNode, was: StateBefore, m: Message) -> None:
        """Whether a vote that this message got goes to a log at least as new."""
        is_new = node.vote == m.sender and node.term == m.term and (was.vote != node.vote or was.term != node.term)
        if m.kind != "MsgVote" or not is_new or not self.shows("vote", "log"):
            return
        mine = last_of(node)
        if mine > (m.log_term, m.index):
            self.note(f"votes go to new logs: {node.id}, whose log ends with {mine[0]}/{mine[1]}, votes for {m.sender}, whose ends with {m.log_term}/{m.index}")

    def look_at_commit(self, node: AnyNode, was: StateBefore, m: Message | None) -> None:
        told = self.told[node.id]
        if m and m.kind in FROM_LEADERS and m.term >= told.term:
            told = told.after(m)
        if "leader" in (node.role, was.role):
            told = told._replace(known=max(told.known, node.commit))
        self.told[node.id] = told
        if self.shows("commit") and node.commit > max(was.commit, told.most()):
            self.note(f"followers commit what they are told: {node.id} commits {node.commit}, and was told {told.most()}")
            self.told[node.id] = told._replace(known=node.commit)

    def look_at_ready(self, node: AnyNode, ready: Ready) -> None:
        """Whether what is to be saved and applied is the node's state."""
        if not self.shows("ready"):
            return
        if ready.hard and self.shows("vote") and ready.hard[:2] != (node.term, node.vote):
            self.note(f"what is saved is the state: {node.id} saves term {ready.hard.term} and vote {ready.hard.vote}, and has {node.term} and {node.vote}")
        if not self.shows("log") or not (ready.entries or ready.committed):
            return
        log = dict(node.entries_from(node.base + 1))
        for name, entries in (("saves", ready.entries), ("applies", ready.committed)):
            wrong = next((index for index, entry in entries if index > node.base and log.get(index) != entry), None)
            if wrong is not None:
                self.note(f"what is saved is the state: {node.id} {name} at {wrong} another entry than its log has there")


def last_of(node: AnyNode) -> tuple[int, int]:
    """The last entry of a log, as it is compared: its term and its index."""
    entries = node.entries_from(node.base + 1)
    return (entries[-1][1].term, entries[-1][0]) if entries else (node.base_term, node.base)
