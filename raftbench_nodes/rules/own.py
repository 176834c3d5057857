"""Nodes with switches, and the rules of a node's own vote and its own entries."""
from __future__ import annotations

from typing import Any

from plain.config import Change, both, vote_result
from plain.node import Node
from plain.records import Body, Message, Numbered

NONE: frozenset[str] = frozenset()


class Ruled(Node):
    """A plain node that knows which switches are on. A class of rules names those that it serves: without any of them it changes nothing, and is left out."""

    serves: frozenset[str] = NONE
    switches: frozenset[str] = NONE
    ticks = 0  # of its leaderships

    def on(self, name: str) -> bool:
        return name in self.switches

    # What some rules ask for, and others know

    def recount(self) -> None:
        """The configuration that the whole log comes to, if changes count when they are appended."""

    def is_unstable(self) -> bool:
        """Whether the last change isn't known to be committed."""
        return any(isinstance(entry.body, Change) for _, entry in self.entries_from(self.commit + 1))

    def has_lost_quorum(self) -> bool:
        """Whether too many answers are missing, if that is asked at each tick."""
        return False

    def last_told(self) -> int:
        """The index that a refusal hints at, if that is the last one."""
        return self.last()

    def lose(self, m: Message) -> None:
        """The bench drops a message of this node."""

    def unsettled(self) -> frozenset[str]:
        """Parts of the state that can't be compared now."""
        return NONE

    def entries_from(self, index: int, to: int | None = None) -> list[Numbered]:
        """Rules may commit what a log lacks, or apply again what was compacted: there are no such entries."""
        base, entries = self.base, self.entries
        first, last = max(index - base, 1), len(entries) if to is None else min(to - base, len(entries))
        return list(zip(range(base + first, base + last + 1), entries[first - 1:last])) if first <= last else []


class OwnRules(Ruled):
    """When own votes and own entries count, and in which order answers go out."""

    serves = frozenset((
        "answers-in-order", "answers-wait-for-log", "change-counts-when-appended", "commit-told-later", "last-saved-commits", "own-answers-at-once",
        "own-commit-applies-at-once", "own-entry-before-change", "own-vote-at-once", "saved-answers-in-order",
    ))
    is_quiet = False  # while nothing is sent to all

    def answer_itself(self, kind: str, **parts: Any) -> None:
        if not self.on("own-answers-at-once") and (kind == "MsgAppResp" or not self.on("own-vote-at-once")):
            super().answer_itself(kind, **parts)

    def waits(self, m: Message) -> bool:
        # An answer to itself that is no own one is to a snapshot that it was made to send itself.
        is_message = m.to != self.id or self.on("own-answers-at-once")
        return super().waits(m) and not (is_message and self.is_in_order(m))

    def is_in_order(self, m: Message) -> bool:
        """Whether an answer doesn't wait until all else is sent."""
        last = self.last() if self.on("answers-wait-for-log") else 0 if m.refused else m.index
        rests = m.kind == "MsgAppResp" and last > self.durable
        return self.on("answers-in-order") or self.on("saved-answers-in-order") and not rests

    def ask(self, kind: str, term: int, by_transfer: bool) -> None:
        if self.on("own-answers-at-once") or self.on("own-vote-at-once"):
            self.votes[self.id] = True
            if vote_result(self.config, self.votes) == "won":
                return self.win()
        return super().ask(kind, term, by_transfer)

    def win(self) -> None:
        if self.role != "candidate":
            return self.campaign("elected")
        self.is_quiet = True
        self.lead_on()
        self.is_quiet = False
        return None

    def tell_all(self) -> None:
        if not self.is_quiet:
            super().tell_all()

    def append(self, body: Body) -> bool:
        done = super().append(body)
        is_change = done and isinstance(body, Change)
        if is_change and not self.on("own-entry-before-change"):
            self.recount()
        view = self.views.get(self.id)
        if self.on("own-answers-at-once") and done and view:
            view.match, view.next = self.last(), self.last() + 1
            before, self.is_quiet = self.is_quiet, True
            self.commits()
            self.is_quiet = before
        if is_change and self.on("own-entry-before-change"):
            self.recount()
        return done

    def commits(self) -> bool:
        before = self.is_quiet
        self.is_quiet = before or self.on("commit-told-later")
        moved = self.commits_last_saved() if self.on("last-saved-commits") else super().commits()
        self.is_quiet = before
        return moved and not self.on("commit-told-later")

    def commits_last_saved(self) -> bool:
        """A leader looks only at the last entry that it has saved."""
        is_held = both(self.config, lambda id: id in self.views and self.views[id].match >= self.durable)
        if not is_held or self.durable <= self.commit or self.term_at(self.durable) != self.term:
            return False
        self.commit = self.durable
        self.tell_all()
        return True

    def advance(self) -> None:
        super().advance()
        for index, entry in self.entries_from(self.applied + 1, self.commit) if self.on("own-commit-applies-at-once") else ():
            self.apply(index, entry.body)

    def new_view(self, id: int, active: bool) -> None:
        super().new_view(id, active)
        if self.on("own-answers-at-once") and id == self.id:
            self.views[id].match = self.last()
