"""Rules of what is saved when, of what a restart leaves, and of when a follower acknowledges and commits what an append brings."""
from __future__ import annotations

from typing import Any

from plain.node import Disk, Save
from plain.records import Message, Numbered, Ready

from .own import NONE, Ruled


# What a restored snapshot moves once it is saved.
MOVES_LATER = frozenset(("applied", "content"))


class SaveRules(Ruled):
    """What is saved when, and what a restart leaves."""

    serves = frozenset((
        "applied-when-saved", "compacting-saves", "restart-forgets-commit", "restart-keeps-applied", "saved-at-once", "saved-by-last-entry",
        "torn-snapshot-is-lost",
    ))

    def unsettled(self) -> frozenset[str]:
        return MOVES_LATER if self.restored and self.on("applied-when-saved") else NONE

    def save(self, done: Save) -> None:
        before, saved = self.durable, done.disk
        super().save(done)
        last = saved.base + saved.length
        if self.on("saved-by-last-entry") and saved.length and self.term_at(last) != saved.entries[saved.length - 1].term:
            self.durable = min(self.durable, before)

    def compact(self, index: int) -> None:
        super().compact(index)
        if not self.on("compacting-saves"):
            return
        self.disk, self.durable = self.whole(), self.last()
        own, self.waiting = [m for m in self.waiting if m.to == self.id], [m for m in self.waiting if m.to != self.id]
        for m in own:
            self.step(m)

    def whole(self) -> Disk:
        """A disk that has all."""
        return Disk(self.hard_state(), self.base, self.base_term, self.base_content, self.base_config, self.entries, len(self.entries))

    def restart(self, saved: str = "nothing") -> None:
        if self.on("saved-at-once"):
            self.disk = self.whole()
            saved = "nothing"
        if self.on("torn-snapshot-is-lost") and saved == "entries" and self.under_way and self.under_way.restored:
            saved = "nothing"
        super().restart(saved)

    def start_from(self, disk: Disk) -> None:
        before = (self.applied, self.content, self.config) if hasattr(self, "disk") else None
        super().start_from(disk)
        if self.on("restart-forgets-commit"):
            self.commit = disk.base
        if self.on("restart-keeps-applied") and before and before[0] <= self.last():
            self.applied, self.content, self.config = before
            self.commit = max(self.commit, self.applied)


class AcknowledgeRules(Ruled):
    """What a follower acknowledges, and what it commits, by what is saved."""

    serves = frozenset(("commit-waits-for-saved", "late-write-not-acknowledged", "saved-is-acknowledged"))
    has_nothing_new = False  # the append that is handled
    held: list[tuple[int, int, int]]  # commits of appends that aren't saved, after the index and the term of their last entry

    def start_from(self, disk: Disk) -> None:
        self.held = []
        super().start_from(disk)

    def send(self, kind: str, to: int, **parts: Any) -> None:
        if kind == "MsgAppResp" and self.has_nothing_new and not parts.get("refused") and self.on("saved-is-acknowledged"):
            parts["index"] = min(parts["index"], self.durable)
        super().send(kind, to, **parts)

    def last_told(self) -> int:
        return self.durable if self.on("saved-is-acknowledged") else super().last_told()

    def put_after(self, numbered: list[Numbered]) -> None:
        self.has_nothing_new = all(self.term_at(at) == entry.term for at, entry in numbered)
        super().put_after(numbered)

    def by_role(self, m: Message) -> None:
        before = self.commit
        super().by_role(m)
        if m.kind == "MsgApp" and self.commit > before and self.on("commit-waits-for-saved"):
            self.hold_commit(before)
        self.has_nothing_new = False

    def hold_commit(self, before: int) -> None:
        """What an append commits counts once its entries are saved; without new ones, as far as the log is saved."""
        if self.has_nothing_new:
            self.commit = max(before, min(self.commit, self.durable))
        else:
            self.held.append((self.last(), self.last_term(), self.commit))
            self.commit = before

    def ready(self) -> Ready:
        for index, term, commit in self.held if self.role == "follower" else ():
            if self.term_at(index) == term:
                self.commit = max(self.commit, commit)
        self.held = []
        if self.on("late-write-not-acknowledged"):
            is_now = self.role == "follower"
            self.waiting = [m for m in self.waiting if m.to == self.id or m.kind != "MsgAppResp" or is_now and m.term == self.term]
        return super().ready()
