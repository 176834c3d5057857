"""Rules of a leader that declines proposals while it has too much that isn't applied."""
from __future__ import annotations

from plain.config import Change
from plain.records import Body

from .own import Ruled


class LimitRules(Ruled):
    """What counts, and what becomes of a change that is declined."""

    serves = frozenset(("declined-change-is-pending", "empty-is-limited"))
    size_before = size_applied = 0  # of what wasn't applied before the advance that is under way, and of what that applies

    def exceeds(self, body: Body) -> bool:
        if self.on("empty-is-limited") and not self.size_of(body):
            return 0 < self.options.max_uncommitted_size < self.uncommitted
        return super().exceeds(body)

    def decline_change(self, change: Change) -> None:
        super().decline_change(change)
        if self.on("declined-change-is-pending"):
            self.pending_change = self.last() + 1

    def advance(self) -> None:
        self.size_before, self.size_applied = self.uncommitted, 0
        super().advance()

    def apply(self, index: int, body: Body) -> None:
        self.size_applied += self.size_of(body)
        super().apply(index, body)

    def leave_by_itself(self) -> None:
        """What is being applied may still count for the entry that leaves a joint configuration."""
        is_due = self.role == "leader" and self.config.is_joint() and self.config.auto and self.applied >= self.pending_change
        if is_due and self.on("empty-is-limited") and self.would_exceed(self.size_before, Change("auto", ())):
            self.pending_change = self.last()
        else:
            super().leave_by_itself()

    def would_exceed(self, size: int, body: Body) -> bool:
        now, self.uncommitted = self.uncommitted, size
        answer = self.exceeds(body)
        self.uncommitted = now
        return answer

    def append_leaving(self, change: Change) -> bool:
        if not self.on("empty-is-limited"):
            return super().append_leaving(change)
        done = self.append(change)
        self.uncommitted = max(0, self.size_before + self.size_of(change) - self.size_applied) if done else self.uncommitted
        return done
