"""Rules of what a member does with the appends and snapshots that it gets."""
from __future__ import annotations

from typing import Any

from plain.config import Config
from plain.records import Message, Snapshot

from .own import Ruled


class AppendRules(Ruled):
    """Which appends and snapshots a member takes, and what it answers."""

    serves = frozenset((
        "append-below-commit-counts", "compacted-is-refused", "old-append-answered", "outgoing-snapshot-ignored", "refusal-has-term", "refusal-hints-last",
        "skipped-snapshot-keeps-commit", "snapshot-always-installed", "strange-snapshot-ignored",
    ))

    def take_append(self, m: Message) -> None:
        if self.on("compacted-is-refused"):
            return self.take_compared(m)
        if self.on("append-below-commit-counts") and m.index < self.commit and not self.is_against_commit(m):
            return self.take_below_commit(m)
        if m.index < self.commit and self.on("old-append-answered"):
            return self.answer_append(m, index=self.commit)
        if m.index >= self.commit and self.term_at(m.index) != m.log_term:
            return self.refuse_append(m)
        return super().take_append(m)

    def refuse_append(self, m: Message) -> None:
        if self.on("refusal-has-term"):
            # Below its base it takes each term for 0, which always agrees; so does the leader.
            hint = self.hint(m.index, m.log_term) or max(self.base - 1, 0)
            return self.answer_append(m, refused=True, index=m.index, hint=hint, log_term=self.term_at(hint) or 0)
        if self.on("refusal-hints-last"):
            return self.answer_append(m, refused=True, index=m.index, hint=self.last_told())
        return super().take_append(m)

    def is_against_commit(self, m: Message) -> bool:
        """Whether an append has another entry than a committed one."""
        pairs = enumerate(m.entries, m.index + 1)
        return any(self.base < at <= self.commit and self.term_at(at) not in (None, entry.term) for at, entry in pairs)

    def take_below_commit(self, m: Message) -> None:
        if self.term_at(m.index) != m.log_term:
            return self.answer_append(m, refused=True, index=m.index, hint=self.last_told())
        self.put_after(list(enumerate(m.entries, m.index + 1)))
        self.commit = max(self.commit, min(m.commit, m.index + len(m.entries)))
        return self.answer_append(m, index=m.index + len(m.entries))

    def take_compared(self, m: Message) -> None:
        """An append is compared wherever it begins; the entry that the log begins after is known only if it is the last."""
        before = self.last_term() if m.index == self.last() else self.term_at(m.index) if m.index > self.base else None
        self.lead = m.sender
        if before != m.log_term and m.index > 0 or m.index < self.base:
            return self.send("MsgAppResp", m.sender, refused=True, index=m.index, hint=self.last())
        self.put_after(list(enumerate(m.entries, m.index + 1)))
        self.commit = max(self.commit, min(m.commit, self.last()))
        return self.answer_append(m, index=m.index + len(m.entries))

    def answer_append(self, m: Message, **parts: Any) -> None:
        self.lead, self.elapsed = m.sender, 0
        self.send("MsgAppResp", m.sender, **parts)

    # Snapshots

    def take_snapshot(self, m: Message) -> None:
        assert m.snapshot is not None
        index = m.snapshot.index
        if self.on("snapshot-always-installed"):
            return self.install(m, m.snapshot)
        if index > self.commit and self.is_left_out(m.snapshot.config):
            return self.answer_append(m, index=self.commit)
        if self.on("skipped-snapshot-keeps-commit") and index <= self.last() and self.has_all_of(m.snapshot):
            if index < self.last():
                return self.answer_append(m, index=index)
            # It is restored, as if the log were empty.
            self.entries, self.commit = [], self.base
        return super().take_snapshot(m)

    def has_all_of(self, snapshot: Snapshot) -> bool:
        """Whether the log has the entry at which a snapshot ends, or had it."""
        return self.term_at(snapshot.index) == snapshot.term or snapshot.index < self.last() and snapshot.index <= self.commit

    def install(self, m: Message, new: Snapshot) -> None:
        """Installs a snapshot, whatever is committed here; entries after it stay."""
        if new.index > self.last():
            self.base, self.base_term, self.base_content, self.base_config, self.entries = new.index, new.term, new.content, new.config, []
        self.durable = self.last()
        self.commit, self.applied = max(self.commit, new.index), new.index
        self.content, self.config, self.restored = new.content, new.config, True
        self.answer_append(m, index=new.index)

    def is_left_out(self, config: Config) -> bool:
        """Whether it takes a configuration for one that it isn't in."""
        if self.id in config.incoming | config.learners:
            return False
        return self.on("outgoing-snapshot-ignored" if self.id in config.outgoing else "strange-snapshot-ignored")
