"""Rules of a leader that never probes, as Open vSwitch's."""
from __future__ import annotations

from typing import Any

from plain.node import View
from plain.records import Body, Entry, Message

from .own import Ruled

# The context of an answer to a snapshot.
INSTALLED = -1


class StreamRules(Ruled):
    """A leader sends each new entry at once to who was sent all before it. Whoever answers gets all that it then lacks, which counts as sent only once it is
    acknowledged. Heartbeats, and what tells a commit, have no entries."""

    serves = frozenset(("leader-never-probes",))
    is_committing = False
    installing = 0  # the index of the snapshot that is handled

    def new_view(self, id: int, active: bool) -> None:
        super().new_view(id, active)
        if id == self.id:
            self.views[id].match = self.last()

    def append(self, body: Body) -> bool:
        done = super().append(body)
        for id in self.others() if done else ():
            view = self.views[id]
            if view.next == self.last():
                self.send_append(id, view, (self.entries[-1],))
                view.next += 1
        return done

    def commits(self) -> bool:
        before, self.is_committing = self.is_committing, True
        moved = super().commits()
        self.is_committing = before
        return moved

    def tell_all(self) -> None:
        """New entries are sent when they are appended, so that all are told of a commit alone."""
        if self.is_committing:
            super().tell_all()

    def sends(self, id: int, mode: str) -> None:
        if id != self.id and id in self.views:
            self.send_append(id, self.views[id], ())

    def send_append(self, id: int, view: View, entries: tuple[Entry, ...]) -> None:
        if view.next <= self.base:
            self.send("MsgApp", id, index=view.next - 1, log_term=self.base_term, commit=self.commit, entries=entries)
        else:
            super().send_append(id, view, entries)

    def send_lacking(self, id: int, view: View) -> None:
        """A snapshot, but one at a time; or all entries that a member lacks."""
        if view.next > self.base:
            entries = tuple(entry for _, entry in self.entries_from(view.next))
            if entries:
                self.send_append(id, view, entries)
        elif not view.pending:
            snapshot = self.snapshot()
            view.pending = snapshot.index
            self.send("MsgSnap", id, snapshot=snapshot)

    # Answers

    def take_answer(self, m: Message) -> None:
        if m.context != INSTALLED:
            super().take_answer(m)
        elif m.sender in self.views:
            self.take_installed(m, self.views[m.sender])

    def take_installed(self, m: Message, view: View) -> None:
        view.pending = 0
        if m.index != self.base:
            return self.send_lacking(m.sender, view)
        view.next = self.base + 1
        return self.send_append(m.sender, view, tuple(entry for _, entry in self.entries_from(view.next)))

    def take_acceptance(self, m: Message, view: View) -> None:
        index = self.acknowledged(m)
        view.next = max(view.next, index + 1)
        if index > view.match:
            view.match = index
            self.commits()
        if m.sender != self.id:
            self.send_lacking(m.sender, view)

    def take_refusal(self, m: Message, view: View) -> None:
        view.next = max(1, min(view.next - 1, m.hint + 1))
        self.send_lacking(m.sender, view)

    def lose(self, m: Message) -> None:
        """The connection breaks, so that another snapshot may go."""
        super().lose(m)
        if m.to in self.views:
            self.views[m.to].pending = 0

    # A member's part

    def take_snapshot(self, m: Message) -> None:
        assert m.snapshot is not None
        self.installing = m.snapshot.index
        super().take_snapshot(m)
        self.installing = 0

    def send(self, kind: str, to: int, **parts: Any) -> None:
        if self.installing and kind == "MsgAppResp":
            parts |= {"index": self.installing, "context": INSTALLED}
        super().send(kind, to, **parts)
