"""Rules of what a leader sends to its members, and of what it makes of their answers."""
from __future__ import annotations

from plain.node import View
from plain.records import Body, Entry, Message, Snapshot

from .own import Ruled


class ViewRules(Ruled):
    """Appends and snapshots that a leader sends, and their answers."""

    serves = frozenset((
        "acknowledged-past-last", "change-tells-all", "empty-probe-goes-on", "full-window-frees", "full-window-no-snapshot", "last-snapshot-sent",
        "new-leader-asks-first", "no-empty-after-acknowledged", "no-snapshot-unheard", "probe-ends-above", "refusal-goes-below-match", "refusal-has-term",
        "snapshot-ends-in-probe", "snapshot-keeps-next",
    ))
    is_new_leader = False
    is_acknowledging = False  # while an acknowledgement is handled

    def lead_on(self) -> None:
        self.is_new_leader = True
        super().lead_on()

    def append(self, body: Body) -> bool:
        """A new leader may send its members an empty append before it has an entry of its term. A lone voter sends none."""
        is_new, self.is_new_leader = self.is_new_leader, False
        if is_new and self.on("new-leader-asks-first") and self.config.voters() != {self.id}:
            self.tell_all()
        return super().append(body)

    # What it sends

    def sends(self, id: int, mode: str) -> None:
        view = self.views.get(id)
        if self.is_acknowledging and self.on("no-empty-after-acknowledged"):
            mode = "news"
        if view is None or id == self.id or view.next - 1 >= self.base:
            return super().sends(id, mode)
        if view.is_paused(self.options.inflight):
            return None if self.on("full-window-no-snapshot") and view.state == "replicate" else super().sends(id, mode)
        if self.on("no-snapshot-unheard") and not view.active or self.on("change-tells-all") and mode == "news" and view.next > self.last():
            return None
        was = view.next
        super().sends(id, mode)
        if self.on("snapshot-keeps-next"):
            view.next = was
        return None

    def send_news(self, id: int, view: View) -> None:
        was_waiting, has_news = view.waiting, view.next <= self.last()
        super().send_news(id, view)
        if self.on("empty-probe-goes-on") and view.state == "probe" and not has_news:
            view.waiting = was_waiting

    def send_append(self, id: int, view: View, entries: tuple[Entry, ...]) -> None:
        if view.next - 1 > self.last():
            self.send("MsgApp", id, index=view.next - 1, commit=self.commit)
        else:
            super().send_append(id, view, entries)

    def snapshot(self) -> Snapshot:
        return Snapshot(self.base, self.base_term, self.base_content, self.base_config) if self.on("last-snapshot-sent") else super().snapshot()

    # Answers

    def acknowledged(self, m: Message) -> int:
        return m.index if self.on("acknowledged-past-last") else super().acknowledged(m)

    def take_beat_answer(self, m: Message) -> None:
        view = self.views.get(m.sender)
        if view is None or not self.on("full-window-frees"):
            return super().take_beat_answer(m)
        view.active, view.waiting = True, False
        if view.state == "replicate" and len(view.window) >= self.options.inflight:
            view.window = view.window[1:]
        if view.match < self.last():
            self.sends(m.sender, "tell")
        return None

    def take_answer(self, m: Message) -> None:
        self.is_acknowledging = not m.refused
        super().take_answer(m)
        self.is_acknowledging = False

    def take_acceptance(self, m: Message, view: View) -> None:
        if self.on("snapshot-ends-in-probe") and view.state == "snapshot" and self.acknowledged(m) >= max(view.pending, view.match + 1):
            self.probe_after_snapshot(m, view)
        elif self.on("probe-ends-above"):
            self.take_higher(m, view)
        else:
            super().take_acceptance(m, view)

    def probe_after_snapshot(self, m: Message, view: View) -> None:
        view.match = self.acknowledged(m)
        view.to_probe()
        view.waiting = True
        self.commits()

    def take_higher(self, m: Message, view: View) -> None:
        """An acknowledgement counts if it is above what the member is known to hold."""
        index, was_paused = self.acknowledged(m), view.is_paused(self.options.inflight)
        view.next = max(view.next, index + 1)
        if index <= view.match:
            return
        view.match = index
        if view.state == "probe" or view.state == "snapshot" and view.match >= view.pending:
            view.to_replicate()
        elif view.state == "replicate":
            view.free_through(index)
        view.waiting = False
        if not self.commits() and was_paused:
            self.sends(m.sender, "tell")
        self.sends(m.sender, "news")
        self.send_rest(m.sender)
        if m.sender == self.transferee and view.match == self.last():
            self.hand_over(m.sender)

    def take_refusal(self, m: Message, view: View) -> None:
        if self.on("refusal-has-term") and m.log_term:
            m = m._replace(hint=self.hint(m.hint, m.log_term) or min(m.hint, max(self.base - 1, 0)))
        if self.on("refusal-goes-below-match") and view.state == "probe" and m.index == view.next - 1:
            view.next, view.waiting = max(1, min(m.index, m.hint + 1)), False
            return self.sends(m.sender, "tell")
        return super().take_refusal(m, view)
