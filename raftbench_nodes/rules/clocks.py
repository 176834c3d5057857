"""Rules of time: whose timeouts pass, when a leader misses its quorum, and what it sends at a tick."""
from __future__ import annotations

from plain.config import both
from plain.node import View
from plain.records import Message

from .own import Ruled

# A leader that looks at the last answers of its quorum may miss them for so many ticks.
MOST_UNHEARD = 3


class QuorumRules(Ruled):
    """When a leader steps down without a quorum, and what it does then."""

    serves = frozenset(("lost-quorum-asks-at-once", "quorum-by-last-answers"))
    led_at = 0
    heard: dict[int, int] = {}

    def lead_on(self) -> None:
        self.led_at, self.heard = self.ticks, {}
        super().lead_on()

    def new_view(self, id: int, active: bool) -> None:
        super().new_view(id, active)
        self.heard[id] = self.ticks

    def step(self, m: Message) -> None:
        self.hear(m)
        super().step(m)

    def hear(self, m: Message) -> None:
        """Notes an answer of this leadership. A heartbeat's is one whatever its term is, if that isn't looked at."""
        is_beat = m.kind == "MsgHeartbeatResp" and m.term > self.term and self.on("heartbeat-answers-have-no-term")
        if self.role == "leader" and (is_beat or m.kind in ("MsgAppResp", "MsgHeartbeatResp") and m.term == self.term):
            self.heard[m.sender] = self.ticks

    def has_lost_quorum(self) -> bool:
        looks = self.on("quorum-by-last-answers") and self.role == "leader" and self.options.checkquorum
        return looks and not both(self.config, lambda id: id == self.id or self.ticks - self.heard.get(id, self.led_at) <= MOST_UNHEARD)

    def keeps_lead(self) -> bool:
        if self.on("quorum-by-last-answers"):
            self.elapsed = 0
            self.end_transfer()
        is_kept = self.on("quorum-by-last-answers") or super().keeps_lead()
        if not is_kept and self.on("lost-quorum-asks-at-once"):
            self.campaign()
        return is_kept

    def tick(self) -> None:
        self.ticks += 1
        if self.has_lost_quorum():
            self.follow(self.term, 0)
        else:
            super().tick()


class ClockRules(Ruled):
    """Whose timeouts pass."""

    serves = frozenset(("nonvoter-times-out", "unsaved-snapshot-waits"))

    def tick(self) -> None:
        if self.on("unsaved-snapshot-waits") and self.role != "leader" and self.restored:
            self.elapsed += 1
        else:
            super().tick()
            self.time_out_nonvoter()

    def time_out_nonvoter(self) -> None:
        """The timeout of a node that doesn't vote may pass too."""
        is_due = self.role != "leader" and self.elapsed >= self.timeout and not self.config.is_voter(self.id)
        if self.on("nonvoter-times-out") and is_due:
            self.elapsed = 0
            self.campaign()


class BeatRules(Ruled):
    """What a leader sends at a tick: heartbeats that are appends, and appends that were lost or refused."""

    serves = frozenset(("heartbeats-append", "lost-append-goes-again", "refused-append-waits"))
    lost: frozenset[int] = frozenset()  # members that get an append at the next tick
    is_held = False  # while nothing is sent

    def tick(self) -> None:
        super().tick()
        self.beat_snapshots()
        again, self.lost = frozenset(self.views) - {self.id} if self.on("heartbeats-append") else self.lost, frozenset()
        for id in sorted(again & self.views.keys() if self.role == "leader" else ()):
            self.views[id].waiting = False
            self.sends(id, "tell")

    def beat_snapshots(self) -> None:
        """Heartbeats that are appends have no entries while a snapshot is on its way."""
        for id in self.others() if self.on("heartbeats-append") else ():
            if self.views[id].state == "snapshot":
                self.send("MsgApp", id, index=self.last(), log_term=self.last_term(), commit=self.commit, entries=())

    def beat(self, id: int, read: int = 0) -> None:
        """Heartbeats that are appends have no message of their own, but those that a read asks for."""
        if read or not self.on("heartbeats-append"):
            super().beat(id, read)

    def sends(self, id: int, mode: str) -> None:
        if not self.is_held:
            super().sends(id, mode)

    def lose(self, m: Message) -> None:
        """What is in flight is forgotten, and what the member lacks goes again."""
        is_mine = m.kind == "MsgApp" and m.term == self.term and self.role == "leader" and m.to in self.views
        if self.on("lost-append-goes-again") and is_mine:
            self.report_unreachable(m.to)
            self.views[m.to].waiting = True
            self.lost |= {m.to}

    def take_beat_answer(self, m: Message) -> None:
        view = self.views.get(m.sender)
        if view is None or not self.on("heartbeats-append"):
            return super().take_beat_answer(m)
        waiting, self.is_held = view.waiting, True
        super().take_beat_answer(m)
        view.waiting, self.is_held = waiting, False
        return None

    def take_refusal(self, m: Message, view: View) -> None:
        if not self.on("refused-append-waits"):
            return super().take_refusal(m, view)
        self.is_held, before = True, view.next
        super().take_refusal(m, view)
        self.is_held = False
        if view.next != before:
            view.waiting, self.lost = True, self.lost | {m.sender}
        return None
