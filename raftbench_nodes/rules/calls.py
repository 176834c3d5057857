"""Rules of libraries in which messages are calls of procedures: a leader waits for each response, and a response counts only for its own request."""
from __future__ import annotations

from typing import Any, Sequence

from plain.node import Disk
from plain.records import Body, Message, Ready

from .own import Ruled

# After so many ticks a call that has no answer fails.
MOST_TICKS = 2
ANSWERED = {"MsgApp": "MsgAppResp", "MsgSnap": "MsgAppResp", "MsgHeartbeat": "MsgHeartbeatResp", "MsgVote": "MsgVoteResp", "MsgTimeoutNow": "MsgTimeoutNowResp"}


def receiver(m: Message) -> int:
    return m.to


class Member:
    """What a leader calls at one member. `call` and `beat` are the numbers of calls that wait for their answers, or 0."""

    def __init__(self, id: int, term: int, next: int) -> None:
        self.id, self.term = id, term
        self.next, self.last = next, 0  # where the next append begins, and up to where it was asked to go
        self.call = self.call_ticks = self.beat = self.beat_ticks = 0
        self.sent_to = 0  # the last index of the call
        self.has_more = self.has_failed = self.is_asked = False
        self.is_deferred = self.serves = False  # a transfer asks for a call once this one is over; this call was asked for by one

    def is_free(self) -> bool:
        return not self.call and not self.has_failed

    def ask(self, last: int) -> None:
        """More is to be sent, up to an entry. After a failed call that waits for the next tick, and no other is asked for before."""
        if self.call or self.is_asked:
            self.has_more = True
        else:
            self.is_asked, self.last = True, last

    def defer(self, last: int) -> None:
        """More is to be sent for a transfer, which waits until that call is over. It is made before others that were asked for."""
        if self.call or self.is_asked:
            self.is_deferred = True
        else:
            self.is_asked, self.last, self.serves = True, last, True

    def takes_more(self) -> bool:
        """Whether another call was asked for, which is made now."""
        wants, self.serves = self.is_deferred or self.has_more, self.is_deferred
        self.is_deferred, self.has_more = False, self.has_more and self.is_deferred
        return wants

    def fail(self, last: int, transfers: bool) -> None:
        """A failed call is made again at the next tick. A transfer asks for another one, after what was asked for before."""
        again = transfers and self.serves and self.next <= last
        self.call, self.has_failed, self.is_deferred = 0, True, self.is_deferred or again and not self.has_more
        if self.takes_more():
            self.is_asked, self.last = True, last
        self.is_deferred = self.is_deferred or again and not self.serves

    def is_too_old(self) -> bool:
        """Whether a tick is the last one of the call."""
        self.call_ticks, self.beat_ticks = self.call_ticks + 1, self.beat_ticks + 1
        if self.beat_ticks >= MOST_TICKS:
            self.beat = 0
        return bool(self.call) and self.call_ticks >= MOST_TICKS


class CallRules(Ruled):
    """The rules of `messages-are-calls`."""

    serves = frozenset(("messages-are-calls",))
    calls = 0  # how many were made
    asked = asked_ticks = 0  # the call for votes of this campaign
    handed = handed_ticks = 0  # the call that hands the lead over
    told = 0  # the commit that members were told
    heard_commit = 0  # the commit, or 0 until one is heard of or made after the start
    answering = 0  # the call that a message is
    has_refused = False  # the last append
    postponed: Message | None = None  # a transfer that was asked of a candidate, until it leads

    def __init__(self, *given: Any) -> None:
        self.members: dict[int, Member] = {}
        self.left: list[Member] = []  # of earlier leaderships, which still call
        self.gone: dict[int, int] = {}  # the calls at members that were removed, with the ticks at which they were
        self.commits_sent: dict[int, int] = {}
        super().__init__(*given)

    def number(self) -> int:
        self.calls += 1
        return self.calls

    def send(self, kind: str, to: int, **parts: Any) -> None:
        self.has_refused = bool(parts.get("refused")) if kind == "MsgAppResp" else self.has_refused
        if kind.endswith("Resp"):
            parts.setdefault("context", self.answering)
        elif kind == "MsgVote":
            parts["context"] = self.asked
        elif kind == "MsgTimeoutNow":
            self.handed, self.handed_ticks = self.number(), 0
            parts["context"], parts["term"] = self.handed, 0
        super().send(kind, to, **parts)

    def ready(self) -> Ready:
        ready = super().ready()
        return ready._replace(messages=sorted(ready.messages, key=receiver))

    def start_from(self, disk: Disk) -> None:
        super().start_from(disk)
        self.heard_commit, self.told, self.left, self.postponed = 0, 0, [], None

    def take_append(self, m: Message) -> None:
        super().take_append(m)
        if not self.has_refused:
            self.heard_commit = max(self.heard_commit, min(m.commit, self.commit))

    def commits(self) -> bool:
        before = self.commit
        moved = super().commits()
        if self.commit > before:
            self.heard_commit = self.commit
        return moved

    # A leader's calls

    def lead_on(self) -> None:
        self.members, self.gone, waiting = {}, {}, self.postponed
        super().lead_on()
        if waiting:
            self.start_transfer(waiting)

    def follow(self, term: int, lead: int) -> None:
        """Calls of a leader that steps down go on until they are answered."""
        if self.role == "leader":
            self.left += [member for member in self.members.values() if member.call or member.is_asked]
        self.postponed = None
        super().follow(term, lead)

    def new_view(self, id: int, active: bool) -> None:
        super().new_view(id, active)
        if id != self.id:
            self.members[id] = Member(id, self.term, self.last() + 1)

    def view_members(self) -> None:
        super().view_members()
        for id in sorted(self.members.keys() - self.views.keys()):
            member = self.members.pop(id)
            if member.is_free():
                self.go_on(member)
            self.gone[member.call] = self.ticks

    def append(self, body: Body) -> bool:
        done = super().append(body)
        if done:
            self.ask_members()
        return done

    def ask_members(self) -> None:
        for id in self.others():
            if self.members[id].is_free():
                self.go_on(self.members[id])
            else:
                self.members[id].ask(self.last())

    def tell_all(self) -> None:
        """Members are called one by one, when something is to be sent."""

    def sends(self, id: int, mode: str) -> None:
        """Nothing goes but by calls."""

    def go_on(self, member: Member) -> None:
        """Sends what a member lacks up to the last entry, or an empty append."""
        member.has_more, member.last = False, self.last()
        self.call_member(member)

    def call_member(self, member: Member) -> None:
        before = self.term_at(member.next - 1)
        member.has_failed = member.is_asked = False
        member.call, member.call_ticks, member.sent_to = self.number(), 0, 0
        self.commits_sent[member.call] = self.heard_commit
        if before is None or member.next <= member.last > self.last():  # A node that no longer leads may lack what it was to send.
            snapshot = self.snapshot()
            member.sent_to = snapshot.index
            return self.send("MsgSnap", member.id, term=member.term, snapshot=snapshot, context=member.call)
        entries = tuple(entry for _, entry in self.entries_from(member.next, min(member.last, self.last())))
        if entries:
            member.sent_to = member.next - 1 + len(entries)
        parts = {"term": member.term, "index": member.next - 1, "log_term": before, "commit": self.heard_commit, "entries": entries}
        return self.send("MsgApp", member.id, context=member.call, **parts)

    def tell_commit(self) -> None:
        """Members that nothing is on its way to hear of a new commit by an empty append."""
        while self.role == "leader" and self.heard_commit > self.told:
            self.told = self.heard_commit
            for id in self.others():
                if self.members[id].is_free():
                    self.go_on(self.members[id])
                elif not self.members[id].call and not self.members[id].is_asked:
                    self.members[id].ask(self.last())

    # Answers

    def is_answer_of_call(self, m: Message) -> bool:
        """Whether the call that a message answers still waits for it."""
        if m.kind == "MsgVoteResp":
            return self.role == "candidate" and m.context == self.asked and self.asked_ticks < MOST_TICKS
        if m.kind == "MsgTimeoutNowResp":
            return m.context == self.handed
        if m.kind == "MsgAppResp" and m.term > self.term and self.ticks - self.gone.get(m.context, -MOST_TICKS) < MOST_TICKS:
            return self.role == "leader"
        member = self.members.get(m.sender) if self.role == "leader" else None
        return member is not None and m.context == (member.beat if m.kind == "MsgHeartbeatResp" else member.call)

    def step(self, m: Message) -> None:
        self.answering = m.context
        self.end_left(m)
        if m.kind == "MsgAppResp":
            self.told = min(self.told, self.commits_sent.get(m.context, self.told))
        if m.kind == "MsgTransferLeader" and self.role == "candidate":
            self.postponed = self.postponed or m
        elif m.kind == "MsgTimeoutNow":
            self.campaign_by_transfer(m)
        elif m.kind not in ANSWERED.values():
            super().step(m)
        elif not self.is_answer_of_call(m):
            self.ignore(m)
        elif m.kind == "MsgTimeoutNowResp":
            self.handed = 0
            self.end_transfer()
        else:
            super().step(m)
        self.end_left(m)
        self.tell_commit()

    def end_left(self, m: Message) -> None:
        """An answer ends the call of an earlier leadership, also of one that it has just ended."""
        self.left = [member for member in self.left if m.kind != "MsgAppResp" or m.context != member.call]

    def campaign(self, kind: str = "usual") -> None:
        super().campaign(kind)
        self.tell_commit()

    def is_undisturbed(self, m: Message) -> bool:
        is_it = super().is_undisturbed(m)
        if is_it and not self.on("known-leader-refuses"):
            self.send("MsgVoteResp", m.sender, refused=True)
        return is_it

    def answer_older(self, m: Message) -> None:
        if m.kind in ANSWERED:
            index, hint = (m.snapshot.index, 0) if m.snapshot else (m.index, self.last())
            return self.send(ANSWERED[m.kind], m.sender, refused=True, index=index, hint=hint)
        return super().answer_older(m)

    def take_beat_answer(self, m: Message) -> None:
        self.members[m.sender].beat = 0

    def take_answer(self, m: Message) -> None:
        member, view = self.members[m.sender], self.views[m.sender]
        member.call = 0
        if m.refused:
            member.next = max(min(member.next - 1, m.hint + 1), 1)
        elif member.sent_to:
            member.next, view.match = member.sent_to + 1, max(view.match, member.sent_to)
        if member.next <= member.last:
            self.call_member(member)
        elif member.takes_more():
            member.last = self.last()
            self.call_member(member)
        self.commits()
        self.hand_over(m.sender)

    def take_beat(self, m: Message) -> None:
        super().take_beat(m._replace(commit=0))

    # Handing the lead over

    def start_transfer(self, m: Message) -> None:
        if m.target not in self.members or self.transferee or self.handed:
            return self.ignore(m)
        self.elapsed, self.transferee, member = 0, m.target, self.members[m.target]
        if member.next <= self.last() and member.is_free():
            member.serves = True
            self.go_on(member)
        elif member.next <= self.last():
            member.defer(self.last())
        return self.hand_over(m.target)

    def hand_over(self, to: int) -> None:
        if self.role != "leader" or to != self.transferee or self.handed:
            return
        member = self.members[to]
        if member.next > self.last() and not member.is_deferred and not member.serves:
            super().hand_over(to)

    def campaign_by_transfer(self, m: Message) -> None:
        """Whoever is asked campaigns, unless it does: the request has no term."""
        if self.role == "leader":
            self.follow(self.term, 0)
        if self.role != "candidate":
            super().campaign_by_transfer(m)
        self.send("MsgTimeoutNowResp", m.sender, context=m.context, term=0)

    def why_not_now(self, kind: str) -> str | None:
        return None if kind == "transfer" else super().why_not_now(kind)

    def fail(self, member: Member) -> None:
        member.fail(self.last(), member.id == self.transferee)

    # Time

    def ask(self, kind: str, term: int, by_transfer: bool) -> None:
        self.asked, self.asked_ticks = self.number(), 0
        super().ask(kind, term, by_transfer)

    def tick(self) -> None:
        if self.role == "leader":
            self.tick_leader()
            self.beat_members([*self.left, *(self.members.values() if self.role == "leader" else ())])
        else:
            self.beat_members(self.left)
            super().tick()
        self.age_calls()
        self.tell_commit()

    def tick_leader(self) -> None:
        self.ticks, self.elapsed = self.ticks + 1, self.elapsed + 1
        for id in self.others():
            member = self.members[id]
            if not member.call and not member.is_asked:
                self.go_on(member)
            elif member.is_asked:
                self.call_member(member)
        if self.has_lost_quorum():
            self.follow(self.term, 0)
        elif self.elapsed >= 3:
            self.keeps_lead()

    def beat_members(self, members: Sequence[Member]) -> None:
        for member in members:
            if member.is_asked and member in self.left:
                self.call_member(member)
            if not member.beat:
                member.beat, member.beat_ticks = self.number(), 0
                self.send("MsgHeartbeat", member.id, term=member.term, context=member.beat)

    def age_calls(self) -> None:
        for member in (*self.left, *(self.members.values() if self.role == "leader" else ())):
            if member.is_too_old():
                self.fail(member)
        self.left = [member for member in self.left if member.call or member.is_asked]
        self.asked_ticks, self.handed_ticks = self.asked_ticks + 1, self.handed_ticks + 1
        if self.handed and self.handed_ticks >= MOST_TICKS:
            self.handed = 0
            self.end_transfer()

    def lose(self, m: Message) -> None:
        if m.kind == "MsgTimeoutNow" and m.context == self.handed:
            self.handed = 0
            self.end_transfer()
        for member in (*self.left, *(self.members.values() if self.role == "leader" else ())):
            if m.kind == "MsgHeartbeat" and m.context == member.beat:
                member.beat = 0
            elif m.kind in ("MsgApp", "MsgSnap") and m.context == member.call:
                self.fail(member)
        self.left = [member for member in self.left if member.call or member.is_asked]
