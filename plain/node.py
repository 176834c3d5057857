"""A plain Raft node: one list of entries with a number, views as lists, sets and counts. It is written from the rules in docs/NODE.md and
docs/SCRIPTS.md, which are Ongaro's thesis and the documentation of etcd's raft. It does everything in the simplest way, however slow.
"""
from __future__ import annotations

import dataclasses
from typing import Any, Mapping, NamedTuple, Sequence

from .config import Change, ChangeFault, Config, both, changed, commit_of, vote_result
from .records import Body, Entry, Event, Hard, Message, Numbered, Options, Read, Ready, Snapshot
from .texts import config_text

TIMEOUT = 3
GREATEST_TIMEOUT = 1000
TERM_LIMIT = INDEX_LIMIT = 2_000_000_000


class Disk(NamedTuple):
    """What a node has saved: its hard state, and a log behind a snapshot, whose entries are the first `length` of a list that only grows."""

    hard: Hard
    base: int
    base_term: int
    content: bytes
    config: Config
    entries: Sequence[Entry]
    length: int


class Save(NamedTuple):
    """What `ready` has given and `advance` will take for done."""

    disk: Disk
    commit: int
    sent: int  # how many messages
    waiting: int
    restored: bool


@dataclasses.dataclass(frozen=True)
class PendingRead:
    """A read under way: the commit when it was asked for, and who has answered since."""

    index: int
    heard: set[int]


class View:
    """What a leader knows of a member (etcd's Progress)."""

    __slots__ = ("state", "match", "next", "active", "waiting", "pending", "window")

    def __init__(self, state: str, match: int, next: int, active: bool) -> None:
        self.state, self.match, self.next, self.active = state, match, next, active
        self.waiting, self.pending = False, 0
        self.window: list[int] = []

    def to_probe(self) -> None:
        self.state, self.next, self.waiting, self.pending, self.window = "probe", self.match + 1, False, 0, []

    def to_replicate(self) -> None:
        self.state, self.next, self.waiting, self.pending, self.window = "replicate", self.match + 1, False, 0, []

    def to_snapshot(self, index: int) -> None:
        self.state, self.next, self.waiting, self.pending, self.window = "snapshot", index + 1, False, index, []

    def is_paused(self, inflight: int) -> bool:
        if self.state == "probe":
            return self.waiting
        return self.state == "snapshot" or len(self.window) >= inflight

    @property
    def inflight(self) -> int:
        """How many appends are on their way."""
        return len(self.window)

    def free_through(self, index: int) -> None:
        self.window = [last for last in self.window if last > index]

    def frozen(self) -> tuple[object, ...]:
        return self.state, self.match, self.next, self.active, self.waiting, self.pending, tuple(self.window)


# What a node of a role does with a message, by name, so that a node which changes a rule is asked for its own.
CASES = {
    ("candidate", "MsgVoteResp"): "count_vote",
    ("precandidate", "MsgPreVoteResp"): "count_vote",
    ("candidate", "MsgProp"): "drop",
    ("precandidate", "MsgProp"): "drop",
    ("follower", "MsgProp"): "pass_proposal",
    ("follower", "MsgTransferLeader"): "pass_transfer",
    ("follower", "MsgTimeoutNow"): "campaign_by_transfer",
    ("follower", "MsgHeartbeat"): "take_beat",
    ("follower", "MsgApp"): "take_append",
    ("follower", "MsgSnap"): "take_snapshot",
    ("leader", "MsgProp"): "take_proposal",
    ("leader", "MsgAppResp"): "take_answer",
    ("leader", "MsgHeartbeatResp"): "take_beat_answer",
    ("leader", "MsgTransferLeader"): "start_transfer",
}


class Node:
    __slots__ = (
        "id", "options", "disk", "saved", "restored", "base", "base_term", "base_content", "base_config", "content", "config", "entries", "durable", "applied",
        "commit", "term", "vote", "lead", "role", "timeout", "views", "votes", "elapsed", "beat_elapsed", "transferee", "pending_change", "sent", "waiting",
        "events", "under_way", "reads", "served", "uncommitted", "unlimited",
    )
    cases: Mapping[tuple[str, str], str] = CASES
    # Messages that a node's own clients cause: these have no term.
    without_term: Sequence[str] = ("MsgProp", "MsgTransferLeader")

    def __init__(self, id: int, config: Config, index: int, content: bytes, options: Options) -> None:
        self.id, self.options = id, options
        self.start_from(Disk(Hard(0, 0, index), index, 1 if index else 0, content, config, (), 0))

    def start_from(self, disk: Disk) -> None:
        """A follower that has what is saved, and has applied the snapshot that its log begins at."""
        self.disk, self.saved, self.restored = disk, disk.hard, False
        self.base, self.base_term, self.base_content, self.base_config = disk.base, disk.base_term, disk.content, disk.config
        self.content, self.config = disk.content, disk.config
        self.entries: list[Entry] = list(disk.entries[:disk.length])
        self.durable, self.applied = self.last(), disk.base
        self.commit = max(disk.hard.commit, disk.base)
        self.term, self.vote, self.lead = disk.hard.term, disk.hard.vote, 0
        self.role, self.timeout = "follower", TIMEOUT
        self.views: dict[int, View] = {}
        self.votes: dict[int, bool] = {}
        self.elapsed = self.beat_elapsed = self.transferee = self.pending_change = 0
        self.sent: list[Message] = []
        self.waiting: list[Message] = []
        self.events: list[Event] = []
        self.under_way: Save | None = None
        self.reads: dict[int, PendingRead] = {}
        self.served: list[Read] = []
        self.uncommitted = 0  # bytes of payloads that it appended as the leader, and hasn't applied
        self.unlimited: set[int] = set()  # entries that don't count for these: by which it leaves joint configurations by itself

    def frozen(self) -> tuple[object, ...]:
        """All of the state, as a value that can be compared; events are none of it."""
        return (
            self.id, self.config, self.content, self.options, self.base, self.base_term, tuple(self.entries), self.durable,
            self.commit, self.applied, self.term, self.vote, self.lead, self.role, self.timeout,
            tuple((id, self.views[id].frozen()) for id in sorted(self.views)), frozenset(self.votes.items()),
            self.elapsed, self.beat_elapsed, self.transferee, self.pending_change, self.saved, self.restored, self.uncommitted,
            tuple(self.sent), tuple(self.waiting), self.disk._replace(entries=tuple(self.disk.entries[:self.disk.length])),
        )

    # The log

    def last(self) -> int:
        return self.base + len(self.entries)

    def term_at(self, index: int) -> int | None:
        """The term of the entry at an index, or None where that is not in the log."""
        if index == self.base:
            return self.base_term
        at = index - self.base - 1
        return self.entries[at].term if 0 <= at < len(self.entries) else None

    def last_term(self) -> int:
        return self.entries[-1].term if self.entries else self.base_term

    def known_term(self, index: int) -> int:
        """The term of an entry that is in the log."""
        term = self.term_at(index)
        assert term is not None
        return term

    def entries_from(self, index: int, to: int | None = None) -> list[Numbered]:
        """Pairs of an index and its entry."""
        to = self.last() if to is None else to
        return [(at, self.entries[at - self.base - 1]) for at in range(index, to + 1)]

    def is_new(self, term: int, index: int) -> bool:
        """Whether a log that ends so is at least as new (3.6.1)."""
        return (term, index) >= (self.last_term(), self.last())

    def hint(self, index: int, term: int) -> int:
        """The greatest index that may still agree with a log that has this term there; 0 if none may."""
        fits = [at for at in range(self.base, min(index, self.last()) + 1) if self.known_term(at) <= term]
        return max(fits, default=0)

    def snapshot(self) -> Snapshot:
        return Snapshot(self.applied, self.known_term(self.applied), self.content, self.config)

    def snapshot_for(self, to: int) -> Message:
        """A message with all that is applied."""
        return Message("MsgSnap", self.id, to, self.term, snapshot=self.snapshot())

    def compact(self, index: int) -> None:
        self.base_content, self.base_config = self.state_at(index)
        self.base_term, self.entries = self.known_term(index), self.entries[index - self.base:]
        self.base = index
        disk = self.disk
        kept = disk.entries[index - disk.base:disk.length]
        self.disk = Disk(disk.hard, index, self.base_term, self.base_content, self.base_config, kept, len(kept))

    def state_at(self, index: int) -> tuple[bytes, Config]:
        """The content and the configuration that the entries up to an applied index come to."""
        content, now = self.base_content, self.config
        self.config = self.base_config
        for _, entry in self.entries_from(self.base + 1, index):
            if isinstance(entry.body, bytes):
                content += entry.body
            else:
                try:
                    self.config = self.config_after(entry.body)
                except ChangeFault:
                    pass
        config, self.config = self.config, now
        return content, config

    # What it says

    def tell(self, level: str, text: str) -> None:
        self.events.append((level, f"{self.id} {text}"))

    def ignore(self, m: Message) -> None:
        self.tell("DEBUG", f"ignored {m.kind} from {m.sender}")

    def send(self, kind: str, to: int, **parts: Any) -> None:
        parts.setdefault("term", self.term)
        m = Message(kind, self.id, to, **parts)
        (self.waiting if self.waits(m) else self.sent).append(m)

    def waits(self, m: Message) -> bool:
        """Answers to votes and appends wait until what they rest on is durable (3.8); all else goes out at once."""
        return m.kind in ("MsgVoteResp", "MsgPreVoteResp", "MsgAppResp")

    def answer_itself(self, kind: str, **parts: Any) -> None:
        """Its own vote and its own entries count as others' do: by an answer that waits."""
        self.send(kind, self.id, **parts)

    # Roles

    def reset(self, term: int) -> None:
        if term != self.term:
            self.vote = 0
        self.term, self.lead, self.elapsed, self.beat_elapsed, self.timeout = term, 0, 0, 0, TIMEOUT
        self.votes, self.views, self.transferee, self.pending_change, self.reads = {}, {}, 0, 0, {}
        self.uncommitted, self.unlimited = 0, set()

    def become(self, role: str) -> None:
        self.role = role
        self.tell("INFO", f"became {role} at term {self.term}")

    def follow(self, term: int, lead: int) -> None:
        self.reset(term)
        self.lead = lead
        self.become("follower")

    def why_not(self) -> str | None:
        """Why it can't campaign, or None."""
        coming = self.entries_from(self.applied + 1, self.commit)
        reasons = [
            ("leader", self.role == "leader"),
            ("not a voter", not self.config.is_voter(self.id)),
            ("snapshot pending", self.restored),
            ("change pending", any(isinstance(entry.body, Change) for _, entry in coming)),
            ("term limit", self.term + 1 > TERM_LIMIT),
        ]
        return next((why for why, holds in reasons if holds), None)

    def why_not_now(self, kind: str) -> str | None:
        """Why it can't begin a campaign of a kind, or None."""
        return self.why_not()

    def campaign(self, kind: str = "usual") -> None:
        """Kinds are `usual`, `transfer` (told by the leader to), and `elected` (the question before the vote was won)."""
        why = self.why_not_now(kind)
        if why:
            self.tell("WARN", f"can't campaign: {why}")
        elif self.options.prevote and kind == "usual":
            self.votes, self.lead, self.timeout = {}, 0, TIMEOUT
            self.become("precandidate")
            self.ask("MsgPreVote", self.term + 1, False)
        else:
            self.reset(self.term + 1)
            self.vote = self.id
            self.become("candidate")
            self.ask("MsgVote", self.term, kind == "transfer")

    def ask(self, kind: str, term: int, by_transfer: bool) -> None:
        for id in sorted(self.config.voters()):
            if id == self.id:
                self.answer_itself(kind + "Resp", term=term)
            else:
                last = self.last()
                self.send(kind, id, term=term, index=last, log_term=self.term_at(last), by_transfer=by_transfer)

    def new_view(self, id: int, active: bool) -> None:
        if id == self.id:
            view = View("replicate", self.durable, self.last() + 1, True)
        else:
            view = View("probe", 0, self.last() + 1, active)
        self.views[id] = view

    def lead_on(self) -> None:
        """It has won: it leads, and an empty entry of its term is the first that it can commit (6.4)."""
        self.reset(self.term)
        self.lead = self.id
        for id in self.config.members():
            self.new_view(id, not self.options.checkquorum)
        self.pending_change = self.last()
        self.become("leader")
        self.append(b"")
        self.tell_all()

    def append(self, body: Body) -> bool:
        if self.last() >= INDEX_LIMIT:
            self.tell("WARN", "appends nothing: index limit")
            return False
        self.entries.append(Entry(self.term, body))
        self.uncommitted += self.size_of(body)
        self.answer_itself("MsgAppResp", index=self.last())
        return True

    @staticmethod
    def size_of(body: Body) -> int:
        """The bytes of a payload. Those of a change are up to its encoding: here they are etcd's."""
        return len(body) if isinstance(body, bytes) else 2 + 6 * len(body.words)

    def exceeds(self, body: Body) -> bool:
        """Whether a payload is more than a leader may have that isn't applied. It always may have one; what is empty doesn't count."""
        size, most = self.size_of(body), self.options.max_uncommitted_size
        return most > 0 and size > 0 and self.uncommitted > 0 and self.uncommitted + size > most

    # What a leader sends

    def others(self) -> list[int]:
        return [id for id in sorted(self.views) if id != self.id]

    def tell_all(self) -> None:
        for id in self.others():
            self.sends(id, "tell")

    def sends(self, id: int, mode: str) -> None:
        """Sends what a member lacks, as its view allows; modes are `tell`, `news` (only what is new) and `ping`."""
        view = self.views.get(id)
        if id == self.id or view is None:
            return
        if view.state == "snapshot" or view.state == "probe" and view.waiting:
            return
        if view.next - 1 < self.base:
            snapshot = self.snapshot()
            self.send("MsgSnap", id, snapshot=snapshot)
            view.to_snapshot(snapshot.index)
        elif view.state == "replicate" and len(view.window) >= self.options.inflight:
            if mode == "ping":
                self.send_append(id, view, ())
        elif mode != "news" or view.next <= self.last():
            self.send_news(id, view)

    def send_news(self, id: int, view: View) -> None:
        entries = self.limited(tuple(entry for _, entry in self.entries_from(view.next)))
        self.send_append(id, view, entries)
        if view.state == "probe":
            view.waiting = True
        elif entries:
            view.next += len(entries)
            view.window.append(view.next - 1)

    def send_rest(self, id: int) -> None:
        """Sends what a limit of sizes left, as far as the window goes."""
        view = self.views.get(id)
        while view and id != self.id and self.options.max_size_per_msg and view.state == "replicate" and self.base < view.next <= self.last():
            was = view.next
            self.sends(id, "news")
            if view.next == was:
                return

    def limited(self, entries: tuple[Entry, ...]) -> tuple[Entry, ...]:
        """The first of some entries that fit into a message: one, and more as long as their payloads keep to the limit."""
        size, most = 0, self.options.max_size_per_msg
        for at, entry in enumerate(entries if most else ()):
            size += max(1, len(entry.body if isinstance(entry.body, bytes) else entry.body.words))
            if at and size > most:
                return entries[:at]
        return entries

    def send_append(self, id: int, view: View, entries: tuple[Entry, ...]) -> None:
        prev = view.next - 1
        self.send("MsgApp", id, index=prev, log_term=self.term_at(prev), commit=self.commit, entries=entries)

    # Messages

    def step(self, m: Message) -> None:
        if m.kind not in self.without_term:
            if self.is_undisturbed(m):
                return self.ignore(m)
            if m.term > self.term:
                self.raise_term(m)
            elif m.term < self.term:
                return self.answer_older(m)
        if m.kind in ("MsgVote", "MsgPreVote"):
            return self.answer_candidate(m)
        return self.by_role(m)

    def is_undisturbed(self, m: Message) -> bool:
        """Whether it has heard of its leader lately, and so ignores who asks for votes (4.2.3)."""
        asks = m.kind in ("MsgVote", "MsgPreVote") and m.term > self.term and not m.by_transfer
        return asks and self.options.checkquorum and self.lead != 0 and self.elapsed < 3

    def raise_term(self, m: Message) -> None:
        if m.kind == "MsgPreVote" or m.kind == "MsgPreVoteResp" and not m.refused:
            return
        self.follow(m.term, m.sender if m.kind in ("MsgApp", "MsgHeartbeat", "MsgSnap") else 0)

    def answer_older(self, m: Message) -> None:
        if m.kind == "MsgPreVote":
            self.send("MsgPreVoteResp", m.sender, refused=True)
        elif m.kind in ("MsgApp", "MsgHeartbeat") and (self.options.prevote or self.options.checkquorum):
            self.send("MsgAppResp", m.sender)
        else:
            self.ignore(m)

    def answer_candidate(self, m: Message) -> None:
        is_free = self.vote == m.sender or self.vote == 0 and self.lead == 0 or m.kind == "MsgPreVote" and m.term > self.term
        if not (is_free and self.is_new(m.log_term, m.index)):
            self.send(m.kind + "Resp", m.sender, refused=True)
            return
        self.send(m.kind + "Resp", m.sender, term=m.term)
        if m.kind == "MsgVote":
            self.vote, self.elapsed = m.sender, 0

    def by_role(self, m: Message) -> None:
        if self.role in ("candidate", "precandidate") and m.kind in ("MsgApp", "MsgHeartbeat", "MsgSnap"):
            self.follow(self.term, m.sender)
        getattr(self, self.cases.get((self.role, m.kind), "ignore"))(m)

    def count_vote(self, m: Message) -> None:
        self.votes.setdefault(m.sender, not m.refused)
        result = vote_result(self.config, self.votes)
        self.tell("INFO", f"has {m.kind} {'refused' if m.refused else 'granted'} from {m.sender}: {result}")
        if result == "won":
            self.lead_on() if self.role == "candidate" else self.campaign("elected")
        elif result == "lost":
            self.follow(self.term, 0)

    def drop(self, _: Message) -> None:
        self.tell("WARN", "dropped a proposal")

    def pass_proposal(self, m: Message) -> None:
        if self.lead == 0:
            self.drop(m)
        else:
            self.send("MsgProp", self.lead, term=0, body=m.body)

    def pass_transfer(self, m: Message) -> None:
        if self.lead == 0:
            self.ignore(m)
        else:
            self.send("MsgTransferLeader", self.lead, term=0, target=m.target)

    def campaign_by_transfer(self, _: Message) -> None:
        self.campaign("transfer")

    def take_beat(self, m: Message) -> None:
        self.lead, self.elapsed = m.sender, 0
        self.commit = max(self.commit, min(m.commit, self.last()))
        self.send("MsgHeartbeatResp", m.sender, context=m.context)

    def take_append(self, m: Message) -> None:
        self.lead, self.elapsed = m.sender, 0
        numbered = list(enumerate(m.entries, m.index + 1))
        if m.index < self.commit:
            wrong = (at for at, entry in numbered if self.base < at <= self.commit and self.term_at(at) not in (None, entry.term))
            conflict = next(wrong, None)
            if conflict is None:
                self.send("MsgAppResp", m.sender, index=self.commit)
            else:
                self.tell("ERROR", f"conflict at {conflict}, commit {self.commit}")
        elif self.term_at(m.index) != m.log_term:
            self.send("MsgAppResp", m.sender, refused=True, index=m.index, hint=self.hint(m.index, m.log_term))
        else:
            self.put_after(numbered)
            self.commit = max(self.commit, min(m.commit, m.index + len(m.entries)))
            self.send("MsgAppResp", m.sender, index=m.index + len(m.entries))

    def put_after(self, numbered: list[Numbered]) -> None:
        """The first entry that differs and all behind it give way to what was sent."""
        differs = next((at for at, entry in numbered if self.term_at(at) != entry.term), None)
        if differs is not None:
            self.entries = self.entries[:differs - self.base - 1] + [entry for at, entry in numbered if at >= differs]
            self.durable = min(self.durable, differs - 1)

    def take_snapshot(self, m: Message) -> None:
        self.lead, self.elapsed, new = m.sender, 0, m.snapshot
        assert new is not None
        if new.index <= self.commit:
            pass
        elif self.term_at(new.index) == new.term:
            self.commit = new.index
        else:
            self.base, self.base_term, self.entries = new.index, new.term, []
            self.durable = self.commit = self.applied = new.index
            self.content, self.config, self.restored = new.content, new.config, True
            self.base_content, self.base_config = new.content, new.config
            self.tell("INFO", f"restored snapshot {new.term}/{new.index}")
        self.send("MsgAppResp", m.sender, index=self.commit)

    # What clients and operators ask for

    def propose(self, body: Body) -> None:
        self.step(Message("MsgProp", self.id, self.id, body=body))

    def propose_change(self, change: Change, is_v1: bool = False) -> None:
        """Proposes a change; that it was asked for in etcd's first form makes no difference here."""
        self.propose(change)

    def transfer(self, to: int) -> None:
        self.step(Message("MsgTransferLeader", self.id, self.id, target=to))

    def set_timeout(self, ticks: int) -> None:
        self.timeout = ticks

    def forget_leader(self) -> None:
        if self.role == "follower":
            self.lead = 0

    def report_unreachable(self, id: int) -> None:
        view = self.views.get(id)
        if view and view.state == "replicate":
            view.to_probe()

    def report_snapshot(self, id: int, is_lost: bool) -> None:
        """The application says what became of a snapshot that was sent."""
        view = self.views.get(id)
        if view and view.state == "snapshot":
            next_index = view.match + 1 if is_lost else max(view.match, view.pending) + 1
            view.to_probe()
            view.next, view.waiting = next_index, True

    def read(self, id: int) -> None:
        """Asks for a read: a leader that has committed in its term hears from a quorum before it may be served (6.4)."""
        if self.role != "leader" or self.known_term(self.commit) != self.term:
            return self.tell("WARN", f"can't read {id}")
        self.reads[id] = PendingRead(self.commit, {self.id})
        for to in self.others():
            self.beat(to, id)
        return self.serve(id)

    def serve(self, id: int) -> None:
        asked = self.reads[id]
        if both(self.config, lambda voter: voter in asked.heard):
            self.served.append(Read(id, asked.index))
            del self.reads[id]

    # A leader's cases

    def take_proposal(self, m: Message) -> None:
        if self.id not in self.views or self.transferee:
            self.drop(m)
        elif isinstance(m.body, Change):
            self.append_change(m.body)
        elif m.body is None or self.exceeds(m.body):
            self.drop(m)
        else:
            self.append(m.body)
            self.tell_all()

    def append_change(self, change: Change) -> None:
        joint, leaves = self.config.is_joint(), not change.words
        reasons = [("unapplied", self.pending_change > self.applied), ("joint", joint and not leaves), ("not joint", leaves and not joint)]
        why = next((why for why, holds in reasons if holds), None)
        if self.last() >= INDEX_LIMIT:
            self.append(change)
        elif self.exceeds(b"" if why else change):
            return self.decline_change(change)
        elif why:
            self.tell("INFO", f"replaced change at {self.last() + 1} by an empty entry: {why}")
            self.append(b"")
        else:
            self.append(change)
            self.pending_change = self.last()
        return self.tell_all()

    def decline_change(self, change: Change) -> None:
        self.tell("WARN", "dropped a proposal")

    def take_answer(self, m: Message) -> None:
        view = self.views.get(m.sender)
        if view is None:
            return self.ignore(m)
        view.active = True
        return self.take_refusal(m, view) if m.refused else self.take_acceptance(m, view)

    def take_refusal(self, m: Message, view: View) -> None:
        if view.state == "replicate" and m.index > view.match:
            view.to_probe()
        elif view.state == "probe" and m.index == view.next - 1:
            view.next, view.waiting = max(view.match + 1, min(m.index, m.hint + 1)), False
        else:
            return self.ignore(m)
        return self.sends(m.sender, "tell")

    def acknowledged(self, m: Message) -> int:
        """What an answer says that its sender holds: no more than the leader has."""
        return min(m.index, self.last())

    def take_acceptance(self, m: Message, view: View) -> None:
        index, was_paused = self.acknowledged(m), view.is_paused(self.options.inflight)
        if index < view.match or index == view.match and view.state != "probe":
            if view.state == "replicate":
                view.free_through(index)
            return
        view.match, view.next = index, max(view.next, index + 1)
        if view.state == "probe" or view.state == "snapshot" and view.match >= view.pending:
            view.to_replicate()
        elif view.state == "replicate":
            view.free_through(index)
        if not self.commits() and m.sender != self.id:
            self.sends(m.sender, "tell" if was_paused else "news")
        self.send_rest(m.sender)
        if m.sender == self.transferee and view.match == self.last():
            self.hand_over(m.sender)

    def commits(self) -> bool:
        """Commits what a quorum holds, if it is of the leader's own term (3.6.2), and tells all."""
        held = commit_of(self.config, {id: view.match for id, view in self.views.items()})
        if held <= self.commit or self.term_at(held) != self.term:
            return False
        self.commit = held
        self.tell_all()
        return True

    def take_beat_answer(self, m: Message) -> None:
        view = self.views.get(m.sender)
        if view is None:
            return self.ignore(m)
        view.active, view.waiting = True, False
        if m.context in self.reads:
            self.reads[m.context].heard.add(m.sender)
            self.serve(m.context)
        if view.match < self.last() or view.state == "probe":
            self.sends(m.sender, "ping")
        return None

    def start_transfer(self, m: Message) -> None:
        if not self.config.is_voter(m.target) or m.target in (self.id, self.transferee):
            return self.ignore(m)
        self.end_transfer()
        self.elapsed, self.transferee = 0, m.target
        self.tell("INFO", f"starts transfer to {m.target}")
        if m.target in self.views and self.views[m.target].match == self.last():
            return self.hand_over(m.target)
        return self.sends(m.target, "tell")

    def hand_over(self, to: int) -> None:
        """Asks a node that has all of its log to campaign at once."""
        self.send("MsgTimeoutNow", to)

    def end_transfer(self) -> None:
        if self.transferee:
            self.tell("INFO", f"ends transfer to {self.transferee}")
        self.transferee = 0

    # Time

    def tick(self) -> None:
        self.elapsed = min(self.elapsed + 1, GREATEST_TIMEOUT)
        if self.role != "leader":
            if self.elapsed >= self.timeout and self.config.is_voter(self.id):
                self.elapsed = 0
                self.campaign()
            return
        self.beat_elapsed += 1
        if self.elapsed >= 3 and not self.keeps_lead():
            return
        if self.beat_elapsed >= 1:
            self.beat_elapsed = 0
            for id in self.others():
                self.beat(id)

    def beat(self, id: int, read: int = 0) -> None:
        """Sends a heartbeat, which says what the member may commit, and asks for a read if it is for one."""
        self.send("MsgHeartbeat", id, commit=min(self.views[id].match, self.commit), context=read)

    def keeps_lead(self) -> bool:
        """What a leader looks at after each timeout: whether a quorum answers, and whether a transfer takes too long."""
        self.elapsed = 0
        if self.options.checkquorum:
            if not both(self.config, lambda id: id in self.views and self.views[id].active):
                self.tell("WARN", "lost its quorum")
                self.follow(self.term, 0)
                return False
            for id in self.others():
                self.views[id].active = False
        self.end_transfer()
        return True

    # What is ready

    def hard_state(self) -> Hard:
        return Hard(self.term, self.vote, self.commit)

    def has_ready(self) -> bool:
        rest = self.sent or self.waiting or self.restored or self.commit > self.applied or self.served
        return bool(rest or self.base + len(self.entries) > self.durable or (self.term, self.vote, self.commit) != self.saved)

    def ready(self) -> Ready:
        hard = self.hard_state()
        disk = Disk(hard, self.base, self.base_term, self.base_content, self.base_config, self.entries, len(self.entries))
        self.under_way = Save(disk, self.commit, len(self.sent), len(self.waiting), self.restored)
        return Ready(
            hard if hard != self.saved else None, (self.base, self.base_term) if self.restored else None,
            self.entries_from(self.durable + 1), self.entries_from(self.applied + 1, self.commit),
            self.sent + [m for m in self.waiting if m.to != self.id],
            self.last() > self.durable or hard[:2] != self.saved[:2], tuple(self.served),
        )

    def advance(self) -> None:
        """Saves and applies what was ready, and takes its own answers in. What changed since then is ready the next time."""
        if self.under_way is None:
            self.ready()
        done, self.under_way = self.under_way, None
        assert done is not None
        own = [m for m in self.waiting[:done.waiting] if m.to == self.id]
        self.save(done)
        self.sent, self.waiting, self.served = self.sent[done.sent:], self.waiting[done.waiting:], []
        for index, entry in self.entries_from(self.applied + 1, max(self.applied, done.commit)):
            self.apply(index, entry.body)
        self.leave_by_itself()
        for m in own:
            self.step(m)

    def apply(self, index: int, body: Body) -> None:
        self.applied = index
        self.uncommitted -= min(self.uncommitted, 0 if index in self.unlimited else self.size_of(body))
        if isinstance(body, Change):
            self.apply_change(index, body)
        else:
            self.content += body

    def save(self, done: Save) -> None:
        self.disk, self.saved = done.disk, done.disk.hard
        if self.restored and not done.restored:
            return
        self.restored = False
        saved, at = done.disk, min(done.disk.base + done.disk.length, self.last())
        while at > max(saved.base, self.base) and saved.entries[at - saved.base - 1] != self.entries[at - self.base - 1]:
            at -= 1
        self.durable = at

    def restart(self, saved: str = "nothing") -> None:
        """Loses all that isn't saved, and starts again. Of what is ready and not advanced, `saved` was: `nothing`, the `entries` (and a snapshot), or `all`."""
        disk, done = self.disk, self.under_way
        if done and saved != "nothing":
            disk = done.disk if saved == "all" else done.disk._replace(hard=disk.hard)
        self.start_from(disk)
        self.tell("INFO", f"restarted at term={self.term} vote={self.vote} log={self.base}..{self.last()} commit={self.commit}")

    def leave_by_itself(self) -> None:
        leaves = self.role == "leader" and self.config.is_joint() and self.config.auto
        if leaves and not self.transferee and self.applied >= self.pending_change and self.append_leaving(Change("auto", ())):
            self.pending_change = self.last()
            self.tell_all()

    def append_leaving(self, change: Change) -> bool:
        """No limit declines it, or counts it."""
        if not self.append(change):
            return False
        self.uncommitted -= self.size_of(change)
        self.unlimited.add(self.last())
        return True

    def config_after(self, change: Change) -> Config:
        return changed(self.config, change)

    def apply_change(self, index: int, change: Change) -> None:
        try:
            self.config = self.config_after(change)
        except ChangeFault as fault:
            return self.tell("ERROR", f"refused change at {index}: {fault}")
        self.tell("INFO", f"switched to {config_text(self.config)}")
        if self.role != "leader":
            return None
        if self.options.step_down_on_removal and not self.config.is_voter(self.id):
            return self.follow(self.term, 0)
        return self.view_members()

    def view_members(self) -> None:
        members = self.config.members()
        self.views = {id: view for id, view in self.views.items() if id in members}
        added = sorted(members - set(self.views))
        for id in added:
            self.new_view(id, True)
        if self.transferee not in members:
            self.end_transfer()
        if not self.commits():
            for id in added:
                self.sends(id, "tell")
