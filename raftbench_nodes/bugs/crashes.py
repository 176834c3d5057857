"""Planted bugs that show after restarts, by what is saved and when; in a network that repeats and delays messages; in reads; and in limits of sizes.
The number in brackets is the section of Ongaro's thesis with the rule.
"""
from __future__ import annotations

from plain.config import Config
from plain.node import Node, PendingRead, Save, View
from plain.records import Body, Entry, Message, Options, Ready

from .registry import planted

# What a restart begins with


@planted("restart-forgets-vote")
class RestartForgetsVote(Node):
    """Starts again without the vote that it saved (3.8)."""

    def restart(self, saved: str = "nothing") -> None:
        super().restart(saved)
        self.vote = 0


@planted("restart-forgets-term")
class RestartForgetsTerm(Node):
    """Starts again in term 0 (3.8)."""

    def restart(self, saved: str = "nothing") -> None:
        super().restart(saved)
        self.term = self.vote = 0


@planted("restart-commits-all")
class RestartCommitsAll(Node):
    """Treats all saved entries as committed after a restart (3.5)."""

    def restart(self, saved: str = "nothing") -> None:
        super().restart(saved)
        self.commit = self.last()


@planted("restart-loses-last")
class RestartLosesLast(Node):
    """Loses the last entry that it saved, as a log does whose last write isn't flushed (3.8)."""

    def restart(self, saved: str = "nothing") -> None:
        super().restart(saved)
        if self.last() > self.commit:
            self.entries = self.entries[:-1]
            self.durable = self.last()


@planted("restart-leads-on")
class RestartLeadsOn(Node):
    """Comes back as the leader that it was (3.3)."""

    def restart(self, saved: str = "nothing") -> None:
        role, term, views, pending = self.role, self.term, self.views, self.pending_change
        super().restart(saved)
        if role == "leader" and term == self.term:
            self.role, self.lead, self.views, self.pending_change = "leader", self.id, views, pending


@planted("restart-applies-twice")
class RestartAppliesTwice(Node):
    """Keeps what it had applied, and applies it again (3.8)."""

    def restart(self, saved: str = "nothing") -> None:
        content = self.content
        super().restart(saved)
        self.content = content


@planted("restart-has-first-configuration")
class RestartHasFirstConfiguration(Node):
    """Starts again with the configuration that it was first started with (4.1)."""

    def __init__(self, id: int, config: Config, index: int, content: bytes, options: Options) -> None:
        self.first = config
        super().__init__(id, config, index, content, options)

    def restart(self, saved: str = "nothing") -> None:
        super().restart(saved)
        self.config = self.base_config = self.first


@planted("restart-sends-on")
class RestartSendsOn(Node):
    """Sends messages after a restart that were waiting before it (3.8)."""

    def restart(self, saved: str = "nothing") -> None:
        sent, waiting = self.sent, self.waiting
        super().restart(saved)
        self.sent, self.waiting = sent, waiting


# What is saved


@planted("vote-not-saved")
class VoteNotSaved(Node):
    """Doesn't save a vote that it grants in a term that is already saved (3.8)."""

    def ready(self) -> Ready:
        ready = super().ready()
        if ready.hard and ready.hard.term == self.saved.term and self.under_way:
            hard = ready.hard._replace(vote=self.saved.vote)
            self.under_way = self.under_way._replace(disk=self.under_way.disk._replace(hard=hard))
            return ready._replace(hard=hard if hard != self.saved else None)
        return ready


@planted("old-tail-stays")
class OldTailStays(Node):
    """Writes entries over saved ones, and leaves what was saved after them (3.5)."""

    def save(self, done: Save) -> None:
        old, new = self.disk, done.disk
        super().save(done)
        last = new.base + new.length
        if old.base == new.base and old.length > new.length and last >= self.commit:
            self.disk = new._replace(entries=[*new.entries[:new.length], *old.entries[new.length:old.length]], length=old.length)


@planted("snapshot-not-saved")
class SnapshotNotSaved(Node):
    """Doesn't save a snapshot that it restores (5.3)."""

    def save(self, done: Save) -> None:
        before = self.disk
        super().save(done)
        if done.restored:
            self.disk = before._replace(hard=before.hard._replace(term=done.disk.hard.term, vote=done.disk.hard.vote))


@planted("compaction-keeps-old-configuration")
class CompactionKeepsOldConfiguration(Node):
    """Compacts its log, and keeps the configuration that it had where the log began before (5.1)."""

    def state_at(self, index: int) -> tuple[bytes, Config]:
        return super().state_at(index)[0], self.base_config


@planted("advance-takes-later-entries")
class AdvanceTakesLaterEntries(Node):
    """Treats entries as saved that arrived while others were written (10.2.1)."""

    def save(self, done: Save) -> None:
        super().save(done)
        self.durable = self.last()


@planted("advance-loses-later-messages")
class AdvanceLosesLaterMessages(Node):
    """Loses messages that it had to send since `ready` was called."""

    def advance(self) -> None:
        super().advance()
        self.sent = [m for m in self.sent if m.kind not in ("MsgApp", "MsgVote")]


@planted("saved-by-index")
class SavedByIndex(Node):
    """Treats an entry as saved by its index, even if another entry has taken its place meanwhile."""

    def save(self, done: Save) -> None:
        super().save(done)
        self.durable = max(self.durable, min(done.disk.base + done.disk.length, self.last()))


@planted("vote-needs-no-saving")
class VoteNeedsNoSaving(Node):
    """Says that a vote may be sent before it is saved (3.8)."""

    def ready(self) -> Ready:
        ready = super().ready()
        return ready._replace(sync=bool(ready.entries))


# Late and doubled messages


@planted("late-votes-count")
class LateVotesCount(Node):
    """Counts votes of an earlier term (3.4)."""

    def answer_older(self, m: Message) -> None:
        return self.by_role(m) if m.kind == "MsgVoteResp" else super().answer_older(m)


@planted("votes-by-number")
class VotesByNumber(Node):
    """Counts a vote that arrives twice as two (3.4)."""

    def count_vote(self, m: Message) -> None:
        if self.votes.get(m.sender) and not m.refused:
            other = next((id for id in sorted(self.config.voters()) if id not in self.votes), m.sender)
            m = m._replace(sender=other)
        super().count_vote(m)


@planted("late-acknowledgements-count")
class LateAcknowledgementsCount(Node):
    """Accepts acknowledgements of an earlier term (3.3)."""

    def answer_older(self, m: Message) -> None:
        return self.by_role(m) if m.kind == "MsgAppResp" and self.role == "leader" else super().answer_older(m)


@planted("late-refusals-step-back")
class LateRefusalsStepBack(Node):
    """Steps back after a refusal of what the follower has acknowledged since (3.5)."""

    def take_refusal(self, m: Message, view: View) -> None:
        if view.state == "replicate" and m.index <= view.match:
            view.match = min(view.match, m.hint)
            view.to_probe()
            return self.sends(m.sender, "tell")
        return super().take_refusal(m, view)


@planted("match-falls")
class MatchFalls(Node):
    """Takes the last acknowledgement, even if an earlier one was greater (3.5)."""

    def take_acceptance(self, m: Message, view: View) -> None:
        if view.state == "replicate" and 0 < m.index < view.match:
            view.match = m.index
        super().take_acceptance(m, view)


@planted("answers-to-questions-are-votes")
class AnswersToQuestionsAreVotes(Node):
    """A candidate counts a late pre-vote as a vote (9.6)."""

    def by_role(self, m: Message) -> None:
        if self.role == "candidate" and m.kind == "MsgPreVoteResp":
            return self.count_vote(m)
        return super().by_role(m)


@planted("late-heartbeats-lead")
class LateHeartbeatsLead(Node):
    """Follows a leader of an earlier term by its heartbeat (3.3)."""

    def answer_older(self, m: Message) -> None:
        return self.by_role(m) if m.kind == "MsgHeartbeat" and self.role == "follower" else super().answer_older(m)


@planted("lost-snapshot-waited-for")
class LostSnapshotWaitedFor(Node):
    """Waits for the answer to a snapshot that was reported lost."""

    def report_snapshot(self, id: int, is_lost: bool) -> None:
        if not is_lost:
            super().report_snapshot(id, is_lost)


# Reads and limits


@planted("reads-without-quorum")
class ReadsWithoutQuorum(Node):
    """Serves reads without asking whether it still leads (6.4)."""

    def serve(self, id: int) -> None:
        self.reads[id].heard.update(self.config.voters())
        super().serve(id)


@planted("reads-before-own-commit")
class ReadsBeforeOwnCommit(Node):
    """Serves reads before it has committed an entry of its term (6.4)."""

    def read(self, id: int) -> None:
        if self.role != "leader":
            return super().read(id)
        self.reads[id] = PendingRead(self.commit, {self.id})
        for to in self.others():
            self.send("MsgHeartbeat", to, commit=min(self.views[to].match, self.commit), context=id)
        return self.serve(id)


@planted("reads-count-late-answers")
class ReadsCountLateAnswers(Node):
    """Counts answers to heartbeats that were sent before the read was asked for (6.4)."""

    def take_beat_answer(self, m: Message) -> None:
        super().take_beat_answer(m)
        for id in list(self.reads):
            self.reads[id].heard.add(m.sender)
            self.serve(id)


@planted("limit-ignored")
class LimitIgnored(Node):
    """Sends all it has in one append, whatever the size limit is."""

    def limited(self, entries: tuple[Entry, ...]) -> tuple[Entry, ...]:
        return entries


@planted("uncommitted-limit-ignored")
class UncommittedLimitIgnored(Node):
    """Appends each proposal, whatever waits to be applied."""

    def exceeds(self, body: Body) -> bool:
        return False


@planted("uncommitted-never-freed")
class UncommittedNeverFreed(Node):
    """Counts payloads against the limit that are applied by now."""

    def apply(self, index: int, body: Body) -> None:
        before = self.uncommitted
        super().apply(index, body)
        self.uncommitted = before
