"""Wrong rules: plain nodes with one rule changed, by name, next to the well-known bugs of raftbench_nodes/bugs/rules.py, and of crashes.py those of
restarts. Each script of this folder names those that it must notice.
"""

from __future__ import annotations

import contextlib
import dataclasses
from collections.abc import Callable, Iterator

from raftbench_nodes.bugs import rules
from raftbench_nodes.bugs.registry import BUGS
from plain.config import Change, changed
from plain.node import Node, View
from plain.records import Message, Ready, Snapshot

# What only a crash within a save, or another step of the runner, shows isn't seen by scripts alone.
WRONG = {name: kind for name, kind in BUGS.items() if kind.__module__ == rules.__name__ or name.startswith("restart-")}


def wrong(kind: type[Node]) -> type[Node]:
    """Puts a kind of node under its name, in small letters with hyphens."""
    name = "".join(f"-{letter.lower()}" if letter.isupper() else letter for letter in kind.__name__)
    WRONG[name.lstrip("-")] = kind
    return kind


@contextlib.contextmanager
def replaced(node: Node, name: str, stand_in: Callable[..., object]) -> Iterator[None]:
    """Puts another function in the place of one node's method for a while."""
    setattr(node, name, stand_in)
    yield
    delattr(node, name)


def snapshot_of(m: Message) -> Snapshot:
    """The snapshot that a MsgSnap has."""
    assert m.snapshot is not None
    return m.snapshot


# Terms


@wrong
class LeaseBindsTransfers(Node):
    def is_undisturbed(self, m: Message) -> bool:
        return super().is_undisturbed(m._replace(by_transfer=False))


@wrong
class LeadsOnInALaterTerm(Node):
    def raise_term(self, m: Message) -> None:
        if self.role == "leader":
            self.term = m.term
        else:
            super().raise_term(m)


@wrong
class AsksAndLeads(Node):
    def raise_term(self, m: Message) -> None:
        super().raise_term(m)
        if m.kind == "MsgVote":
            self.lead = m.sender


@wrong
class QuestionRaisesTerm(Node):
    def raise_term(self, m: Message) -> None:
        self.follow(m.term, 0) if m.kind == "MsgPreVote" else super().raise_term(m)


@wrong
class QuestionOfOldIsIgnored(Node):
    def answer_older(self, m: Message) -> None:
        self.ignore(m) if m.kind == "MsgPreVote" else super().answer_older(m)


@wrong
class LeaderOfOldIsIgnored(Node):
    def answer_older(self, m: Message) -> None:
        self.ignore(m) if m.kind in ("MsgApp", "MsgHeartbeat") else super().answer_older(m)


@wrong
class LeaderOfOldIsAnswered(Node):
    def answer_older(self, m: Message) -> None:
        self.send("MsgAppResp", m.sender) if m.kind in ("MsgApp", "MsgHeartbeat") else super().answer_older(m)


@wrong
class ProposalsHaveATerm(Node):
    def step(self, m: Message) -> None:
        if m.term < self.term and m.kind == "MsgProp":
            self.ignore(m)
        else:
            super().step(m)


# Votes


@wrong
class VotesUnderALeader(Node):
    def answer_candidate(self, m: Message) -> None:
        lead, self.lead = self.lead, 0
        super().answer_candidate(m)
        self.lead = lead


@wrong
class VoteKeepsTheTimer(Node):
    def answer_candidate(self, m: Message) -> None:
        elapsed = self.elapsed
        super().answer_candidate(m)
        self.elapsed = elapsed


@wrong
class PreVoteIsBound(Node):
    def answer_candidate(self, m: Message) -> None:
        if m.kind == "MsgPreVote" and (self.lead or self.vote not in (0, m.sender)):
            self.send("MsgPreVoteResp", m.sender, refused=True)
        else:
            super().answer_candidate(m)


@wrong
class PrecandidateLeads(Node):
    def campaign(self, kind: str = "usual") -> None:
        self.lead_on() if kind == "elected" else super().campaign(kind)


@wrong
class StandsOnWhenLost(Node):
    def follow(self, term: int, lead: int) -> None:
        if term != self.term or lead or self.role == "leader":
            super().follow(term, lead)


@wrong
class CountsVotesForEver(Node):
    def by_role(self, m: Message) -> None:
        self.count_vote(m) if m.kind == "MsgVoteResp" else super().by_role(m)


@wrong
class CandidateAppends(Node):
    def drop(self, m: Message) -> None:
        assert m.body is not None
        self.append(m.body)


# Restarts


@wrong
class RestartSavesFirst(Node):
    def restart(self, saved: str = "nothing") -> None:
        self.ready()
        super().restart("all")


@wrong
class RestartLosesWhatWasReplaced(Node):
    def restart(self, saved: str = "nothing") -> None:
        durable = self.durable
        super().restart(saved)
        self.entries = self.entries[:max(0, durable - self.base)]
        self.durable = self.last()


@wrong
class RestartRestoresFirst(Node):
    def restart(self, saved: str = "nothing") -> None:
        self.disk = self.disk if not self.restored else self.disk._replace(base=self.base, base_term=self.base_term, entries=(), length=0)
        super().restart(saved)


# Followers


@wrong
class ProposalsAreDropped(Node):
    def pass_proposal(self, m: Message) -> None:
        self.drop(m)


@wrong
class ProposalsAreLost(Node):
    def pass_proposal(self, m: Message) -> None:
        if self.lead:
            super().pass_proposal(m)


@wrong
class TransfersAreIgnored(Node):
    def pass_transfer(self, m: Message) -> None:
        self.ignore(m)


@wrong
class AsksBeforeATransfer(Node):
    def campaign_by_transfer(self, _: Message) -> None:
        self.campaign()


@wrong
class BeatsCommitNothing(Node):
    def take_beat(self, m: Message) -> None:
        super().take_beat(m._replace(commit=0))


@wrong
class HintsAtNothing(Node):
    def hint(self, index: int, term: int) -> int:
        return 0


@wrong
class TakesBelowCommit(Node):
    def take_append(self, m: Message) -> None:
        if m.index < self.commit:
            past = self.commit - m.index
            m = m._replace(index=self.commit, log_term=self.known_term(self.commit), entries=m.entries[past:])
        super().take_append(m)


@wrong
class ConflictIsAnswered(Node):
    def tell(self, level: str, text: str) -> None:
        super().tell(level, text)
        if text.startswith("conflict"):
            self.send("MsgAppResp", self.lead, index=self.commit)


@wrong
class SnapshotWithoutContent(Node):
    def take_snapshot(self, m: Message) -> None:
        super().take_snapshot(m._replace(snapshot=dataclasses.replace(snapshot_of(m), content=self.content)))


@wrong
class SnapshotIsAlwaysRestored(Node):
    def take_snapshot(self, m: Message) -> None:
        if snapshot_of(m).index > self.commit:
            self.entries = self.entries[:self.commit - self.base]
        super().take_snapshot(m)


@wrong
class SnapshotIsHeldByItsIndex(Node):
    def take_snapshot(self, m: Message) -> None:
        snapshot = snapshot_of(m)
        held = self.commit < snapshot.index <= self.last()
        super().take_snapshot(m._replace(snapshot=dataclasses.replace(snapshot, term=self.known_term(snapshot.index))) if held else m)


@wrong
class OldSnapshotSaysLast(Node):
    def take_snapshot(self, m: Message) -> None:
        is_old = snapshot_of(m).index <= self.commit
        super().take_snapshot(m)
        if is_old:
            self.waiting[-1] = self.waiting[-1]._replace(index=self.last())


# Leaders


@wrong
class TellsNobody(Node):
    def take_proposal(self, m: Message) -> None:
        with replaced(self, "tell_all", lambda: None):
            super().take_proposal(m)


@wrong
class ChangesWhileJoint(Node):
    def append_change(self, change: Change) -> None:
        if change.words and self.config.is_joint() and self.pending_change <= self.applied:
            self.append(change)
            self.tell_all()
        else:
            super().append_change(change)


@wrong
class LeavesNothing(Node):
    def append_change(self, change: Change) -> None:
        if change.words or self.config.is_joint():
            super().append_change(change)
        else:
            self.append(change)
            self.tell_all()


@wrong
class FirstAnswerCommits(Node):
    def commits(self) -> bool:
        held = sorted(view.match for view in self.views.values())[-2]
        if held <= self.commit or self.term_at(held) != self.term:
            return False
        self.commit = held
        self.tell_all()
        return True


@wrong
class AnswersBringNothing(Node):
    def take_acceptance(self, m: Message, view: View) -> None:
        with replaced(self, "sends", lambda *_: None):
            super().take_acceptance(m, view)


@wrong
class LateAnswersLowerTheMatch(Node):
    def take_acceptance(self, m: Message, view: View) -> None:
        index = self.acknowledged(m)
        super().take_acceptance(m, view)
        view.match = min(view.match, index)


@wrong
class HeartbeatAnswersCountForNothing(Node):
    def take_beat_answer(self, m: Message) -> None:
        was_active = m.sender in self.views and self.views[m.sender].active
        super().take_beat_answer(m)
        if m.sender in self.views:
            self.views[m.sender].active = was_active


@wrong
class BeatAnswersWakeNobody(Node):
    def take_beat_answer(self, m: Message) -> None:
        self.views[m.sender].active = True


@wrong
class TransferWaitsForAnAnswer(Node):
    def start_transfer(self, m: Message) -> None:
        sent = len(self.sent)
        super().start_transfer(m)
        self.sent = self.sent[:sent] + [it for it in self.sent[sent:] if it.kind != "MsgTimeoutNow"]


@wrong
class SendsBehindASnapshot(Node):
    def sends(self, id: int, mode: str) -> None:
        if id in self.views and self.views[id].state == "snapshot":
            self.views[id].to_replicate()
            self.views[id].next = self.last()
        super().sends(id, mode)


@wrong
class ProbesGoOn(Node):
    def sends(self, id: int, mode: str) -> None:
        if id in self.views and self.views[id].state == "probe":
            self.views[id].waiting = False
        super().sends(id, mode)


# Campaigns and ticks


@wrong
class LeaderCampaigns(Node):
    def why_not(self) -> str | None:
        why = super().why_not()
        return None if why == "leader" else why


@wrong
class LearnerCampaigns(Node):
    def why_not(self) -> str | None:
        why = super().why_not()
        return None if why == "not a voter" else why


@wrong
class CampaignsUnsaved(Node):
    def why_not(self) -> str | None:
        why = super().why_not()
        return None if why == "snapshot pending" else why


@wrong
class PendingChangeCampaigns(Node):
    def why_not(self) -> str | None:
        why = super().why_not()
        return None if why == "change pending" else why


@wrong
class CandidateHasNoVote(Node):
    def campaign(self, kind: str = "usual") -> None:
        super().campaign(kind)
        if self.role == "candidate":
            self.vote = 0


@wrong
class LeadsAtOnce(Node):
    def campaign(self, kind: str = "usual") -> None:
        super().campaign(kind)
        if self.role == "candidate" and self.config.voters() == {self.id}:
            self.waiting = []
            self.lead_on()


@wrong
class BeatsEverySecondTick(Node):
    def tick(self) -> None:
        sent = len(self.sent)
        super().tick()
        if self.elapsed % 2 == 1:
            self.sent = self.sent[:sent]


@wrong
class TimeoutIsOneMore(Node):
    def tick(self) -> None:
        self.timeout += 1
        super().tick()
        self.timeout = max(self.timeout - 1, 3)


@wrong
class LearnerTimesOut(Node):
    def tick(self) -> None:
        super().tick()
        if self.id not in self.config.voters() and self.elapsed >= self.timeout:
            self.campaign()


@wrong
class TransferStopsTheLook(Node):
    def keeps_lead(self) -> bool:
        if not self.transferee:
            return super().keeps_lead()
        self.elapsed = 0
        self.end_transfer()
        return True


@wrong
class TransferGoesOn(Node):
    def keeps_lead(self) -> bool:
        transferee, self.transferee = self.transferee, 0
        leads = super().keeps_lead()
        self.transferee = transferee
        return leads


# What is ready, and what is applied


@wrong
class AlwaysSaves(Node):
    def ready(self) -> Ready:
        return super().ready()._replace(hard=self.hard_state())


@wrong
class AnswersGoFirst(Node):
    def ready(self) -> Ready:
        return super().ready()._replace(messages=[m for m in self.waiting if m.to != self.id] + self.sent)


@wrong
class ChangesTakeEffectAtOnce(Node):
    def append_change(self, change: Change) -> None:
        super().append_change(change)
        self.config = changed(self.config, change)


@wrong
class NewMembersWait(Node):
    def view_members(self) -> None:
        with replaced(self, "sends", lambda *_: None):
            super().view_members()


@wrong
class NewQuorumWaits(Node):
    def view_members(self) -> None:
        with replaced(self, "commits", lambda: False):
            super().view_members()


@wrong
class TransferOutlivesItsTarget(Node):
    def view_members(self) -> None:
        transferee, self.transferee = self.transferee, 0
        super().view_members()
        self.transferee = transferee


@wrong
class RefusedChangesAreSilent(Node):
    def tell(self, level: str, text: str) -> None:
        if not text.startswith("refused change"):
            super().tell(level, text)


@wrong
class RemovedLeaderLeadsOn(Node):
    def apply_change(self, index: int, change: Change) -> None:
        options, self.options = self.options, self.options._replace(step_down_on_removal=False)
        super().apply_change(index, change)
        self.options = options


@wrong
class EarlierChangesAreForgotten(Node):
    def become(self, role: str) -> None:
        if role == "leader":
            self.pending_change = 0
        super().become(role)


# Other calls


@wrong
class LeaderForgetsItself(Node):
    def forget_leader(self) -> None:
        self.lead = 0


@wrong
class NeverForgets(Node):
    def forget_leader(self) -> None:
        pass


@wrong
class GoesOnReplicating(Node):
    def report_unreachable(self, id: int) -> None:
        pass


@wrong
class TimeoutStays(Node):
    def reset(self, term: int) -> None:
        timeout = self.timeout
        super().reset(term)
        self.timeout = timeout
