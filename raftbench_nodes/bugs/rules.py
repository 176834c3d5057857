"""Well-known bugs of Raft libraries, each as a plain node with one rule broken. bugs/measure.py measures how soon explore finds them. The number in
brackets is the section of Ongaro's thesis with the rule.
"""
from __future__ import annotations

import dataclasses
from typing import Any

from plain.config import Change, both, commit_of, most, vote_result
from plain.node import Node, View
from plain.records import Body, Message, Numbered

from .registry import planted


# Elections


@planted("votes-twice")
class VotesTwice(Node):
    """Grants a second candidate of the same term its vote (3.4)."""

    def answer_candidate(self, m: Message) -> None:
        if m.kind == "MsgVote":
            self.vote, self.lead = 0, 0
        super().answer_candidate(m)


@planted("forgets-vote")
class ForgetsVote(Node):
    """Forgets its vote when it steps down within its term (3.4)."""

    def follow(self, term: int, lead: int) -> None:
        super().follow(term, lead)
        self.vote = 0


@planted("keeps-old-vote")
class KeepsOldVote(Node):
    """Keeps its vote in a later term, and so has none to give (3.4)."""

    def reset(self, term: int) -> None:
        vote = self.vote
        super().reset(term)
        self.vote = vote


@planted("votes-by-length")
class VotesByLength(Node):
    """Compares the length of a candidate's log, and not its last term (3.6.1)."""

    def is_new(self, term: int, index: int) -> bool:
        return index >= self.last()


@planted("votes-for-any-log")
class VotesForAnyLog(Node):
    """Votes whatever the candidate's log is (3.6.1)."""

    def is_new(self, term: int, index: int) -> bool:
        return True


@planted("ignores-later-terms")
class IgnoresLaterTerms(Node):
    """A leader ignores an answer with a later term (3.3)."""

    def raise_term(self, m: Message) -> None:
        if not (self.role == "leader" and m.kind in ("MsgAppResp", "MsgHeartbeatResp")):
            super().raise_term(m)


@planted("takes-earlier-terms")
class TakesEarlierTerms(Node):
    """Accepts an append of a leader of an earlier term (3.3)."""

    def answer_older(self, m: Message) -> None:
        return self.by_role(m) if m.kind == "MsgApp" else super().answer_older(m)


@planted("half-is-a-quorum")
class HalfIsAQuorum(Node):
    """Wins with half of the votes (3.4)."""

    def count_vote(self, m: Message) -> None:
        granted = {id for id, yes in {m.sender: not m.refused, **self.votes}.items() if yes}
        if self.role == "candidate" and 2 * len(granted & self.config.incoming) == len(self.config.incoming):
            self.votes[m.sender] = not m.refused
            return self.lead_on()
        return super().count_vote(m)


@planted("candidate-keeps-standing")
class CandidateKeepsStanding(Node):
    """Stays a candidate although another node already leads in its term (3.4)."""

    def by_role(self, m: Message) -> None:
        if self.role == "candidate" and m.kind in ("MsgApp", "MsgHeartbeat"):
            return self.ignore(m)
        return super().by_role(m)


@planted("timeout-runs-on")
class TimeoutRunsOn(Node):
    """Doesn't reset its election timeout when it hears from its leader (3.4)."""

    def take_beat(self, m: Message) -> None:
        elapsed = self.elapsed
        super().take_beat(m)
        self.elapsed = elapsed

    def take_append(self, m: Message) -> None:
        elapsed = self.elapsed
        super().take_append(m)
        self.elapsed = elapsed


@planted("pre-vote-raises-term")
class PreVoteRaisesTerm(Node):
    """A pre-vote already begins the next term (9.6)."""

    def campaign(self, kind: str = "usual") -> None:
        super().campaign(kind)
        if self.role == "precandidate":
            self.term += 1


@planted("pre-vote-binds")
class PreVoteBinds(Node):
    """A granted pre-vote counts as its vote (9.6)."""

    def answer_candidate(self, m: Message) -> None:
        waiting = len(self.waiting)
        super().answer_candidate(m)
        if m.kind == "MsgPreVote" and len(self.waiting) > waiting and not self.waiting[-1].refused:
            self.vote = m.sender


@planted("is-disturbed")
class IsDisturbed(Node):
    """Answers a candidate although it has just heard from its leader (4.2.3)."""

    def is_undisturbed(self, m: Message) -> bool:
        return False


@planted("leads-without-quorum")
class LeadsWithoutQuorum(Node):
    """Keeps leading although no quorum answers (6.2)."""

    def keeps_lead(self) -> bool:
        self.elapsed = 0
        self.end_transfer()
        return True


# Logs


@planted("keeps-conflict")
class KeepsConflict(Node):
    """Appends after the entries that it has, and removes none that conflict (3.5)."""

    def put_after(self, numbered: list[Numbered]) -> None:
        self.entries = self.entries + [entry for at, entry in numbered if at > self.last()]


@planted("cuts-always")
class CutsAlways(Node):
    """Cuts its log after each append, even if nothing conflicts: an old append removes new entries (3.5)."""

    def put_after(self, numbered: list[Numbered]) -> None:
        super().put_after(numbered)
        if numbered:
            self.entries = self.entries[:max(numbered[-1][0], self.commit) - self.base]
            self.durable = min(self.durable, self.last())


@planted("answers-with-last")
class AnswersWithLast(Node):
    """Says that it holds all of its log, and not just what the append covers (3.5)."""

    def take_append(self, m: Message) -> None:
        waiting = len(self.waiting)
        super().take_append(m)
        if len(self.waiting) > waiting and not self.waiting[-1].refused:
            self.waiting[-1] = self.waiting[-1]._replace(index=self.last())


@planted("commits-past-append")
class CommitsPastAppend(Node):
    """Commits up to the end of its log, and not of what the append covers (3.5)."""

    def take_append(self, m: Message) -> None:
        super().take_append(m)
        if m.index >= self.commit and self.term_at(m.index) == m.log_term:
            self.commit = max(self.commit, min(m.commit, self.last()))


@planted("beat-past-match")
class BeatPastMatch(Node):
    """A heartbeat has the leader's commit, and not the smaller of it and what the follower holds (3.5)."""

    def send(self, kind: str, to: int, **parts: Any) -> None:
        if kind == "MsgHeartbeat":
            parts["commit"] = self.commit
        super().send(kind, to, **parts)


@planted("never-steps-back")
class NeverStepsBack(Node):
    """Asks again at the same index after a refusal (3.5)."""

    def take_refusal(self, m: Message, view: View) -> None:
        if view.state == "probe" and m.index == view.next - 1:
            view.waiting = False
            return self.sends(m.sender, "tell")
        return super().take_refusal(m, view)


@planted("commits-earlier-terms")
class CommitsEarlierTerms(Node):
    """Commits an entry of an earlier term by counting who holds it (3.6.2, figure 3.7)."""

    def commits(self) -> bool:
        held = commit_of(self.config, {id: view.match for id, view in self.views.items()})
        if held <= self.commit:
            return False
        self.commit = held
        self.tell_all()
        return True


@planted("counts-unsaved")
class CountsUnsaved(Node):
    """A leader counts its own entry before it is saved (10.2.1)."""

    def append(self, body: Body) -> bool:
        done = super().append(body)
        if done and self.id in self.views:
            self.views[self.id].match = self.last()
            self.commits()
        return done


@planted("no-empty-entry")
class NoEmptyEntry(Node):
    """A new leader doesn't begin its term with an empty entry, and so commits nothing of earlier ones (6.4)."""

    def append(self, body: Body) -> bool:
        return body == b"" or super().append(body)


@planted("window-overflows")
class WindowOverflows(Node):
    """Keeps sending into a full window."""

    def sends(self, id: int, mode: str) -> None:
        view = self.views.get(id)
        if view and view.state == "replicate":
            view.window = view.window[-(self.options.inflight - 1):] if self.options.inflight > 1 else []
        super().sends(id, mode)


@planted("applies-twice")
class AppliesTwice(Node):
    """Applies the last entry of what is ready again the next time (3.5)."""

    def advance(self) -> None:
        coming = self.entries_from(self.applied + 1, self.commit)
        super().advance()
        if len(coming) > 1 and isinstance(coming[-1][1].body, bytes):
            self.content += coming[-1][1].body


# Snapshots


@planted("snapshot-goes-back")
class SnapshotGoesBack(Node):
    """Restores a snapshot that is older than what it has committed (5.3)."""

    def take_snapshot(self, m: Message) -> None:
        assert m.snapshot is not None
        if m.snapshot.index < self.commit:
            self.base, self.base_term, self.entries = m.snapshot.index, m.snapshot.term, []
            self.durable = self.commit = self.applied = m.snapshot.index
            self.content = m.snapshot.content
        super().take_snapshot(m)


@planted("snapshot-loses-configuration")
class SnapshotLosesConfiguration(Node):
    """Restores a snapshot without the configuration in it (5.3)."""

    def take_snapshot(self, m: Message) -> None:
        assert m.snapshot is not None
        super().take_snapshot(m._replace(snapshot=dataclasses.replace(m.snapshot, config=self.config)))


@planted("compacted-term-lost")
class CompactedTermLost(Node):
    """Doesn't keep the term of the last compacted entry (5.1)."""

    def compact(self, index: int) -> None:
        super().compact(index)
        self.base_term = 0


# Changes of the configuration, and transfers


@planted("changes-too-early")
class ChangesTooEarly(Node):
    """Accepts a change although an earlier one isn't applied (4.1)."""

    def append_change(self, change: Change) -> None:
        self.pending_change = 0
        super().append_change(change)


@planted("one-quorum-of-two")
class OneQuorumOfTwo(Node):
    """In a joint configuration it commits by the incoming voters alone (4.3)."""

    def commits(self) -> bool:
        held = commit_of(self.config._replace(outgoing=frozenset()), {id: view.match for id, view in self.views.items()})
        if held <= self.commit or self.term_at(held) != self.term:
            return False
        self.commit = held
        self.tell_all()
        return True


@planted("elects-by-one-of-two")
class ElectsByOneOfTwo(Node):
    """In a joint configuration it wins by the incoming voters alone (4.3)."""

    def count_vote(self, m: Message) -> None:
        config, self.config = self.config, self.config._replace(outgoing=frozenset())
        votes = {m.sender: not m.refused, **self.votes}
        wins = self.role == "candidate" and vote_result(self.config, votes) == "won"
        self.config = config
        if wins:
            self.votes = votes
            return self.lead_on()
        return super().count_vote(m)


@planted("learners-count")
class LearnersCount(Node):
    """Learners count for what is committed (4.2.1)."""

    def commits(self) -> bool:
        ids, match = self.config.incoming | self.config.learners, {id: view.match for id, view in self.views.items()}
        held = max((n for n in {0, *match.values()} if most(ids, lambda id: match.get(id, 0) >= n)), default=0)
        if not both(self.config, lambda id: True) or held <= self.commit or self.term_at(held) != self.term:
            return False
        self.commit = held
        self.tell_all()
        return True


@planted("never-leaves-joint")
class NeverLeavesJoint(Node):
    """Stays in a joint configuration that it should leave automatically (4.3)."""

    def leave_by_itself(self) -> None:
        pass


@planted("transfers-to-who-lags")
class TransfersToWhoLags(Node):
    """Tells the target of a transfer to campaign before it has all entries (3.10)."""

    def start_transfer(self, m: Message) -> None:
        before = self.transferee
        super().start_transfer(m)
        if self.transferee != before and self.views[m.target].match != self.last():
            self.send("MsgTimeoutNow", m.target)


@planted("proposes-while-transferring")
class ProposesWhileTransferring(Node):
    """Accepts proposals while it transfers leadership (3.10)."""

    def take_proposal(self, m: Message) -> None:
        transferee, self.transferee = self.transferee, 0
        super().take_proposal(m)
        self.transferee = transferee
