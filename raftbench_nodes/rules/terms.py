"""Rules of what the term of a message changes, and of votes."""
from __future__ import annotations

from typing import Any

from plain.node import TIMEOUT, Disk
from plain.records import Message

from .own import Ruled

FROM_LEADERS = ("MsgApp", "MsgHeartbeat", "MsgSnap")
ASKING = ("candidate", "precandidate")
ANSWERS = ("MsgAppResp", "MsgVoteResp", "MsgPreVoteResp", "MsgHeartbeatResp")
# The roles in which the later term of an answer counts, if it needs one.
ASKERS = {"MsgVoteResp": ("candidate",), "MsgPreVoteResp": ASKING}


class PreVoteTermRules(Ruled):
    """The terms of pre-votes, and of their answers."""

    serves = frozenset(("pre-vote-answer-has-asked-term", "pre-vote-brings-term", "pre-vote-refusal-keeps-term"))
    asked_term = 0  # of the message that is handled

    def step(self, m: Message) -> None:
        self.asked_term = m.term
        if self.on("pre-vote-refusal-keeps-term") and self.is_of_next_term(m):
            return self.ignore(m)
        if self.on("pre-vote-brings-term") and self.is_stale_pre_vote(m):
            return self.ignore(m)
        return super().step(m)

    def is_of_next_term(self, m: Message) -> bool:
        """Whether a precandidate is refused in the term that it asks for."""
        return self.role == "precandidate" and m.kind == "MsgPreVoteResp" and m.refused and m.term == self.term + 1

    def is_stale_pre_vote(self, m: Message) -> bool:
        """Whether the sender of a pre-vote, or of its grant, is of an earlier term than this node."""
        return (m.kind == "MsgPreVote" or m.kind == "MsgPreVoteResp" and not m.refused) and m.term - 1 < self.term

    def raise_term(self, m: Message) -> None:
        if self.on("pre-vote-brings-term") and m.kind == "MsgPreVote" and m.term - 1 > self.term:
            self.follow(m.term - 1, 0)
        else:
            super().raise_term(m)

    def send(self, kind: str, to: int, **parts: Any) -> None:
        if kind == "MsgPreVoteResp" and to != self.id and self.on("pre-vote-answer-has-asked-term"):
            parts["term"] = self.asked_term
        super().send(kind, to, **parts)


class TermRules(Ruled):
    """Messages whose term doesn't count, or whose sender."""

    serves = frozenset(("stranger-ignored", "term-0-is-taken", "transfer-has-term"))

    def step(self, m: Message) -> None:
        if m.kind in ANSWERS and self.on("stranger-ignored") and not self.config.is_member(m.sender):
            return self.ignore(m)
        if m.kind == "MsgTransferLeader" and m.term:
            if m.term < self.term:
                return self.ignore(m)
            if m.term > self.term:
                self.raise_term(m)
        if m.term == 0 and self.on("term-0-is-taken"):
            if self.role in ASKING and m.kind in FROM_LEADERS:
                self.follow(0, m.sender)
            m = m._replace(term=self.term)
        return super().step(m)


class OtherTermRules(Ruled):
    """What a later or an earlier term of a message changes, and another leader of the same term."""

    serves = frozenset((
        "answers-need-their-role", "earlier-append-refused", "earlier-vote-refused", "heartbeat-answers-have-no-term", "later-term-keeps-clock", "lead-is-kept",
        "leader-follows-another", "stale-leader-keeps-term",
    ))

    def answer_older(self, m: Message) -> None:
        if self.on("earlier-vote-refused") and m.kind == "MsgVote":
            return self.send("MsgVoteResp", m.sender, refused=True)
        if self.on("earlier-append-refused") and m.kind == "MsgApp":
            return self.send("MsgAppResp", m.sender, refused=True, index=m.index, hint=self.last())
        return super().answer_older(m)

    def raise_term(self, m: Message) -> None:
        if self.on("heartbeat-answers-have-no-term") and m.kind == "MsgHeartbeatResp":
            return
        if self.on("answers-need-their-role") and m.kind in ANSWERS and self.role not in ASKERS.get(m.kind, ("leader",)):
            return
        if self.on("stale-leader-keeps-term") and m.kind == "MsgAppResp":
            if self.role == "leader":
                self.follow(self.term, 0)
            return
        lead = self.lead if self.role == "follower" and self.on("lead-is-kept") and m.kind not in FROM_LEADERS else 0
        clock = self.elapsed, self.timeout
        keeps_clock = self.role == "follower" and self.on("later-term-keeps-clock")
        super().raise_term(m)
        if keeps_clock:
            self.elapsed, self.timeout = clock
        if lead and m.term == self.term:
            self.lead = lead

    def by_role(self, m: Message) -> None:
        if self.role == "leader" and m.kind in ("MsgApp", "MsgHeartbeat") and self.on("leader-follows-another"):
            self.follow(self.term, m.sender)
        super().by_role(m)


class VoteRules(Ruled):
    """Who is given a vote, who is ignored, and what votes count for."""

    serves = frozenset((
        "append-draws-timeout", "known-leader-may-ask", "known-leader-refuses", "late-vote-passes-pre-vote", "lead-is-kept", "nonvoter-refuses",
        "pre-vote-ignores-vote", "refused-candidate-stays", "timeout-ignores-candidates",
    ))
    has_timeout = False  # whether it began one since its start

    def start_from(self, disk: Disk) -> None:
        self.has_timeout = False
        super().start_from(disk)

    def follow(self, term: int, lead: int) -> None:
        self.has_timeout = self.has_timeout or self.role != "follower"
        super().follow(term, lead)

    def draw_timeout(self) -> None:
        """A follower's timeout begins anew."""
        self.has_timeout = True
        if self.on("append-draws-timeout"):
            self.timeout = TIMEOUT

    def waits_out(self) -> bool:
        """Whether a timeout that it began isn't over. A leader's never is; who asks for votes begins none that counts."""
        return self.role == "leader" or self.role == "follower" and self.has_timeout and self.elapsed < TIMEOUT

    def is_undisturbed(self, m: Message) -> bool:
        if self.on("timeout-ignores-candidates"):
            return m.kind in ("MsgVote", "MsgPreVote") and not m.by_transfer and self.waits_out()
        if self.on("known-leader-may-ask") and m.sender == self.lead:
            return False
        asks = m.kind in ("MsgVote", "MsgPreVote") and not m.by_transfer and self.lead not in (0, m.sender)
        if not self.on("known-leader-refuses"):
            return super().is_undisturbed(m)
        is_it = asks or super().is_undisturbed(m)
        if is_it:
            self.send(f"{m.kind}Resp", m.sender, refused=True)
        return is_it

    def answer_candidate(self, m: Message) -> None:
        lead, vote = self.lead, self.vote
        if self.on("nonvoter-refuses") and not self.config.is_voter(self.id):
            return self.send(f"{m.kind}Resp", m.sender, refused=True)
        if self.on("pre-vote-ignores-vote") and m.kind == "MsgPreVote":
            self.lead = self.vote = 0
            super().answer_candidate(m)
            self.lead, self.vote = lead, vote
            return None
        if self.on("lead-is-kept") and self.vote == 0 and m.kind == "MsgVote":
            self.lead = 0
        super().answer_candidate(m)
        if m.kind == "MsgVote" and self.vote == m.sender != vote:
            self.draw_timeout()
        self.lead = lead if self.on("lead-is-kept") else self.lead
        return None

    def by_role(self, m: Message) -> None:
        if m.kind in FROM_LEADERS:
            self.draw_timeout()
        if self.role == "precandidate" and m.kind == "MsgVoteResp" and self.on("late-vote-passes-pre-vote"):
            return self.count_vote(m)
        return super().by_role(m)

    def count_vote(self, m: Message) -> None:
        if self.on("refused-candidate-stays") and m.refused:
            return self.ignore(m)
        return super().count_vote(m)
