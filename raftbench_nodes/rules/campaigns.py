"""Rules of campaigns: who may campaign, how often it asks, and a lone voter that leads from its start."""
from __future__ import annotations

from plain.config import Change
from plain.node import Disk

from .own import Ruled


class FirstForm(Change):
    """A change that was asked for in etcd's first form."""


class CampaignRules(Ruled):
    """Who may campaign, and what it asks for."""

    serves = frozenset((
        "candidate-asks-once", "change-counts-when-appended", "declined-campaign-forgets-leader", "lone-voter-begins-term", "lone-voter-leads",
        "messages-are-calls", "nonvoter-times-out", "pending-change-campaigns", "pre-vote-keeps-timeout", "pre-vote-restarts-clock",
        "snapshot-always-installed", "told-candidate-stays-told", "unstable-member-campaigns", "won-question-campaigns",
    ))
    was_told = False  # to campaign, by a leader

    def why_not(self) -> str | None:
        why = super().why_not()
        is_free = self.on("pending-change-campaigns") and not self.has_first_form_pending() or self.on("change-counts-when-appended")
        if why == "change pending" and is_free or why == "snapshot pending" and self.on("snapshot-always-installed"):
            return None
        may = self.on("unstable-member-campaigns") and self.is_unstable() or self.on("nonvoter-times-out") and self.role == "candidate"
        return None if why == "not a voter" and may else why

    def why_not_now(self, kind: str) -> str | None:
        return None if self.on("won-question-campaigns") and kind == "elected" else super().why_not_now(kind)

    def has_first_form_pending(self) -> bool:
        """Whether a change of the first form is committed and isn't applied."""
        return any(isinstance(entry.body, FirstForm) for _, entry in self.entries_from(self.applied + 1, self.commit))

    def propose_change(self, change: Change, is_v1: bool = False) -> None:
        super().propose_change(FirstForm(*change) if is_v1 else change, is_v1)

    def campaign(self, kind: str = "usual") -> None:
        if self.is_lone_leader() and self.why_not_now(kind) is None:
            return self.lead_alone()
        timeout = self.timeout
        if self.role == "candidate" and kind == "usual":
            kind = self.kind_again()
        self.was_told = kind == "transfer"
        if self.on("declined-campaign-forgets-leader") and self.why_not_now(kind) == "not a voter":
            self.lead = 0
        super().campaign(kind)
        if (self.on("unstable-member-campaigns") or self.on("messages-are-calls")) and self.role == "candidate" and not self.config.is_voter(self.id):
            self.vote = 0
        if self.on("pre-vote-restarts-clock") and self.role == "precandidate" and kind == "usual" and self.why_not_now(kind) is None:
            self.elapsed = 0
        if self.on("pre-vote-keeps-timeout") and self.role == "precandidate" and kind == "usual":
            self.timeout = timeout
        return None

    def kind_again(self) -> str:
        """The kind of a candidate's next campaign."""
        if self.on("told-candidate-stays-told") and self.was_told:
            return "transfer"
        return "elected" if self.on("candidate-asks-once") else "usual"

    # A lone voter

    def is_lone_leader(self) -> bool:
        return self.on("lone-voter-leads") and self.config.voters() == {self.id}

    def start_from(self, disk: Disk) -> None:
        super().start_from(disk)
        if self.is_lone_leader():
            self.lead_alone()

    def lead_alone(self) -> None:
        """A lone voter leads, in its term or in the next."""
        if self.on("lone-voter-begins-term"):
            self.reset(self.term + 1)
            self.vote = self.id
        self.lead_on()

    def lead_on(self) -> None:
        if self.is_lone_leader() and not self.on("lone-voter-begins-term"):
            self.commit = max(self.commit, self.durable)
        super().lead_on()
