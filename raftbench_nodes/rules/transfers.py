"""Rules of what is forwarded to a leader, and of how a leader hands over."""
from __future__ import annotations

from plain.records import Message

from .own import Ruled


class TransferRules(Ruled):
    """Proposals and transfers that are passed on, and transfers at a leader and at their target."""

    serves = frozenset((
        "one-transfer-at-a-time", "proposal-keeps-sender", "proposal-refused", "transfer-goes-by-sent", "transfer-has-term", "transfer-needs-whole-log",
        "transfer-refused", "transfer-to-itself-ends", "transfer-to-passer",
    ))
    has_handed_over = False  # the transfer that is under way

    def hand_over(self, to: int) -> None:
        if self.on("transfer-goes-by-sent"):
            if self.has_handed_over:
                return
            self.has_handed_over = True
        if self.on("transfer-needs-whole-log"):
            self.send("MsgTimeoutNow", to, index=self.last(), log_term=self.last_term())
        else:
            super().hand_over(to)

    def pass_proposal(self, m: Message) -> None:
        if self.on("proposal-refused"):
            return self.drop(m)
        super().pass_proposal(m)
        if self.on("proposal-keeps-sender") and self.lead:
            self.sent[-1] = self.sent[-1]._replace(sender=m.sender)
        return None

    def pass_transfer(self, m: Message) -> None:
        if self.on("transfer-refused"):
            return self.ignore(m)
        super().pass_transfer(m._replace(target=self.id) if self.on("transfer-to-passer") else m)
        if self.on("transfer-has-term") and self.lead:
            self.sent[-1] = self.sent[-1]._replace(term=self.term)
        return None

    def campaign_by_transfer(self, m: Message) -> None:
        """Told of the last entry of the leader's log, a node may compare it with its own."""
        is_whole = m.sender == self.lead and (m.index, m.log_term) == (self.last(), self.last_term())
        if self.on("transfer-needs-whole-log") and not is_whole:
            return self.ignore(m)
        return super().campaign_by_transfer(m)

    def start_transfer(self, m: Message) -> None:
        if self.on("transfer-to-itself-ends") and m.target == self.id and self.transferee and self.config.is_voter(self.id):
            return self.end_transfer()
        if self.on("one-transfer-at-a-time") and self.transferee:
            return self.ignore(m)
        view, self.has_handed_over = self.views.get(m.target), False
        if view and self.on("transfer-goes-by-sent") and m.target in self.config.voters() - {self.id, self.transferee} and view.next > self.last():
            self.end_transfer()
            self.elapsed, self.transferee = 0, m.target
            return self.hand_over(m.target)
        return super().start_transfer(m)
