"""Rules of changes of the configuration: when they count, when a leader makes them, and what it does about them."""
from __future__ import annotations

from plain.config import Change, ChangeFault, Config, enter_joint
from plain.node import Disk
from plain.records import Message, Numbered

from .own import Ruled

LEAVING = Change("auto", ())


class WholeChange(Change):
    """A change whose entry has all members."""

    members: Config


class ChangeRules(Ruled):
    """Changes of the configuration."""

    serves = frozenset((
        "added-view-at-last", "change-counts-when-appended", "change-has-all-members", "change-tells-all", "changes-wait", "demoted-leader-stops",
        "impossible-change-declined", "leaves-when-committed", "leaving-needs-applying", "leaving-not-pending", "leaving-not-told",
        "no-words-leave-with-auto", "removed-and-added-anew", "transfer-ends-with-voter",
    ))
    is_growing = False  # while views begin as those of added members
    applies = True
    first_led = 0  # the index of the first entry of this leadership
    removed: frozenset[int] = frozenset()  # by the change that is applied

    def advance(self) -> None:
        self.applies = self.commit > self.applied
        super().advance()

    def leave_by_itself(self) -> None:
        if not self.on("leaving-not-told"):
            return super().leave_by_itself()
        leaves = self.role == "leader" and self.config.is_joint() and self.config.auto and (self.applies or not self.on("leaving-needs-applying"))
        if leaves and self.applied >= self.pending_change and self.append_leaving(LEAVING) and not self.on("leaving-not-pending"):
            self.pending_change = self.last()
        return None

    def config_after(self, change: Change) -> Config:
        if isinstance(change, WholeChange):
            return change.members
        if self.on("no-words-leave-with-auto") and not change.words and change.transition != "auto":
            return enter_joint(self.config, (), change.transition == "implicit")
        return super().config_after(change)

    def recount(self) -> None:
        """The configuration that the whole log comes to, if changes count when they are appended."""
        if not self.on("change-counts-when-appended"):
            return
        before, self.config = self.config, self.base_config
        for _, entry in self.entries_from(self.base + 1):
            if isinstance(entry.body, Change):
                try:
                    self.config = self.config_after(entry.body)
                except ChangeFault:
                    pass
        if self.config != before and self.role == "leader":
            self.view_members()

    def lead_on(self) -> None:
        self.first_led = self.last() + 1
        super().lead_on()

    def append_change(self, change: Change) -> None:
        if self.on("changes-wait") and (self.is_unstable() or self.commit < self.first_led):
            return
        if self.on("impossible-change-declined") and self.is_impossible(change):
            return
        if self.on("change-has-all-members") and not self.is_impossible(change):
            members, change = self.config_after(change), WholeChange(*change)
            change.members = members
        super().append_change(change)

    def is_impossible(self, change: Change) -> bool:
        try:
            self.config_after(change)
        except ChangeFault:
            return True
        return False

    def commits(self) -> bool:
        moved = super().commits()
        if self.on("leaves-when-committed") and self.role == "leader" and not self.config.is_voter(self.id) and not self.is_unstable():
            self.follow(self.term, 0)
        return moved

    def take_proposal(self, m: Message) -> None:
        """A leader that removes itself goes on until that is committed, and then isn't one."""
        if self.on("leaves-when-committed") and self.id not in self.views and isinstance(m.body, bytes) and not self.transferee:
            self.append(m.body)
        else:
            super().take_proposal(m)

    def put_after(self, numbered: list[Numbered]) -> None:
        super().put_after(numbered)
        self.recount()

    def start_from(self, disk: Disk) -> None:
        super().start_from(disk)
        self.recount()

    def apply_change(self, index: int, change: Change) -> None:
        if self.on("change-counts-when-appended"):
            is_gone = self.role == "leader" and not self.config.is_voter(self.id)
            if is_gone and self.options.step_down_on_removal and not self.on("leaves-when-committed"):
                self.follow(self.term, 0)
            return
        if self.on("removed-and-added-anew"):
            self.removed = frozenset(id for letter, id in change.words if letter == "r") - self.config.incoming
        super().apply_change(index, change)

    def view_members(self) -> None:
        self.is_growing = True
        self.views = {id: view for id, view in self.views.items() if id not in self.removed}
        if self.on("demoted-leader-stops") and not self.config.is_voter(self.id):
            self.view_added()
        elif self.on("change-tells-all"):
            self.view_added()
            self.tell_new()
        else:
            super().view_members()
        self.is_growing = False

    def tell_new(self) -> None:
        """Sends all members what is new, after a change."""
        if not self.commits():
            for id in self.others():
                self.sends(id, "news")
        heirs = self.config.voters() if self.on("transfer-ends-with-voter") else self.config.members()
        if self.transferee not in heirs:
            self.end_transfer()

    def view_added(self) -> None:
        members = self.config.members()
        self.views = {id: view for id, view in self.views.items() if id in members}
        for id in sorted(members - set(self.views)):
            self.new_view(id, True)

    def new_view(self, id: int, active: bool) -> None:
        super().new_view(id, active)
        if self.on("added-view-at-last") and id != self.id and self.is_growing:
            self.views[id].next = max(self.last(), 1)
