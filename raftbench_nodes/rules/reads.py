"""Rules of reads, where followers forward them (6.4)."""
from __future__ import annotations

from plain.config import both
from plain.node import CASES, Disk, PendingRead, View
from plain.records import Message, Read

from .own import Ruled

ROLES = ("follower", "precandidate", "candidate", "leader")


class ReadRules(Ruled):
    """Reads in the order in which a leader was asked. A heartbeat names the last of them, and its answer counts for that one."""

    serves = frozenset(("reads-are-forwarded",))
    early: tuple[Message, ...] = ()  # asked for before the leader has committed in its term
    askers: dict[int, int] = {}  # who asked for which read
    cases = {**CASES, **{(role, "MsgReadIndex"): "take_read" for role in ROLES}, ("follower", "MsgReadIndexResp"): "take_read_answer"}
    without_term = (*Ruled.without_term, "MsgReadIndex")
    is_answering = False  # while an answer to an append is taken

    def start_from(self, disk: Disk) -> None:
        super().start_from(disk)
        self.early, self.askers = (), {}

    def read(self, id: int) -> None:
        self.take_read(Message("MsgReadIndex", self.id, self.id, context=id))

    def take_read_answer(self, m: Message) -> None:
        self.served.append(Read(m.context, m.index))

    def take_read(self, m: Message) -> None:
        if self.role == "follower" and self.lead:
            self.send("MsgReadIndex", self.lead, term=0, context=m.context)
        elif self.role != "leader":
            self.tell("INFO", f"can't read {m.context}")
        elif len(self.config.incoming) == 1 and not self.config.outgoing:
            self.answer_read(m.context, m.sender, self.commit)
        elif self.known_term(self.commit) != self.term:
            self.early += (m,)
        else:
            self.ask_quorum(m)

    def ask_quorum(self, m: Message) -> None:
        if m.context not in self.reads:
            self.reads[m.context], self.askers[m.context] = PendingRead(self.commit, {self.id}), m.sender
        for to in self.others():
            self.beat(to, m.context)

    def answer_read(self, id: int, asker: int, index: int) -> None:
        if asker == self.id:
            self.served.append(Read(id, index))
        else:
            self.send("MsgReadIndexResp", asker, index=index, context=id)

    def beat(self, id: int, read: int = 0) -> None:
        super().beat(id, read or next(reversed(self.reads), 0))

    def take_beat_answer(self, m: Message) -> None:
        """Once a quorum has answered for a read, it is served, and so are those that were asked for before."""
        super().take_beat_answer(m._replace(context=0))
        asked = self.reads.get(m.context) if m.sender in self.views else None
        if asked is None:
            return
        asked.heard.add(m.sender)
        if both(self.config, asked.heard.__contains__):
            for id in list(self.reads):
                self.answer_read(id, self.askers[id], self.reads.pop(id).index)
                if id == m.context:
                    break

    def take_acceptance(self, m: Message, view: View) -> None:
        self.is_answering = True
        super().take_acceptance(m, view)
        self.is_answering = False

    def tell_all(self) -> None:
        """Reads that waited for the first commit of the term are asked about before it is told."""
        if self.is_answering and self.early and self.known_term(self.commit) == self.term:
            early, self.early = self.early, ()
            for m in early:
                self.ask_quorum(m)
        super().tell_all()
