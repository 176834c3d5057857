"""Whom a leader has heard in its term, by the messages that it got. With `checkquorum` it can't take others for active (Ongaro's thesis, 6.2)."""
from __future__ import annotations

import dataclasses

from plain.config import Config
from plain.records import AnyNode, Message


@dataclasses.dataclass
class Heard:
    """Who sent a node messages in a term, and the configuration that it had when the term began."""

    term: int
    config: Config
    members: set[int] = dataclasses.field(default_factory=set)


class Activity:
    """Looks only at nodes that check their quorum: others may take everybody for active."""

    def __init__(self) -> None:
        self.checking: set[int] = set()
        self.heard: dict[int, Heard] = {}

    def look(self, node: AnyNode, message: Message | None) -> None:
        """After a call; `message` is the one that it brought."""
        known = self.heard.get(node.id)
        if known is None or known.term != node.term:
            known = self.heard[node.id] = Heard(node.term, node.config)
        if message and message.term in (0, node.term):
            known.members.add(message.sender)

    def unheard(self, node: AnyNode) -> set[int]:
        """The members that a leader can't take for active. Once its configuration has changed there are none: who is added counts as active in some libraries."""
        known = self.heard.get(node.id)
        if node.id not in self.checking or node.role != "leader" or known is None or known.term != node.term or known.config != node.config:
            return set()
        return set(node.config.members()) - known.members - {node.id}
