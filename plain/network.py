"""The messages in flight: one list, in the order in which they were sent."""
from typing import Callable, Iterable, NamedTuple, Sequence

from .records import Message

MOST_PENDING = 4096


class Choice(NamedTuple):
    """Which of a node's pending messages are taken: those of these types, or of any; of a sender, or of any; without the first `skip` of
    these; and at most `most` of the rest.
    """

    types: Sequence[str] | None = None
    sender: int | None = None
    skip: int = 0
    most: int = MOST_PENDING

    def takes(self, id: int, message: Message) -> bool:
        """Whether a message counts, before any is skipped."""
        has_type, has_sender = self.types is None or message.kind in self.types, self.sender in (None, message.sender)
        return message.to == id and has_type and has_sender


class Network:
    def __init__(self) -> None:
        self.pending: list[Message] = []

    def frozen(self) -> tuple[Message, ...]:
        return tuple(self.pending)

    def put(self, message: Message) -> bool:
        """Puts a message behind the pending ones; answers whether there was room."""
        has_room = len(self.pending) < MOST_PENDING
        if has_room:
            self.pending.append(message)
        return has_room

    def has_for(self, ids: Iterable[int]) -> bool:
        return any(m.to in ids for m in self.pending)

    def is_held(self, message: Message) -> bool:
        """Whether a message can't arrive now."""
        return False

    def take(self, id: int, choice: Choice = Choice()) -> list[Message]:
        """Takes the chosen ones of the pending messages for a node, in their order."""
        at = [at for at, m in enumerate(self.pending) if choice.takes(id, m) and not self.is_held(m)][choice.skip:][:choice.most]
        taken, gone = [self.pending[k] for k in at], set(at)
        self.pending = [m for k, m in enumerate(self.pending) if k not in gone]
        return taken

    def change(self, id: int, arranged: Callable[[list[Message]], list[Message]]) -> None:
        """Puts in place of the pending messages for a node what `arranged` makes of their list."""
        mine = [m for m in self.pending if m.to == id]
        self.pending = ([m for m in self.pending if m.to != id] + arranged(mine))[:MOST_PENDING]
