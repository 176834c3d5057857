"""What nodes keep and send: entries, snapshots, messages, options, and what is ready. `AnyNode` has the calls that a cluster makes of a node."""
from __future__ import annotations

import dataclasses
from typing import Mapping, NamedTuple, Protocol, Union

from .config import Change, Config

# What an entry holds: a payload, or a change of the configuration.
Body = Union[bytes, Change]
Event = tuple[str, str]  # a level and a line


class Entry(NamedTuple):
    term: int
    body: Body


# An entry with its index.
Numbered = tuple[int, Entry]


@dataclasses.dataclass(frozen=True)
class Snapshot:
    index: int
    term: int
    content: bytes
    config: Config


class Message(NamedTuple):
    """A message; which parts it has depends on its type, `kind`."""

    kind: str
    sender: int
    to: int
    term: int = 0
    index: int = 0  # type: ignore[assignment]  # tuples have a method of this name; of the last entry, the entry before an append, or what is answered
    log_term: int = 0  # the term of the entry at that index
    commit: int = 0
    entries: tuple[Entry, ...] = ()
    refused: bool = False
    hint: int = 0
    by_transfer: bool = False
    snapshot: Snapshot | None = None
    body: Body | None = None
    target: int = 0
    context: int = 0  # of a heartbeat and its answer: the read that it is for


class Options(NamedTuple):
    inflight: int = 256
    prevote: bool = False
    checkquorum: bool = False
    step_down_on_removal: bool = False
    max_size_per_msg: int = 0  # bytes of payloads in an append with more than one entry; 0 is no limit
    max_uncommitted_size: int = 0  # bytes of payloads that a leader may have appended and not applied, if it has any; 0 is no limit


class Hard(NamedTuple):
    """The hard state: what has to be saved before a node says anything that rests on it."""

    term: int
    vote: int
    commit: int


@dataclasses.dataclass(frozen=True)
class Read:
    """A read that may be served once `index` is applied; `id` is the asker's."""

    id: int
    index: int


class Ready(NamedTuple):
    """What a node wants done. `hard` is None if it is saved, `snapshot` (index and term) if none was restored. `sync`: save before anything is sent."""

    hard: Hard | None
    snapshot: tuple[int, int] | None
    entries: list[Numbered]  # to save
    committed: list[Numbered]  # to apply
    messages: list[Message]
    sync: bool = False
    reads: tuple[Read, ...] = ()


class ShownView(Protocol):
    """What a leader says of a member."""

    @property
    def state(self) -> str: ...
    @property
    def match(self) -> int: ...
    @property
    def next(self) -> int: ...
    @property
    def inflight(self) -> int: ...
    @property
    def waiting(self) -> bool: ...
    @property
    def active(self) -> bool: ...
    @property
    def pending(self) -> int: ...


class AnyNode(Protocol):
    """What a cluster asks of a node, whoever made it."""

    id: int
    role: str
    term: int
    vote: int
    lead: int
    commit: int
    applied: int
    content: bytes
    config: Config
    events: list[Event]

    @property
    def base(self) -> int: ...
    @property
    def base_term(self) -> int: ...
    @property
    def durable(self) -> int: ...
    @property
    def views(self) -> Mapping[int, ShownView]: ...
    def entries_from(self, index: int) -> list[Numbered]: ...
    def has_ready(self) -> bool: ...
    def ready(self) -> Ready: ...
    def advance(self) -> None: ...
    def campaign(self) -> None: ...
    def tick(self) -> None: ...
    def propose(self, body: bytes) -> None: ...
    def propose_change(self, change: Change, is_v1: bool = False) -> None: ...
    def step(self, m: Message) -> None: ...
    def set_timeout(self, ticks: int) -> None: ...
    def transfer(self, to: int) -> None: ...
    def forget_leader(self) -> None: ...
    def report_unreachable(self, id: int) -> None: ...
    def compact(self, index: int) -> None: ...
    def snapshot_for(self, to: int) -> Message: ...
    def restart(self, saved: str = "nothing") -> None: ...
