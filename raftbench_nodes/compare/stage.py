"""A cluster that also carries out the runner's steps, and records what each directive did: the calls that were made, and what was ready."""
from __future__ import annotations

import collections
import functools
import operator
from typing import Any, NamedTuple, Sequence

from plain.cluster import Cluster
from plain.config import Config
from plain.directives import Request
from plain.network import MOST_PENDING, Choice, Network
from plain.node import Node
from plain.records import AnyNode, Message, Options, Ready
from plain.script import Argument

from ..process.node import HostedNode
from ..process.process import Process
from ..protocol.answers import STATE
from ..protocol.encoding import Hello, WireMessage, is_early
from ..rules.own import Ruled
from .made import NodeBefore, note_call, note_start
from .runner_steps import LIMITED, UNORDERED, RunnerStep

AnyKindOfNode = Node | HostedNode
ALL = Choice()
# What `stabilize` says of a cluster that doesn't come to rest.
NEVER = "stopped after 200 rounds"


# The parts of a state that are noted after a call.
AFTER = STATE[:6]
parts_after = operator.attrgetter(*AFTER)


class CallRecord(NamedTuple):
    """A call of a node: its name or the type of the message, the role before it, and the parts of `AFTER` after it."""

    node: int
    what: str
    role: str
    after: tuple[object, ...]


class HoldingNetwork(Network):
    """A network that holds back what some nodes send to others, and knows what was delivered last from one to another."""

    def __init__(self) -> None:
        super().__init__()
        self.held: set[tuple[int, int]] = set()
        self.delivered: dict[tuple[int, int], Message] = {}

    def is_held(self, m: Message) -> bool:
        return (m.sender, m.to) in self.held

    def has_for(self, ids: Any) -> bool:
        return any(m.to in ids and not (self.held and self.is_held(m)) for m in self.pending)

    def take(self, id: int, choice: Choice = ALL) -> list[Message]:
        """Takes the chosen messages. If all of a node's are wanted and none is held back, none is looked at twice."""
        if self.held or choice != ALL:
            return super().take(id, choice)
        taken = [m for m in self.pending if m.to == id]
        if taken:
            self.pending = [m for m in self.pending if m.to != id]
        return taken

    def change(self, id: int, arranged: Any) -> None:
        mine = [m for m in self.pending if m.to == id and not self.is_held(m)]
        rest = [m for m in self.pending if m.to != id or self.is_held(m)]
        self.pending = (rest + arranged(mine))[:MOST_PENDING]


class KnownRequest(Request):
    """A request whose ids are looked for once."""

    def __init__(self, name: bytes, arguments: tuple[Argument, ...]) -> None:
        super().__init__(name, arguments)
        self.ids = super().named()

    def named(self) -> list[int]:
        return self.ids


known_request = functools.lru_cache(maxsize=20_000)(KnownRequest)


class Stage(Cluster):
    """`begins_at_0`: nodes with voters begin with an empty log, and not behind a snapshot."""

    def __init__(self, begins_at_0: bool = False) -> None:
        super().__init__()
        self.network: HoldingNetwork = HoldingNetwork()
        self.begins_at_0, self.limit, self.most_uncommitted, self.reads = begins_at_0, 0, 0, 0
        self.sends_early = False  # whether messages that go out before the save do so also at a crash
        self.has_all_reads = True  # also at nodes that don't lead, which libraries pass on or decline
        self.under_way: set[int] = set()  # nodes whose `ready` isn't advanced
        self.calls: list[CallRecord] = []
        self.readies: list[tuple[int, Ready]] = []
        self.restarted: set[int] = set()
        self.snapshots: set[tuple[int, int]] = set()  # who sent one to whom
        self.lost: set[tuple[int, int]] = set()  # pairs of a sender and who may not have got its snapshot, or whose answer got lost
        self.what, self.role_before = "start", ""
        self.is_stuck = False  # whether the last directive didn't come to rest

    def run(self, directive: Any) -> list[str]:
        self.calls, self.readies, self.what, self.role_before, self.is_stuck = [], [], "start", "", False
        return super().run(directive)

    def put(self, line: str) -> None:
        # It counts whether or not the line is shown.
        self.is_stuck = self.is_stuck or line == NEVER
        super().put(line)

    def request(self, name: bytes, arguments: Sequence[Argument]) -> Request:
        return known_request(name, tuple(arguments))

    def make_node(self, id: int, config: Config, index: int, content: bytes, options: Options) -> AnyKindOfNode:
        raise NotImplementedError

    def new_node(self, id: int, config: Config, index: int, content: bytes, options: Options) -> AnyNode:
        options = options._replace(max_size_per_msg=self.limit, max_uncommitted_size=self.most_uncommitted)
        if self.begins_at_0:
            index, content = 0, b""
        return self.make_node(id, config, index, content, options)

    # Calls

    def touch(self, id: int) -> None:
        super().touch(id)
        node = self.nodes[id]
        self.calls.append(CallRecord(id, self.what, self.role_before, parts_after(node)))

    def call(self, id: int, name: str, *parts: Any) -> None:
        self.what, self.role_before = (parts[0].kind if name == "step" else name), self.nodes[id].role
        if name == "step":
            self.network.delivered[parts[0].sender, id] = parts[0]
        super().call(id, name, *parts)

    def queue(self, message: Message, verb: str | None = None) -> None:
        super().queue(message, verb)
        if message.kind == "MsgSnap":
            self.snapshots.add((message.sender, message.to))

    def drop(self, message: Message) -> None:
        super().drop(message)
        if message.kind in ("MsgSnap", "MsgAppResp"):
            self.lost.add((message.sender, message.to) if message.kind == "MsgSnap" else (message.to, message.sender))

    def do_compact(self, words: Sequence[Any], *_: object) -> None:
        super().do_compact([words[0], max(0, words[1] - 10)] if self.begins_at_0 else words)

    # What is ready, in two halves

    def process(self, id: int) -> bool:
        was_under_way = id in self.under_way and self.finish(id)
        if not self.nodes[id].has_ready():
            return was_under_way
        self.begin(id)
        return self.finish(id)

    def take_ready(self, id: int) -> Ready:
        """Asks what is ready, which is to be saved now."""
        self.role_before = self.nodes[id].role
        ready = self.nodes[id].ready()
        self.show_ready(id, ready)
        self.readies.append((id, ready))
        return ready

    def begin(self, id: int) -> None:
        """Saves what is ready and sends its messages."""
        for message in self.take_ready(id).messages:
            self.queue(message)
        self.under_way.add(id)

    def finish(self, id: int) -> bool:
        """Applies what was ready and not advanced."""
        if id not in self.under_way:
            return False
        self.under_way.discard(id)
        self.what, self.role_before = "advance", self.nodes[id].role
        self.nodes[id].advance()
        self.touch(id)
        self.put_events(self.nodes[id])
        return True

    def has_work(self, chosen: Sequence[int]) -> bool:
        return super().has_work(chosen) or not self.under_way.isdisjoint(chosen)

    # The runner's steps

    def carry_out(self, steps: Sequence[RunnerStep]) -> None:
        self.calls, self.readies, self.touched, self.sent, self.lines, self.shown, self.is_stuck = [], [], set(), [], [], self.level, False
        for step in steps:
            self.limit = step.number if step.name == "limit" else self.limit
            self.most_uncommitted = step.number if step.name == "uncommitted" else self.most_uncommitted
            if step.name in (*UNORDERED, "cut", "hold", "release"):
                self.disturb(step)
            elif step.node in self.nodes:
                self.do_to_node(step)

    def disturb(self, step: RunnerStep) -> None:
        name, id, network = step.name, step.node, self.network
        if name == "hold":
            network.held.add((id, step.number))
        elif name == "release":
            network.held.discard((id, step.number))
        elif name == "again":
            message = network.delivered.get((step.number, id))
            if message:
                network.put(message)
        elif name == "cut":
            network.change(id, lambda messages: [self.cut(m, step.number) for m in messages])
        else:
            network.change(id, ARRANGED[name])

    def cut(self, message: Message, most: int) -> Message:
        """An append with this many entries at most; what its sender gave is cut too."""
        if message.kind != "MsgApp" or len(message.entries) <= most:
            return message
        less = message._replace(entries=message.entries[:most])
        if isinstance(message, WireMessage) and isinstance(less, WireMessage):
            less.json = {**message.json, "entries": message.json["entries"][:most]}
        return less

    def do_to_node(self, step: RunnerStep) -> None:
        id, name = step.node, step.name
        if name == "save":
            if id not in self.under_way and self.nodes[id].has_ready():
                self.begin(id)
        elif name == "read":
            if self.has_all_reads or self.nodes[id].role == "leader":
                self.reads += 1
                self.call(id, "read", self.reads)
        elif name.startswith("snapshot-"):
            self.call(id, "report_snapshot", step.number, name == "snapshot-lost")
        else:
            self.crash(id, name)

    def crash_while_saving(self, id: int, when: str) -> list[Message]:
        """Asks what is ready, and sends no more of it than what goes out before it is saved: these messages are answered."""
        early = [message for message in self.take_ready(id).messages if self.sends_early and when != "after save" and is_early(message)]
        for message in early:
            self.queue(message)
        return early

    def crash(self, id: int, when: str) -> None:
        """A crash and a restart. What was begun before is saved."""
        saved = "all" if id in self.under_way else "nothing"
        if saved == "nothing" and when != "restart" and self.nodes[id].has_ready():
            if when == "before advance":
                self.begin(id)
            else:
                self.crash_while_saving(id, when)
            saved = {"before save": "nothing", "in save": "entries"}.get(when, "all")
        self.under_way.discard(id)
        self.restarted.add(id)
        self.lost |= {(other, id) for other in self.nodes}
        self.call(id, "restart", saved)

    def do_restart(self, words: Any, *_: object) -> None:
        """The directive is the runner's step for each of the nodes."""
        for id in words:
            self.crash(id, "restart")


ARRANGED = {
    "reverse": lambda messages: messages[::-1],
    "double": lambda messages: messages + messages[::-1],
    "late": lambda messages: messages[1:] + messages[:1],
}


class Reference(Stage):
    """A cluster of plain nodes, of a kind that may have rules changed."""

    def __init__(self, kind: type[Node] = Node, begins_at_0: bool = False) -> None:
        super().__init__(begins_at_0)
        self.kind = kind
        self.plain: dict[int, Node] = {}  # the same as `nodes`, all of which are plain ones
        self.made: collections.Counter[str] = collections.Counter()

    def call(self, id: int, name: str, *parts: Any) -> None:
        message = parts[0] if name == "step" else None
        node, before = self.plain[id], NodeBefore.of(self.plain[id])
        self.note_before(node, before, message)
        super().call(id, name, *parts)
        self.note_after(node, before, message)

    def finish(self, id: int) -> bool:
        if id not in self.under_way:
            return False
        node, before = self.plain[id], NodeBefore.of(self.plain[id])
        self.note_before(node, before, None)
        super().finish(id)
        self.note_after(node, before, None)
        return True

    def note_before(self, node: Node, before: NodeBefore, message: Message | None) -> None:
        """A call is made; `message` is the one that a step brings."""

    def note_after(self, node: Node, before: NodeBefore, message: Message | None) -> None:
        """A call was made, which is `what`."""
        note_call(self.made, self.what, before, node, message, self.plain)

    def make_node(self, id: int, config: Config, index: int, content: bytes, options: Options) -> Node:
        node = self.plain[id] = self.kind(id, config, index, content, options)
        note_start(self.made, node)
        return node

    def drop(self, message: Message) -> None:
        super().drop(message)
        sender = self.nodes.get(message.sender)
        if isinstance(sender, Ruled):
            sender.lose(message)


class HostedCluster(Stage):
    """A cluster of a process's nodes."""

    def __init__(self, process: Process, begins_at_0: bool = False) -> None:
        super().__init__(begins_at_0)
        self.process_of_nodes = process

    def make_node(self, id: int, config: Config, index: int, content: bytes, options: Options) -> HostedNode:
        return HostedNode(self.process_of_nodes, id, config, index, content, options)

    def drop(self, message: Message) -> None:
        super().drop(message)
        sender = self.nodes.get(message.sender)
        if isinstance(sender, HostedNode) and "lost" in self.process_of_nodes.hello.calls:
            sender.lose(message)
            self.touch(message.sender)


def lacking(step: RunnerStep, hello: Hello) -> str:
    """What nodes lack for a step, or nothing."""
    if step.name in UNORDERED:
        return "an unordered network" if hello.is_ordered else ""
    if step.name in ("hold", "release"):
        return ""
    if step.name == "cut":
        return "" if hello.is_open else "`open`"
    if step.name in LIMITED:
        return "" if LIMITED[step.name] in hello.limits else f"`{LIMITED[step.name]}`"
    if step.name == "save":
        return "" if hello.is_apart else "`apart`"
    if step.name == "in save" and "torn" in hello.without:
        return "`torn`"
    call = "read" if step.name == "read" else "report_snapshot" if step.name.startswith("snapshot-") else "restart"
    return "" if call in hello.calls else f"`{call}`"


def allowed(steps: Sequence[RunnerStep], process: Process) -> list[RunnerStep]:
    """The steps that a library takes part in: neither side carries out the others."""
    return [step for step in steps if not lacking(step, process.hello)]
