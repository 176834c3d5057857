"""A plain cluster: nodes, a network and a level. Each directive is a method, written from its section of docs/SCRIPTS.md.

Nodes are plain nodes. A subclass's `new_node` may make others, if they have the calls of plain.node.Node that `call` and `process` make.
"""
from __future__ import annotations

from typing import Any, Sequence

from .config import Config
from .directives import LEVELS, MOST_NODES, Refused, Request, change_asked
from .network import MOST_PENDING, Choice, Network
from .node import Node
from .records import AnyNode, Message, Options, Ready
from .script import Argument, Directive
from .texts import config_text, entry_text, log_texts, message_text, state_text, status_texts

# Of a directive: its words, its options, and its input lines; what they are its row of `TABLE` says.
Words = Sequence[Any]
Given = dict[str, Any]
Input = Sequence[bytes]


class Cluster:
    def __init__(self) -> None:
        self.nodes: dict[int, AnyNode] = {}
        self.network, self.level = Network(), "debug"
        self.lines: list[str] = []
        self.shown = "debug"
        # Of the directive that runs: the nodes that were called, and the messages that they gave.
        self.touched: set[int] = set()
        self.sent: list[Message] = []

    def new_node(self, id: int, config: Config, index: int, content: bytes, options: Options) -> AnyNode:
        return Node(id, config, index, content, options)

    def frozen(self) -> tuple[object, ...]:
        """All of the state of plain nodes, as a value that can be compared."""
        return tuple(node.frozen() for node in self.nodes.values() if isinstance(node, Node)), self.network.frozen(), self.level

    def run(self, directive: Directive) -> list[str]:
        """Carries out a directive; answers the lines that it prints."""
        name, arguments, given = directive
        self.lines, self.touched, self.sent = [], set(), []
        try:
            request = self.request(name, arguments)
            for id in request.named():
                if id not in self.nodes:
                    raise Refused(f"no node {id}")
            self.shown = request.options.get("log-level", self.level)
            getattr(self, "do_" + request.name.replace("-", "_"))(request.words, request.options, given)
        except Refused as refused:
            return [f"error: {refused}"]
        return self.lines or ["ok"]

    def request(self, name: bytes, arguments: Sequence[Argument]) -> Request:
        return Request(name, arguments)

    # What is shown

    def put(self, line: str) -> None:
        if self.shown != "none":
            self.lines.append(line)

    def put_message(self, verb: str, message: Message) -> None:
        self.put(f"{verb} {message_text(message)}")

    def put_events(self, node: AnyNode) -> None:
        for event_level, line in node.events:
            if self.shown not in ("fatal", "none") and LEVELS.index(event_level.lower()) >= LEVELS.index(self.shown):
                self.lines.append(f"{event_level} {line}")
        node.events = []

    # Nodes

    def do_add_nodes(self, words: Words, options: Given, _: Input) -> None:
        count, index = words[0], options.get("index", 0)
        if len(self.nodes) + count > MOST_NODES:
            raise Refused("too many nodes")
        if index < 2 and any(key in options for key in ("index", "voters", "learners", "content")):
            raise Refused("index must be above 1")
        config = Config(frozenset(options.get("voters", [])), learners=frozenset(options.get("learners", [])))
        chosen = Options(
            options.get("inflight", 256), options.get("prevote", False), options.get("checkquorum", False),
            options.get("step-down-on-removal", False),
        )
        for _node in range(count):
            id = len(self.nodes) + 1
            node = self.nodes[id] = self.new_node(id, config, index, options.get("content", b""), chosen)
            self.touch(id)
            node.events.insert(0, ("INFO", f"{id} started at {1 if index else 0}/{index} with {config_text(config)}"))
            self.put_events(node)

    def do_raft_state(self, *_: object) -> None:
        for node in self.nodes.values():
            self.put(state_text(node))

    def do_raft_log(self, words: Words, *_: object) -> None:
        for line in log_texts(self.nodes[words[0]]):
            self.put(line)

    def do_status(self, words: Words, *_: object) -> None:
        for line in status_texts(self.nodes[words[0]]):
            self.put(line)

    def do_log_level(self, words: Words, *_: object) -> None:
        self.level = words[0]

    # Calls of a node

    def touch(self, id: int) -> None:
        """Takes note that a node was called."""
        self.touched.add(id)

    def call(self, id: int, name: str, *parts: Any) -> None:
        getattr(self.nodes[id], name)(*parts)
        self.touch(id)
        self.put_events(self.nodes[id])

    def do_campaign(self, words: Words, *_: object) -> None:
        self.call(words[0], "campaign")

    def do_propose(self, words: Words, *_: object) -> None:
        self.call(words[0], "propose", words[1])

    def do_propose_conf_change(self, words: Words, options: Given, given: Input) -> None:
        self.call(words[0], "propose_change", change_asked(options, given), options.get("v1", False))

    def do_transfer_leadership(self, _: Words, options: Given, __: Input) -> None:
        self.call(options["from"], "transfer", options["to"])

    def do_tick_election(self, words: Words, *_: object) -> None:
        for _tick in range(3):
            self.call(words[0], "tick")

    def do_tick_heartbeat(self, words: Words, *_: object) -> None:
        self.call(words[0], "tick")

    def do_set_randomized_election_timeout(self, words: Words, options: Given, _: Input) -> None:
        self.call(words[0], "set_timeout", options["timeout"])

    def do_forget_leader(self, words: Words, *_: object) -> None:
        self.call(words[0], "forget_leader")

    def do_report_unreachable(self, words: Words, *_: object) -> None:
        self.call(words[0], "report_unreachable", words[1])

    def do_restart(self, words: Words, *_: object) -> None:
        for id in words:
            self.call(id, "restart")

    def do_compact(self, words: Words, *_: object) -> None:
        node, index = self.nodes[words[0]], words[1]
        if index <= node.base:
            raise Refused("already compacted")
        if index > node.applied:
            raise Refused("index past applied")
        self.call(words[0], "compact", index)
        self.do_raft_log(words)

    # Messages on their way

    def queue(self, message: Message, verb: str | None = None) -> None:
        """Puts a message behind the pending ones, if there is room."""
        self.sent.append(message)
        if not self.network.put(message):
            self.put_message("no room for", message)
        elif verb:
            self.put_message(verb, message)

    def deliver(self, id: int, choice: Choice = Choice()) -> int:
        taken = self.network.take(id, choice)
        for message in taken:
            self.put_message("deliver", message)
            self.call(id, "step", message)
        return len(taken)

    def process(self, id: int) -> bool:
        """What is ready is printed and done; answers whether anything was."""
        node = self.nodes[id]
        if not node.has_ready():
            return False
        ready = node.ready()
        self.show_ready(id, ready)
        node.advance()
        self.touch(id)
        for message in ready.messages:
            self.queue(message)
        self.put_events(node)
        return True

    def show_ready(self, id: int, ready: Ready) -> None:
        self.put(f"{id} ready")
        if ready.hard:
            self.put("  hard term=%d vote=%d commit=%d" % ready.hard)
        if ready.snapshot:
            self.put("  snapshot %d/%d" % ready.snapshot[::-1])
        for verb, entries in (("save", ready.entries), ("apply", ready.committed)):
            for index, entry in entries:
                self.put(f"  {verb} {entry_text(index, entry)}")
        for message in ready.messages:
            self.put("  send " + message_text(message))

    def do_process_ready(self, words: Words, *_: object) -> None:
        for id in words:
            if not self.process(id):
                self.put(f"{id} has nothing ready")

    def do_deliver_msgs(self, words: Words, options: Given, _: Input) -> None:
        choice = Choice(options.get("type"), options.get("from"), options.get("skip", 0), options.get("count", MOST_PENDING))
        met = 0
        for id in words:
            met += self.deliver(id, choice)
        for id in options.get("drop", []):
            for message in self.network.take(id, choice):
                self.drop(message)
                met += 1
        if not met:
            self.put("no messages")

    def drop(self, message: Message) -> None:
        self.put_message("drop", message)

    def has_work(self, chosen: Sequence[int]) -> bool:
        return any(self.nodes[id].has_ready() for id in chosen) or self.network.has_for(chosen)

    def do_stabilize(self, words: Words, options: Given, _: Input) -> None:
        chosen, rounds = sorted(set(words)) or list(self.nodes), options.get("rounds", 200)
        for _round in range(rounds):
            were_ready = [self.process(id) for id in chosen]
            delivered = [self.deliver(id) for id in chosen]
            if not any(were_ready) and not any(delivered):
                return
        if self.has_work(chosen):
            self.put(f"stopped after {rounds} rounds")

    def do_send_snapshot(self, words: Words, *_: object) -> None:
        self.queue(self.nodes[words[0]].snapshot_for(words[1]), "queue")
