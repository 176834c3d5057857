"""Serves plain nodes (plain/node.py) by the protocol of docs/OWN-NODES.md. It shows what an adapter is; copy it for your own."""
from __future__ import annotations

import hashlib
from typing import Callable

from plain.node import Node
from plain.records import Message, Options

from ..process.process import dumps, loads
from .answers import NUMBERS
from .encoding import (
    LIMITS, OPTIONAL_CALLS, SAVED, VERSION, Json, Parts, Wrong, change_in, config_in, config_out, data_out, entries_out, message_in, message_out, ready_out, view_out,
)


class Adapter:
    """Nodes by id, and an answer to each call."""

    def __init__(self, kind: type[Node]) -> None:
        self.kind = kind
        self.nodes: dict[int, Node] = {}
        self.given: list[Message] = []  # by `ready` and `snapshot` since the last `reset`
        self.hidden, self.digest = 0, hashlib.sha256()  # how many answers are still to be hidden, and the digest of those that were

    def line(self, line: bytes) -> bytes:
        """What is written after a call: its answer; or nothing, and after the last call that `digest` counts, a digest of their answers."""
        call = loads(line)
        if call["call"] == "digest":
            self.hidden, self.digest = call["calls"], hashlib.sha256()
            return b""
        try:
            answer = dumps(self.answer(call)) + b"\n"
        except Wrong as wrong:
            answer = dumps({"error": str(wrong)}) + b"\n"
        if not self.hidden:
            return answer
        self.digest.update(answer)
        self.hidden -= 1
        return b"" if self.hidden else dumps({"digest": self.digest.hexdigest()}) + b"\n"

    def answer(self, call: object) -> Json:
        """The answer to a call, both objects as JSON has them; Wrong if it is not a call."""
        parts = Parts(call, "")
        name = parts.text("call", needed=True)
        if name == "hello":
            return {
                "name": "plain", "protocol": VERSION, "without": [], "calls": list(OPTIONAL_CALLS), "limits": list(LIMITS),
                "open": True, "apart": True, "batch": True, "digest": True,
            }
        if name == "reset":
            self.nodes, self.given = {}, []
            return {}
        if name == "start":
            return changed(self.start(parts))
        node = self.nodes.get(parts.number("node", needed=True))
        if node is None:
            raise Wrong("there is no such node")
        return self.called(name, node, parts)

    def called(self, name: str, node: Node, parts: Parts) -> Json:
        if name == "step":
            return self.step(node, parts)
        if name == "ready":
            ready = node.ready()
            self.given += ready.messages
            return {"ready": ready_out(ready)}
        if name == "snapshot":
            self.given.append(node.snapshot_for(parts.number("to")))
            return {"message": message_out(self.given[-1])}
        if name in ASKED:
            return ASKED[name](node)
        if name not in CHANGING:
            raise Wrong(f"there is no call {name}")
        CHANGING[name](node, parts)
        end = {"log": {"last": node.last(), "term": node.last_term(), "durable": node.durable}} if name in ("advance", "restart") else {}
        return {**changed(node), **end}

    def start(self, parts: Parts) -> Node:
        base, options, id = parts.needed_object("base"), parts.needed_object("options"), parts.number("node", needed=True)
        chosen = Options(
            options.number("inflight"), options.truth("prevote"), options.truth("checkquorum"), options.truth("step_down_on_removal"),
            *(options.number(name) for name in LIMITS),
        )
        self.nodes[id] = self.kind(id, config_in(base.needed_object("config")), base.number("index"), base.data("content"), chosen)
        return self.nodes[id]

    def step(self, node: Node, parts: Parts) -> Json:
        """One message, some of them, or the numbers of some that this process gave; for more than one there is a state after each."""
        message = parts.object("message")
        if message:
            node.step(message_in(message))
            return changed(node)
        numbers = parts.items("numbers")
        if not all(isinstance(at, int) and 0 <= at < len(self.given) for at in numbers):
            raise Wrong("numbers: not all of them are of messages that were given")
        states: list[Json] = []
        for m in [message_in(one) for one in parts.objects("messages")] + [self.given[at] for at in numbers]:
            node.step(m)
            states.append(state_of(node))
        return {"states": states, "events": events_of(node)}


def state_of(node: Node) -> Json:
    numbers = {name: getattr(node, name) for name in NUMBERS}
    return {"role": node.role, **numbers, "content": data_out(node.content), "config": config_out(node.config), "ready": node.has_ready()}


def events_of(node: Node) -> list[list[str]]:
    events, node.events = node.events, []
    return [[level, line] for level, line in events]


def changed(node: Node) -> Json:
    """The answer to each call that may change a node: its state, and its events since the last answer."""
    return {"state": state_of(node), "events": events_of(node)}


def log_of(node: Node) -> Json:
    return {"base": {"index": node.base, "term": node.base_term}, "durable": node.durable, "entries": entries_out(node.entries_from(node.base + 1))}


# The calls that change a node, and those that only ask.
CHANGING: dict[str, Callable[[Node, Parts], None]] = {
    "campaign": lambda node, parts: node.campaign(),
    "tick": lambda node, parts: node.tick(),
    "propose": lambda node, parts: node.propose(parts.data("data")),
    "propose_change": lambda node, parts: node.propose_change(change_in(parts.needed_object("change")), parts.truth("v1")),
    "set_timeout": lambda node, parts: node.set_timeout(parts.number("ticks")),
    "transfer": lambda node, parts: node.transfer(parts.number("to")),
    "forget_leader": lambda node, parts: node.forget_leader(),
    "report_unreachable": lambda node, parts: node.report_unreachable(parts.number("to")),
    "report_snapshot": lambda node, parts: node.report_snapshot(parts.number("to"), parts.truth("failed")),
    "lost": lambda node, parts: None,
    "read": lambda node, parts: node.read(parts.number("id")),
    "compact": lambda node, parts: node.compact(parts.number("index")),
    "restart": lambda node, parts: node.restart(parts.word("saved", SAVED)),
    "advance": lambda node, parts: node.advance(),
}
ASKED: dict[str, Callable[[Node], Json]] = {
    "log": log_of,
    "status": lambda node: {"views": [view_out(id, node.views[id]) for id in sorted(node.views)]},
}
