"""Records the rows of a page (docs/FORMATS.md) while a cluster runs a script."""
from __future__ import annotations

import re
from typing import Any, Iterator, Sequence

from plain.config import Config
from plain.network import Choice
from plain.records import AnyNode, Entry, Message, Numbered, Ready
from plain.texts import body_text, config_text

from ..compare.runner_steps import RunnerStep
from ..compare.stage import Stage
from ..process.node import HostedNode

Row = list[Any]
SHOWN_CONTENT = 32
# The lines of a node's events, and the names of their rows. A group of digits is a number.
EVENTS = [
    (re.compile(r"(\d+) became (\w+) at term (\d+)"), "became"),
    (re.compile(r"(\d+) can't campaign: (.*)"), "cannot-campaign"),
    (re.compile(r"(\d+) ignored (\w+) from (\d+)"), "ignored"),
    (re.compile(r"(\d+) dropped a proposal"), "dropped-proposal"),
    (re.compile(r"(\d+) conflict at (\d+), commit (\d+)"), "conflict"),
    (re.compile(r"(\d+) appends nothing: index limit"), "appends-nothing"),
    (re.compile(r"(\d+) replaced change at (\d+) by an empty entry: (.*)"), "replaced-change"),
    (re.compile(r"(\d+) switched to (.*)"), "switched"),
    (re.compile(r"(\d+) refused change at (\d+): (\w+)"), "refused-change"),
    (re.compile(r"(\d+) restored snapshot (\d+)/(\d+)"), "restored"),
    (re.compile(r"(\d+) starts transfer to (\d+)"), "transfer-starts"),
    (re.compile(r"(\d+) ends transfer to (\d+)"), "transfer-ends"),
    (re.compile(r"(\d+) lost its quorum"), "lost-quorum"),
    (re.compile(r"(\d+) started at .*"), "started"),
    (re.compile(r"(\d+) restarted at term=(\d+) vote=(\d+) log=(\d+)\.\.(\d+) commit=(\d+)"), "restarted"),
]
VOTE = re.compile(r"(\d+) has (\w+) (granted|refused) from (\d+): (\w+)")
VERBS = {"queue": "queue", "deliver": "deliver", "drop": "drop", "no room for": "no-room"}


def event_row(text: str, node: int) -> Row | None:
    """The row of an event's line; None for a line that isn't in the form of docs/SCRIPTS.md, or of another node."""
    if found := VOTE.fullmatch(text):
        id, kind, answer, sender, result = found.groups()
        row: Row = ["vote", int(id), kind, int(answer == "granted"), int(sender), result]
    else:
        matches = ((form.fullmatch(text), name) for form, name in EVENTS)
        matched = next(((found, name) for found, name in matches if found), None)
        if matched is None:
            return None
        row = [matched[1], *(int(word) if word.isdigit() else word for word in matched[0].groups())]
    return row if row[1] == node else None


def message_cells(m: Message) -> list[Any] | None:
    """The cells of a message; None for a type that pages don't know."""
    cells: dict[str, list[Any]] = {
        "MsgVoteResp": [int(not m.refused)], "MsgPreVoteResp": [int(not m.refused)], "MsgHeartbeat": [m.commit], "MsgHeartbeatResp": [],
        "MsgVote": [m.log_term, m.index, int(m.by_transfer)], "MsgPreVote": [m.log_term, m.index, int(m.by_transfer)],
        "MsgApp": [m.log_term, m.index, m.commit, len(m.entries)], "MsgAppResp": [1, m.index, m.hint] if m.refused else [0, m.index],
        "MsgSnap": [m.snapshot.term, m.snapshot.index] if m.snapshot else [0, 0], "MsgProp": [body_text(m.body) if m.body else ""],
        "MsgTransferLeader": [m.target], "MsgTimeoutNow": [],
    }
    return [m.sender, m.to, m.kind, m.term, *cells[m.kind]] if m.kind in cells else None


def entry_row(verb: str, index: int, entry: Entry) -> Row:
    return [verb, index, entry.term, body_text(entry.body)]


class ShownNode:
    """What the rows have said about a node."""

    def __init__(self) -> None:
        self.numbers: list[Any] = []
        self.config: Config | None = None
        self.base: tuple[int, int] | None = None
        self.entries: list[Numbered] = []
        self.views: dict[int, list[Any]] = {}

    def changes(self, node: AnyNode) -> Iterator[Row]:
        """Rows for what has changed."""
        numbers = [node.role, node.term, node.vote, node.lead, node.commit, node.applied, node.durable, len(node.content), node.content[-SHOWN_CONTENT:]]
        if numbers != self.numbers:
            yield ["node", node.id, *numbers]
        if node.config != self.config:
            yield ["config", node.id, config_text(node.config)]
        self.numbers, self.config = numbers, node.config
        yield from self.view_changes(node)
        yield from self.log_changes(node)

    def view_changes(self, node: AnyNode) -> Iterator[Row]:
        # Only a leader is asked.
        shown = node.views if node.role == "leader" or not isinstance(node, HostedNode) else {}
        views = {id: [it.state, it.match, it.next, it.inflight, int(it.waiting), it.pending, int(it.active)] for id, it in shown.items()}
        yield from (["view", node.id, id, *views[id]] for id in sorted(views) if views[id] != self.views.get(id))
        yield from (["no-view", node.id, id] for id in sorted(self.views.keys() - views.keys()))
        self.views = views

    def log_changes(self, node: AnyNode) -> Iterator[Row]:
        base, entries = (node.base_term, node.base), node.entries_from(node.base + 1)
        before = [pair for pair in self.entries if pair[0] > node.base]
        same = next((at for at, (old, new) in enumerate(zip(before, entries)) if old != new), min(len(before), len(entries)))
        if base != self.base or same < len(entries) or same < len(before):
            yield ["log", node.id, *base, node.base + same]
            yield from (entry_row("entry", *pair) for pair in entries[same:])
        self.base, self.entries = base, entries


class Mail:
    """The pending messages as the viewer has them: of one type to one node, it takes the earliest first that the directive chooses."""

    def __init__(self) -> None:
        self.pending: list[Message] = []
        self.choice = Choice()

    def chosen(self, id: int) -> list[Message]:
        """The messages to a node that the directive chooses."""
        return [m for m in self.pending if self.choice.takes(id, m)][self.choice.skip :]

    def rows_before(self, met: Message, network: Sequence[Message]) -> Iterator[Row]:
        """Rows by which the viewer's earliest message is the one that is delivered or dropped, however the runner's steps reordered them."""
        alike = [m for m in self.chosen(met.to) if m.kind == met.kind]
        there = next((at for at, m in enumerate(alike) if m is met), None)
        for m in alike if there is None else alike[:there]:
            self.pending = [other for other in self.pending if other is not m]
            yield ["drop", *(message_cells(m) or [])]
            if any(m is other for other in network):
                yield ["queue", *(message_cells(m) or [])]
                self.pending.append(m)
        if there is None:
            yield ["queue", *(message_cells(met) or [])]
            # It is the earliest if the others of its type were queued before, which a second round drops and queues again.
            others = [m for m in self.pending if (m.to, m.kind) == (met.to, met.kind)]
            for m in others:
                yield ["drop", *(message_cells(m) or [])]
                yield ["queue", *(message_cells(m) or [])]
        else:
            self.pending = [m for m in self.pending if m is not met]


class Recorder(Stage):
    """A cluster that records the rows of what it does. Mixed into a cluster of the nodes or of the reference."""

    def __init__(self, *words: Any) -> None:
        super().__init__(*words)
        self.rows: list[Row] = []
        self.shown_nodes: dict[int, ShownNode] = {}
        self.mail = Mail()

    def record_changes(self, id: int) -> None:
        self.rows += self.shown_nodes.setdefault(id, ShownNode()).changes(self.nodes[id])

    def run(self, directive: Any) -> list[str]:
        lines = super().run(directive)
        if lines and lines[0].startswith("error: "):
            self.rows.append(["error", lines[0].removeprefix("error: ")])
        for id in self.nodes:
            self.record_changes(id)
        return lines

    def call(self, id: int, name: str, *parts: Any) -> None:
        super().call(id, name, *parts)
        if name == "step":
            self.record_changes(id)

    def put_events(self, node: AnyNode) -> None:
        self.rows += filter(None, (event_row(text, node.id) for _, text in node.events))
        super().put_events(node)

    def put_message(self, verb: str, message: Message) -> None:
        cells = message_cells(message)
        if cells:
            if verb in ("deliver", "drop"):
                self.rows += self.mail.rows_before(message, self.network.pending)
            elif verb == "queue":
                self.mail.pending.append(message)
            else:
                self.mail.pending = [m for m in self.mail.pending if m is not message]
            self.rows.append([VERBS[verb], *cells])
        super().put_message(verb, message)

    def take_ready(self, id: int) -> Ready:
        ready = super().take_ready(id)
        self.rows.append(["ready", id])
        if ready.hard:
            self.rows.append(["hard", *ready.hard])
        if ready.snapshot:
            self.rows.append(["snapshot", *ready.snapshot[::-1]])
        self.rows += [entry_row("save", *pair) for pair in ready.entries]
        self.rows += [entry_row("apply", *pair) for pair in ready.committed]
        known = [(m, cells) for m in ready.messages if (cells := message_cells(m))]
        self.rows += [["send", *cells] for _, cells in known]
        self.mail.pending += [m for m, _ in known]
        return ready

    def process(self, id: int) -> bool:
        is_done = super().process(id)
        self.record_changes(id)
        return is_done

    def do_process_ready(self, words: Any, *rest: Any) -> None:
        for id in words:
            is_idle = not self.has_work([id]) or not self.nodes[id].has_ready() and id not in self.under_way
            super().do_process_ready([id], *rest)
            self.rows += [["nothing-ready", id]] if is_idle else []

    def do_deliver_msgs(self, words: Any, options: Any, given: Any) -> None:
        before = len(self.rows)
        self.mail.choice = Choice(options.get("type"), options.get("from"), options.get("skip", 0))
        super().do_deliver_msgs(words, options, given)
        self.mail.choice = Choice()
        self.rows += [] if len(self.rows) > before else [["no-messages"]]

    def do_stabilize(self, words: Any, options: Any, given: Any) -> None:
        super().do_stabilize(words, options, given)
        if self.has_work(sorted(set(words)) or list(self.nodes)):
            self.rows.append(["stopped", options.get("rounds", 200)])

    # The runner's steps

    def do_to_node(self, step: RunnerStep) -> None:
        super().do_to_node(step)
        self.record_changes(step.node)

    def crash(self, id: int, when: str) -> None:
        super().crash(id, when)
        if when == "restart":
            self.record_changes(id)
        else:
            self.rows += [["started", id], ["reason", f"crashed {when}, and restarted"]]


def text_cell(data: bytes) -> str:
    """Bytes as a text of JSON. A byte that doesn't print, and each of `"\\<>&`, is escaped, so no text can end the element."""
    return '"' + "".join(chr(byte) if 32 <= byte <= 126 and byte not in b'"\\<>&' else f"\\u{byte:04x}" for byte in data) + '"'


def cell(value: Any) -> str:
    if isinstance(value, int):
        return str(int(value))
    return text_cell(value.encode("utf-8", "replace") if isinstance(value, str) else bytes(value))


def json_text(rows: Sequence[Row]) -> str:
    return "[" + ",\n".join("[" + ",".join(map(cell, row)) + "]" for row in rows) + "]\n"
