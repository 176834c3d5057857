"""The rows of a page in the plainest way: a run of the plain bench (plain/), watched. It is written from docs/FORMATS.md and shares
nothing with the code in crates/.

    plain_steps.py FILE [NAME]     writes the JSON text of the script's page
"""
from __future__ import annotations

import pathlib
import re
import sys
from collections.abc import Iterable, Iterator, Sequence
from typing import Any

sys.dont_write_bytecode = True
sys.path[:1] = [str(pathlib.Path(__file__).resolve().parents[2])]

from plain.cluster import Cluster  # noqa: E402
from plain.node import Node  # noqa: E402
from plain.script import Directive, read_script, read_with_lines  # noqa: E402
from plain.texts import body_text, config_text  # noqa: E402
from tests.page.plain_difference import MOST_WORK_OF_SCRIPT, difference_rows, work_of
from plain.records import AnyNode, Entry, Message, ShownView  # noqa: E402

Row = list[Any]
# Format 1 says what changed at the end of a directive, format 2 after each ready, each delivery and each restart too.
DIRECTIVES, EVENTS_TOO = 1, 2
SHOWN_CONTENT = 32
# What a node tells, as its line shows it, and the row of it; a group that is all digits is a number.
EVENTS = [
    (r"(\d+) became (\w+) at term (\d+)", "became"),
    (r"(\d+) can't campaign: (.*)", "cannot-campaign"),
    (r"(\d+) ignored (\w+) from (\d+)", "ignored"),
    (r"(\d+) dropped a proposal", "dropped-proposal"),
    (r"(\d+) conflict at (\d+), commit (\d+)", "conflict"),
    (r"(\d+) appends nothing: index limit", "appends-nothing"),
    (r"(\d+) replaced change at (\d+) by an empty entry: (.*)", "replaced-change"),
    (r"(\d+) switched to (.*)", "switched"),
    (r"(\d+) refused change at (\d+): (\w+)", "refused-change"),
    (r"(\d+) restored snapshot (\d+)/(\d+)", "restored"),
    (r"(\d+) starts transfer to (\d+)", "transfer-starts"),
    (r"(\d+) ends transfer to (\d+)", "transfer-ends"),
    (r"(\d+) lost its quorum", "lost-quorum"),
    (r"(\d+) started at .*", "started"),
    (r"(\d+) restarted at term=(\d+) vote=(\d+) log=(\d+)\.\.(\d+) commit=(\d+)", "restarted"),
]
VOTE = re.compile(r"(\d+) has (\w+) (granted|refused) from (\d+): (\w+)")


def number_or_text(word: str) -> int | str:
    return int(word) if word.isdigit() else word


def event_row(text: str) -> Row:
    """The row of what a node tells: a list that begins with a name."""
    if found := VOTE.fullmatch(text):
        id, kind, answer, sender, result = found.groups()
        return ["vote", int(id), kind, int(answer == "granted"), int(sender), result]
    for form, name in EVENTS:
        if found := re.fullmatch(form, text):
            return [name, *map(number_or_text, found.groups())]
    raise ValueError(text)


def said(m: Message) -> list[Any]:
    """The cells of what a message says, after its type and its term."""
    if m.kind in ("MsgVote", "MsgPreVote"):
        return [m.log_term, m.index, int(m.by_transfer)]
    if m.kind in ("MsgVoteResp", "MsgPreVoteResp"):
        return [int(not m.refused)]
    if m.kind == "MsgApp":
        return [m.log_term, m.index, m.commit, len(m.entries)]
    if m.kind == "MsgAppResp":
        return [1, m.index, m.hint] if m.refused else [0, m.index]
    if m.kind == "MsgHeartbeat":
        return [m.commit]
    if m.kind == "MsgSnap":
        assert m.snapshot is not None
        return [m.snapshot.term, m.snapshot.index]
    if m.kind == "MsgProp":
        assert m.body is not None
        return [body_text(m.body)]
    return [m.target] if m.kind == "MsgTransferLeader" else []


def message_row(verb: str, m: Message) -> Row:
    return [verb, m.sender, m.to, m.kind, m.term, *said(m)]


def entry_row(verb: str, index: int, entry: Entry) -> Row:
    return [verb, index, entry.term, body_text(entry.body)]


# The rows of what happens to a message, by the words that its line begins with.
VERBS = {"queue": "queue", "deliver": "deliver", "drop": "drop", "no room for": "no-room"}


def ready_rows(node: AnyNode) -> Iterator[Row]:
    """What a node has ready."""
    ready = node.ready()
    yield ["ready", node.id]
    if ready.hard:
        yield ["hard", *ready.hard]
    if ready.snapshot:
        yield ["snapshot", *ready.snapshot[::-1]]
    yield from (entry_row("save", *pair) for pair in ready.entries)
    yield from (entry_row("apply", *pair) for pair in ready.committed)
    yield from (message_row("send", message) for message in ready.messages)


class Watched(Cluster):
    """A cluster that also keeps the rows of what it did: what each directive can show, at any level."""

    def __init__(self, format: int) -> None:
        super().__init__()
        self.rows: list[Row] = []
        self.kept: dict[int, Kept] = {}
        self.format = format

    def run(self, directive: Directive) -> list[str]:
        self.rows = []
        lines = super().run(directive)
        if lines[0].startswith("error: "):
            self.rows = [["error", lines[0].removeprefix("error: ")]]
        for id in self.nodes:
            self.put_changes(id)
        return lines

    def put_changes(self, id: int) -> None:
        """What of a node is not as it was when this was asked last."""
        node = self.nodes[id]
        assert isinstance(node, Node)
        self.rows += self.kept.setdefault(id, Kept()).rows(node)

    def put_changes_of_event(self, id: int) -> None:
        if self.format == EVENTS_TOO:
            self.put_changes(id)

    def call(self, id: int, name: str, *parts: Any) -> None:
        super().call(id, name, *parts)
        if name in ("step", "restart"):
            self.put_changes_of_event(id)

    def put_events(self, node: AnyNode) -> None:
        self.rows += [event_row(text) for _, text in node.events]
        super().put_events(node)

    def put_message(self, verb: str, message: Message) -> None:
        self.rows.append(message_row(VERBS[verb], message))
        super().put_message(verb, message)

    def process(self, id: int) -> bool:
        if self.nodes[id].has_ready():
            self.rows += ready_rows(self.nodes[id])
        is_done = super().process(id)
        self.put_changes_of_event(id)
        return is_done

    def do_process_ready(self, words: Any, *rest: Any) -> None:
        for id in words:
            is_idle = not self.nodes[id].has_ready()
            super().do_process_ready([id], *rest)
            self.rows += [["nothing-ready", id]] if is_idle else []

    def do_deliver_msgs(self, *asked: Any) -> None:
        super().do_deliver_msgs(*asked)
        self.rows += [] if self.rows else [["no-messages"]]

    def do_stabilize(self, words: Any, options: Any, given: Any) -> None:
        super().do_stabilize(words, options, given)
        if self.has_work(sorted(set(words)) or list(self.nodes)):
            self.rows.append(["stopped", options.get("rounds", 200)])


def numbers_of(node: AnyNode) -> list[Any]:
    hard = [node.role, node.term, node.vote, node.lead, node.commit, node.applied, node.durable]
    return [*hard, len(node.content), node.content[-SHOWN_CONTENT:]]


def view_cells(view: ShownView) -> list[Any]:
    return [view.state, view.match, view.next, view.inflight, int(view.waiting), view.pending, int(view.active)]


class Kept:
    """What the rows have said of a node so far."""

    def __init__(self) -> None:
        self.numbers: list[Any] = []
        self.config: str | None = None
        self.base: tuple[int, int] | None = None
        self.entries: list[Entry] = []
        self.views: dict[int, list[Any]] = {}

    def rows(self, node: Node) -> Iterator[Row]:
        """What of a node is not as it was."""
        yield from self.number_rows(node)
        yield from self.view_rows(node)
        yield from self.log_rows(node)

    def number_rows(self, node: Node) -> Iterator[Row]:
        if numbers_of(node) != self.numbers:
            self.numbers = numbers_of(node)
            yield ["node", node.id, *self.numbers]
        if config_text(node.config) != self.config:
            self.config = config_text(node.config)
            yield ["config", node.id, self.config]

    def log_rows(self, node: Node) -> Iterator[Row]:
        """The new base, and up to which index the entries stay; those behind it follow."""
        old_base = self.base[1] if self.base else 0
        old = self.entries[max(0, node.base - old_base):] if old_base <= node.base else []
        stays = node.base + common(old, node.entries)
        base = (node.base_term, node.base)
        if base != self.base or stays < node.last() or stays < old_base + len(self.entries):
            yield ["log", node.id, *base, stays]
            for index, entry in node.entries_from(stays + 1):
                yield entry_row("entry", index, entry)
        self.base, self.entries = base, list(node.entries)

    def view_rows(self, node: Node) -> Iterator[Row]:
        views = {id: view_cells(view) for id, view in node.views.items()}
        for id in sorted(views):
            if views[id] != self.views.get(id):
                yield ["view", node.id, id, *views[id]]
        for id in sorted(set(self.views) - set(views)):
            yield ["no-view", node.id, id]
        self.views = views


def common(old: Sequence[Entry], new: Sequence[Entry]) -> int:
    """How many elements are the same at the beginnings of two lists."""
    if new[:len(old)] == old:
        return len(old)
    return next((at for at, pair in enumerate(zip(old, new)) if pair[0] != pair[1]), min(len(old), len(new)))


def rows_of(data: bytes, name: str, format: int = EVENTS_TOO) -> Iterator[Row]:
    """The rows of a script's page; a Fault where it is refused."""
    script, cluster, wrong, left = read_script(data), Watched(format), 0, MOST_WORK_OF_SCRIPT
    yield ["raftbench", format, name]
    yield ["text", data]
    for block, line in zip(script.blocks, read_with_lines(data)[1]):
        yield ["step", line]
        output = tuple(text.encode() for text in cluster.run(block.directive()))
        yield from (["output", text] for text in output)
        if output != block.expected:
            wrong += 1
            yield ["mismatch"]
            yield from difference_rows(block.expected, output, left)
            left -= work_of(block.expected, output, left)
        yield from cluster.rows
    yield ["end", len(script.blocks), wrong]


def text_cell(data: bytes) -> str:
    """Bytes as a text of JSON: a byte that isn't printable, and each of `"\\<>&`, as its number."""
    return '"' + "".join(chr(b) if 32 <= b <= 126 and b not in b'"\\<>&' else f"\\u{b:04x}" for b in data) + '"'


def cell(value: Any) -> str:
    if isinstance(value, int):
        return str(value)
    return text_cell(value.encode() if isinstance(value, str) else value)


def json_text(rows: Iterable[Row]) -> str:
    return "[" + ",\n".join("[" + ",".join(map(cell, row)) + "]" for row in rows) + "]\n"


def main() -> None:
    path = sys.argv[1]
    name = sys.argv[2] if len(sys.argv) > 2 else pathlib.Path(path).name
    sys.stdout.write(json_text(rows_of(pathlib.Path(path).read_bytes(), name)))


if __name__ == "__main__":
    main()
