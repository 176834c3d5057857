"""Reads a trace: calls of nodes with their answers, as they really ran. Raft's promises are checked on it. Each node's calls are also made to a node of the
reference, and the answers are compared.
"""
from __future__ import annotations

import collections
import json
import pathlib
from typing import Any, Iterator, NamedTuple, Sequence

from plain.node import Disk, Node
from plain.records import Hard, Message, Ready

from ..compare.answers import config_line, differing_part, log_lines, message_line, state_line
from ..process.node import HostedNode
from ..promises.checker import NOTHING, Promises, Saved, name_of
from ..protocol.adapter import Adapter
from ..protocol.answers import Log, State, result_in, hello_in, log_in, ready_in, views_in
from ..protocol.encoding import GREATEST, Hello, Json, Parts, Wrong, config_in, entries_in, message_in, printable

# These promises look at several nodes at one time, so they need the calls in the order in which they were made.
NEED_ORDER = frozenset({"a leader has a quorum of votes", "a quorum holds what a leader commits"})
# Traces aren't held to these: they are about limits that a trace doesn't say, and about runs that the bench brings to an end.
NOT_IN_TRACES = ("appends keep to the size limit", "comes to rest", "heals")
NO_TICK = 1 << 40
# What the reference raises at a call that no bench makes: a message of a type it doesn't know, or one without what its type has.
IMPOSSIBLE = (AssertionError, AttributeError, IndexError, KeyError, MemoryError, OverflowError, RecursionError, TypeError, ValueError)


class Unreadable(Exception):
    """A trace that can't be read; its text says where and why."""


class Record(NamedTuple):
    """A call and its answer, and the place of the call."""

    place: str
    call: Json
    answer: Json

    def name(self) -> str:
        return str(self.call.get("call"))


class TraceFinding(NamedTuple):
    """A difference or a broken promise."""

    kind: str
    place: str
    wanted: Sequence[str]  # lines of the reference; of a promise none
    came: Sequence[str]


class TraceDifference(NamedTuple):
    field: str
    wanted: list[str]
    came: list[str]


def read_trace(path: pathlib.Path) -> Iterator[Record]:
    """The records of a file. A call that has no answer is left out: the node ended in it."""
    call: Json | None = None
    place = ""
    for number, line in enumerate(path.read_text(encoding="utf-8").split("\n"), 1):
        if not line.strip() or line.startswith("#"):
            continue
        if line[:2] not in ("> ", "< "):
            raise Unreadable(f"{path}:{number}: neither a call, `> {{..}}`, nor an answer, `< {{..}}`")
        try:
            value = json.loads(line[2:])
        except (ValueError, RecursionError) as fault:
            raise Unreadable(f"{path}:{number}: {fault}") from None
        if not isinstance(value, dict):
            raise Unreadable(f"{path}:{number}: not an object")
        if line[0] == ">":
            call, place = value, f"{path}:{number}"
        elif call is None:
            raise Unreadable(f"{path}:{number}: an answer without a call")
        else:
            yield Record(place, call, value)
            call = None


def read_traces(paths: Sequence[pathlib.Path]) -> tuple[list[Record], bool]:
    """All records, and whether they are in the order in which they were made. Records of several files are ordered by `at` of their calls; if
    calls lack it, one file comes after the other.
    """
    records = [record for path in paths for record in read_trace(path)]
    if len(paths) == 1:
        return records, True
    first, calls = records[:1], [record for record in records if record.name() not in ("hello", "reset")]
    is_timed = all(type(record.call.get("at")) in (int, float) and abs(record.call["at"]) < GREATEST for record in calls)
    if is_timed:
        calls.sort(key=lambda record: float(record.call["at"]))
    return [record for record in first if record.name() == "hello"] + calls, is_timed


class Reference(Adapter):
    """Plain nodes, which may start from a state that was saved: part `saved` of `start`, with `hard` and `entries`."""

    def start(self, parts: Parts) -> Node:
        node, base, saved = super().start(parts), parts.needed_object("base"), parts.object("saved")
        hard = Hard(0, 0, base.number("index"))
        entries = tuple(entry for _, entry in entries_in(saved)) if saved else ()
        if saved and (kept := saved.object("hard")):
            hard = Hard(kept.number("term"), kept.number("vote"), kept.number("commit"))
        config = config_in(base.needed_object("config"))
        node.start_from(Disk(hard, base.number("index"), base.number("term"), base.data("content"), config, entries, len(entries)))
        return node


def with_timeout(kind: type[Node], ticks: int) -> type[Node]:
    """Nodes whose election timeout has so many ticks, and that campaign only when called: the trace says when a random timeout passed."""

    class Timed(kind):  # type: ignore[valid-type,misc]
        passed = 0

        @property
        def elapsed(self) -> int:
            return 3 * self.passed // ticks

        @elapsed.setter
        def elapsed(self, value: int) -> None:
            self.passed = self.passed + 1 if value else 0

        @property
        def timeout(self) -> int:
            return NO_TICK

        @timeout.setter
        def timeout(self, value: int) -> None:
            pass

    return Timed


class TracedNode(HostedNode):
    """A node as the trace shows it: the state of its last answer, and its log as far as the trace has it."""

    def __init__(self, id: int, state: State) -> None:
        self.id, self.events = id, []
        self.shown_log, self.is_log_known = Log(0, 0, 0, []), False
        self.take_state(state)

    def log(self) -> Log:
        return self.shown_log


class Replay:
    """Carries out the records of a trace one after the other."""

    def __init__(self, kind: type[Node], is_ordered: bool, ignored: frozenset[str] = frozenset()) -> None:
        self.kind, self.ignored, self.is_ordered = kind, ignored | (frozenset() if is_ordered else NEED_ORDER), is_ordered
        self.hello = Hello("a trace")
        self.counts: collections.Counter[str] = collections.Counter()
        self.unchecked: collections.Counter[str] = collections.Counter()  # promises, and how often the trace didn't show what they need
        self.reset()

    def reset(self) -> None:
        self.reference, self.promises = Reference(self.kind), Promises(self.hello.without)
        self.nodes: dict[int, TracedNode] = {}
        self.images: dict[int, Saved] = {}  # what nodes will have saved once what was ready last is saved
        self.followed: set[int] = set()  # the nodes whose reference has agreed so far
        self.broken, self.is_by_hand = 0, False

    def run(self, records: Sequence[Record]) -> Iterator[TraceFinding]:
        """What is found, record by record; Unreadable if a record isn't one of the protocol."""
        for at, record in enumerate(records):
            try:
                yield from self.take(record, records[at + 1] if at + 1 < len(records) else None)
            except Wrong as wrong:
                raise Unreadable(f"{record.place}: {wrong}") from None
            except IMPOSSIBLE as fault:
                raise Unreadable(f"{record.place}: no node can be asked this ({type(fault).__name__}: {printable(str(fault))[:80]})") from None

    def take(self, record: Record, after: Record | None) -> Iterator[TraceFinding]:
        name, parts = record.name(), Parts(record.call, "")
        if name == "hello":
            self.hello = hello_in(Parts(record.answer, ""))
            self.reset()
        elif name == "reset":
            self.counts["scripts"] += 1
            self.reset()
        else:
            id = parts.number("node", needed=True)
            self.counts["calls"] += 1
            if "error" in record.answer:
                self.followed.discard(id)
                yield TraceFinding(f"failed {printable(name)}", record.place, (), (printable(str(record.answer["error"])),))
                return
            yield from self.compared(record, id)
            yield from self.held(record, id, after)

    # The reference

    def compared(self, record: Record, id: int) -> Iterator[TraceFinding]:
        """The first difference of a record; then the node is no longer followed until it starts again."""
        role = self.nodes[id].role if id in self.nodes else "follower"
        if record.name() == "start":
            self.followed.add(id)
        elif record.name() == "changed":
            self.followed.discard(id)
        if id not in self.followed:
            return
        self.counts["compared"] += 1
        for difference in self.differences(record, id):
            self.followed.discard(id)
            yield TraceFinding(f"{difference.field} after {printable(what(record))} at a {role}", record.place, difference.wanted, difference.came)
            return

    def differences(self, record: Record, id: int) -> Iterator[TraceDifference]:
        name, without = record.name(), self.hello.without
        try:
            ours, theirs = Parts(self.reference.answer(record.call), ""), Parts(record.answer, "")
        except AssertionError as fault:
            yield TraceDifference("call", [f"impossible: {fault}"], ["answered"])
            return
        if name == "ready":
            yield from ready_differences(ready_in(ours), ready_in(theirs), without)
        elif name == "log":
            if "log" not in without:
                yield from different("log", *(log_lines(log_in(side, without), without) for side in (ours, theirs)))
        elif name not in ("snapshot", "status"):
            yield from state_differences(id, state_of(ours, without), state_of(theirs, without), without)

    # The promises

    def held(self, record: Record, id: int, after: Record | None) -> Iterator[TraceFinding]:
        """The promises that are broken since the last record. A log that follows a call directly is the log after it. Nodes that somebody changes
        keep no promises.
        """
        name, without = record.name(), self.hello.without
        self.is_by_hand = self.is_by_hand or name == "changed" or name == "start" and id in self.nodes
        if name == "snapshot":
            return
        was = (self.nodes[id].role, self.nodes[id].term, self.nodes[id].commit) if id in self.nodes else None
        if name not in ("log", "ready", "status"):
            state = state_of(Parts(record.answer, ""), without)
            if id not in self.nodes:
                self.nodes[id] = TracedNode(id, state)
            self.nodes[id].take_state(state)
        node = self.nodes.get(id)
        if node is None:
            raise Wrong(f"node {id} has not started")
        shows_log = record if name == "log" else after if after and after.name() == "log" and after.call.get("node") == id else None
        if shows_log:
            node.shown_log = log_in(Parts(shows_log.answer, ""), without)
        if name not in ("ready", "status"):
            node.is_log_known = shows_log is not None and "log" not in without
        self.promises.without = without if node.is_log_known else without | {"log"}
        if not self.is_by_hand:
            self.note_unchecked(node, node.is_log_known, name)
            self.look(record, node)
        elif name not in ("changed", "start", "restart") and was and was[:2] == ("leader", node.term) and node.commit > max(was[2], node.base):
            # Whatever was done to it before.
            if self.promises.shows("log", "commit"):
                self.promises.look_at_own_term(node)
        for text in self.promises.broken[self.broken:]:
            if name_of(text) not in self.ignored:
                yield TraceFinding(f"promise broken: {name_of(text)}", record.place, (), (text,))
        self.broken = len(self.promises.broken)

    def look(self, record: Record, node: TracedNode) -> None:
        """Looks at what a record shows of a node."""
        name, answer, id = record.name(), Parts(record.answer, ""), node.id
        if name == "log":
            self.promises.look_at_logs(self.nodes, {id})
        elif name == "status":
            self.promises.look_at_views(node, views_in(answer))
        elif name == "ready":
            self.look_at_ready(node, ready_in(answer))
        else:
            self.note_options(record, id)
            self.look_at_saved(record, node)
            message = message_of(record)
            if message and message.kind == "MsgVoteResp" and not message.refused and message.sender not in self.nodes:
                # Of nodes that aren't in the trace no more than that is known.
                self.promises.votes.setdefault((message.sender, message.term), id)
            self.promises.look(node, self.nodes, name == "restart", message)

    def look_at_ready(self, node: TracedNode, ready: Ready) -> None:
        """What is ready is saved once `advance` follows. Reads are looked at if the trace says where they were asked for."""
        known = {id: other for id, other in self.nodes.items() if other.is_log_known} if self.is_ordered else {node.id: node}
        self.promises.look_at_ready(node, ready if self.promises.asked else ready._replace(reads=()), known, 0)
        self.images[node.id] = self.promises.image(node, ready)

    def look_at_saved(self, record: Record, node: TracedNode) -> None:
        """What was ready is saved and sent; what was saved is there after a restart, if nothing was being saved."""
        name, id, image = record.name(), node.id, self.images.pop(node.id, None)
        if name == "read":
            self.promises.ask_read(Parts(record.call, "").number("id"), id, self.nodes)
        if name == "advance" and image:
            self.promises.save(id, image)
            self.promises.send(id)
        elif name == "restart" and id in self.promises.saved:
            if image:
                self.promises.acknowledged.pop(id, None)
                self.promises.saved[id] = Saved(node.term, node.vote, NOTHING)
            self.promises.look_at_restart(node)
        elif image:
            self.images[id] = image

    def note_options(self, record: Record, id: int) -> None:
        """Notes who looks for a quorum, from its start on."""
        options = record.call.get("options")
        if record.name() == "start" and isinstance(options, dict) and options.get("checkquorum") is True and "config" not in self.hello.without:
            self.promises.activity.checking.add(id)

    def note_unchecked(self, node: TracedNode, shows_log: bool, name: str) -> None:
        """Counts what can't be looked at after a call, since the trace doesn't show it."""
        was, without = self.promises.before.get(node.id), self.hello.without
        if name in ("log", "status") or was is None:
            return
        if was.role == "leader" and node.commit > was.commit and (not shows_log or without & {"commit", "config"}):
            self.unchecked["a quorum holds what a leader commits"] += 1
        if node.role == "leader" and was.role != "leader" and without & {"vote", "config"}:
            self.unchecked["a leader has a quorum of votes"] += 1
        if was.vote != node.vote and node.vote not in (0, node.id) and not shows_log:
            self.unchecked["votes go to new logs"] += 1


def message_of(record: Record) -> Message | None:
    """The message that a call brought, if it brought one."""
    message = record.call.get("message")
    return message_in(Parts(message, "message")) if record.name() == "step" and isinstance(message, dict) else None


def what(record: Record) -> str:
    """A call, with the type of its message."""
    message: Any = record.call.get("message")
    return f"{record.name()} {message['type']}" if isinstance(message, dict) and "type" in message else record.name()


def state_of(parts: Parts, without: frozenset[str]) -> State:
    """The state of an answer; of several the last."""
    return result_in(parts, without, bool(parts.items("states"))).states[-1]


def different(field: str, ours: list[str], theirs: list[str]) -> Iterator[TraceDifference]:
    if ours != theirs:
        yield TraceDifference(field, ours, theirs)


def state_differences(id: int, ours: State, theirs: State, without: frozenset[str]) -> Iterator[TraceDifference]:
    if part := differing_part(ours, theirs, without):
        yield TraceDifference(part, [state_line(id, ours, without)], [state_line(id, theirs, without)])
    if "config" not in without:
        yield from different("config", *([config_line(id, side.config, without)] for side in (ours, theirs)))


def ready_differences(ours: Ready, theirs: Ready, without: frozenset[str]) -> Iterator[TraceDifference]:
    wanted, came = (sorted(map(message_line, side.messages)) for side in (ours, theirs))
    odd = next((text for text in wanted + came if wanted.count(text) != came.count(text)), "")
    yield from different("messages " + next((word for word in odd.split() if word.startswith("Msg")), ""), wanted, came)
    if "ready" not in without:
        for name in ("hard", "snapshot", "entries", "committed"):
            yield from different(f"ready {name}", [str(getattr(ours, name))], [str(getattr(theirs, name))])
