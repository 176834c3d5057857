"""Runs a script on the reference alone, and lists its calls with the answers to expect (expected.py). A library that takes batches is asked all calls
at once. If every answer is the expected one, the script agrees, and nothing is asked again.
"""
from __future__ import annotations

from typing import Any, Callable, NamedTuple, Sequence

from plain.config import Config
from plain.node import Node
from plain.records import Message, Options, Ready
from plain.script import Block

from ..explore.coverage import effect, message_relation, number_of, situation, view_relation
from ..process.node import options_out
from ..process.process import CallFailure, Process
from ..promises.checker import NoPromises, Promises
from ..promises.clusters import WatchedCluster
from ..promises.run import PromiseResult, PromiseRun
from ..protocol.capabilities import reduced
from ..protocol.answers import Answer, LogEnd, MemberView, answer_in
from ..protocol.encoding import Hello, Json, WireMessage, Wrong, change_out, config_out, data_out
from ..rules.own import Ruled
from .answers import log_of, state_of
from .comparison import Comparison, Difference, failure
from .expected import Checker, ExpectedState, NumberedMessage, PlannedCall
from .made import NodeBefore
from .runner_steps import steps_above
from .script import directive_of
from .stage import NEVER, Reference, allowed

PARTS: dict[str, Callable[..., Json]] = {
    "campaign": dict, "tick": dict, "forget_leader": dict,
    "propose": lambda body: {"data": data_out(body)},
    "propose_change": lambda change, is_v1=False: {"change": change_out(change), "v1": is_v1},
    "transfer": lambda to: {"to": to}, "report_unreachable": lambda to: {"to": to},
    "report_snapshot": lambda to, is_lost: {"to": to, "failed": is_lost},
    "set_timeout": lambda ticks: {"ticks": ticks}, "compact": lambda index: {"index": index},
    "restart": lambda saved="nothing": {"saved": saved}, "read": lambda id: {"id": id},
}


NONE: frozenset[str] = frozenset()
# Whether more is ready isn't compared while what was ready is under way.
READY_LATER = frozenset({"ready"})


class PlanningReference(Reference):
    """The reference, which notes the calls that it gets and what it met. It prints nothing."""

    def __init__(self, kind: type[Node], begins_at_0: bool, hello: Hello, has_views: bool) -> None:
        super().__init__(kind, begins_at_0)
        self.hello, self.has_views = hello, has_views
        self.asked: list[PlannedCall] = []
        self.met: set[int] = set()
        self.notes_where = True  # where the script leads
        self.where: tuple[tuple[object, ...], ...] = ()  # what is special about a node that is called, and how the message relates to it
        self.number = 0
        self.steps_to = 0  # the node that the last call is a step of, if more may join it

    def expected(self, id: int) -> ExpectedState:
        node = self.plain[id]
        skipped = node.unsettled() if isinstance(node, Ruled) else NONE
        return ExpectedState(state_of(node), skipped | READY_LATER if id in self.under_way else skipped)

    def ask(self, node_id: int, call: str, **parts: Any) -> None:
        self.steps_to = 0
        self.asked.append(PlannedCall({"call": call, "node": node_id, **parts}, [self.expected(node_id)], role=self.role_before))

    # Nothing is printed

    def put(self, line: str) -> None:
        self.is_stuck = self.is_stuck or line == NEVER

    def put_message(self, verb: str, message: Message) -> None:
        pass

    def put_events(self, node: Any) -> None:
        node.events = []

    def show_ready(self, id: int, ready: Ready) -> None:
        pass

    def do_raft_state(self, *_: object) -> None:
        pass

    def do_raft_log(self, *_: object) -> None:
        pass

    def do_status(self, *_: object) -> None:
        pass

    # Calls

    def make_node(self, id: int, config: Config, index: int, content: bytes, options: Options) -> Node:
        node = super().make_node(id, config, index, content, options)
        base = {"index": index, "term": 1 if index else 0, "content": data_out(content), "config": config_out(config)}
        self.nodes[id] = node
        self.ask(id, "start", base=base, options=options_out(options, self.hello.limits))
        return node

    def touch(self, id: int) -> None:
        self.touched.add(id)

    def call(self, id: int, name: str, *parts: Any) -> None:
        super().call(id, name, *parts)
        if name == "step":
            self.ask_step(id, parts[0])
        else:
            self.ask(id, name, **PARTS[name](*parts))

    def note_before(self, node: Node, before: NodeBefore, message: Message | None) -> None:
        if self.notes_where:
            relation = (message_relation(node, before, message), view_relation(node, message)) if message else ()
            self.where = situation(node, before.last, node.id in self.restarted, node.id in self.under_way), relation

    def note_after(self, node: Node, before: NodeBefore, message: Message | None) -> None:
        super().note_after(node, before, message)
        if self.notes_where:
            self.met.add(number_of((self.what, *self.where, effect(node, before))))

    def ask_step(self, id: int, m: Message) -> None:
        assert isinstance(m, NumberedMessage)
        if m.is_cut():
            self.ask(id, "step")
            self.asked[-1].cut = m
        elif self.steps_to == id:
            self.asked[-1].call["numbers"].append(m.number)
            self.asked[-1].states.append(self.expected(id))
            self.asked[-1].whats += ((m.kind, self.role_before),)
        else:
            self.ask(id, "step", numbers=[m.number])
            self.asked[-1].whats = ((m.kind, self.role_before),)
            self.steps_to = id

    def numbered(self, message: Message) -> NumberedMessage:
        sent = NumberedMessage._make(message)
        sent.number, sent.given = self.number, len(message.entries)
        self.number += 1
        return sent

    def cut(self, m: Message, most: int) -> Message:
        less = super().cut(m, most)
        if less is not m and isinstance(m, NumberedMessage) and isinstance(less, NumberedMessage):
            less.number, less.given = m.number, m.given
        return less

    def take_ready(self, id: int) -> Ready:
        ready = super().take_ready(id)
        ready.messages[:] = map(self.numbered, ready.messages)
        self.steps_to = 0
        self.asked.append(PlannedCall({"call": "ready", "node": id}, answer=ready, role=self.role_before))
        return ready

    def finish(self, id: int) -> bool:
        if not super().finish(id):
            return False
        node = self.plain[id]
        self.ask(id, "advance")
        self.asked[-1].end = LogEnd(node.last(), node.last_term(), node.durable)
        return True

    def do_send_snapshot(self, words: Sequence[Any], *_: object) -> None:
        message = self.numbered(self.nodes[words[0]].snapshot_for(words[1]))
        self.steps_to = 0
        self.asked.append(PlannedCall({"call": "snapshot", "node": words[0], "to": words[1]}, answer=message))
        self.queue(message, "queue")

    def drop(self, message: Message) -> None:
        super().drop(message)
        if "lost" not in self.hello.calls or message.sender not in self.nodes:
            return
        assert isinstance(message, NumberedMessage)
        self.ask(message.sender, "lost", number=message.number)

    # A script

    def ask_views(self) -> None:
        for id in sorted(self.touched) if self.has_views else []:
            node = self.plain[id]
            if node.role == "leader":
                views = {to: MemberView(v.state, v.match, v.next, v.inflight, v.waiting, v.active, v.pending) for to, v in node.views.items() if to != id}
                self.asked.append(PlannedCall({"call": "status", "node": id}, answer=views))
        self.steps_to = 0

    def ask_logs(self) -> None:
        for id in self.nodes if "log" not in self.hello.without else []:
            self.asked.append(PlannedCall({"call": "log", "node": id}, answer=log_of(self.plain[id])))


class Plan(NamedTuple):
    """What a script asks: `places` are those of the directives of its calls, from 1 on."""

    directives: int
    left_out: int
    asked: list[PlannedCall]
    places: list[tuple[int, Block]]
    met: set[int]
    comes_to_rest: bool
    made: tuple[tuple[str, int], ...] = ()  # what it makes the nodes do


def plan_of(blocks: Sequence[Block], process: Process, chosen: Comparison) -> Plan:
    """Runs a script on the reference."""
    kept = [(place, less) for place, block in enumerate(blocks, 1) if (less := reduced(block, process.hello)) is not None]
    cluster = PlanningReference(chosen.kind, chosen.begins_at_0, process.hello, "views" in chosen.aspects and "status" not in process.without)
    places: list[tuple[int, Block]] = []
    is_at_rest = True
    for place, block in kept:
        if block.lead and chosen.has_steps:
            cluster.carry_out(allowed(steps_above(block), process))
            cluster.ask_views()
        cluster.run(directive_of(block))
        is_at_rest = is_at_rest and not cluster.is_stuck
        cluster.ask_views()
        places += [(place, block)] * (len(cluster.asked) - len(places))
    cluster.ask_logs()
    return Plan(len(kept), len(blocks) - len(kept), cluster.asked, places, cluster.met, is_at_rest, tuple(cluster.made.items()))


# Asking at once


def answers_at_once(asked: Sequence[PlannedCall], process: Process) -> list[Answer]:
    """The answers to all calls; Wrong if one isn't an answer. A message that the network cut is made from what the process gave, so its call has to wait for
    that.
    """
    process.reset()
    answers: list[Answer] = []
    given: list[Message] = []
    for at in [at for at, each in enumerate(asked) if each.cut] + [len(asked)]:
        begun = len(answers)
        calls = [call_of(each, given) for each in asked[begun:at]]
        if calls:
            answers += [answer_in(call, answer, process.without) for call, answer in zip(calls, process.ask_all(calls, begun))]
            given += [message for answer in answers[begun:] for message in messages_of(answer)]
    return answers


def call_of(asked: PlannedCall, given: Sequence[Message]) -> Json:
    if asked.cut is None:
        return asked.call
    message = given[asked.cut.number] if asked.cut.number < len(given) else None
    whole = message.json if isinstance(message, WireMessage) else {}
    return {**asked.call, "message": {**whole, "entries": (whole.get("entries") or [])[:len(asked.cut.entries)]}}


def messages_of(answer: Answer) -> Sequence[Message]:
    """The messages that an answer gives."""
    return answer.messages if isinstance(answer, Ready) else [answer] if isinstance(answer, Message) else []


class AtOnce(NamedTuple):
    """What asking all calls at once came to: whether all answers are the expected ones; the failure of a call, where one fails by an error; how the first
    state differs, where it is the first answer that does.
    """

    agrees: bool
    failure: Difference | None = None
    state: Difference | None = None


def asked_at_once(plan: Plan, process: Process, chosen: Comparison) -> AtOnce:
    """Asks nodes that take batches. They are asked anew if they don't agree."""
    if not plan.comes_to_rest:
        return AtOnce(False)
    try:
        return compared_at_once(plan.asked, answers_at_once(plan.asked, process), Checker(process.hello, chosen.aspects), plan.places)
    except Wrong:
        return AtOnce(False)
    except CallFailure as failed:
        if failed.number >= len(plan.places):
            return AtOnce(False)
        place, block = plan.places[failed.number]
        return AtOnce(False, failure(place, directive_of(block).name.decode("latin-1"), failed, plan.asked[failed.number].role))


def compared_at_once(asked: Sequence[PlannedCall], answers: Sequence[Answer], checker: Checker, places: Sequence[tuple[int, Block]]) -> AtOnce:
    other = checker.first_other(asked, answers) if len(asked) == len(answers) else 0
    if other is None:
        return AtOnce(True)
    if other >= len(places) or other >= len(answers) or not asked[other].states:
        return AtOnce(False)
    place, block = places[other]
    return AtOnce(False, None, checker.other_state(asked[other], answers[other], place, directive_of(block).name.decode("latin-1")))


class HealedReference(WatchedCluster, PlanningReference):
    """The reference, which notes the calls that it gets in a script and while that is healed. It isn't held to the promises itself."""

    def __init__(self, kind: type[Node], begins_at_0: bool, hello: Hello) -> None:
        super().__init__(kind, begins_at_0, hello, False)
        self.promises, self.notes_where = NoPromises(hello.without & {"status"}), False

    def look_at_views(self, id: int, unheard: set[int]) -> None:
        super().look_at_views(id, unheard)
        self.steps_to = 0
        self.asked.append(PlannedCall({"call": "status", "node": id}, unheard=frozenset(unheard)))


def keeps_promises_at_once(
    blocks: Sequence[Block], process: Process, chosen: Comparison, has_all_reads: bool,
) -> tuple[PromiseResult | None, Difference | None]:
    """What a script comes to with nodes that do as the reference, also while it heals: then they keep all promises that it keeps. If they do otherwise there
    is None, and how the first state differs, where it is the first answer that does.
    """
    cluster = HealedReference(chosen.kind, chosen.begins_at_0, process.hello)
    cluster.has_all_reads = has_all_reads
    result = PromiseRun(blocks, process, chosen, cluster).result()
    if result.broken or result.failed:
        return None, None
    result = result._replace(made=tuple(cluster.made.items()))
    cluster.ask_logs()
    try:
        answers = answers_at_once(cluster.asked, process)
    except (CallFailure, Wrong):
        return None, None
    places = [(len(blocks), blocks[-1])] * len(cluster.asked) if blocks else []
    at_once = compared_at_once(cluster.asked, answers, Checker(process.hello, chosen.aspects | {"ready"}), places)
    is_kept = at_once.agrees and all(are_linearizable(answer, cluster.promises) for answer in answers)
    return result if is_kept else None, at_once.state


def are_linearizable(answer: Answer, promises: Promises) -> bool:
    """Whether the reads that an answer serves, if any, see what was committed when they were asked for."""
    return not isinstance(answer, Ready) or all(read.index >= promises.asked.get(read.id, (0, 0))[1] for read in answer.reads)
