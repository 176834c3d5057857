"""Rules of hashicorp/raft, libraft and etcd that several switches make, or that need more than a row of switch_rows.py. Expected values
are from the lines of their sources that nodes/like names.
"""
from __future__ import annotations

import inspect
import re
from collections.abc import Sequence

from raftbench_nodes.compare.exceptions import AcceptedKinds
from raftbench_nodes.compare.comparison import Comparison
from raftbench_nodes.explore.explorer import Explorer, Settings, Spec
from raftbench_nodes.compare.judge import Judge
from raftbench_nodes.compare.plan import plan_of
from raftbench_nodes.compare.script import Step, blocks_of
from raftbench_nodes.explore.dice import steps_of
from raftbench_nodes.explore.library import classics
from raftbench_nodes.process.process import Process
from raftbench_nodes.rules.calls import CallRules
from raftbench_nodes.rules.clocks import QuorumRules
from raftbench_nodes.rules.lists import LIKE, RULES, kind_with
from raftbench_nodes.rules.own import NONE, Ruled
from raftbench_nodes.rules.switches import SWITCHES, switches_of
from plain.node import Node
from plain.records import Message
from tests.harness import TOP
from tests.nodes.breaking import Checks, is_equal
from tests.nodes.switch_rows import CHANGES, INSTALLING, LEADERS, LOGS, THREE, TWO, VOTES, ended, part_switch_rows, pending, ran
from tests.nodes.test_classics import InPlace

CALLS = ("messages-are-calls", "own-answers-at-once", "answers-in-order")
# Switches of others that matter only with one that the class serves.
COMBINED: dict[type[Ruled], frozenset[str]] = {CallRules: frozenset(("known-leader-refuses",)), QuorumRules: frozenset(("heartbeat-answers-have-no-term",))}
LIMITED = ("# node: uncommitted 1 / add-nodes 3 voters=(1,2,3) index=10", "campaign 1", "stabilize", "propose 1 abc")


def part_uncommitted_of_etcd() -> Checks:
    """raft.go of 3.4: increaseUncommittedSize asks nothing of an empty payload, and advance leaves a joint configuration before it takes off what it applied;
    stepLeader of both notes the index of a change before appendEntry declines it."""
    for switches, count in (((), 3), (("empty-is-limited",), 2)):
        # A change that can't be is replaced by an empty entry.
        yield f"an empty entry, {switches}", is_equal(len(ran(switches, *LIMITED, "propose-conf-change 1").nodes[1].entries_from(11)), count)
    for switches, is_replaced in (((), False), (("declined-change-is-pending",), True)):
        lines = [line for line in ran(switches, *LIMITED, "propose-conf-change 1 | l3", "process-ready 1", "deliver-msgs 2 3", "process-ready 2", "deliver-msgs 1", "process-ready 1", "propose-conf-change 1 | l3").lines if "replaced change" in line]
        yield f"a change after a declined one, {switches}", is_equal(bool(lines), is_replaced)
    joint = ("# node: uncommitted 1 / add-nodes 3 voters=(1,2,3) index=10", "campaign 1", "stabilize", "propose-conf-change 1 | l3 l2", "stabilize")
    for switches, is_joint in (((), False), (("empty-is-limited",), True)):
        yield f"a joint configuration is left, {switches}", is_equal(ran(switches, *joint).nodes[1].config.is_joint(), is_joint)


def part_calls() -> Checks:
    two = ("add-nodes 2 voters=(1,2) index=10", "campaign 1", "stabilize")
    proposed = ran(CALLS, *two, "propose 1 a", "propose 1 b", "process-ready 1")
    yield "one append is on its way", is_equal(pending(proposed, 2), [("MsgApp", 1, 11)])
    answered = ran(CALLS, *two, "propose 1 a", "propose 1 b", "process-ready 1", "deliver-msgs 2", "process-ready 2", "deliver-msgs 1", "process-ready 1")
    yield "the next goes once it is answered, before its commit is known", is_equal(pending(answered, 2), [("MsgApp", 1, 11)])
    lost = (*two, "propose 1 a", "process-ready 1", "deliver-msgs drop=(2)", "propose 1 b", "process-ready 1")
    yield "after a lost one nothing goes", is_equal(pending(ran(CALLS, *lost), 2), [])
    yield "until the next tick", is_equal(pending(ran(CALLS, *lost, "tick-heartbeat 1", "process-ready 1"), 2), [("MsgApp", 2, 11), ("MsgHeartbeat", 0, 0)])
    silent = (*two, "propose 1 a", "process-ready 1", *["tick-heartbeat 1"] * 2, "process-ready 1")
    yield "a call without an answer fails after two ticks", is_equal(pending(ran(CALLS, *silent, "tick-heartbeat 1", "process-ready 1"), 2)[-2:], [("MsgApp", 1, 11), ("MsgHeartbeat", 0, 0)])
    late = ran(CALLS, *silent, "deliver-msgs 2", "process-ready 2", "deliver-msgs 1")
    yield "its late answer counts for nothing", is_equal(late.nodes[1].commit, 11)
    votes = ("add-nodes 2 voters=(1,2) index=10", "tick-election 1", "tick-heartbeat 1", "stabilize")
    roles = [ran(CALLS, *lines).nodes[1].role for lines in (votes, (votes[0], "campaign 1", *votes[2:]))]
    yield "a late vote counts for nothing, where the tick that campaigned is the first of two", is_equal(roles, ["candidate", "leader"])
    round_trip = ("process-ready 1", "deliver-msgs 2", "process-ready 2", "deliver-msgs 1")
    deferred = (*two[:2], "stabilize rounds=2", "propose 1 a", "transfer-leadership from=1 to=2", *round_trip, *round_trip, "process-ready 1")
    yield "a transfer asks for an append of its own", is_equal(pending(ran(CALLS, *deferred), 2), [("MsgApp", 0, 11), ("MsgTimeoutNow", 0, 0)])
    hashicorp = tuple(switches_of((LIKE / "hashicorp.txt").read_text()))
    shorter = ("campaign 2", "campaign 1", *["propose 3 a"] * 2, "process-ready 3", "deliver-msgs drop=(1)", "campaign 1", "stabilize", "tick-heartbeat 3", "process-ready 3")
    sent = pending(ran(hashicorp, "add-nodes 3 voters=(1,2,3) index=10", "campaign 3", "stabilize", *shorter), 1)
    yield "who no longer leads sends a snapshot for entries that it lost", is_equal([kind for kind, *_ in sent], ["MsgSnap", "MsgHeartbeat"])
    gone = ran(hashicorp, *two, "campaign 2", "propose-conf-change 1 | r2", "process-ready 1", "deliver-msgs 2", "process-ready 2", "deliver-msgs 1")
    yield "a later term in the answer of a member that was removed ends the lead", is_equal((gone.nodes[1].role, gone.nodes[1].term), ("follower", 1))
    ended = ("add-nodes 2 voters=(1,2) index=10", "campaign 2", "stabilize rounds=1", "campaign 1", "stabilize", "tick-election 2", "process-ready 2")
    yield "an answer that ends the lead ends its call", is_equal([kind for kind, *_ in pending(ran(hashicorp, *ended), 1)], ["MsgVote"])
    lone = ("add-nodes 2 voters=1 learners=2 index=10", "campaign 1", "process-ready 1", "deliver-msgs 2", "process-ready 2", "deliver-msgs 1", "process-ready 1")
    yield "a lone voter's first append has its commit", is_equal(pending(ran(hashicorp, *lone), 2), [])
    refused = ("stabilize rounds=2", "propose 2 a", "process-ready 2", "deliver-msgs drop=(1,3)", "campaign 1", "stabilize", "campaign 2", "tick-heartbeat 2", "process-ready 2")
    told = pending(ran(hashicorp, "add-nodes 3 voters=(1,2,3) index=10", "campaign 2", *refused), 1)
    yield "a refused append tells no commit", is_equal([commit for kind, _, commit in told if kind == "MsgApp"], [0])
    handed = (*THREE, "transfer-leadership from=1 to=2", "process-ready 1")
    counts = [len(ran(CALLS, *handed, *more, "propose 1 a").nodes[1].entries_from(11)) for more in ((), ("deliver-msgs drop=(2)",))]
    yield "a transfer is over once its request is lost", is_equal(counts, [1, 2])


def part_leaders_of_libraries() -> Checks:
    alone = ran(("lone-voter-leads",), "add-nodes 1 voters=1 index=10").nodes[1]
    yield "lone-voter-leads", is_equal((alone.role, alone.term, len(alone.entries_from(11))), ("leader", 0, 1))
    learned = ran(("lone-voter-leads", "new-leader-asks-first"), "add-nodes 2 voters=1 learners=2 index=10", "process-ready 1")
    yield "and asks nobody first", is_equal(pending(learned, 2), [("MsgApp", 1, 10)])
    yield "heartbeats-append: a snapshot is on its way", is_equal([kind for kind, *_ in pending(ran(("heartbeats-append",), *INSTALLING), 3)], ["MsgSnap"])
    beat = pending(ran(("heartbeats-append",), *INSTALLING, "deliver-msgs drop=3", "tick-heartbeat 1", "process-ready 1"), 3)
    yield "and heartbeats have no entries", is_equal(beat, [("MsgApp", 0, 11)])
    told_once = (*TWO, "propose 1 a", "transfer-leadership from=1 to=2", "process-ready 1", "deliver-msgs 2 type=MsgApp")
    answered = ("deliver-msgs drop=2", "process-ready 2", "deliver-msgs 1", "process-ready 1")
    yield "transfer-goes-by-sent only once", is_equal([kind for kind, *_ in pending(ran(("transfer-goes-by-sent", "commit-told-later"), *told_once, *answered), 2)], [])
    begun = ("propose 1 a", "process-ready 1", "deliver-msgs 2", "campaign 2", "process-ready 2")
    unsaved = ran(("saved-answers-in-order",), *THREE, *begun)
    yield "saved-answers-in-order, unless it waits for entries", is_equal([m.kind for m in unsaved.network.pending if m.sender == 2], ["MsgVote", "MsgVote", "MsgAppResp"])
    node = ran(("refused-candidate-stays",), *TWO[:2], "process-ready 1", "deliver-msgs 2", "process-ready 2").nodes[1]
    for refused_once in (True, False):
        node.step(Message("MsgVoteResp", 2, 1, 1, refused=refused_once))
    yield "refused-candidate-stays: who refused may still vote for it", is_equal(node.role, "leader")
    # In etcd 3.4 only a change of the first form keeps a node from campaigning.
    switch, waits = ("pending-change-campaigns",), ("stabilize rounds=2", "process-ready 1", "deliver-msgs 2", "campaign 2")
    roles = [ran(switch, *THREE, f"propose-conf-change 1{form} | l3", *waits).nodes[2].role for form in ("", " v1=true")]
    yield "pending-change-campaigns", is_equal(roles, ["candidate", "follower"])


def part_limits_of_logs() -> Checks:
    """A rule may commit or apply what a log lacks: nothing is read there, and a reference that fails ends no exploring."""
    node = ran(("snapshot-always-installed",), *THREE).nodes[1]
    node.commit, node.applied = 20, 5
    yield "what a log lacks", is_equal([index for index, _ in node.ready().committed], [11])

    class Failing(Node):
        def campaign(self, kind: str = "usual") -> None:
            raise IndexError

    process = Process(str(TOP / "nodes/plain"))
    explorer = Explorer(process, Judge(is_asked=False), Settings(Comparison(Failing), "mixed", 0, AcceptedKinds()))
    try:
        found = [explorer.explore(Spec(seed, seed, False)) for seed in range(3)]
    finally:
        process.close()
    yield "a reference that fails", is_equal(found[0].is_reference_wrong, True)


def with_all_rules(names: frozenset[str]) -> type[Node]:
    """The kind that also has the rules that none of its switches needs, but for those of a single switch, which don't ask for it."""
    rules = (it for it in RULES if len(it.serves) > 1 or it.serves & names)
    return type("WithAllRules", (*rules, Ruled), {"switches": names})


def part_rules_that_are_needed() -> Checks:
    """A class serves the switches that it asks for, and each switch is served. What `kind_with` leaves out does nothing: in each row, and in scripts of the
    tree and of the dice with the lists of nodes/like.
    """
    for rules in RULES:
        asked = re.findall(r'\bon\("([a-z0-9-]+)"', inspect.getsource(rules))
        yield f"{rules.__name__} serves what it asks for", is_equal(sorted({*asked} - rules.serves - COMBINED.get(rules, NONE)), [])
    yield "all switches are served", is_equal(sorted(SWITCHES.keys() ^ {name for rules in RULES for name in rules.serves}), [])
    for row in (*CHANGES, *LEADERS, *VOTES, *LOGS):
        kinds = kinds_with(frozenset((*row.base, row.switch)))
        yield f"all rules, {row.switch}, after {row.lines[-1]}", are_equal([ended(row, kind).frozen() for kind in kinds])
    scripts = [steps_of(seed, "mixed") for seed in range(3)] + [list(given.steps) for given in classics()[::12]]
    for file in sorted(LIKE.glob("*.txt")):
        kinds = kinds_with(switches_of(file.read_text()))
        for number, steps in enumerate(scripts):
            yield f"all rules, {file.name}, script {number}", are_equal([planned(kind, steps) for kind in kinds])
    plain: tuple[type[Node], ...] = (Node, *kinds_with(NONE))
    yield "no rules", are_equal([planned(kind, scripts[0]) for kind in plain])


def kinds_with(names: frozenset[str]) -> tuple[type[Node], ...]:
    return kind_with(names), with_all_rules(names)


def are_equal(shown: Sequence[object]) -> str | None:
    return None if all(each == shown[0] for each in shown) else "it differs"


def planned(kind: type[Node], steps: list[Step]) -> object:
    """What nodes of a kind are asked in a script, and what they answer."""
    plan = plan_of(blocks_of(steps), InPlace(), Comparison(kind, frozenset({"views", "messages", "ready"})))
    return [(each.call, each.states, each.answer, each.end) for each in plan.asked]


PARTS = [part_switch_rows, part_rules_that_are_needed, part_limits_of_logs, part_uncommitted_of_etcd, part_calls, part_leaders_of_libraries]
