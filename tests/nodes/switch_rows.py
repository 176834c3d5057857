"""Switches of the reference, a row each: a script, and what a part of the cluster is after it, without the switch and with it. Expected values are from the
lines of the libraries' sources that nodes/like names.
"""
from __future__ import annotations

import dataclasses
from collections.abc import Callable

from plain.config import Change, Config
from plain.node import Node
from plain.records import Entry, Message, Snapshot
from raftbench_nodes.compare.runner_steps import step_of, steps_above
from raftbench_nodes.compare.script import Step, blocks_of
from raftbench_nodes.compare.stage import Reference
from raftbench_nodes.rules.lists import kind_with
from tests.nodes.breaking import Checks, is_equal

Shown = Callable[[Reference], object]
TWO = ("add-nodes 2 voters=(1,2) index=10", "campaign 1", "stabilize")
THREE = ("add-nodes 3 voters=(1,2,3) index=10", "campaign 1", "stabilize")
ROUND_TRIP = ("process-ready 1", "deliver-msgs 2", "process-ready 2", "deliver-msgs 1")


def ran(switches: tuple[str, ...], *lines: str) -> Reference:
    return ran_on(kind_with(switches), *lines)


def ran_on(kind: type[Node], *lines: str) -> Reference:
    """A cluster that has run directives, one a line; the words of a change stand after ` | `."""
    cluster = Reference(kind)
    steps = []
    for line in lines:
        head, _, words = line.partition(" | ")
        *above, directive = head.split(" / ")
        steps.append(Step(directive, (words,) if words else (), tuple(step for part in above if (step := step_of(part)))))
    for block in blocks_of(steps):
        cluster.carry_out(steps_above(block))
        cluster.run(block.directive())
    return cluster


def pending(cluster: Reference, to: int) -> list[tuple[str, int, int]]:
    """The types, entries and commits of messages that wait for a node."""
    return [(m.kind, len(m.entries), m.commit) for m in cluster.network.pending if m.to == to]


# What is shown of a cluster


def of(id: int, *names: str) -> Shown:
    """Parts of a node's state."""
    return lambda cluster: tuple(getattr(cluster.nodes[id], name) for name in names)


def length(id: int) -> Shown:
    """How many entries a log has from index 11 on."""
    return lambda cluster: len(cluster.nodes[id].entries_from(11))


def waiting(to: int) -> Shown:
    return lambda cluster: pending(cluster, to)


def kinds(to: int) -> Shown:
    return lambda cluster: [m.kind for m in cluster.network.pending if m.to == to]


def kinds_from(sender: int) -> Shown:
    return lambda cluster: [m.kind for m in cluster.network.pending if m.sender == sender]


def messages(kind: str, *names: str) -> Shown:
    """Parts of the messages of a type that wait, or of those that a node has ready."""
    return lambda cluster: [tuple(getattr(m, name) for name in names) for m in cluster.network.pending if m.kind == kind]


def ready(id: int, *names: str) -> Shown:
    return lambda cluster: [tuple(getattr(m, name) for name in names) for m in cluster.nodes[id].ready().messages]


def kinds_ready(id: int) -> Shown:
    return lambda cluster: [m.kind for m in cluster.nodes[id].ready().messages]


def appended(cluster: Reference) -> object:
    """The index and the number of entries of the appends that node 1 has ready."""
    return [(m.index, len(m.entries)) for m in cluster.nodes[1].ready().messages]


def reads(cluster: Reference) -> object:
    return [(id, read.index) for id, ready in cluster.readies for read in ready.reads]


@dataclasses.dataclass(frozen=True)
class Row:
    switch: str
    lines: tuple[str, ...]
    shown: Shown
    usual: object
    switched: object
    base: tuple[str, ...] = ()  # switches on both sides
    then: tuple[int, Message | Change] | None = None  # what a node gets after the lines


COUNTED = ("change-counts-when-appended", "own-answers-at-once")
FIRST_CHANGE = ("add-nodes 2 voters=(1,2) index=10", "campaign 1", *ROUND_TRIP, "propose-conf-change 1 | l3")
LEARNER = ("add-nodes 3 voters=(1,2) learners=3 index=10", "campaign 1", "stabilize")
REMOVED = (*THREE, "propose-conf-change 1 | r1", "propose 1 a")
CHANGES = [
    Row("change-counts-when-appended", THREE, of(1, "config"), (Config(frozenset({1, 2, 3})),), (Config(frozenset({1, 2}), learners=frozenset({3})),), then=(1, Change("auto", (("l", 3),)))),
    Row("changes-wait", FIRST_CHANGE, length(1), 2, 1, COUNTED),
    Row("impossible-change-declined", ("add-nodes 1 voters=1 index=10", "campaign 1", "propose-conf-change 1 | r1"), length(1), 2, 1, COUNTED),
    Row("own-entry-before-change", ("add-nodes 1 voters=1 index=10", "campaign 1", "propose-conf-change 1 | v2"), of(1, "commit"), (11,), (12,), COUNTED),
    Row("change-has-all-members", ("add-nodes 1 voters=1 index=10", "add-nodes 1 voters=2 index=10", "campaign 1", "propose-conf-change 1 | v2", "stabilize"),
        lambda cluster: cluster.nodes[2].config.voters(), {2}, {1, 2}, COUNTED),
    Row("leaves-when-committed", REMOVED, length(1), 2, 3, COUNTED),
    Row("leaves-when-committed", (*REMOVED, "stabilize"), of(1, "role"), ("leader",), ("follower",), COUNTED),
    Row("unstable-member-campaigns", (*THREE, "propose-conf-change 1 | l2", "process-ready 1", "deliver-msgs 2", "campaign 2"), of(2, "role"), ("follower",), ("candidate",), COUNTED),
    Row("nonvoter-times-out", (*LEARNER, "tick-election 3"), of(3, "lead"), (1,), (0,), ("declined-campaign-forgets-leader",)),
    Row("declined-campaign-forgets-leader", (*LEARNER, "campaign 3"), of(3, "lead"), (1,), (0,)),
]

PRE_VOTED = ("add-nodes 3 voters=(1,2,3) index=10 prevote=true", "campaign 1")
GAP = (*TWO, "propose 1 a", "process-ready 1", "deliver-msgs drop=(2)", "propose 1 b", "stabilize")
LOST = (*TWO, "propose 1 a", "process-ready 1", "deliver-msgs drop=(2)", "propose 1 b", "process-ready 1")
AFTER_1ST = (*TWO[:2], *ROUND_TRIP)
AGAIN_AT_3 = ("deliver-msgs 3", "process-ready 3", "deliver-msgs 1", "process-ready 1")
INSTALLING = ("add-nodes 2 voters=(1,2,3) index=10", "add-nodes 1 voters=(1,2,3) index=9", "campaign 1", "stabilize 1 2", *AGAIN_AT_3)
PROPOSED = (*TWO, "propose 1 a", "process-ready 1")
HANDED = (*PROPOSED, "deliver-msgs drop=(2)", "transfer-leadership from=1 to=2", "process-ready 1")
BY_SENT = ("transfer-goes-by-sent",)
HAS_TWO = (*THREE, "propose 1 a", "propose 1 b", "process-ready 1", "deliver-msgs 2")
LEADERS = [
    Row("commit-told-later", (*THREE, "propose 1 a", *ROUND_TRIP, "process-ready 1"), waiting(2), [("MsgApp", 0, 12)], []),
    Row("lost-append-goes-again", LOST, waiting(2), [("MsgApp", 1, 11)], []),
    Row("lost-append-goes-again", (*LOST, "tick-heartbeat 1", "process-ready 1"), lambda cluster: [pair[:2] for pair in pending(cluster, 2)][-2:],
        [("MsgApp", 1), ("MsgHeartbeat", 0)], [("MsgHeartbeat", 0), ("MsgApp", 2)]),
    Row("leader-follows-another", THREE, of(1, "role", "lead"), ("leader", 1), ("follower", 2), then=(1, Message("MsgHeartbeat", 2, 1, 1))),
    # hashicorp/raft 1.1.2, replication.go: handleStaleTerm notifies stepDown, and heartbeat doesn't look at resp.Term.
    Row("stale-leader-keeps-term", THREE, of(1, "role", "term", "vote", "lead"), ("follower", 7, 0, 0), ("follower", 1, 1, 0), then=(1, Message("MsgAppResp", 2, 1, 7))),
    Row("stale-leader-keeps-term", THREE, of(2, "role", "term"), ("follower", 9), ("follower", 1), then=(2, Message("MsgAppResp", 3, 2, 9))),
    Row("stale-leader-keeps-term", (*THREE, "campaign 2"), of(2, "role", "term"), ("follower", 9), ("candidate", 2), then=(2, Message("MsgAppResp", 3, 2, 9))),
    Row("heartbeat-answers-have-no-term", THREE, of(1, "role", "term", "vote", "lead"), ("follower", 7, 0, 0), ("leader", 1, 1, 1), then=(1, Message("MsgHeartbeatResp", 2, 1, 7))),
    Row("transfer-refused", (*THREE, "transfer-leadership from=2 to=3", "process-ready 2"), kinds(1), ["MsgTransferLeader"], []),
    Row("proposal-refused", (*THREE, "propose 2 b", "process-ready 2"), kinds(1), ["MsgProp"], []),
    Row("new-leader-asks-first", (*AFTER_1ST, "process-ready 1"), waiting(2), [("MsgApp", 1, 10)], [("MsgApp", 0, 10)]),
    Row("refused-append-waits", GAP, of(2, "commit"), (13,), (11,)),
    Row("refused-append-waits", (*GAP, "tick-heartbeat 1", "stabilize"), of(2, "commit"), (13,), (13,)),
    Row("heartbeats-append", (*AFTER_1ST, "tick-heartbeat 1", "process-ready 1"), kinds(2), ["MsgApp", "MsgHeartbeat"], ["MsgApp", "MsgApp"]),
    Row("snapshot-ends-in-probe", (*INSTALLING, *AGAIN_AT_3), kinds(3), ["MsgApp"], []),
    Row("transfer-goes-by-sent", HANDED, kinds(2), ["MsgApp"], ["MsgTimeoutNow"]),
    Row("transfer-needs-whole-log", (*PROPOSED, "transfer-leadership from=1 to=2", "process-ready 1", "deliver-msgs 2"), of(2, "role"), ("candidate",), ("candidate",), BY_SENT),
    Row("transfer-needs-whole-log", (*HANDED, "deliver-msgs 2"), of(2, "role"), ("candidate",), ("follower",), BY_SENT),
    Row("one-transfer-at-a-time", (*THREE, "transfer-leadership from=1 to=2", "transfer-leadership from=1 to=3", "process-ready 1"), messages("MsgTimeoutNow", "to"), [(2,), (3,)], [(2,)]),
    Row("last-snapshot-sent", THREE, lambda cluster: (s := cluster.nodes[1].snapshot_for(2).snapshot) and s.index, 11, 10),
    Row("quorum-by-last-answers", ("add-nodes 2 voters=(1,2) index=10 checkquorum=true", "campaign 1", "stabilize", *["tick-heartbeat 1"] * 3), of(1, "role"), ("leader",), ("leader",)),
    Row("quorum-by-last-answers", ("add-nodes 2 voters=(1,2) index=10 checkquorum=true", "campaign 1", "stabilize", *["tick-heartbeat 1"] * 4), of(1, "role"), ("leader",), ("follower",)),
    Row("lost-quorum-asks-at-once", ("add-nodes 2 voters=(1,2) index=10 checkquorum=true prevote=true", "campaign 1", "stabilize", *["tick-heartbeat 1"] * 6), of(1, "role"), ("follower",), ("precandidate",)),
    Row("pre-vote-brings-term", ("add-nodes 3 voters=(1,2,3) index=10 prevote=true", "campaign 1", "stabilize 1 2", "deliver-msgs drop=3", "campaign 2", "process-ready 2", "deliver-msgs 3"), of(3, "term"), (0,), (1,)),
    Row("lone-voter-begins-term", ("add-nodes 1 voters=1 index=10",), of(1, "role", "term", "vote"), ("leader", 0, 0), ("leader", 1, 1), ("lone-voter-leads",)),
    Row("lone-voter-begins-term", ("add-nodes 1 voters=1 index=10", "process-ready 1", "# node: restart 1 / raft-state"), of(1, "role", "term"), ("leader", 0), ("leader", 2), ("lone-voter-leads",)),
    # Open vSwitch 4.0.0, raft.c, raft_handle_install_snapshot_request__: cases 2 and 3 compare with log_end alone.
    Row("skipped-snapshot-keeps-commit", HAS_TWO, of(2, "commit", "base"), (12, 10), (11, 10), then=(2, Message("MsgSnap", 1, 2, 1, snapshot=Snapshot(12, 1, b"a", Config(frozenset({1, 2, 3})))))),
    Row("skipped-snapshot-keeps-commit", HAS_TWO, of(2, "commit", "base"), (13, 10), (13, 13), then=(2, Message("MsgSnap", 1, 2, 1, snapshot=Snapshot(13, 1, b"ab", Config(frozenset({1, 2, 3})))))),
    # raft_command_initiate sends to whom next_index is the new entry's, and adds one to that; raft_send_heartbeats sends no entries.
    Row("leader-never-probes", (*TWO[:2], *ROUND_TRIP, "propose 1 a", "process-ready 1"), waiting(2), [("MsgApp", 1, 10)], [("MsgApp", 1, 10)] * 2),
    # raft_handle_append_reply lowers next_index by each refusal, a late one's too, and sends all from there on.
    Row("leader-never-probes", (*TWO, "propose 1 a", "stabilize"), appended, [], [(11, 1)], then=(1, Message("MsgAppResp", 2, 1, 1, 11, refused=True, hint=12))),
    # raft_handle_install_snapshot_reply sets next_index alone.
    Row("leader-never-probes", (*INSTALLING, "deliver-msgs 3", "process-ready 3", "deliver-msgs 1"), lambda cluster: cluster.nodes[1].views[3].match, 10, 0, ("last-snapshot-sent",)),
    # raft_conn_run ends install_snapshot_request_in_progress where the connection breaks.
    Row("leader-never-probes", (*INSTALLING, "deliver-msgs drop=3"), kinds_ready(1), [], ["MsgSnap"], ("last-snapshot-sent",), then=(1, Message("MsgAppResp", 3, 1, 1, 10, refused=True, hint=9))),
    Row("leader-never-probes", INSTALLING, kinds_ready(1), [], [], ("last-snapshot-sent",), then=(1, Message("MsgAppResp", 3, 1, 1, 10, refused=True, hint=9))),
    # raft_store_snapshot sets log_synced to the log's end.
    Row("compacting-saves", (*THREE, "propose 1 a", "stabilize", "propose 1 b", "compact 1 12"), of(1, "durable"), (12,), (13,)),
    Row("own-vote-at-once", ("add-nodes 1 voters=1 index=10", "campaign 1"), of(1, "role", "commit"), ("candidate", 10), ("leader", 10)),
    Row("own-answers-at-once", ("add-nodes 1 voters=1 index=10", "campaign 1"), of(1, "role", "commit"), ("candidate", 10), ("leader", 11)),
]

SPLIT = ("add-nodes 3 voters=(1,2,3) index=10", "campaign 1", "campaign 2", "process-ready 1 2", "deliver-msgs 1 2 3", "process-ready 1 2 3", "deliver-msgs 1 2")
ASKS = (*THREE, "campaign 3", "process-ready 3", "deliver-msgs 2")
VOTED = ("add-nodes 3 voters=(1,2,3) index=10", "campaign 1", "process-ready 1", "deliver-msgs 2")
EARLIER = ("add-nodes 2 voters=(1,2) index=10", "campaign 2", "campaign 2", "process-ready 2", "deliver-msgs drop=(1)", "campaign 1", "process-ready 1", "deliver-msgs 2", "process-ready 2")
ASKED = ("add-nodes 2 voters=(1,2) index=10 prevote=true", "campaign 2", "process-ready 2", "deliver-msgs 1", "process-ready 1", "deliver-msgs 2", "process-ready 2")
ASKED_BY_1 = (*PRE_VOTED, "process-ready 1", "deliver-msgs 2", "process-ready 2", "deliver-msgs 1")
DUE = ("add-nodes 2 voters=(1,2) index=10 prevote=true", *["tick-heartbeat 1"] * 2, "campaign 1", "process-ready 1", "deliver-msgs drop=(2)")
BUMPED = (*THREE[:2], "stabilize 1 2", "deliver-msgs drop=3", *["campaign 3"] * 2, "process-ready 3", "set-randomized-election-timeout 2 timeout=4", "tick-election 2")
BEHIND = ("add-nodes 2 voters=(1,2) index=10 prevote=true", "add-nodes 1 voters=(1,2,3) index=9 prevote=true", "campaign 3", "process-ready 3", "deliver-msgs 2", "process-ready 2")
LATE = (*ASKED_BY_1, "process-ready 1", "deliver-msgs 2", "process-ready 2", "campaign 1", "process-ready 1", "deliver-msgs 1")
VOTES = [
    Row("refused-candidate-stays", SPLIT, lambda cluster: sorted(cluster.nodes[id].role for id in (1, 2)), ["follower", "leader"], ["candidate", "leader"]),
    Row("known-leader-refuses", ASKS, of(2, "term"), (2,), (1,)),
    Row("lead-is-kept", ASKS, of(2, "lead"), (0,), (1,)),
    Row("saved-at-once", (*VOTED, "# node: crash 2 before save / raft-state"), of(2, "vote", "term"), (0, 0), (1, 1)),
    # Figure 3.1.
    Row("earlier-vote-refused", EARLIER, lambda cluster: [(m.kind, m.term, m.refused) for m in cluster.network.pending if m.to == 1], [], [("MsgVoteResp", 2, True)]),
    Row("known-leader-may-ask", ("add-nodes 2 voters=(1,2) index=10 checkquorum=true", *TWO[1:], "# node: restart 1 / campaign 1", "process-ready 1", "deliver-msgs 2"), of(2, "term"), (1,), (2,)),
    Row("candidate-asks-once", (*PRE_VOTED, *ROUND_TRIP, "campaign 1"), of(1, "role"), ("precandidate",), ("candidate",)),
    Row("pre-vote-ignores-vote", (*ASKED, "deliver-msgs drop=(1)", "campaign 1", "process-ready 1", "deliver-msgs 2", "process-ready 2"), messages("MsgPreVoteResp", "refused"), [(True,)], [(False,)]),
    Row("pre-vote-restarts-clock", (*DUE, "tick-heartbeat 1", "process-ready 1"), kinds(2), ["MsgPreVote"], []),
    Row("later-term-keeps-clock", (*BUMPED, "deliver-msgs 2", "tick-heartbeat 2"), of(2, "role"), ("follower",), ("candidate",)),
    Row("pre-vote-refusal-keeps-term", (PRE_VOTED[0], "campaign 2", "stabilize 2 3", "deliver-msgs drop=1", "campaign 1", "stabilize 1 2"), of(1, "role", "term"), ("follower", 1), ("precandidate", 0)),
    Row("pre-vote-answer-has-asked-term", BEHIND, messages("MsgPreVoteResp", "term"), [(0,)], [(1,)]),
    Row("saved-answers-in-order", (*VOTED, "campaign 2", "process-ready 2"), kinds_from(2), ["MsgVote", "MsgVote", "MsgVoteResp"], ["MsgVoteResp", "MsgVote", "MsgVote"]),
    # Open vSwitch 4.0.0, raft-rpc.c, raft_rpc_get_min_sync_index: an append_reply has log_end - 1, whatever its result is.
    Row("answers-wait-for-log", (*PROPOSED, "deliver-msgs 2"), ready(2, "index"), [(11,), (12,)], [(12,), (11,)], ("saved-answers-in-order",), then=(2, Message("MsgApp", 1, 2, 1, 11, 1, 11))),
    Row("answers-wait-for-log", (*PROPOSED, "deliver-msgs 2"), ready(2, "refused"), [(True,), (False,)], [(False,), (True,)], ("saved-answers-in-order",), then=(2, Message("MsgApp", 1, 2, 1, 20, 1, 11))),
    # raft.c, raft_should_suppress_disruptive_server: a follower's election_base is that of its vote, too; a leader ignores all.
    Row("timeout-ignores-candidates", (*VOTED, "campaign 3", "campaign 3", "process-ready 3", "deliver-msgs 2"), of(2, "term", "vote"), (2, 3), (1, 1)),
    Row("timeout-ignores-candidates", (*VOTED, "set-randomized-election-timeout 2 timeout=9", *["tick-heartbeat 2"] * 3, "campaign 3", "campaign 3", "process-ready 3", "deliver-msgs 2"),
        of(2, "term", "vote"), (2, 3), (2, 3)),
    Row("timeout-ignores-candidates", (*THREE, "campaign 3", "process-ready 3", "deliver-msgs 1"), of(1, "role", "term"), ("follower", 2), ("leader", 1)),
    # raft_handle_append_request and raft_handle_vote_request__: raft_reset_election_timer.
    Row("append-draws-timeout", (*TWO, "set-randomized-election-timeout 2 timeout=9", "propose 1 a", "process-ready 1", "deliver-msgs 2"), of(2, "timeout"), (9,), (3,)),
    Row("append-draws-timeout", ("add-nodes 2 voters=(1,2) index=10", "set-randomized-election-timeout 2 timeout=9", "campaign 1", "process-ready 1", "deliver-msgs 2"), of(2, "timeout"), (9,), (3,), ("later-term-keeps-clock",)),
    # raft_handle_vote_reply: any vote of its term counts for a candidate, and a pre-vote only before raft_start_election of the next term.
    Row("late-vote-passes-pre-vote", LATE, of(1, "role", "term"), ("precandidate", 1), ("candidate", 2)),
    # raft_receive_term__ answers no vote_request of an earlier term.
    Row("pre-vote-brings-term", (*PRE_VOTED, "stabilize 1 2", "deliver-msgs drop=3", "campaign 3", "process-ready 3", "deliver-msgs 2", "process-ready 2"), kinds(3), ["MsgPreVoteResp"], []),
    Row("nonvoter-refuses", ("add-nodes 1", "add-nodes 2 voters=(1,2,3) index=10", "campaign 2", "process-ready 2", "deliver-msgs 1", "process-ready 1"), messages("MsgVoteResp", "refused"), [(False,)], [(True,)]),
    Row("told-candidate-stays-told", (*TWO, "transfer-leadership from=1 to=2", "process-ready 1", "deliver-msgs 2", "campaign 2", "process-ready 2"), messages("MsgVote", "by_transfer"), [(True,), (False,)], [(True,), (True,)]),
]

HAS_MORE = (*THREE, "propose 1 a", "stabilize")
UNSAVED = (*PROPOSED, "deliver-msgs 2", "tick-heartbeat 1", "process-ready 1", "deliver-msgs 2", "process-ready 2")
TOLD_TWICE = (*PROPOSED, "deliver-msgs 2", "process-ready 2", "deliver-msgs 1", "propose 1 b", "process-ready 1", "deliver-msgs 2")
ANSWERED = (*PROPOSED, "deliver-msgs 2", "process-ready 2", "propose 1 b", "process-ready 1", "deliver-msgs 1")
ALONE = ("add-nodes 1 voters=1 index=10", "campaign 1", "process-ready 1", "propose 1 a", "process-ready 1")
WRITES = (*THREE, "propose 1 a", "process-ready 1", "deliver-msgs 2")
LOGS = [
    Row("compacted-is-refused", HAS_MORE, ready(2, "refused"), [(False,)], [(True,)], then=(2, Message("MsgApp", 1, 2, 1, 10, 1, 12, (Entry(1, b""),)))),
    Row("append-below-commit-counts", HAS_MORE, lambda cluster: (length(2)(cluster), ready(2, "index")(cluster)), (2, [(12,)]), (3, [(13,)]),
        then=(2, Message("MsgApp", 1, 2, 1, 11, 1, 12, (Entry(1, b"a"), Entry(1, b"b"))))),
    Row("earlier-append-refused", (*PRE_VOTED, "stabilize"), ready(2, "refused", "term"), [(False, 1)], [(True, 1)], then=(2, Message("MsgApp", 1, 2, 0, 11, 1, 11))),
    Row("snapshot-always-installed", HAS_MORE, of(2, "applied", "commit"), (12, 12), (11, 12), then=(2, Message("MsgSnap", 1, 2, 1, snapshot=Snapshot(11, 1, b"", Config(frozenset({1, 2, 3})))))),
    Row("snapshot-always-installed", HAS_MORE, length(2), 2, 2, then=(2, Message("MsgSnap", 1, 2, 1, snapshot=Snapshot(11, 1, b"", Config(frozenset({1, 2, 3})))))),
    Row("restart-keeps-applied", (*HAS_MORE, "# node: restart 2 / raft-state"), of(2, "content"), (b"",), (b"a",)),
    Row("no-empty-after-acknowledged", (*TWO[:2], "stabilize 1 2 rounds=4", "process-ready 1"), waiting(2), [("MsgApp", 0, 11)], [], ("commit-told-later",)),
    Row("saved-is-acknowledged", UNSAVED, messages("MsgAppResp", "index"), [(12,), (12,)], [(11,), (12,)], ("saved-answers-in-order", "heartbeats-append")),
    Row("commit-waits-for-saved", TOLD_TWICE, of(2, "commit"), (12,), (11,), ("commit-told-later",)),
    Row("commit-waits-for-saved", (*TOLD_TWICE, "process-ready 2"), of(2, "commit"), (12,), (12,), ("commit-told-later",)),
    Row("last-saved-commits", ANSWERED, of(1, "commit"), (12,), (11,)),
    Row("last-saved-commits", (*ANSWERED, "stabilize"), of(1, "commit"), (13,), (13,)),
    Row("own-commit-applies-at-once", ALONE, of(1, "commit", "applied", "content"), (12, 10, b""), (12, 12, b"a")),
    Row("late-write-not-acknowledged", (*WRITES, "raft-state", "process-ready 2"), messages("MsgAppResp", "sender"), [(2,)], [(2,)]),
    Row("late-write-not-acknowledged", (*WRITES, "campaign 2", "process-ready 2"), messages("MsgAppResp", "sender"), [(2,)], []),
    Row("torn-snapshot-is-lost", (*THREE, "propose 1 a", "stabilize 1 3", "deliver-msgs drop=2", "send-snapshot 1 2", "deliver-msgs 2", "# node: crash 2 in save / raft-state"), of(2, "base"), (12,), (10,)),
    Row("reads-are-forwarded", (*THREE, "# node: read 2 / process-ready 2"), kinds(1), [], ["MsgReadIndex"]),
    Row("reads-are-forwarded", (*THREE, "# node: read 2 / process-ready 2", "stabilize"), reads, [], [(2, 11)]),
    # Early ones wait for the first commit.
    Row("reads-are-forwarded", (*THREE, "campaign 2", "process-ready 2", "deliver-msgs 3", "process-ready 3", "deliver-msgs 2", "# node: read 2 / stabilize"), reads, [], [(2, 12)]),
]


def ended(row: Row, kind: type[Node]) -> Reference:
    """A row's cluster at its end."""
    cluster = ran_on(kind, *row.lines)
    if row.then:
        id, given = row.then
        if isinstance(given, Message):
            cluster.nodes[id].step(given)
        else:
            cluster.nodes[id].propose_change(given)
    return cluster


def after(row: Row, switches: tuple[str, ...]) -> object:
    return row.shown(ended(row, kind_with((*row.base, *switches))))


def part_switch_rows() -> Checks:
    """Each switch does what its library does, and the reference without it what etcd's raft does."""
    for row in (*CHANGES, *LEADERS, *VOTES, *LOGS):
        last = row.lines[-1]
        yield f"{row.switch}, after {last}", is_equal((after(row, ()), after(row, (row.switch,))), (row.usual, row.switched))
