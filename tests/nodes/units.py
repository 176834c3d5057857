"""Unit tests of raftbench_nodes and of the plain node: the runner's steps, restarts, reads, limits, promises over restarts, shrinking, children of
scripts, accepted kinds. A part yields pairs of a name and what is wrong, or None.
"""
from __future__ import annotations

import hashlib
import json
import pathlib
import re
import subprocess
import sys
import tempfile
from collections.abc import Sequence
from typing import Callable

from raftbench_nodes.compare.exceptions import AcceptedKinds, exceptions_of
from raftbench_nodes.promises.run import run_alone
from raftbench_nodes.compare.comparison import Comparison
from raftbench_nodes.explore.dice import steps_of
from raftbench_nodes.explore.explorer import Explorer, ScriptResult, Settings, Spec
from raftbench_nodes.compare.judge import Judge
from raftbench_nodes.rules.lists import kind_with
from raftbench_nodes.explore.mutation import Mutator
from raftbench_nodes.compare.plan import AtOnce, asked_at_once, plan_of
from raftbench_nodes.process.process import Process
from raftbench_nodes.protocol.capabilities import reduced
from raftbench_nodes.protocol.encoding import Hello
from raftbench_nodes.compare.script import Step, blocks_of
from raftbench_nodes.explore.shrinker import Budget, Shortened, Shrinker, shrunk, with_commas, with_joined_nodes
from raftbench_nodes.compare.stage import HoldingNetwork, Reference
from raftbench_nodes.compare.runner_steps import step_of, steps_above
from raftbench_nodes.rules.switches import Unknown
from plain.config import Config
from plain.network import Choice, Network
from plain.node import Node
from plain.records import Entry, Message, Options
from tests.harness import TOP
from tests.nodes.breaking import BEGUN, Checks, is_equal, part_promises_of_restarts, script
from tests.nodes.library_rules import PARTS as LIBRARY_RULES

THREE = Config(frozenset({1, 2, 3}))


def run(cluster: Reference, *lines: str) -> Reference:
    for block in blocks_of(script(*lines)):
        cluster.carry_out(steps_above(block))
        cluster.run(block.directive())
    return cluster


def node_of(*entries: Entry) -> Node:
    """A follower of three whose log begins at 0 and has these entries, all saved."""
    node = Node(1, THREE, 0, b"", Options())
    if entries:
        node.step(Message("MsgApp", 2, 1, entries[-1].term, 0, 0, 0, entries))
    node.ready()
    node.advance()
    return node


def log(node: Node) -> list[tuple[int, bytes]]:
    return [(entry.term, entry.body) for _, entry in node.entries_from(node.base + 1) if isinstance(entry.body, bytes)]


# The runner's steps


def part_steps() -> Checks:
    """Each step of the document is read, and written as it was."""
    table = (TOP / "docs/OWN-NODES.md").read_text().split("| Step | Does |")[1].split("\n\n")[0]
    texts = [text for row in table.splitlines()[2:] for text in re.findall(r"`(# [^`]*|before advance|release 2 1|snapshot-arrived 1 2)`", row.split("|")[1])]
    full = [{"before advance": "# node: crash 2 before advance", "release 2 1": "# network: release 2 1", "snapshot-arrived 1 2": "# node: snapshot-arrived 1 2"}.get(text, text) for text in texts]
    yield "the document names all", is_equal(len(full), 17)
    for text in full:
        step = step_of(text)
        yield text, is_equal(step and step.text(), text)
    for text in ("# network: reverse", "# node: crash 2", "# node: crash 2 after lunch", "# network: hold 2", "network: reverse 2"):
        yield f"{text!r} is none", is_equal(step_of(text), None)


def part_network() -> Checks:
    """What is held back waits, also what is sent later; late and doubled messages come in the order that the document says."""
    begun = ("add-nodes 3 voters=(1,2,3) index=10", "campaign 1", "process-ready 1")
    cluster = run(Reference(), *begun, "# network: hold 1 2 / deliver-msgs 2 3", "campaign 1", "process-ready 1", "deliver-msgs 2")
    yield "held messages wait", is_equal([cluster.nodes[id].term for id in (2, 3)], [0, 1])
    run(cluster, "# network: release 1 2 / deliver-msgs 2")
    yield "and are delivered when they are released", is_equal(cluster.nodes[2].term, 2)
    for name, wanted in (("late", [2, 3, 1]), ("reverse", [3, 2, 1]), ("double", [1, 2, 3, 3, 2, 1])):
        cluster = run(Reference(), "add-nodes 2 voters=(1,2) index=10", *["campaign 1", "process-ready 1"] * 3, f"# network: {name} 2 / raft-state")
        yield name, is_equal([m.term for m in cluster.network.pending if m.to == 2], wanted)
    asked = run(Reference(), *begun, "deliver-msgs 2", "process-ready 2", "deliver-msgs 3", "# network: again 2 1 / raft-state")
    yield "again", is_equal([(m.kind, m.sender, m.to, m.term) for m in asked.network.pending if m.to == 2], [("MsgVote", 1, 2, 1)])
    run(asked, "deliver-msgs 2", "process-ready 2")
    yield "it grants its vote once more (thesis, 3.4)", is_equal([(m.kind, m.refused) for m in asked.network.pending if m.sender == 2], [("MsgVoteResp", False)] * 2)
    yield "nothing that wasn't delivered comes again", is_equal(run(Reference(), *begun, "# network: again 1 2 / raft-state").network.pending[2:], [])
    cluster = run(Reference(), "add-nodes 2 voters=(1,2) index=10", "campaign 1", "stabilize", "propose 1 a", "propose 1 b", "process-ready 1", "# network: cut 2 0 / raft-state")
    yield "cut", is_equal([len(m.entries) for m in cluster.network.pending], [0, 0])


def part_taking() -> Checks:
    """A network that may hold messages back takes what the plain one takes, of those that it doesn't hold; a rule reads the entries that are there."""
    letters = [Message(kind, sender, to, 1) for kind in ("MsgApp", "MsgVote") for sender in (1, 2) for to in (2, 3)]
    for held in (set[tuple[int, int]](), {(1, 2)}, {(2, 3), (1, 2)}):
        for choice in (Choice(), Choice(("MsgVote",)), Choice(sender=1), Choice(skip=1), Choice(most=2)):
            plain, holding = Network(), HoldingNetwork()
            plain.pending, holding.pending, holding.held = [m for m in letters if (m.sender, m.to) not in held], list(letters), held
            has = [{to for to in (1, 2, 3) if network.has_for([to])} for network in (plain, holding)]
            taken = [network.take(2, choice) for network in (plain, holding)]
            rest = [[m for m in network.pending if (m.sender, m.to) not in held] for network in (plain, holding)]
            yield f"{choice} of what isn't held, {held}", is_equal((has[1], taken[1], rest[1], len(holding.pending)), (has[0], taken[0], rest[0], len(letters) - len(taken[0])))
    plain_node, ruled = node_of(*[Entry(1, b"%d" % at) for at in range(5)]), kind_with(())(1, THREE, 0, b"", Options())
    ruled.entries = plain_node.entries
    pairs = [(index, to) for index in range(1, 6) for to in (None, *range(index - 1, 6))]
    yield "entries that are there", is_equal([ruled.entries_from(*pair) for pair in pairs], [plain_node.entries_from(*pair) for pair in pairs])
    yield "entries that aren't", is_equal([[at for at, _ in ruled.entries_from(*pair)] for pair in ((0, 2), (4, 9), (7, 9), (-3, 0))], [[1, 2], [4, 5], [], []])


# Restarts: what is saved is there, and nothing else (thesis, 3.8)


def part_restarts() -> Checks:
    vote = Message("MsgVote", 2, 1, 5, 0, 0)
    for saved, wanted in (("nothing", (0, 0)), ("entries", (0, 0)), ("all", (5, 2))):
        node = Node(1, THREE, 0, b"", Options())
        node.step(vote)
        node.ready()
        node.restart(saved)
        yield f"a vote of which {saved} was saved", is_equal((node.term, node.vote, node.role, node.lead), (*wanted, "follower", 0))
    node = node_of(Entry(1, b"a"))
    node.step(vote)
    node.restart()
    yield "a vote after the last save", is_equal((node.term, node.vote, log(node)), (1, 0, [(1, b"a")]))
    for saved, entries in (("nothing", [(1, b"a")]), ("entries", [(1, b"a"), (1, b"b")]), ("all", [(1, b"a"), (1, b"b")])):
        node = node_of(Entry(1, b"a"))
        node.step(Message("MsgApp", 2, 1, 1, 1, 1, 1, (Entry(1, b"b"),)))
        node.ready()
        node.restart(saved)
        yield f"an entry of which {saved} was saved", is_equal(log(node), entries)
        yield f"and its commit, {saved}", is_equal((node.commit, node.applied), (1 if saved == "all" else 0, 0))
    node = node_of(Entry(1, b"a"), Entry(1, b"b"))
    node.step(Message("MsgApp", 3, 1, 2, 1, 1, 0, (Entry(2, b"c"),)))
    node.restart()
    yield "an entry that was overwritten and not saved is what it was", is_equal(log(node), [(1, b"a"), (1, b"b")])
    node.step(Message("MsgApp", 3, 1, 2, 1, 1, 2, (Entry(2, b"c"),)))
    node.ready()
    node.advance()
    yield "what is applied", is_equal(node.content, b"ac")
    node.compact(1)
    node.restart()
    yield "a restart applies again from where the log begins", is_equal((node.base, node.applied, node.content, node.commit), (1, 1, b"a", 2))
    lost = (*BEGUN, "propose 1 b", "campaign 2")
    one, other = run(Reference(), *lost, "# node: restart 1 / raft-state", "# node: restart 2 / raft-state"), run(Reference(), *lost, "restart 1 2")
    yield "the directive is the step", is_equal(one.frozen(), other.frozen())
    one = run(Reference(), *BEGUN, "propose 1 b", "# node: save 1 / restart 1")
    yield "also of what is saved and not applied yet", is_equal(([entry.body for _, entry in one.nodes[1].entries_from(13)], one.restarted), ([b"b"], {1}))


def part_left_out() -> Checks:
    """Directives that nodes can't take part in, by what they say of themselves."""
    heads = ("restart 1 2", "deliver-msgs 2 skip=1", "deliver-msgs drop=2 skip=1", "deliver-msgs 2 from=1 count=1", "compact 1 11")
    hellos = [Hello(calls=frozenset({"restart"})), Hello(), Hello(calls=frozenset({"restart"}), is_ordered=True), Hello(without=frozenset({"compact"}))]
    for hello, wanted in zip(hellos, ([], [0], [1], [0, 4])):
        left_out = [at for at, block in enumerate(blocks_of(script(*heads))) if reduced(block, hello) is None]
        yield f"of {sorted(hello.calls | hello.without)}{' in order' * hello.is_ordered}", is_equal(left_out, wanted)


def part_between() -> Checks:
    """What arrives between `ready` and `advance` isn't saved by that advance."""
    node = node_of()
    node.step(Message("MsgApp", 2, 1, 1, 0, 0, 0, (Entry(1, b"a"),)))
    node.ready()
    node.step(Message("MsgApp", 2, 1, 1, 1, 1, 0, (Entry(1, b"b"),)))
    node.advance()
    yield "a later entry is still to be saved", is_equal((node.durable, [m.index for m in node.ready().messages]), (1, [2]))
    node = node_of()
    node.step(Message("MsgApp", 2, 1, 1, 0, 0, 0, (Entry(1, b"a"), Entry(1, b"b"))))
    node.ready()
    node.step(Message("MsgApp", 3, 1, 2, 1, 1, 0, (Entry(2, b"c"),)))
    node.advance()
    yield "one in the place of another too", is_equal((node.durable, [index for index, _ in node.ready().entries]), (1, [2]))


def part_reads() -> Checks:
    """A leader serves a read once a quorum has answered heartbeats that it sent after the read was asked for, and once it has committed in its term (6.4)."""
    cluster = run(Reference(), "add-nodes 3 voters=(1,2,3) index=10", "campaign 1", "stabilize", "tick-heartbeat 1", "process-ready 1", "deliver-msgs 2", "process-ready 2")
    leader = cluster.nodes[1]
    run(cluster, "# node: read 1 / deliver-msgs 1")
    yield "an earlier answer doesn't count", is_equal(leader.ready().reads, ())
    run(cluster, "process-ready 1", "deliver-msgs 2", "process-ready 2", "deliver-msgs 1")
    yield "a later one does", is_equal([(read.id, read.index) for read in leader.ready().reads], [(1, 11)])
    new = run(Reference(), "add-nodes 3 voters=(1,2,3) index=10", "campaign 1", "process-ready 1", "deliver-msgs 2", "process-ready 2", "# node: read 1 / deliver-msgs 1", "# node: read 1 / stabilize")
    yield "a new leader declines", is_equal([line for line in new.lines if "can't read 2" in line or "reads" in line][:1], [])
    yield "and has none under way", is_equal(isinstance(new.nodes[1], Node) and new.nodes[1].reads, {})


def part_limits() -> Checks:
    for limit, wanted in ((0, 4), (1, 1), (2, 2), (4, 3)):
        node = Node(1, THREE, 0, b"", Options(max_size_per_msg=limit))
        entries = tuple(Entry(1, body) for body in (b"a", b"", b"bc", b"d"))
        yield f"a limit of {limit}", is_equal(len(node.limited(entries)), wanted)


def part_uncommitted() -> Checks:
    """A leader takes a payload if it has none, empty ones always, and others up to the limit; what is applied counts no more (etcd, MaxUncommittedEntriesSize)."""
    for limit, wanted in ((0, "abc, , de, f, g"), (1, "abc, , g"), (4, "abc, , f, g"), (5, "abc, , de, g"), (6, "abc, , de, f, g")):
        leader = run(Reference(), f"# node: uncommitted {limit} / add-nodes 1 voters=(1) index=10", "campaign 1", "stabilize").nodes[1]
        for body in (b"abc", b"", b"de", b"f"):
            leader.propose(body)
        while leader.has_ready():
            leader.ready()
            leader.advance()
        leader.propose(b"g")
        yield f"at most {limit} bytes", is_equal(", ".join(entry.body.decode() for _, entry in leader.entries_from(12) if isinstance(entry.body, bytes)), wanted)
    three = ("# node: uncommitted 1 / add-nodes 3 voters=(1,2,3) index=10", "campaign 1", "stabilize", "propose 1 a")
    cluster = run(Reference(), *three, "process-ready 1", "deliver-msgs drop=(2,3)", "campaign 2", "stabilize", "campaign 1", "stabilize", "propose 1 b")
    yield "a new leader begins with none", is_equal([entry.body for _, entry in cluster.nodes[1].entries_from(12)], [b"", b"", b"b"])
    cluster = run(Reference(), *three, "# node: restart 1 / campaign 1", "stabilize", "propose 1 b")
    yield "so does one that was restarted", is_equal([entry.body for _, entry in cluster.nodes[1].entries_from(12)], [b"", b"b"])
    cluster = run(Reference(), *three, "propose 2 b", "stabilize")
    yield "a forwarded one is declined", is_equal([entry.body for _, entry in cluster.nodes[1].entries_from(12)], [b"a"])


# Promises


def part_alone() -> Checks:
    """A leader that asks a follower for ever is found by healing; the plain node heals."""
    lines = script(*BEGUN, "propose 1 b", "process-ready 1", "deliver-msgs 2 drop=(3)", "process-ready 2", "deliver-msgs 1", "campaign 2", "process-ready 2")
    for bug, wanted in (((), []), (("--bug", "never-steps-back"), ["promise broken: comes to rest"])):
        process = Process([str(TOP / "nodes/plain"), *bug])
        try:
            kinds = [kind for kind, _ in run_alone(blocks_of(lines), process, Comparison()).kinds()]
        finally:
            process.close()
        yield f"nodes/plain {' '.join(bug)}", is_equal(kinds, wanted)


def part_excused() -> Checks:
    """What the reference with switches breaks too isn't counted when nodes are alone: an outgoing voter that ignores its snapshot never catches up."""
    steps = script("add-nodes 3 voters=(1,2,3) index=10", "campaign 1", "stabilize")
    steps += [Step("propose-conf-change 1 transition=explicit", ("l1",)), *script("stabilize", "campaign 2", "stabilize 2 3", "propose 2 a", "stabilize 2 3", "compact 2 14")]
    process = Process([str(TOP / "nodes" / "plain"), "--bug", "keeps-old-vote"])
    try:
        for switch, wanted in (("proposal-refused", ["promise broken: heals"]), ("outgoing-snapshot-ignored", [])):
            kinds = run_alone(blocks_of(steps), process, Comparison(kind_with([switch]))).kinds()
            yield f"with {switch}", is_equal([kind for kind, _ in kinds], wanted)
    finally:
        process.close()


def part_exceptions() -> Checks:
    yield "a promise with its reason", is_equal(exceptions_of(["one vote per term: we know"]), frozenset({"one vote per term"}))
    for wrong in ("one vote per term", "no such promise: why", "one vote per term: "):
        try:
            exceptions_of([wrong])
            yield wrong, "is taken"
        except Unknown:
            yield wrong, None


# Shrinking, and children


def ahead(steps: list[Step], has: Callable[[list[Step]], bool], budget: Budget, many: int) -> Shortened:
    """What shrinking comes to, and what it costs, if so many scripts are tried in advance."""
    shrinker = Shrinker(steps, budget)
    while (tried := shrinker.look()) is not None:
        shrinker.look(many - 1)
        shrinker.answer(has(tried))
    return shrinker.shortened()


def part_shrinking() -> Checks:
    def campaigns(steps: list[Step]) -> bool:
        return any(step.head in ("campaign 2", "tick-election 2") for step in steps)

    steps = script("add-nodes 3 voters=(1,2,3) index=10", "raft-state", "tick-election 2", "status 1")
    yield "ticks give way to a campaign", is_equal(shrunk(steps, campaigns, Budget(200)), script("campaign 2"))
    joined = next(with_joined_nodes(script("add-nodes 1 voters=(1,2) index=10", "raft-state", "add-nodes 1")), None)
    steps = script("add-nodes 3 voters=(1 2,3) learners=(4, 5)", "propose 1 a=(1 2)", "deliver-msgs drop=()")
    wanted = script("add-nodes 3 voters=(1,2,3) learners=(4,5)", "propose 1 a=(1 2)", "deliver-msgs drop=()")
    yield "lists have commas alone", is_equal((next(with_commas(steps), None), list(with_commas(wanted))), (wanted, []))
    yield "two add-nodes are one", is_equal(joined, script("add-nodes 2 voters=(1,2) index=10", "raft-state"))

    def leads(steps: list[Step]) -> bool:
        cluster = run(Reference(), *(step.text() for step in steps))
        return any(node.role == "leader" for node in cluster.nodes.values())

    steps = script("add-nodes 5 voters=(1,2,3,4,5) index=10", "raft-state", "campaign 3", "stabilize log-level=none", "propose 3 abc", "stabilize")
    short = shrunk(steps, leads, Budget(400))
    yield "nodes that aren't needed go", is_equal([step.head for step in short], ["add-nodes 1 voters=(1) index=2", "campaign 1", "stabilize"])
    for budget in (Budget(400), Budget(60), Budget(400, 200)):
        alone = ahead(steps, leads, budget, 1)
        yield f"it comes to the same with others tried in advance, {budget[:2]}", is_equal([ahead(steps, leads, budget, many) for many in (2, 5, 50)], [alone] * 3)
    asked: list[int] = []

    def never(steps: list[Step]) -> bool:
        asked.append(len(steps))
        return False

    shrunk(script(*["raft-state"] * 20), never, Budget(7))
    yield "it is asked as often as it may be", None if len(asked) <= 7 else f"{len(asked)}"


def part_children() -> Checks:
    parents = [steps_of(seed) for seed in range(8)]
    children = [Mutator(seed).child(parents[seed], parents[-1 - seed]) for seed in range(8)]
    yield "the same seed gives the same child", is_equal(children, [Mutator(seed).child(parents[seed], parents[-1 - seed]) for seed in range(8)])
    yield "children differ from their parents", is_equal([child != parent for child, parent in zip(children, parents)], [True] * 8)
    yield "and are scripts", is_equal([len(blocks_of(child)) for child in children], [len(child) for child in children])
    yield "the same seed gives the same script", is_equal(parents, [steps_of(seed) for seed in range(8)])


# Asking at once


def explored(
    command: str, numbers: Sequence[int], has_batch: bool = True, folder: pathlib.Path | None = None, accepted: AcceptedKinds = AcceptedKinds(),
) -> list[ScriptResult]:
    """What scripts of the default search come to, of which every sixth is held to promises alone."""
    process = Process(command.split(), 60.0, 600.0)
    try:
        process.reset()
        process.hello = process.hello._replace(has_batch=has_batch)
        comparison = Comparison(aspects=frozenset({"views", "messages", "ready"}))
        explorer = Explorer(process, Judge(is_asked=False), Settings(comparison, "mixed", 6, accepted), folder)
        return [explorer.explore(Spec(number, number, number % 6 == 5)) for number in numbers]
    finally:
        process.close()


def results(all_found: Sequence[ScriptResult]) -> list[ScriptResult]:
    """What was found, without whether it was found at once."""
    return [found._replace(was_quick=False) for found in all_found]


def part_at_once() -> Checks:
    """Nodes that do as the reference are asked all of a script at once, also where the network cuts appends, and by the promises alone; and what is found is
    what is found one call at a time."""
    plain = str(TOP / "nodes" / "plain")
    slow = [found.spec.number for found in explored(plain, [0, 1, 2, 3, 5, 11, 17, 23], True) if not found.was_quick]
    yield "nodes without a bug are asked at once", is_equal(slow, [])
    for bug in ("votes-twice", "restart-forgets-vote"):
        quick, each = (explored(f"{plain} --bug {bug}", [0, 1, 11, 17], has_batch) for has_batch in (True, False))
        yield f"{bug}: the same is found", is_equal([found.kinds for found in quick], [found.kinds for found in each])
        yield f"{bug}: something is found", None if any(found.kinds for found in each) else "nothing"
    process = Process(plain, 60.0, 600.0)
    try:
        process.reset()
        cut = script(*BEGUN, "propose 1 b", "propose 1 c", "process-ready 1", "# network: cut 2 0 / deliver-msgs 2", "process-ready 2", "deliver-msgs 1", "stabilize")
        plan = plan_of(blocks_of(cut), process, Comparison())
        process.record = []
        yield "a cut append", is_equal(asked_at_once(plan, process, Comparison()), AtOnce(True))
        taken = [call["message"]["entries"] for call, _ in process.record if "message" in call]
        yield "is what the process gave, cut", is_equal(taken, [[], []])
    finally:
        process.close()


def part_digest() -> Checks:
    """A digest is the SHA-256 of the lines that would have been written."""
    calls = [b'{"call":"reset"}', b'{"call":"start","node":1,"base":{"index":0,"term":0,"config":{"voters":[1]}},"options":{"inflight":9}}', b'{"call":"campaign","node":1}', b'{"call":"no","node":1}']
    whole, hidden = (
        subprocess.run([TOP / "nodes" / "plain"], input=b"".join(line + b"\n" for line in lines), capture_output=True, timeout=60).stdout
        for lines in (calls, [calls[0], b'{"call":"digest","calls":3}', *calls[1:], calls[0]])
    )
    wanted = hashlib.sha256(b"".join(whole.splitlines(keepends=True)[1:])).hexdigest()
    yield "four lines", is_equal(len(whole.splitlines()), 4)
    yield "three lines, of which one is the digest", is_equal([json.loads(line) for line in hidden.splitlines()], [{}, {"digest": wanted}, {}])


def part_memory() -> Checks:
    """What is remembered gives the same result; nodes that answer otherwise are looked at; what is half written or can't be written doesn't matter."""
    plain, numbers = str(TOP / "nodes" / "plain"), [0, 1, 2, 3, 5, 11, 17]
    bug, known = f"{plain} --bug votes-twice", AcceptedKinds()
    known.reasons["*", "promise broken: one vote per term"] = "known"
    with tempfile.TemporaryDirectory() as name:
        folder = pathlib.Path(name)
        first, again = explored(plain, numbers, folder=folder), explored(plain, numbers, folder=folder)
        yield "the same answers give the same result", is_equal(results(again), results(first))
        files = [file for file in folder.glob("*/*.records") if file.stat().st_size]
        yield "each script was remembered, and none twice", is_equal(len(files), 1)
        yield "a bug is found as without a memory", is_equal(results(explored(bug, numbers, folder=folder)), results(explored(bug, numbers)))
        yield "and with one of it", is_equal(results(explored(bug, numbers, folder=folder)), results(explored(bug, numbers)))
        yield "a kind that is known by now", is_equal(results(explored(bug, numbers, folder=folder, accepted=known)), results(explored(bug, numbers, accepted=known)))
        for file in folder.glob("*/*.records"):
            file.write_bytes(file.read_bytes()[:-9])
        yield "a record that isn't whole", is_equal(results(explored(plain, numbers, folder=folder)), results(first))
        yield "a folder that can't be", is_equal(results(explored(plain, numbers, folder=files[0] / "below")), results(first))


# Gives a worker that is busy more than a pipe takes, takes back what isn't begun or not, and ends.
FLEET = """
import sys, time
sys.path.insert(0, sys.argv[1])
from raftbench_nodes.process.process import Process
from raftbench_nodes.process.workers import Fleet

class Busy:
    process = Process("true")

def work(worker: Busy, item: bytes) -> int:
    time.sleep(float(sys.argv[3]))
    return 1

fleet = Fleet(1, Busy)
for _ in range(20):
    fleet.give(work, [bytes(100_000)])
time.sleep(0.5)
if sys.argv[2] == "drops":
    fleet.drop()
    print([fleet.take() for _ in range(20)].count([1]))
fleet.end(False)
"""


def part_fleet() -> Checks:
    """Workers that are given up don't keep the process from ending."""
    for words, wanted in ((("ends", "60"), ""), (("drops", "2"), "1\n")):
        done = subprocess.run([sys.executable, "-c", FLEET, str(TOP), *words], capture_output=True, text=True, timeout=50)
        yield f"a fleet that {words[0]}", is_equal((done.returncode, done.stdout), (0, wanted))


def part_known_failures() -> Checks:
    """What comes after a call that fails as one knows is asked at once too."""
    failing = [str(TOP / "tests" / "nodes" / "bad_node.py"), "errs", "forget_leader"]
    process = Process(failing, 60.0, 600.0)
    with tempfile.NamedTemporaryFile("w", suffix=".txt") as file:
        file.write("*\tfailed forget_leader (error: not today) at a follower\tnot today\n")
        file.flush()
        explorer = Explorer(process, Judge(is_asked=False), Settings(Comparison(), "mixed", 0, AcceptedKinds(pathlib.Path(file.name))))
        try:
            process.reset()
            process.hello = process.hello._replace(has_batch=True)
            steps = script(*BEGUN, "forget-leader 2", "propose 1 b", "stabilize")
            left, plan, _ = explorer.agreed_at_once(steps, plan_of(blocks_of(steps), process, Comparison()))
        finally:
            process.close()
    yield "the script goes on without it", is_equal([step.head for step in left], [*BEGUN, "propose 1 b", "stabilize"])
    yield "and agrees", None if plan else "it doesn't"


UNITS: list[Callable[[], Checks]] = [
    part_steps, part_network, part_taking, part_restarts, part_left_out, part_between, part_reads, part_limits, part_uncommitted, part_promises_of_restarts, part_alone, part_excused, part_exceptions, part_shrinking, part_children,
    part_at_once, part_digest, part_memory, part_fleet, part_known_failures, *LIBRARY_RULES,
]
