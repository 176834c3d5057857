"""Findings: states that differ within a directive, kinds with one cause, damaged results and traces, lists of accepted kinds, searches that end early, and
counts of what nodes were made to do.
"""
import contextlib
import dataclasses
import io
import json
import os
import pathlib
import random
import re
import signal
import subprocess
import time
from collections.abc import Iterator, Sequence
from typing import Any

from plain.node import Node
from plain.records import Message, Ready
from raftbench_nodes.compare.comparison import Comparison, excuse_of, excuse_without_reference
from raftbench_nodes.compare.exceptions import AcceptedKinds
from raftbench_nodes.compare.expected import Checker
from raftbench_nodes.compare.plan import answers_at_once, compared_at_once, plan_of
from raftbench_nodes.compare.script import Step, blocks_of
from raftbench_nodes.compare.judge import Judge
from raftbench_nodes.explore.explorer import Explorer, ScriptResult, Settings, ShownKind, Spec
from raftbench_nodes.explore.lacking import lacking_lines
from raftbench_nodes.explore.library import TreeScript, distilled
from raftbench_nodes.explore.remake import Remaker, remade
from raftbench_nodes.explore.results import KindResult
from raftbench_nodes.explore.search import Candidate, Kind, Library, Limits, Search
from raftbench_nodes.explore.shrinking import LEAST_DIRECTIVES, AdoptTask, Shortest, ShrunkKind, Trying, by_cause, chosen_of, shrunk_kinds
from raftbench_nodes.process.delays import marked_with, waited
from raftbench_nodes.process.process import Process
from raftbench_nodes.promises.checker import name_of
from raftbench_nodes.promises.clusters import WatchedReference
from raftbench_nodes.promises.run import PromiseRun
from raftbench_nodes.protocol.answers import CallResult
from raftbench_nodes.tools import explore, files, merge, replay
from tests.harness import TESTS, TOP
from tests.nodes.breaking import BEGUN, script
from tests.nodes.test_classics import InPlace

PLAIN = str(TOP / "nodes" / "plain")
RESULT: dict[str, Any] = {
    "format": 1, "program": "promises", "name": "x", "compared_by": ["views"], "scripts": 3, "same": 2, "compared": 9, "agreed": 8, "left_out": 0, "seconds": 1.5,
    "wrong": [], "classics": 5, "classics_same": 4, "made": {"crashes": 4}, "dropped": {"views": "7 of 24 scripts"},
    "kinds": [{"kind": "promise broken: heals", "count": 1, "seed": 4, "directives": 3, "steps": ["a", "b"], "shown": ["x"], "script": "add", "also": ["log after tick"]}],
}
STRANGE: list[Any] = [None, 0, -1, 1.5, "x", "\x1b[31m", "\ud800", [], {}, [1], {"a": 1}, True, 10 ** 30, "\u1234"]


def test_states_within_directives(room: pathlib.Path) -> Iterator[str]:
    """The first answer that differs is reported where it is, if it is a state's; `ready` of a state counts; an answer that follows from another doesn't."""
    process = Process(PLAIN, 600.0, 3600.0)
    try:
        process.reset()
        plan = plan_of(blocks_of(script(*BEGUN)), process, Comparison(aspects=frozenset({"ready"})))
        answers = answers_at_once(plan.asked, process)
        checker = Checker(process.hello, frozenset({"ready"}))
    finally:
        process.close()
    at = max(at for at, asked in enumerate(plan.asked) if asked.call["call"] == "advance" and asked.call["node"] == 1)
    result = answers[at]
    assert isinstance(result, CallResult)
    for part, value, wanted in (("commit", 3, "commit behind after advance at a leader within a directive"), ("ready", None, "ready after advance at a leader within a directive")):
        changed: dict[str, Any] = {part: not result.states[0].ready if value is None else value}
        state = result.states[0]._replace(**changed)
        wrong = [*answers[:at], dataclasses.replace(result, states=[state]), *answers[at + 1:]]
        found = compared_at_once(plan.asked, wrong, checker, plan.places)
        if found.agrees or found.state is None or found.state.kind() != wanted or found.state.directive != "stabilize":
            yield f"{part}: {found}, and not {wanted}"
    first = next(at for at, answer in enumerate(answers) if isinstance(answer, Ready))
    ready = answers[first]
    assert isinstance(ready, Ready) and ready.messages
    earlier = [*answers[:first], ready._replace(messages=[]), *wrong[first + 1:]]
    if (found := compared_at_once(plan.asked, earlier, checker, plan.places)).agrees or found.state:
        yield f"after another message: {found}"


def shrunk(kind: str, *lines: str) -> ShrunkKind:
    return ShrunkKind(KindResult(kind, 1, 0, len(lines), list(lines), [], ""), script(*lines))


def test_causes(room: pathlib.Path) -> Iterator[str]:
    """Each broken promise is shrunk, the commonest too; kinds with the same step, or with another's script in theirs, are said to wait for it."""
    kinds = []
    for name, count in [*((f"log after {number}", 1) for number in range(20)), ("promise broken: logs match", 900)]:
        kinds.append(Kind(name))
        kinds[-1].count = count
    chosen = [kind.name for kind in chosen_of(kinds)]
    if "promise broken: logs match" not in chosen or len(chosen) != 12:
        yield f"chosen: {chosen}"
    results = by_cause([
        shrunk("a restart loses", "add-nodes 1", "# node: restart 1 / raft-state"), shrunk("two leaders", "add-nodes 2", "campaign 1", "campaign 2"),
        shrunk("logs differ", "add-nodes 3", "campaign 1", "# node: restart 1 / stabilize"), shrunk("no rest", "add-nodes 2", "campaign 1", "tick 1", "campaign 2"),
    ])
    came = [(result.kind, result.cause) for result in results]
    if came != [("a restart loses", ""), ("logs differ", "a restart loses"), ("two leaders", ""), ("no rest", "two leaders")]:
        yield f"{came}"


def proposals(steps: Sequence[Step]) -> list[str]:
    return [step.head for step in steps if step.head.startswith("propose ")]


class Spending:
    """A fleet in which a script shows a kind if it has all that the first one proposes: all else can be removed."""

    def __init__(self, jobs: int) -> None:
        self.results, self.used, self.jobs = list[object](), 0, jobs

    def give(self, task: object, chunk: list[Trying | Shortest | AdoptTask]) -> None:
        item = chunk[0]
        if isinstance(item, AdoptTask):
            self.results.append(item.shrunk)
        elif isinstance(item, Trying):
            self.results.append(proposals(item.steps) == proposals(item.item.candidate.steps))
        else:
            name, (steps, used, is_cut) = item.item.kind, item.short
            self.used += used
            self.results.append(ShrunkKind(KindResult(name, 1, 0, len(steps), [step.text() for step in steps], [], ""), steps, (), used, is_cut))

    def take(self) -> list[object]:
        return [self.results.pop(0)]


def spent(directives: int, jobs: int) -> tuple[int, list[KindResult]]:
    """What shrinking thirty kinds costs after so many directives, and what it comes to."""
    kinds = []
    for at in range(30):
        kinds.append(Kind(f"promise broken: {at:02}"))
        steps = tuple(Step(f"propose 1 {at}-{each}" if each % 4 == 0 else f"tick-heartbeat {each % 3 + 1}") for each in range(40))
        kinds[-1].candidates.append(Candidate(40, at, at, False, steps, f"script {at}"))
    fleet = Spending(jobs)
    results = shrunk_kinds(fleet, kinds, directives, 1e18)  # type: ignore[arg-type]
    assert not fleet.results
    return fleet.used, sorted(results, key=lambda result: result.kind)


def test_shrinking_costs_no_more_than_finding(room: pathlib.Path) -> Iterator[str]:
    """All kinds share what shrinking may cost; what one leaves others have; those that are shown first have most. It is the same with each number of workers."""
    for directives, most, fully in ((0, LEAST_DIRECTIVES, 2), (30_000, 10_000, 2), (90_000, 30_000, 10)):
        used, results = spent(directives, 1)
        lengths = [len(result.steps) for result in results]
        if used > most or lengths.count(10) < fully:
            yield f"of {directives}: {used} were used, {lengths}"
        if any(spent(directives, jobs) != (used, results) for jobs in (2, 4, 13)):
            yield f"of {directives}: it depends on the number of workers"


class HearsNobodyEarly(Node):
    """Ignores candidates for a timeout after its timer began, also as a candidate: nodes with equal timeouts never elect anybody."""

    def step(self, m: Message) -> None:
        if m.kind != "MsgVote" or self.elapsed >= 3:
            super().step(m)


class HearsNobody(Node):
    def step(self, m: Message) -> None:
        if m.kind != "MsgVote":
            super().step(m)


def test_healing_draws_timeouts(room: pathlib.Path) -> Iterator[str]:
    """Nodes that elect a leader only with drawn timeouts heal, if timeouts can be set; nodes that never elect one don't."""
    cases: list[tuple[type[Node], tuple[str, ...], list[str]]] = [
        (HearsNobodyEarly, (), []), (HearsNobodyEarly, ("set_timeout",), ["heals"]), (HearsNobody, (), ["heals"]),
    ]
    for kind, without, wanted in cases:
        process = InPlace()
        process.hello = process.hello._replace(without=frozenset(without))
        run = PromiseRun(blocks_of(script("add-nodes 3 voters=(1,2,3) index=10")), process, Comparison(), WatchedReference(kind))
        broken = [name_of(each.text) for each in run.result().broken]
        if broken != wanted:
            yield f"{kind.__name__}, without {without}: {broken}"


class Noted:
    """A fleet whose scripts show what they are told to."""

    def __init__(self, shows: dict[int, str]) -> None:
        self.shows, self.chunks, self.tried = shows, list[list[Spec]](), list[Spec]()

    def give(self, _: object, chunk: list[Spec]) -> None:
        self.chunks.append(chunk)

    def drop(self) -> None:
        pass

    def take(self) -> list[ScriptResult]:
        chunk = self.chunks.pop(0)
        self.tried += chunk
        return [self.found(spec) for spec in chunk]

    def found(self, spec: Spec) -> ScriptResult:
        kinds = (ShownKind(self.shows[spec.number], 1),) if spec.number in self.shows else ()
        return ScriptResult(spec, b"", 1, 1, 0, kinds, frozenset(), (Step("raft-state"),), False, True, (("crashes", 2),))


def test_searches(room: pathlib.Path) -> Iterator[str]:
    """A search begins with the classics, which don't count; every second script is a distilled one; a kind says where it was met first."""
    titles = [[TreeScript(f"{name} {number}", (Step("raft-state"),)) for number in range(3)] for name in ("classic", "distilled")]
    fleet = Noted({-2: "early", 4: "early", 3: "late"})
    search = Search(fleet, Limits(0, 1, 8, 1e18), 0, Library(*titles))  # type: ignore[arg-type]
    search.run(lambda: False, lambda _: None)
    came = [spec.origin() for spec in fleet.tried]
    wanted = ["classic 0", "classic 1", "classic 2"]
    wanted += [f"script {number}, {it}" for number, it in enumerate(f"{name} {count}" for count in range(3) for name in ("from seed", "distilled"))]
    wanted += ["script 6, from seed 3", "script 7, from seed 4"]
    if came != wanted or (search.scripts, search.same, search.classics_tried, search.classics_same) != (8, 6, 3, 2):
        yield f"{came}, {search.scripts}, {search.same}, {search.classics_tried}, {search.classics_same}"
    if [search.kinds[name].origin() for name in ("early", "late")] != ["classic 1", "script 3, distilled 1"] or search.made["crashes"] != 22:
        yield f"{[(kind.name, kind.first) for kind in search.kinds.values()]}, {search.made}"
    loud = Search(Noted({at: "commit behind after tick at a leader within a directive" for at in range(4)}), Limits(0, 1, 8, 1e18), 0)  # type: ignore[arg-type]
    loud.run(lambda: False, lambda _: None)
    if loud.drop_loud_states() != {"states within directives": "4 of 8 scripts"} or loud.kinds:
        yield f"states that differ in half of all scripts: {loud.kinds}"


def test_scripts_again(room: pathlib.Path) -> Iterator[str]:
    """--script makes each script of a search again, children and those for promises alone too, and what it was shown for it shows again."""
    process, explored = Process(PLAIN, 600.0, 3600.0), list[ScriptResult]()
    chosen, limits = Settings(Comparison(), "mixed", 6, AcceptedKinds()), Limits(40, 2, 230, 1e18)
    library = Library((), distilled()[:20])
    try:
        search = Search(InOrder(Explorer(process, Judge(is_asked=False), chosen), explored), limits, 6, library)  # type: ignore[arg-type]
        search.run(lambda: False, lambda _: None)
        children = [found.spec.number for found in explored if found.spec.parent][-4:]
        if len(children) < 4:
            yield f"children: {children}"
        for number in (0, 3, 5, 100, *children):
            fleet = InOrder(Remaker(process, Judge(is_asked=False), chosen), [])
            again = remade(fleet, limits, 6, library, number)  # type: ignore[arg-type]
            wanted = next(found.spec for found in explored if found.spec.number == number)
            if again is None or again != wanted or again.steps("mixed") != wanted.steps("mixed"):
                yield f"script {number}: {again and again.origin()}, and was {wanted.origin()}"
    finally:
        process.close()


def test_a_script_shows_it_again(room: pathlib.Path) -> Iterator[str]:
    """What --script writes shows the kind for which it was named; also in a shard."""
    words = ["--with", f"{PLAIN} --bug half-is-a-quorum", "--seed", "6", "--shard", "2/3", "--count", "12", "--jobs", "2", "--fresh"]
    said(explore.run, *words, "--json", str(room / "result.json"))
    kinds = [kind for kind in json.loads((room / "result.json").read_text())["kinds"] if kind["kind"].startswith("promise broken: ")]
    if not kinds or not all(re.fullmatch(r"script \d+, from seed \d+, in shard 2/3", kind["first"]) for kind in kinds):
        yield f"{kinds}"
    for kind in kinds[:2]:
        first = kind["first"].removesuffix(", in shard 2/3")
        done = subprocess.run([TOP / "nodes" / "explore", *words, "--script", re.findall(r"\d+", first)[0]], capture_output=True, timeout=600)
        (room / "again.txt").write_bytes(done.stdout)
        status, text = said(files.promises, *words[:2], str(room / "again.txt"))
        if done.returncode or status != 1 or kind["kind"] not in text or first not in done.stdout.decode():
            yield f"{kind['kind']}, {first}: {done}, {text}"


def test_what_was_found_is_asked_first(room: pathlib.Path) -> Iterator[str]:
    """A search begins with the scripts in which it found something the last time. It comes to the same, and to nothing once the bug is gone."""
    chosen, results = Settings(Comparison(), "mixed", 6, AcceptedKinds(), search="0"), []
    for bug in (" --bug half-is-a-quorum", " --bug half-is-a-quorum", ""):
        process, explored = Process(PLAIN + bug, 600.0, 3600.0), list[ScriptResult]()
        try:
            fleet = InOrder(Explorer(process, Judge(is_asked=False), chosen, room), explored)
            search = Search(fleet, Limits(0, 1, 40, 1e18), 6, asks_early=True)  # type: ignore[arg-type]
            search.run(lambda: False, lambda _: None)
        finally:
            process.close()
        counts = search.scripts, search.same, len(search.corpus), search.made, {kind.name: (kind.count, kind.first) for kind in search.kinds.values()}
        results.append(([found.spec.number for found in explored if found.spec.early], counts))
    (none, first), (asked, second), (asked_again, third) = results
    shown = sorted({candidate.number for kind in search.kinds.values() for candidate in kind.candidates})
    if none or first[4] == {} or first != second or not asked or asked != asked_again or asked != sorted(asked) or third[4] or third[1] != third[0] or shown:
        yield f"{results}"


class Lacking(Explorer):
    """One whose nodes lack what they are told to, without a process."""

    def __init__(self, **lacks: Any) -> None:
        process = InPlace()
        process.hello = process.hello._replace(**lacks)
        super().__init__(process, Judge(is_asked=False), Settings(Comparison(), "mixed", 0, AcceptedKinds()))


def test_what_classics_lack(room: pathlib.Path) -> Iterator[str]:
    """Exploring names the classics that nodes can't do, and for want of what; and says if scripts aren't asked at once any more."""
    process = InPlace()
    process.process = subprocess.Popen("true")
    process.process.wait()
    given = [TreeScript("one", tuple(script("add-nodes 1", "# node: restart 1 / campaign 1"))), TreeScript("two", tuple(script("add-nodes 1", "# network: reverse 1 / compact 1 3")))]
    cases: list[tuple[dict[str, Any], list[str]]] = [
        ({}, []), ({"calls": frozenset()}, ["without `restart`, steps are left out in 1 classic: one"]),
        ({"is_ordered": True}, ["without an unordered network, steps are left out in 1 classic: two"]), ({"without": frozenset({"compact"})}, ["directives are left out in 1 classic: two"]),
        ({"without": frozenset({"campaign", "log"})}, ["directives are left out in 2 classics: one, two"]),
    ]
    for lacks, wanted in cases:
        explorer = Lacking(**lacks)
        explorer.process.process = process.process
        if (came := lacking_lines(explorer, given)) != wanted:
            yield f"{lacks}: {came}"
    for has_batch, tried, agreed, wanted_so in ((True, 40, 6, True), (True, 40, 7, False), (True, 39, 0, False), (False, 99, 0, False)):
        explorer = Lacking(has_batch=has_batch)
        explorer.tried, explorer.agreed = tried, agreed
        if explorer.has_given_up() != wanted_so or explorer.may_ask_at_once() == (wanted_so or not has_batch):
            yield f"{has_batch}, {agreed} of {tried}: {explorer.has_given_up()}"


class InOrder(Noted):
    """A fleet whose scripts are tried when they are asked for."""

    def __init__(self, explorer: Explorer, explored: list[ScriptResult]) -> None:
        super().__init__({})
        self.explorer, self.explored = explorer, explored

    def take(self) -> list[Any]:
        return [self.explorer.early()] if self.chunks[0] == [None] and self.chunks.pop(0) else super().take()

    def found(self, spec: Spec) -> ScriptResult:
        self.explored.append(self.explorer.explore(spec))
        return self.explored[-1]


def strange(dice: random.Random, value: Any) -> Any:
    """A value with something strange in it."""
    if isinstance(value, dict) and value and dice.random() < 0.8:
        key = dice.choice(list(value))
        return {name: each for name, each in value.items() if name != key} if dice.random() < 0.2 else {**value, key: strange(dice, value[key])}
    if isinstance(value, list) and value and dice.random() < 0.8:
        at = dice.randrange(len(value))
        return [*value[:at], strange(dice, value[at]), *value[at + 1:]]
    return dice.choice(STRANGE)


def said(run: Any, *words: str) -> tuple[int, str]:
    """The status, and all that is printed."""
    text = io.StringIO()
    with contextlib.redirect_stdout(text), contextlib.redirect_stderr(text):
        return run(words), text.getvalue()


def test_hostile_files(room: pathlib.Path) -> Iterator[str]:
    """Results and traces that somebody changed end with a sentence, and print nothing that isn't printable."""
    dice, file = random.Random(1), room / "file"
    lines = (TOP / "nodes" / "conversation.txt").read_text().split("\n")
    for number in range(400):
        if number % 2:
            file.write_text(json.dumps(strange(dice, RESULT)))
        else:
            at = dice.choice([at for at, line in enumerate(lines) if line[:2] in ("> ", "< ")])
            file.write_text("\n".join([*lines[:at], lines[at][:2] + json.dumps(strange(dice, json.loads(lines[at][2:]))), *lines[at + 1:]]))
        tool, statuses = (merge, (0, 1, 4)) if number % 2 else (replay, (0, 1, 3))
        try:
            status, text = said(tool.run, str(file))
        except Exception as fault:
            yield f"{file.read_text()[:300]}: {fault!r}"
            return
        if status not in statuses or any(character != "\n" and not " " <= character <= "~" for character in text):
            yield f"{file.read_text()[:300]}: {status}, {text!r}"


def test_accepting(room: pathlib.Path) -> Iterator[str]:
    """merge writes a list for --accepted, with what a script also shows, and adds to it what is new."""
    file, known = room / "result.json", room / "known.txt"
    file.write_text(json.dumps(RESULT))
    for _ in range(2):
        status, text = said(merge.run, str(file), "--accept", str(known), "--reason", "since 1.2")
    kinds = ["promise broken: heals", "log after tick"]
    wanted = "".join(f"*\t{kind}\tsince 1.2\n" for kind in kinds)
    if known.read_text() != wanted or [AcceptedKinds(known).reason_of(kind) for kind in kinds] != ["since 1.2"] * 2:
        yield f"{status}, {known.read_text()!r}"
    for line in ("not compared: views, which differ first in 7 of 24 scripts", "what the nodes were made to do: 4 crashes", "4 of 5 classics without a finding"):
        if line not in text:
            yield f"{line!r} is missing: {text}"


# Node 1 leads, and hands the lead to 2, whose next entry gets lost. Node 3 is elected by 1. So 2, whose log is longer, refuses its vote request, and then cuts that
# entry. At the end 3 crashes before it has saved an entry.
MADE = """\
add-nodes 3 voters=(1,2,3) index=2

campaign 1

stabilize

transfer-leadership from=1 to=2

stabilize

propose 2 lost

process-ready 2

deliver-msgs drop=(1,3)

campaign 3

stabilize 1 3

stabilize

propose 3 unsaved

# node: crash 3 before save
raft-state

"""
WERE_MADE = """\
what the nodes were made to do: 3 elections won, 1 votes refused by log, 1 conflicts cut, 1 crashes, 1 crashes with unsaved entries, 1 transfers of the lead; \
NEVER: snapshots restored, snapshots over other entries, changes applied, leaders removed, reads at deposed leaders, leads lost without a quorum
"""


def test_what_nodes_were_made_to_do(room: pathlib.Path) -> Iterator[str]:
    """`run` and `promises` over files count it as exploring does, also with nodes that take one call at a time; what never happened is named."""
    file = room / "made.txt"
    file.write_text(MADE.replace("\n\n", "\n----\n\n"))
    for tool, name in ((files.run, "run"), (files.promises, "promises")):
        status, text = said(tool, "--with", PLAIN, str(file))
        if WERE_MADE not in text:
            yield f"{name}: {status}, {text}"
    alone = room / "alone.txt"
    alone.write_text("add-nodes 1 voters=(1) index=10\n----\n\n# node: restart 1\nraft-state\n----\n\n")
    status, text = said(files.run, "--with", PLAIN, "--like", "libraft", str(alone))
    if ": 2 elections won, 1 crashes, " not in text:
        yield f"a lone voter that leads from its start, and after a crash: {status}, {text}"
    status, text = said(explore.run, "--with", f"{TESTS}/nodes/lacking_node.py", "--count", "6", "--jobs", "1", "--dice", "sane", "--compare", "states")
    if " elections won, " not in text:
        yield f"explore: {status}, {text}"
    status, text = said(files.promises, "--with", f"{TESTS}/nodes/lacking_node.py", "--count", "6", "--jobs", "1", "--dice", "sane")
    if " elections won, " not in text:
        yield f"promises: {status}, {text}"


def test_waiting_for_a_processor(room: pathlib.Path) -> Iterator[str]:
    """Linux says how long a process waited; none does so for a group that isn't there."""
    if not 0 <= waited(os.getpgrp()) < 1e7 or waited(1 << 22) > waited(os.getpgrp()) + 1:
        yield f"{waited(os.getpgrp())}, {waited(1 << 22)}"


def test_waiting_in_another_session(room: pathlib.Path) -> Iterator[str]:
    """What nodes wait counts in whatever session they are: they are known by their mark. Here two of them have one processor."""
    mark, one = "RAFTBENCH_TEST=" + str(room), min(os.sched_getaffinity(0))
    busy = ["taskset", "-c", str(one), "setsid", "sh", "-c", "while :; do :; done"]
    started = [subprocess.Popen(busy, env={**os.environ, "RAFTBENCH_TEST": str(room)}, start_new_session=True) for _ in range(2)]
    try:
        end = time.monotonic() + 60
        while (gained := waited(1 << 22, mark) - waited(1 << 22)) < 0.3 and time.monotonic() < end:
            time.sleep(0.1)
        if gained < 0.3:
            yield f"{gained} s"
    finally:
        for process in started:
            process.kill()
            process.wait()
        for number in marked_with(mark):
            os.kill(number, signal.SIGKILL)


# Two changes come to node 3 with one save, whose commit is lost: two changes behind, it is elected by 2, and what 1, 4 and 5 have committed is lost.
TORN = [
    Step("add-nodes 3 voters=(1,2,3) index=2"), Step("add-nodes 2"), Step("campaign 1"), Step("stabilize 1 2 3"),
    Step("propose-conf-change 1", ("v4",)), Step("stabilize 1 2"), Step("stabilize 1 2 4"), Step("propose-conf-change 1", ("v5",)), Step("stabilize 1 2 4"),
    Step("deliver-msgs 3"), *script("# node: crash 3 in save / raft-state", "stabilize 1 2 4 5", "deliver-msgs drop=(2,3)", "propose 1 x", "stabilize 1 4 5"),
    *script("deliver-msgs drop=(2,3)", "campaign 3", "stabilize 2 3"),
]


def test_torn_changes(room: pathlib.Path) -> Iterator[str]:
    """Nodes without a bug break promises if a save is cut in two while the configuration changes, and aren't blamed for it."""
    alone = PromiseRun(blocks_of(TORN), InPlace(), Comparison(), WatchedReference(Node)).result()
    if not alone.broken or alone.kinds() or {broken.excuse for broken in alone.broken} != {"torn changes"}:
        yield f"{alone.broken}, {alone.kinds()}"
    for steps in ([step._replace(before=()) for step in TORN], [step for step in TORN if not step.given]):
        if excuse_without_reference(blocks_of(steps)):
            yield f"an excuse: {[step.text() for step in steps]}"
    if excuse_of(blocks_of(TORN)):
        yield "beside a reference it is an excuse"
