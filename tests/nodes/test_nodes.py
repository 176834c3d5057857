"""Nodes behind the protocol of docs/OWN-NODES.md, next to the reference.

Plain nodes behind it show no difference. Each example of the document is sent. A node that misbehaves ends its script with a sentence, and the next
script runs. Planted bugs are found. What nodes lack is removed on both sides. Switches and accepted differences do what the document says.
"""
from __future__ import annotations

import itertools
import json
import multiprocessing
import pathlib
import re
import shutil
import signal
import subprocess
import tempfile
import time
import xml.etree.ElementTree
from collections.abc import Iterator, Sequence

from raftbench_nodes.compare.comparison import Comparison, Outcome, run_beside
from raftbench_nodes.explore.dice import steps_of
from raftbench_nodes.rules.lists import LIKE
from raftbench_nodes.bugs.measure import first_found
from raftbench_nodes.bugs.registry import BUGS
from raftbench_nodes.process.process import Process
from raftbench_nodes.protocol.answers import STATES
from raftbench_nodes.protocol.encoding import CALLS, CHANGES, OPTIONS, READY
from raftbench_nodes.compare.script import Step, blocks_of
from raftbench_nodes.compare.runner_steps import RunnerStep, step_of
from raftbench_nodes.rules.switches import SWITCHES, switches_of
from plain.script import read_script
from tests.harness import TESTS, TOP, Result
from tests.nodes.scripts import write_scripts
from tests.nodes.breaking import Checks, part_promises
from tests.nodes.misbehaving import part_misbehaving, part_starting
from tests.nodes.tools import JOBS, PLAIN, PROGRAM, directives, tool
from tests.nodes.units import UNITS

DOCUMENT = TOP / "docs" / "OWN-NODES.md"
# What nodes/run shows of a node that votes twice.
VOTES_TWICE = """\
votes.txt:13: stabilize: role leader for follower of node 1 after MsgVote at a candidate
- 1 follower term=1 vote=1 lead=0 commit=2 applied=2 content=0:""
+ 1 leader term=1 vote=2 lead=1 commit=2 applied=2 content=0:""
votes.txt:13: promise broken: one vote per term: 1 voted for 1 and 2 in term 1
votes.txt:13: promise broken: a granted vote is kept: 1 grants 2 its vote, and voted for 1
votes.txt:13: promise broken: a leader has a quorum of votes: 1 leads in term 1 by [1]
votes.txt:13: promise broken: one leader per term: 1 and 2 lead in term 1
plain, compared by states:
     1  role leader for follower after MsgVote at a candidate
     1  promise broken: one vote per term
     1  promise broken: a granted vote is kept
     1  promise broken: a leader has a quorum of votes
     1  promise broken: one leader per term
what the nodes were made to do: nothing; NEVER: elections won, votes refused by log, conflicts cut, snapshots restored, snapshots over other entries, \
changes applied, leaders removed, crashes, crashes with unsaved entries, reads at deposed leaders, transfers of the lead, leads lost without a quorum
1 script, 0 without a difference; 3 of 4 directives agree up to each script's first difference (75.0 %), 0 left out, 0.2 s
--verbose prints what your nodes did; --page FOLDER draws it next to the reference
"""
CONVERSATION = TOP / "nodes" / "conversation.txt"
SEEDS = [("weighted", 250), ("plain", 150), ("sane", 100)]


# Each part generates pairs of a name and what is wrong, or None.


def part_judge() -> Checks:
    """Without the program the other parts hold nodes to the plain reference, and nothing holds that to the program."""
    yield "the program is built", None if PROGRAM.exists() else f"{PROGRAM} isn't there: ./raftbench --help builds it"
    with tempfile.TemporaryDirectory() as folder:
        judge = pathlib.Path(folder) / "judge"
        for text, wanted in [(f"'{PROGRAM}' \"$@\" | sed s/candidate/boss/", "the reference is wrong here"), ("exit 9", "the reference could not be judged"), (None, "Permission denied")]:
            judge.write_text(f"#!/bin/sh\n{text}\n")
            judge.chmod(0o755 if text else 0o644)
            for name, words in (("run", f"{TOP}/examples/tour/01-election.txt"), ("explore", "--count 2 --jobs 2 --dice weighted")):
                output, errors, status = tool(name, "--with", PLAIN, *words.split(), RAFTBENCH=str(judge))
                yield f"{name}, judged by {text}", None if status == 4 and wanted in errors and "Traceback" not in errors else f"{status} {output} {errors}"


def part_same_scripts() -> Checks:
    with tempfile.TemporaryDirectory() as folder:
        write_scripts(pathlib.Path(folder))
        output, _, status = tool("run", "--with", PLAIN, "--compare", "lines", TOP / "examples" / "tour", folder)
    found = re.search(r"(\d+) scripts, (\d+) without a difference; (\d+) of (\d+) directives agree", output)
    is_same = found and status == 0 and int(found[1]) > 130 and found[1] == found[2] and found[3] == found[4] and int(found[3]) > 1500
    yield "the tour and tests/cases, every line", None if is_same else output[-500:]


def part_same_seeds() -> Checks:
    for dice, count in SEEDS:
        output, errors, status = tool("explore", "--with", PLAIN, "--compare", "lines", "--dice", dice, "--count", count, "--jobs", JOBS)
        is_same = status == 0 and f"{count} scripts, {count} without a finding" in output
        yield f"{count} seeds of {dice} dice, every line", None if is_same else output[-500:] + errors
    for compare in ("lines", "auto"):
        output, errors, status = tool("explore", "--with", PLAIN, "--compare", compare, "--count", 150, "--jobs", JOBS)
        yield f"150 scripts with themes and steps of the runner, {compare}", None if status == 0 else output[-500:] + errors
    output, errors, status = tool("explore", "--with", PLAIN, "--begin-at-0", "--count", 60, "--jobs", JOBS)
    yield "60 scripts that begin at index 0", None if status == 0 else output[-500:] + errors
    output, errors, status = tool("promises", "--with", PLAIN, "--count", 60, "--jobs", JOBS)
    yield "60 scripts by the promises alone", None if status == 0 else output[-500:] + errors


def block_of(beginning: str) -> str:
    """What docs/OWN-NODES.md shows, indented, from this line on."""
    lines = DOCUMENT.read_text().splitlines()
    block = itertools.takewhile(lambda line: line.startswith("    "), lines[lines.index("    " + beginning):])
    return "\n".join(line[4:] for line in block)


def without_times(text: str) -> str:
    return re.sub(r"[\d.]+ s$", "", text.rstrip(), flags=re.MULTILINE)


def part_examples() -> Checks:
    """The recorded conversation is what nodes/plain says, begins as the document shows, and has each call of its table of calls."""
    text, recorded = DOCUMENT.read_text(), CONVERSATION.read_text()
    shown = "".join(re.findall(r"^    ([<>] .*\n)", text, re.MULTILINE))
    yield "the document shows its beginning", None if len(shown) > 500 and recorded.startswith(shown) else shown[:200]
    pairs = re.findall(r"^> (.*)\n< (.*)$", recorded, re.MULTILINE)
    given = "".join(call + "\n" for call, _ in pairs)
    said = subprocess.run([PLAIN], input=given, capture_output=True, text=True, errors="replace", timeout=60).stdout.splitlines()
    yield "as many answers as calls", None if len(said) == len(pairs) > 20 else f"{len(said)} of {len(pairs)}"
    for (call, wanted), came in zip(pairs, said):
        yield call[:60], None if json.loads(wanted) == json.loads(came) else f"{came} and not {wanted}"
    sent = {json.loads(call)["call"] for call, _ in pairs}
    table = "".join(part.split("\n\n")[0] + "\n" for part in text.split("| Call | Parts | Answer |\n|---|---|---|\n")[1:])
    documented = {name for row in table.splitlines() for name in re.findall(r"`(\w+)`", row.split("|")[1])}
    yield "each call has an example", None if sent == documented else f"{sent ^ documented}"
    process = Process(PLAIN)
    process.record = []
    run_beside(directives(*EVERY_CALL), process, Comparison(aspects=frozenset({"views"})))
    process.close()
    used = {call["call"] for call, _ in process.record}
    yield "each call is one that the bench makes", None if used == documented else f"{used ^ documented}"


def runner_steps(*lines: str) -> tuple[RunnerStep, ...]:
    """The runner's steps that lines ask for."""
    return tuple(step for line in lines if (step := step_of(line)))


EVERY_CALL: list[str | Step] = [
    "add-nodes 2 voters=(1,2) index=10", "set-randomized-election-timeout 1 timeout=4", "campaign 1", "stabilize", "propose 1 a",
    Step("propose-conf-change 1", ("v2",)), "tick-heartbeat 1", "report-unreachable 1 2", "send-snapshot 1 2", "compact 1 11",
    "transfer-leadership from=1 to=2", "forget-leader 2", "stabilize", Step("deliver-msgs drop=(2)", (), runner_steps("# node: read 1", "# node: snapshot-lost 1 2")),
    "tick-heartbeat 1", "tick-heartbeat 2", "process-ready 1 2", "deliver-msgs drop=(1,2)", Step("stabilize", (), runner_steps("# node: restart 1")), "restart 2",
]


def bug_rows() -> Iterator[tuple[str, int]]:
    """The bugs, and in how many scripts of the default search each shows: tests/nodes/bugs.txt."""
    for line in (TESTS / "nodes" / "bugs.txt").read_text().splitlines():
        if line and not line.startswith("#"):
            bug, most = line.split()
            yield bug, int(most)


def part_bugs() -> Checks:
    rows = list(bug_rows())
    yield "each bug has a row", None if sorted(row[0] for row in rows) == sorted(BUGS) and len(rows) >= 55 else "rows and bugs differ"
    shown = subprocess.run([PLAIN, "--bugs"], capture_output=True, text=True, errors="replace").stdout.splitlines()
    yield "each bug says what it does", None if [line.split(maxsplit=1) for line in shown] == [[name, bug.__doc__] for name, bug in BUGS.items()] else f"{shown}"
    with multiprocessing.Pool(JOBS, maxtasksperchild=1) as pool:
        for (bug, most), found in zip(rows, pool.starmap(first_found, [(bug, most, "auto") for bug, most in rows])):
            yield f"bug {bug}", None if 0 < found.script <= most else f"not in {most} scripts"
        found = pool.apply(first_found, ("", 400, "auto"))
        yield "the node without a bug shows nothing", None if found.script == 0 else f"{found}"


def part_explore() -> Checks:
    """A bug from explore's command to a short script that shows it, by the same words the same."""
    with tempfile.TemporaryDirectory() as folder:
        words = ["--with", f"{PLAIN} --bug votes-twice", "--count", 30, "--jobs", 2]
        output, errors, status = tool("explore", *words, "--out", folder, "--json", f"{folder}/1.json", "--junit", f"{folder}/1.xml")
        files = sorted(pathlib.Path(folder).glob("*.txt"))
        yield "a bug is found", None if status == 1 and files else output + errors
        again, _, _ = tool("explore", *words[:-1], 1)
        yield "the same seeds give the same result", None if without_times(output) == without_times(again) else again
        block = block_of("promise broken: one vote per term: in 20 scripts, the first is candidate-crashes.txt; 8 directives of voter-crashes.txt, shrunk to 4")
        yield "it is shown as in the document, and first", None if output.startswith(block) else output
        shortest = min((len(read_script(file.read_bytes()).blocks) for file in files), default=99)
        yield "its script is short", None if shortest <= 4 else f"{shortest} directives"
        mine, _, status = tool("run", "--with", PLAIN, folder)
        yield "and shows nothing of the node without it", None if status == 0 else mine
        theirs, _, status = tool("run", "--with", f"{PLAIN} --bug votes-twice", folder)
        shown = re.search(r"^\S+\.txt:\d+: [a-z-]+: \w+ .* of node \d+ after .*\n- \d .*\n\+ \d .*$", theirs, re.MULTILINE)
        yield "and shows the bug, as check shows mismatches", None if status == 1 and shown else theirs
        votes = pathlib.Path(folder) / "votes.txt"
        votes.write_text("".join(f"{head}\n----\nok\n\n" for head in ("add-nodes 2 voters=(1,2) index=2", "campaign 1", "campaign 2", "stabilize")))
        came, _, _ = tool("run", "--with", f"{PLAIN} --bug votes-twice", votes)
        yield "nodes/run shows all of it", None if without_times(came.replace(f"{folder}/", "")) == without_times(VOTES_TWICE) else came
        yield from results_of(folder, output, words)
        longer = pathlib.Path(folder) / "longer.txt"
        longer.write_text(votes.read_text().replace("stabilize", "raft-state\n----\nok\n\ntick-heartbeat 2\n----\nok\n\nstabilize"))
        less, told, status = tool("shrink", "--with", f"{PLAIN} --bug votes-twice", longer)
        is_less = status == 0 and "6 directives, shrunk to 4" in told and len(read_script(less.encode()).blocks) == 4
        yield "nodes/shrink shrinks a script", None if is_less else less + told
        if not PROGRAM.exists():
            return
        # The program knows no steps of the runner, and what is found by the promises alone has no expectations.
        beside = [it for it in files if "promise-broken" not in it.name and not re.search(r"^# (node|network):", it.read_text("latin-1"), re.MULTILINE)]
        beside.append(pathlib.Path(folder) / "less.txt")
        beside[-1].write_text(less)
        checked = subprocess.run([PROGRAM, "check", *map(str, beside)], capture_output=True, text=True, errors="replace", timeout=60)
        yield "its expectations are the program's", None if checked.returncode == 0 else checked.stdout + checked.stderr


def results_of(folder: str, output: str, words: Sequence[object]) -> Checks:
    """Results for machines: JSON, shards that are merged, JUnit."""
    result = json.loads(pathlib.Path(f"{folder}/1.json").read_text())
    yield "JSON has the first finding", None if result["kinds"][0]["kind"] == "promise broken: one vote per term" and len(result["kinds"][0]["steps"]) == 4 else f"{result}"
    suite = xml.etree.ElementTree.parse(f"{folder}/1.xml").getroot()[0]
    failures = [case.get("name") for case in suite if case.find("failure") is not None]
    yield "JUnit has each kind", None if failures == [kind["kind"] for kind in result["kinds"]] and suite.get("failures") == str(len(failures)) else f"{failures}"
    for shard in (1, 2):
        tool("explore", *words[:2], "--count", 15, "--jobs", 2, "--shard", f"{shard}/2", "--json", f"{folder}/shard{shard}.json")
    merged, errors, status = tool("merge", f"{folder}/shard1.json", f"{folder}/shard2.json")
    yield "shards are merged", None if status == 1 and " 30 scripts, " in merged and "one vote per term" in merged else merged + errors
    _, errors, status = tool("merge", f"{folder}/1.xml")
    yield "merge takes results alone", None if status == 4 and "1.xml" in errors else errors


def part_interrupt() -> Checks:
    with tempfile.TemporaryDirectory() as folder:
        begun = pathlib.Path(folder) / "begun"
        words = ["--with", f"touch '{begun}'; exec '{PLAIN}' --bug votes-twice", "--count", "9999", "--jobs", "2"]
        running = subprocess.Popen([TOP / "nodes/explore", *words], stdout=subprocess.PIPE, stderr=subprocess.PIPE, text=True, errors="replace")
        while not begun.exists() and running.poll() is None:
            time.sleep(0.1)
        running.send_signal(signal.SIGINT)
        came, errors = running.communicate(timeout=300)
        yield "an interrupt", None if running.returncode in (0, 1) and "without a finding" in came and "Traceback" not in errors else f"{running.returncode} {came} {errors}"


def part_first() -> Checks:
    """The way of docs/OWN-NODES.md from nothing to the first difference, where Perl is."""
    if subprocess.run(["perl", "-MJSON::PP", "-e", "1"], capture_output=True).returncode if shutil.which("perl") else True:
        print("not tried: perl isn't here")
        return
    with tempfile.TemporaryDirectory() as folder:
        hello, switches = pathlib.Path(folder) / "first", pathlib.Path(folder) / "mine.txt"
        hello.write_text(block_of("#!/usr/bin/perl"))
        output, _, status = tool("run", "--with", f"perl {hello}", TOP / "examples/tour/01-election.txt")
        yield "hello alone", None if status == 1 and block_of("+ start of node 1: state is missing") in output else output
        output, _, status = tool("run", "--with", TOP / "nodes/first", TOP / "examples/tour")
        wanted = block_of("examples/tour/01-election.txt:160: deliver-msgs: role candidate for follower of node 3 after MsgVoteResp at a candidate")
        yield "the tour", None if status == 1 and without_times(output.replace(f"{TOP}/", "")) == without_times(wanted) else output
        switches.write_text(block_of("own-answers-at-once   we count our own vote when we give it"))
        output, _, _ = tool("run", "--with", TOP / "nodes/first", "--like", switches, TOP / "examples/tour")
        yield "its switch", None if "15 scripts, 15 without a difference" in output and "promise" not in output else output
        output, errors, status = tool("switches", "--with", TOP / "nodes/first", "--jobs", JOBS, TOP / "examples/tour")
        found, known = output.splitlines(), {line.split()[0] for line in switches.read_text().splitlines()}
        yield "nodes/switches finds them", None if status == 0 and {line.split()[0] for line in found[:-1]} == known else output + errors
        yield "and counts", None if found[-1] == "# Of 15 scripts 12 agree without these switches, and 15 with them." else output


def part_without() -> Checks:
    """Nodes that lack something: the rest compares, and is the same."""
    for word in (*CALLS, *OPTIONS, *CHANGES, *STATES, *READY):
        outcomes = list(without(word))
        first = next((outcome.first for outcome in outcomes if outcome.first), None)
        yield f"without {word}", first and str(first)
    few = list(without(*(word for word in (*CALLS, *OPTIONS, *CHANGES, *STATES, *READY) if word != "campaign")))
    compared = sum(outcome.compared for outcome in few)
    yield "eight calls are enough", None if compared > 80 and not any(outcome.first for outcome in few) else f"{compared} compared"
    leaves_out = sum(outcome.left_out for outcome in without("propose_change"))
    yield "directives are left out", None if leaves_out > 5 else f"{leaves_out}"


def without(*words: str) -> Iterator[Outcome]:
    process = Process([str(TESTS / "nodes" / "lacking_node.py"), *words])
    try:
        for seed in range(6):
            yield run_beside(blocks_of(steps_of(seed, "weighted")), process, Comparison(aspects=frozenset({"views", "ready"})))
    finally:
        process.close()


def part_switches() -> Checks:
    names = {name for file in LIKE.glob("*.txt") for name in switches_of(file.read_text())}
    theirs, others = (TOP / "docs/NODE.md").read_text().split("## Where it isn't etcd's raft")[1].split("\n## ")[0], (LIKE / "README.md").read_text()
    named, more = ({name for row in re.findall(r"^\| .* \| .* \| ([a-z0-9, -]+) \|$", part, re.MULTILINE) for name in row.split(", ")} for part in (theirs, others))
    yield "docs/NODE.md names each switch of etcd's at its rule", None if named == {name for file in LIKE.glob("etcd*.txt") for name in switches_of(file.read_text())} else f"{named}"
    yield "and those of other libraries", None if named | more == set(SWITCHES) and names <= set(SWITCHES) else f"{(named | more) ^ set(SWITCHES)}"
    yield "lists differ", None if len({frozenset(switches_of((LIKE / f"etcd-{version}.txt").read_text())) for version in ("3.4", "3.5")}) == 2 else "they don't"
    output, _, status = tool("run", "--with", PLAIN, "--like", "etcd-3.5", TOP / "examples" / "tour")
    yield "a switched reference differs from the plain node", None if status == 1 and "role candidate for leader after campaign at a follower" in output else output
    _, errors, status = tool("switches", "--with", PLAIN, "--like", "/nowhere")
    yield "nodes/switches with a list that isn't there", None if status == 2 and "known are etcd-3.4" in errors else errors
    for words, wanted in [(["--like", "/nowhere"], "known are etcd-3.4, etcd-3.5"), (["--accepted", "/nowhere"], "No such file")]:
        _, errors, status = tool("run", "--with", PLAIN, *words, TOP / "examples" / "tour")
        yield f"{words[0]} of nothing", None if status == 2 and wanted in errors else errors
    with tempfile.NamedTemporaryFile("w", suffix=".txt") as file:
        file.write("no-such-switch why\n")
        file.flush()
        _, errors, status = tool("explore", "--with", PLAIN, "--like", file.name, "--count", 1)
        yield "an unknown switch", None if status == 2 and "there is no switch no-such-switch" in errors else errors


def part_words() -> Checks:
    with tempfile.TemporaryDirectory() as folder:
        script, refused, accepted = (pathlib.Path(folder) / name for name in ("votes.txt", "bad.txt", "accepted"))
        script.write_text("add-nodes 1 voters=1 index=10\n----\nok\n\n# here\n\ncampaign 1\n----\nok\n\nstabilize\n----\nok\n")
        refused.write_text("campaign 1\n")
        bug = f"{PLAIN} --bug no-empty-entry"
        output, _, status = tool("run", "--with", bug, script)
        found = re.search(rf"^{re.escape(str(script))}:11: stabilize: commit behind of node 1 after stabilize\n- 1 leader .*\n\+ 1 leader .*$", output, re.MULTILINE)
        yield "a difference has its line", None if status == 1 and found else output
        kind = re.search(r"^ +1  (.*)$", output, re.MULTILINE)
        yield "and its kind in the table", None if kind and kind[1] == "commit behind after stabilize" else output
        _, errors, status = tool("run", "--with", PLAIN, script, refused)
        yield "a refused script", None if status == 3 and f"{refused}: script refused: NoSeparator at line 1" in errors else errors
        _, errors, status = tool("run", "--with", PLAIN, pathlib.Path(folder) / "none.txt", script)
        yield "a file that isn't there", None if status == 4 and "No such file" in errors else errors
        output, errors, status = tool("run", "--with", PLAIN, folder, "--filter", "nothing")
        yield "no script", None if status == 4 and "no script was found" in errors else errors
        output, _, status = tool("run", "--with", PLAIN, "--verbose", script)
        yield "what the nodes print", None if f"{script}:7: campaign 1\n  INFO 1 became candidate at term 1\n" in output else output
        accepted.write_text(f"# known\n{script.name}\tcommit behind after stabilize\tour leaders begin without it\n")
        output, _, status = tool("run", "--with", bug, "--accepted", accepted, script)
        yield "an accepted difference", None if status == 0 and "accepted: our leaders begin without it" in output else output
        accepted.write_text("votes.txt without tabs\n")
        _, errors, status = tool("run", "--with", bug, "--accepted", accepted, script)
        yield "a wrong line of accepted differences", None if status == 2 and f"{accepted}:1: a script, a kind and a reason" in errors else errors


def part_etcd() -> Checks:
    """etcd's nodes behind the protocol, where there is Go and etcd's source."""
    done = subprocess.run([TESTS / "nodes" / "etcd"], capture_output=True, text=True, errors="replace", timeout=600)
    *told, last = done.stdout.splitlines() or [""]
    if last == "0 passed, 0 failed" and any(line.startswith("not tried: ") for line in told):
        print("\n".join(told))
        return
    found = re.fullmatch(r"(\d+) passed, 0 failed", last)
    yield "etcd's nodes", None if found and int(found[1]) > 0 and done.returncode == 0 else done.stdout[-2000:] + done.stderr[-500:]


PARTS = [
    part_judge, part_same_scripts, part_same_seeds, part_examples, part_misbehaving, part_starting, part_bugs, part_promises, part_explore, part_interrupt, part_first, part_without, part_switches,
    part_words, part_etcd, *UNITS,
]


def results(word: str) -> Iterator[Result]:
    """What each part tells."""
    for part in PARTS:
        name = part.__name__.removeprefix("part_").replace("_", "-")
        if word not in name:
            continue
        begun = time.monotonic()
        for what, wrong in part():
            yield Result(f"{name}: {what}", () if wrong is None else (str(wrong),))
        print(f"{name}: {time.monotonic() - begun:.1f} s", flush=True)
