"""Nodes that misbehave, in each of many ways, and commands that aren't nodes. A script ends with a sentence about it, and the next script runs."""
from __future__ import annotations

import multiprocessing
import re

from raftbench_nodes.compare.comparison import Comparison, run_beside
from raftbench_nodes.process.process import Process
from tests.harness import TOP
from tests.nodes.breaking import Checks
from tests.nodes.tools import BAD, JOBS, beside, directives, tool

# What a node does wrong, the call at which it does (or none: from the 12th on), and what the sentence has to have in it.
WRONG = [
    ("hangs", None, "no answer within 1 s"), ("late", None, "no answer within 1 s"), ("drips", None, "no answer within 1 s"),
    ("dies", None, "it ended with status 7; on standard error: out of luck"), ("crashes", None, "it ended by signal 11"),
    ("closes", None, "it closed its output"), ("floods", None, "a line of more than 128 MiB"), ("long-line", None, "a line of more than 128 MiB"),
    ("leaves-child", None, "no answer within 1 s"), ("babbles", None, 'no JSON: "INFO 1 became leader"'), ("list", None, "not an object: [1, 2]"),
    ("nothing", None, 'no JSON: ""'), ("nested", None, "no JSON"), ("huge-number", None, "no JSON"), ("not-utf8", None, "no JSON"),
    ("twice", None, "it said what it wasn't asked"), ("errs", None, "error: not today"), ("odd-error", None, "error: {"),
    ("no-state", "campaign", "state is missing"), ("lacks-term", "campaign", "state.term is missing"), ("lacks-ready", "campaign", "state.ready is missing"),
    ("lacks-vote", "campaign", "parts of state are missing, and not in `without`: vote"),
    ("text-term", "campaign", 'state.term: "1" is not a number'), ("true-term", "campaign", "state.term: true is not a number"),
    ("negative-commit", "campaign", "state.commit: -1 is not a number"), ("great-commit", "campaign", "is not a number from 0"),
    ("float-vote", "campaign", "state.vote: 1.0 is not a number"), ("odd-role", "campaign", 'state.role: "boss" is not one of'),
    ("number-config", "campaign", "state.config: 5 is not an object"), ("text-voters", "campaign", 'state.config.voters: ["1"] is not a list of ids'),
    ("no-base64", "campaign", 'state.content: "?" is not base64'), ("odd-events", "campaign", 'events: ["LOUD", "x"] is not a pair'),
    ("odd-ready", "ready", "ready.messages[0].from is missing"), ("odd-type", "ready", 'ready.messages[0].type: "a b" is not a type'),
    ("odd-change", "ready", 'ready.entries[0].change.words: "x" is not a word'), ("odd-log", "log", "index 13, where 11 is due"),
    ("odd-view", "status", 'views[0].state: "asleep" is not one of'), ("odd-snapshot", "snapshot", "message.snapshot is missing"),
]
# A time limit in seconds that no process reaches, even on a busy machine.
PATIENCE = 3600.0
SHORT = ["add-nodes 1", "raft-state"]
LONG = [
    "add-nodes 3 voters=(1,2,3) index=10", "campaign 1", "stabilize", "propose 1 a", "stabilize", "status 1", "send-snapshot 1 2", "tick-heartbeat 1", "stabilize",
]
# A node that floods standard error, and answers well, is no bad one; nor is one whose messages stand in a part that the bench doesn't know.
FINE = ["floods-errors", "owns", "nulls"]


def part_misbehaving() -> Checks:
    with multiprocessing.Pool(JOBS) as pool:
        wrong = pool.starmap(survived, WRONG)
    for (kind, _, _), problem in zip(WRONG, wrong):
        yield f"a node that {kind}", problem
    for kind in FINE:
        outcome = beside([BAD, kind], directives(*LONG), Comparison())
        yield f"a node that {kind}", outcome.first and str(outcome.first)
    process = Process([BAD, "slow"], seconds=PATIENCE, script_seconds=PATIENCE)
    process.reset()
    process.script_seconds = 1.0
    first = run_beside(directives(*LONG), process).first
    process.script_seconds = PATIENCE
    after = run_beside(directives(*SHORT), process).first
    process.close()
    yield "a script that takes too long", None if first and "the script took more than 1 s" in first.came[0] and after is None else f"{first} {after}"


def survived(kind: str, at_call: str | None, wanted: str) -> str | None:
    """What is wrong with how a script ends, and with whether the next one goes on."""
    seconds = 1.0 if wanted.startswith("no answer") else PATIENCE
    process = Process([BAD, kind, *([at_call] if at_call else [])], seconds, script_seconds=PATIENCE)
    try:
        first = run_beside(directives(*LONG), process, Comparison(aspects=frozenset({"views"}))).first
        process.seconds = PATIENCE
        after = run_beside(directives(*SHORT), process) if at_call != "log" else None
    finally:
        process.close()
    if first is None or not first.field.startswith("failed ") or wanted not in first.came[0]:
        return f"{first and first.came} and not {wanted}"
    if not re.match(r"\w+ of node \d+: ", first.came[0]):
        return f"{first.came[0]} doesn't begin with the call and the node"
    if at_call and not first.came[0].startswith(at_call):
        return f"{first.came[0]} isn't of {at_call}"
    return f"the next script: {after.first}" if after and after.first else None


def part_starting() -> Checks:
    for command, wanted in [
        ("exit 3", "hello: it ended with status 3"), ("echo '{\"name\": \"x\", \"protocol\": 2}'; sleep 9", "this bench speaks 1, and not 2"),
        ("no-such-command-here", "not found"), ("echo '{\"name\": \"x\", \"protocol\": 1, \"without\": [\"gravity\"]}'; sleep 9", "is not something that nodes may be without"),
        ("echo '{\"protocol\": 1}'; sleep 9", "name is missing"), ("cat", "name is missing"),
    ]:
        for name, words in (("run", f"{TOP}/examples/tour"), ("explore", "--count 3 --jobs 2"), ("switches", "--count 3 --jobs 2")):
            output, errors, status = tool(name, "--with", command, *words.split())
            yield f"{name} --with {command}", None if status == 4 and wanted in errors and "Traceback" not in errors else f"{status} {output} {errors}"
