"""raftbench-nodes replay on traces.

nodes/conversation.txt has no finding; if a part of it is changed, the finding is at that place. Broken promises are found without the reference. Nodes
start from what they have saved, and time out when the trace says so. Files of several nodes are merged by time. A file that isn't a trace is refused.
What docs/TRACES.md shows works, in C too.
"""
from __future__ import annotations

import copy
import json
import pathlib
import re
import shutil
import subprocess
import tempfile
from collections.abc import Callable, Iterator, Sequence
from typing import Any

from raftbench_nodes.traces.replay import Record, Replay, TraceFinding, read_trace, read_traces, with_timeout
from plain.node import Node
from tests.harness import TOP, Result

CONVERSATION = TOP / "nodes" / "conversation.txt"
DOCUMENT = TOP / "docs" / "TRACES.md"
Checks = Iterator[tuple[str, str | None]]
Pair = tuple[dict[str, Any], dict[str, Any]]

WITHOUT = ["applied", "content", "durable", "ready", "sync", "torn"]
HELLO: Pair = ({"call": "hello", "protocol": 1}, {"name": "mine", "protocol": 1, "without": WITHOUT})
NO_LOG = {"base": {"index": 10, "term": 1}}


def state(role: str, term: int, vote: int, lead: int, commit: int) -> dict[str, Any]:
    return {"state": {"role": role, "term": term, "vote": vote, "lead": lead, "commit": commit, "config": {"voters": [1, 2, 3]}, "ready": False}}


def start(node: int, after: dict[str, Any], **parts: Any) -> Pair:
    base = {"index": 10, "term": 1, "config": {"voters": [1, 2, 3]}}
    return {"call": "start", "node": node, "base": base, "options": {"inflight": 256}, **parts}, after


def call(name: str, node: int, after: dict[str, Any], **parts: Any) -> Pair:
    return {"call": name, "node": node, **parts}, after


def findings(pairs: Sequence[Pair], kind: type[Node] = Node, is_ordered: bool = True) -> list[TraceFinding]:
    records = [Record(str(at), asked, said) for at, (asked, said) in enumerate(pairs)]
    return list(Replay(kind, is_ordered).run(records))


def text_of(pairs: Sequence[Pair]) -> str:
    return "".join(f"> {json.dumps(asked)}\n< {json.dumps(said)}\n" for asked, said in pairs)


def tool(*words: object) -> tuple[int, str, str]:
    done = subprocess.run([TOP / "nodes" / "replay", *map(str, words)], capture_output=True, text=True, timeout=120)
    return done.returncode, done.stdout, done.stderr


def expect(wanted: object, came: object) -> str | None:
    return None if wanted == came else f"{came!r} and not {wanted!r}"


def part_conversation() -> Checks:
    yield "no finding", expect((0, f"plain: 34 calls, 34 compared with the reference, 0 findings\n{UNCHECKED}, a quorum holds what a leader commits (1)\n{NOT_HELD}\n", ""), tool(CONVERSATION))
    records = [record for record in read_trace(CONVERSATION) if record.name() not in ("hello", "reset")]
    for field, change in CHANGES.items():
        at, changed = next((at, changed) for at, record in enumerate(records) if (changed := change(copy.deepcopy(record.answer))) is not None)
        made = [record._replace(answer=changed) if place == at else record for place, record in enumerate(records)]
        found = [one.place for one in Replay(Node, True).run([next(read_trace(CONVERSATION)), *made])]
        yield f"{field} is changed", expect(True, records[at].place in found)


def in_state(field: str, value: object) -> Callable[[dict[str, Any]], dict[str, Any] | None]:
    def change(answer: dict[str, Any]) -> dict[str, Any] | None:
        if "state" not in answer or answer["state"][field] == value:
            return None
        answer["state"][field] = value
        return answer

    return change


def of_message(answer: dict[str, Any]) -> dict[str, Any] | None:
    messages = answer.get("ready", {}).get("messages")
    if not messages:
        return None
    messages[0]["term"] = messages[0].get("term", 0) + 1
    return answer


def of_log(answer: dict[str, Any]) -> dict[str, Any] | None:
    if not answer.get("entries"):
        return None
    answer["entries"][0]["data"] = "eHg="
    return answer


CHANGES: dict[str, Callable[[dict[str, Any]], dict[str, Any] | None]] = {
    "role": in_state("role", "leader"), "term": in_state("term", 7), "vote": in_state("vote", 2), "lead": in_state("lead", 2),
    "commit": in_state("commit", 11), "content": in_state("content", "eHg="), "message": of_message, "log": of_log,
}


def part_promises() -> Checks:
    """The reference is not asked: both nodes were changed by nobody, and say what no reference says."""
    pairs = [
        HELLO, start(1, state("follower", 0, 0, 0, 10)), start(2, state("follower", 0, 0, 0, 10)),
        call("campaign", 1, state("leader", 1, 1, 1, 10)), call("campaign", 2, state("leader", 1, 2, 2, 10)),
    ]
    kinds = [found.kind for found in findings(pairs)]
    yield "two leaders", expect(1, kinds.count("promise broken: one leader per term"))
    yield "votes of a quorum", expect(2, kinds.count("promise broken: a leader has a quorum of votes"))
    kinds = [found.kind for found in findings(pairs, is_ordered=False)]
    yield "not in order", expect((1, 0), (kinds.count("promise broken: one leader per term"), kinds.count("promise broken: a leader has a quorum of votes")))
    falls = [HELLO, start(1, state("follower", 0, 0, 0, 10)), call("tick", 1, state("follower", 0, 0, 0, 12)), call("tick", 1, state("follower", 0, 0, 0, 11))]
    yield "a commit that falls", expect(1, [found.kind for found in findings(falls)].count("promise broken: terms and commits don't fall"))
    by_hand = [*falls[:2], call("changed", 1, state("leader", 3, 1, 1, 12)), *falls[2:]]
    yield "changed by hand", expect([], [found.kind for found in findings(by_hand)])
    logs = [HELLO, *(start(id, state("follower", 1, 0, 0, 10)) for id in (1, 2))]
    for id, data in ((1, "eA=="), (2, "eQ==")):
        logs += [call("tick", id, state("follower", 1, 0, 0, 10)), call("log", id, {**NO_LOG, "entries": [{"term": 1, "index": 11, "data": data}]})]
    yield "logs", expect(1, [found.kind for found in findings(logs)].count("promise broken: logs match"))
    for what, promise, pairs in given_out():
        yield what, expect([promise] if promise else [], [found.kind.removeprefix("promise broken: ") for found in findings(pairs) if found.kind.startswith("promise")])


def given_out() -> Iterator[tuple[str, str, list[Pair]]]:
    """Traces in which a node gives out, saves or reads something, and the promise that each breaks, if one."""
    begun = [HELLO, start(1, state("follower", 0, 0, 0, 10)), start(2, state("follower", 0, 0, 0, 10))]
    asked = call("step", 1, state("follower", 1, 2, 0, 10), message={"type": "MsgVote", "from": 2, "to": 1, "term": 1, "index": 10, "logTerm": 1})
    for to, promise in ((2, ""), (3, "a granted vote is kept")):
        answer = {"type": "MsgVoteResp", "from": 1, "to": to, "term": 1}
        yield f"a vote given to {to}", promise, [*begun, asked, call("log", 1, NO_LOG), call("ready", 1, {"ready": {"messages": [answer]}})]
    told = {"type": "MsgAppResp", "from": 1, "to": 2, "term": 1, "index": 12}
    log: dict[str, Any] = {**NO_LOG, "entries": [{"term": 1, "index": 11, "data": "eA=="}]}
    ticked = call("tick", 1, state("follower", 1, 0, 2, 10))
    yield "an entry that it lacks", "acknowledged entries are held", [*begun, ticked, call("log", 1, log), call("ready", 1, {"ready": {"messages": [told]}})]
    yield "the same where the log isn't shown", "", [*begun, ticked, call("ready", 1, {"ready": {"messages": [told]}})]
    saved = [*begun, asked, call("log", 1, NO_LOG), call("ready", 1, {"ready": {"messages": []}}), call("advance", 1, state("follower", 1, 2, 0, 10))]
    again = call("restart", 1, state("follower", 0, 0, 0, 10))
    yield "a vote that is gone after a restart", "a restart keeps term and vote", [*saved, again]
    yield "one that was being saved", "", [*saved[:-1], again]
    read = call("ready", 1, {"ready": {"messages": [], "reads": [{"id": 1, "index": 9}]}})
    yield "a read of before", "a read is linearizable", [*begun, call("read", 1, state("follower", 0, 0, 0, 10), id=1), read]
    yield "a read that the trace doesn't ask for", "", [*begun, read]


def part_reference() -> Checks:
    vote = {"type": "MsgVote", "from": 1, "to": 2, "term": 4, "index": 12, "logTerm": 3}
    saved = {"hard": {"term": 3, "vote": 3, "commit": 11}, "entries": [{"term": 3, "index": index, "data": ""} for index in (11, 12)]}
    begun = start(2, state("follower", 3, 3, 0, 11), saved=saved)
    yield "starts from what was saved", expect([], findings([HELLO, begun, call("step", 2, state("follower", 4, 1, 0, 11), message=vote)]))
    shorter = call("step", 2, state("follower", 4, 1, 0, 11), message={**vote, "index": 11})
    yield "and votes by that", expect(["vote after step MsgVote at a follower"], [found.kind for found in findings([HELLO, begun, shorter])])
    ticks = [HELLO, start(2, state("follower", 0, 0, 0, 10)), *(call("tick", 2, state("follower", 0, 0, 0, 10)) for _ in range(9))]
    yield "ticks lead to a campaign", expect("role after tick at a follower", findings(ticks)[0].kind)
    campaign = call("campaign", 2, state("candidate", 1, 2, 0, 10))
    yield "with a timeout only the trace campaigns", expect([], findings([*ticks, campaign], with_timeout(Node, 5)))
    first, later = call("tick", 2, state("follower", 0, 0, 2, 10)), call("tick", 2, state("follower", 0, 0, 0, 10))
    yield "one difference a node", expect(1, len(findings([*ticks[:2], first, first])))
    yield "until it starts again", expect(2, len(findings([*ticks[:2], first, ticks[1], later, first])))
    yield "a call that fails", expect(["failed tick"], [found.kind for found in findings([*ticks[:2], ({"call": "tick", "node": 2}, {"error": "out of luck"}), first])])


REFUSED = {
    "no call": "! {}\n", "not JSON": "> {\n", "not an object": "> 3\n", "an answer alone": "< {}\n", "no node": text_of([HELLO, ({"call": "tick"}, state("follower", 0, 0, 0, 0))]),
    "no state": text_of([HELLO, start(1, {})]), "never started": text_of([HELLO, call("log", 1, NO_LOG)]), "no protocol": text_of([({"call": "hello"}, {"name": "x"})]),
    "no such call": text_of([HELLO, start(1, state("follower", 0, 0, 0, 10)), call("sing", 1, state("follower", 0, 0, 0, 10))]),
}


def part_files() -> Checks:
    with tempfile.TemporaryDirectory() as name:
        folder = pathlib.Path(name)
        for what, text in REFUSED.items():
            (folder / "bad").write_text(text)
            status, output, errors = tool(folder / "bad")
            yield what, None if status == 3 and re.search(r"bad:\d+: ", errors) and "Traceback" not in errors else f"{status} {output} {errors}"
        yield "no file", expect(4, tool(folder / "none")[0])
        yield "no switch", expect(2, tool(CONVERSATION, "--like", "nobody")[0])
        one = [HELLO, start(1, state("follower", 0, 0, 0, 10), at=1), call("campaign", 1, state("candidate", 1, 1, 0, 10), at=4)]
        other = [HELLO, start(2, state("follower", 0, 0, 0, 10), at=3), call("tick", 2, state("follower", 0, 0, 0, 10), at=2.5)]
        for file, pairs in (("one", one), ("other", other)):
            (folder / file).write_text(text_of(pairs) + "> {\"call\": \"tick\", \"node\": 1}\n")
        records, is_ordered = read_traces([folder / "one", folder / "other"])
        yield "put in order", expect(([1, 2.5, 3, 4], True), ([record.call["at"] for record in records if "at" in record.call], is_ordered))
        (folder / "one").write_text(text_of(one).replace('"at": 4', '"by": 4'))
        records, is_ordered = read_traces([folder / "one", folder / "other"])
        yield "or one after the other", expect(([1, 1, 2, 2], False), ([record.call["node"] for record in records if "node" in record.call], is_ordered))


# What the trace of this program can't show, since it has no logs.
NOT_HELD = "no trace is held to: appends keep to the size limit, comes to rest, heals"
UNCHECKED = "not checked, since the trace doesn't show what they need: votes go to new logs (1)"
C_PROGRAM = """
#include "trace.h"
int main(void) {
    struct trace_state state = {"follower", 0, 0, 0, 10};
    trace_begin(stdout, "my raft", "\\"applied\\",\\"config\\",\\"content\\",\\"durable\\",\\"log\\",\\"ready\\",\\"status\\"");
    trace_call(stdout, "start", 2, 0.5, state, "\\"base\\":{\\"index\\":10,\\"term\\":1,\\"config\\":{\\"voters\\":[1,2]}},\\"options\\":{\\"inflight\\":9}");
    state.term = state.vote = 1;
    trace_call(stdout, "step", 2, 1.5, state, "\\"message\\":{\\"type\\":\\"MsgVote\\",\\"from\\":%d,\\"to\\":2,\\"term\\":1,\\"index\\":10,\\"logTerm\\":1}", 1);
    trace_ready(stdout, 2, 1.5, state, "{\\"type\\":\\"MsgVoteResp\\",\\"from\\":2,\\"to\\":1,\\"term\\":1}");
    return 0;
}
"""


def part_document() -> Checks:
    shown = re.findall(r"^    (.*)$", DOCUMENT.read_text().split("Here node 2 votes")[1].split("\n\n| Option")[0], re.MULTILINE)
    status, output, _ = tool(TOP / "nodes" / "trace" / "refused.txt")
    yield "what the document shows", expect((1, shown), (status, output.replace(f"{TOP}/", "").splitlines()))
    if not (compiler := shutil.which("cc")):
        return
    with tempfile.TemporaryDirectory() as name:
        folder = pathlib.Path(name)
        (folder / "main.c").write_text(C_PROGRAM)
        subprocess.run([compiler, "-std=c11", "-Wall", "-Wextra", "-Werror", "-I", TOP / "nodes" / "trace", "-o", folder / "main", folder / "main.c"], check=True)
        (folder / "trace").write_text(subprocess.run([folder / "main"], capture_output=True, text=True, check=True).stdout)
        yield "a trace that C writes", expect((0, f"my raft: 4 calls, 4 compared with the reference, 0 findings\n{UNCHECKED}\n{NOT_HELD}\n", ""), tool(folder / "trace"))


PARTS = [part_conversation, part_promises, part_reference, part_files, part_document]


def results(word: str) -> Iterator[Result]:
    """What each part tells."""
    for part in PARTS:
        name = part.__name__.removeprefix("part_")
        for what, wrong in part() if word in name else ():
            yield Result(f"{name}: {what}", () if wrong is None else (wrong,))
