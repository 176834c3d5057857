"""nodes/c/raftbench.h. A node that has every call answers as docs/OWN-NODES.md says. A line that is no call is answered with an error. The adapter of a
tiny Raft keeps all promises, and breaks them with a planted bug.

All are built with the compiler's warnings as errors, and run with its sanitizers of addresses and of undefined behaviour.
"""
from __future__ import annotations

import hashlib
import json
import os
import pathlib
import re
import shutil
import subprocess
from collections.abc import Iterator

from plain.config import Change, Config
from plain.records import Entry, Hard, Read, Snapshot
from raftbench_nodes.protocol.answers import Log, State, MemberView, hello_in, log_in, ready_in, result_in, snapshot_in, views_in
from raftbench_nodes.protocol.encoding import Json, Parts, is_early
from tests.harness import TOP, NotHere

FOLDER = TOP / "nodes" / "c"
STRICT = (
    "-std=c11", "-O1", "-g", "-Wall", "-Wextra", "-Wshadow", "-Wconversion", "-Wstrict-prototypes", "-Werror", "-fsanitize=address,undefined",
    "-fno-sanitize-recover",
)
CONFIG = {"voters": [1, 2], "outgoing": [3], "learners": [4], "next": [5], "auto": True}
OPTIONS = {"inflight": 1, "prevote": True, "checkquorum": False, "step_down_on_removal": True, "max_size_per_msg": 9}
START = {"call": "start", "node": 1, "base": {"index": 10, "term": 1, "content": "YWI=", "config": CONFIG}, "options": OPTIONS}
MESSAGE = {"type": "MsgAppResp", "from": 2, "to": 1, "term": 3, "index": 4, "logTerm": 5, "commit": 6, "rejectHint": 7, "reject": True, "unknown": [{"a": 1}]}
# A call of node 1 of every.c, with its parts, and the event that it answers with.
EVENTS: list[tuple[Json, str]] = [
    (START, "start 10 1 1 9 1 0 1"), ({"call": "campaign"}, 'campaign "\\\n\x7f of 1'), ({"call": "set_timeout", "ticks": 4}, "set_timeout 4"),
    ({"call": "transfer", "to": 2}, "transfer 2"), ({"call": "report_unreachable", "to": 3}, "report_unreachable 3"),
    ({"call": "compact", "index": (1 << 63) - 1}, "compact 9223372036854775807"), ({"call": "read", "id": 7}, "read 7"),
    ({"call": "propose", "data": "eHl6"}, "propose xyz"), ({"call": "report_snapshot", "to": 2, "failed": True}, "report_snapshot 2 1"),
    ({"call": "propose_change", "change": {"transition": "implicit", "words": ["l12"]}, "v1": True}, "propose_change 2 l12 1"),
    ({"call": "restart", "saved": "all"}, "restart 2"), ({"call": "step", "message": MESSAGE}, "step 5 2 1 3 4 5 6 7 0 100 0"),
    ({"call": "lost", "message": MESSAGE}, "lost 4 0"),
]
# Lines that are no call, or none of a node that is there, and what is said of them.
WRONG = [
    ("", "no JSON"),
    ("{", "no JSON"),
    ("[" * 100_000, "too deep"),
    ('{"call":"hello"} x', "goes on"),
    ('{"call":"campaign","node":18446744073709551616}', "above"),
    ('{"call":"campaign","node":-1}', "whole number"),
    ('{"call":"campaign","node":1.5}', "whole number"),
    ('{"call":"campaign","node":"1"}', "node is of another kind"),
    ('{"call":"\\u12', "no end"),
    ('{"call":"\\u12x4"}', "four digits"),
    ('{"call":"\\x"}', "an escape"),
    ('{"call":"a\tb"}', "a control character"),
    ('{"call":"nothing","node":1}', "there is no call nothing"),
    ('{"call":"campaign","node":2}', "no such node"),
    ("\x00", "no JSON"),
    ('{"call":tru', "true is missing"),
    ('{"call":"propose","node":1,"data":"a"}', "not base64"),
    ('{"call":"propose","node":1,"data":"=AAA"}', "not base64"),
    ('{"call":"propose","node":1,"data":"AA=A"}', "not base64"),
    ('{"call":"step","node":1,"numbers":[0]}', "no such message"),
    ('{"call":"step","node":1,"message":{"type":"MsgNothing"}}', "type has an unknown word"),
    ('{"call":"start","node":1,"base":{"config":{"voters":[' + ",".join(["1"] * 65) + "]}}}", "more than 64 ids"),
    ('{"call":"lost","node":1}', "no message"),
    ('{"call":"propose_change","node":1,"change":{"transition":"auto","words":[7]}}', "words of a change"),
    ('{"call":"propose_change","node":1,"change":{"transition":"auto","words":["x3"]}}', "words of a change"),
    ('{"call":"propose_change","node":1,"change":{"transition":"auto","words":["v-3"]}}', "whole number"),
    ('{"call":"start","node":1,"base":{"config":{"voters":["1"]}}}', "no id"),
    ('{"call":"tick","node":1}', "node == NULL doesn't hold"),
    ('{"call":"forget_leader","node":1}', "forgot 1"),
]


def compiled(room: pathlib.Path, *sources: pathlib.Path) -> pathlib.Path:
    """A program of these sources."""
    compiler = shutil.which(os.environ.get("CC", "cc"))
    if compiler is None:
        raise NotHere("a C compiler")
    program = room / sources[0].stem
    done = subprocess.run([compiler, *STRICT, "-o", program, *sources], capture_output=True, text=True)
    if done.returncode and "cannot find" in done.stderr and "san" in done.stderr:
        raise NotHere("the compiler's sanitizers")
    assert not done.returncode, done.stderr[-2000:]
    return program


def lines_of(program: pathlib.Path, *lines: str) -> list[str]:
    """What a program answers to these lines. Nothing is on its standard error: so the sanitizers have found nothing either."""
    done = subprocess.run([program], input="\n".join(lines).encode("latin-1") + b"\n", capture_output=True, timeout=600)
    assert (done.returncode, done.stderr) == (0, b""), done.stderr.decode(errors="replace")[-2000:]
    return done.stdout.decode("ascii").splitlines()


def answers_of(program: pathlib.Path, *calls: Json) -> list[Parts]:
    return [Parts(json.loads(line), "") for line in lines_of(program, *(json.dumps({"node": 1, **call}) for call in calls))]


def test_hello(room: pathlib.Path) -> Iterator[str]:
    """A library says what it lacks, and what it has besides."""
    hello = hello_in(answers_of(compiled(room, TOP / "tests/nodes/every.c"), {"call": "hello"})[0])
    wanted = [{"torn"}, {"restart", "lost", "read", "report_snapshot"}, {"prevote"}, {"max_size_per_msg"}]
    truths = (hello.is_open, hello.is_ordered, hello.is_apart, hello.has_digest)
    if [set(it) for it in (hello.without, hello.calls, hello.always, hello.limits)] != wanted or truths != (True, False, True, True):
        yield f"every.c: {hello}"
    hello = hello_in(answers_of(compiled(room, FOLDER / "first.c", FOLDER / "tiny.c"), {"call": "hello"})[0])
    if not {"tick", "status", "compact", "torn"} < hello.without or "log" in hello.without or hello.calls != {"restart"}:
        yield f"first.c: {hello}"


def test_calls(room: pathlib.Path) -> Iterator[str]:
    """Each call comes to its function with all of its parts, and its answer has the state."""
    for (call, event), answer in zip(EVENTS, answers_of(compiled(room, TOP / "tests/nodes/every.c"), *(call for call, _ in EVENTS))):
        result = result_in(answer, frozenset())
        if [line for _, line in result.events] != [event.replace("\n", "\\n").replace("\x7f", "\\x7f")]:
            yield f"{call}: {answer.value}"
        config = Config(frozenset({1, 2}), frozenset({3}), frozenset({4}), frozenset({5}), True)
        if result.states != [State("precandidate", 3, 4, 5, 6, 7, b"ab", config, True)]:
            yield f"{call}: {result.states}"


def test_what_is_shown(room: pathlib.Path) -> Iterator[str]:
    """What is ready, a snapshot, a log and views are read as they were put. Messages come back by number, and with what is the library's own."""
    program = compiled(room, TOP / "tests/nodes/every.c")
    asked: list[Json] = [{"call": "reset"}, START, {"call": "ready"}, {"call": "snapshot", "to": 2}, {"call": "log"}, {"call": "status"}]
    _, _, answer, sent, log, views = answers_of(program, *asked)
    ready, change = ready_in(answer), Change("explicit", (("v", 3), ("r", 40)))
    entries = [(9, Entry(2, b"a")), (10, Entry(2, change))]
    if ready != (Hard(2, 1, 7), (8, 1), entries, entries[:1], ready.messages, True, (Read(5, 7),)):
        yield f"ready: {ready}"
    first, other = ready.messages
    numbers = (first.sender, first.to, first.term, first.index, first.log_term, first.commit, first.hint, first.target, first.context)
    if (first.kind, *numbers) != ("MsgSnap", 1, 2, 2, 8, 1, 7, 6, 5, 4):
        yield f"a message: {first}"
    config = Config(frozenset({1, 2}), frozenset({3}), frozenset({4}), frozenset({5}), True)
    if not (first.refused and first.by_transfer and is_early(first)) or first.entries != tuple(entry for _, entry in entries):
        yield f"a message: {first}"
    if first.snapshot != Snapshot(8, 2, b"ab", config):
        yield f"a snapshot: {first.snapshot}"
    if (other.kind, other.to, is_early(other)) != ("MsgTimeoutNow", 3, False) or snapshot_in(sent)[:3] != first[:3]:
        yield f"messages: {other}, {sent.value}"
    if log_in(log, frozenset()) != Log(8, 1, 9, entries[:1]):
        yield f"{log.value}"
    if views_in(views) != {1: MemberView("probe", 2, 3, 4, False, True, 5), 2: MemberView("snapshot", 0, 0, 0, True, False, 0)}:
        yield f"{views.value}"


def test_messages_come_back(room: pathlib.Path) -> Iterator[str]:
    """A message comes as it is in the call, or by its number as it was put; either has what is the library's own."""
    program = compiled(room, TOP / "tests/nodes/every.c")
    given = answers_of(program, START, {"call": "ready"})[1].value["ready"]["messages"][0]
    several_more: Json = {"call": "step", "messages": [given], "numbers": [1, 0]}
    asked: list[Json] = [START, {"call": "ready"}, {"call": "step", "message": {**given, "entries": []}}, several_more, {"call": "lost", "number": 0}]
    *_, one, several, gone = answers_of(program, *asked)
    steps = [[line for _, line in result_in(it, frozenset(), "states" in it.value).events] for it in (one, several, gone)]
    full = "step 8 1 2 2 8 1 7 6 2 111 1"
    if steps != [["step 8 1 2 2 8 1 7 6 0 111 1"], [full, "step 11 1 3 0 0 0 0 0 0 000 0", full], ["lost 8 1"]] or len(several.items("states")) != 3:
        yield f"{steps}"


def test_wrong_lines(room: pathlib.Path) -> Iterator[str]:
    """A line that is no call has an error, and the next script is played all the same."""
    begin = ['{"call":"reset"}', json.dumps(START)]
    answers = lines_of(compiled(room, TOP / "tests/nodes/every.c"), *(line for wrong, _ in WRONG for line in (*begin, wrong)))
    for (wrong, wanted), (_, started, answer) in zip(WRONG, zip(*[iter(answers)] * 3)):
        if wanted not in json.loads(answer).get("error", "") or "state" not in json.loads(started):
            yield f"{wrong[:80]}: {started[:80]}, {answer[:200]}"
    if len(answers) != 3 * len(WRONG):
        yield f"{len(answers)} answers"


def test_digests(room: pathlib.Path) -> Iterator[str]:
    """A digest is that of the lines of the answers, whatever their lengths, an error's too."""
    program = compiled(room, FOLDER / "first.c", FOLDER / "tiny.c")
    names = ("campaign", "ready", "x", "log")
    calls = [json.dumps(call) for call in ({"call": "reset"}, START, *({"call": name, "node": 1} for name in names))]
    answers = lines_of(program, *calls)
    for count in range(1, len(calls) + 1):
        wanted = hashlib.sha256("".join(f"{line}\n" for line in answers[:count]).encode()).hexdigest()
        came = lines_of(program, json.dumps({"call": "digest", "calls": count}), *calls)
        if came != [json.dumps({"digest": wanted}, separators=(",", ":")), *answers[count:]]:
            yield f"{count} calls: {came[:1]}"


def promises(program: pathlib.Path, *more: object) -> tuple[int, str]:
    words = [TOP / "nodes" / "promises", "--with", program, "--seconds", 600, "--jobs", 1, *more]
    done = subprocess.run(list(map(str, words)), capture_output=True, text=True, cwd=TOP)
    return done.returncode, done.stdout + done.stderr


def test_tiny_raft(room: pathlib.Path) -> Iterator[str]:
    """The adapter has 40 to 80 lines. Its Raft keeps all promises on the classics; with a bug planted, one is broken, and the script is printed."""
    lines = len((FOLDER / "first.c").read_text().splitlines())
    if not 40 <= lines <= 80:
        yield f"first.c has {lines} lines"
    status, said = promises(compiled(room, FOLDER / "first.c", FOLDER / "tiny.c"), "examples/classics")
    if status or "in which all are kept" not in said:
        yield said[-800:]
    source = (FOLDER / "tiny.c").read_text()
    planted = source.replace("n->now.vote == 0 || n->now.vote == m->from", "n->now.vote == 0 || n->now.vote != m->from")
    for name in ("first.c", "tiny.h", "raftbench.h"):
        shutil.copy(FOLDER / name, room)
    (room / "tiny.c").write_text(planted)
    status, said = promises(compiled(room, room / "first.c", room / "tiny.c"), "--count", 1, "--first")
    shown = re.search(r"promise broken: (one vote per term|a granted vote is kept): .*shrunk to (\d+)\n((?:    .*\n)+)", said)
    if planted == source or status != 1 or shown is None or "campaign 1" not in shown[3] or f"directive {shown[2]}: {shown[1]}: 1 " not in shown[3]:
        yield said[-800:]
