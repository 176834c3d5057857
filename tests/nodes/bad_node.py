#!/usr/bin/env python3
"""Plain nodes behind the protocol that misbehave in one way, from the 12th call on, or at each CALL.

bad_node.py KIND [CALL]
"""
import json
import os
import pathlib
import signal
import sys
import time
from collections.abc import Callable
from typing import Any

sys.dont_write_bytecode = True
sys.path[:1] = [str(pathlib.Path(__file__).resolve().parents[2])]

from plain.node import Node  # noqa: E402
from raftbench_nodes.protocol.adapter import Adapter  # noqa: E402

# An answer, and what says one.
Answer = dict[str, Any]
Answering = Callable[[Answer], None]
FIRST = 12
MIB = 1 << 20


def state_with(**parts: Any) -> Answering:
    """Takes an answer, and says it with other parts of the state."""
    def say(answer: Answer) -> None:
        print(json.dumps({**answer, "state": {**answer.get("state", {}), **parts}}), flush=True)
    return say


def state_without(name: str) -> Answering:
    def say(answer: Answer) -> None:
        print(json.dumps({**answer, "state": {key: value for key, value in answer.get("state", {}).items() if key != name}}), flush=True)
    return say


def hang(_: Answer) -> None:
    time.sleep(3600)


def late(answer: Answer) -> None:
    time.sleep(60)
    print(json.dumps(answer), flush=True)


def slow(answer: Answer) -> None:
    time.sleep(0.2)
    print(json.dumps(answer), flush=True)


def owns(answer: Answer) -> None:
    """Of its messages it says no more than it must, and all of them in a part of its own."""
    messages = answer.get("ready", {}).get("messages")
    if messages:
        answer["ready"]["messages"] = [{"type": m["type"], "from": m["from"], "to": m["to"], "own": m} for m in messages]
    print(json.dumps(answer), flush=True)


def nulls(answer: Answer) -> None:
    """What is empty is null, as Go has it."""
    print(json.dumps(answer).replace('""', "null").replace("[]", "null"), flush=True)


def die(_: Answer) -> None:
    print("out of luck", file=sys.stderr, flush=True)
    sys.exit(7)


def crash(_: Answer) -> None:
    os.kill(os.getpid(), signal.SIGSEGV)


def close_output(_: Answer) -> None:
    os.close(1)
    time.sleep(3600)


def flood(_: Answer) -> None:
    while True:
        sys.stdout.write("x" * 65536)


def long_line(answer: Answer) -> None:
    print(json.dumps({**answer, "more": "x" * (129 * MIB)}), flush=True)


def flood_errors(answer: Answer) -> None:
    for _ in range(200):
        sys.stderr.write("e" * 65536)
    print(json.dumps(answer), flush=True)


def drip(_: Answer) -> None:
    while True:
        print("x", end="", flush=True)
        time.sleep(0.05)


def leave_child(_: Answer) -> None:
    """It ends, and a child of it holds its pipes."""
    if os.fork():
        os._exit(3)
    time.sleep(3600)


def said(text: str) -> Answering:
    """Says a text in place of the answer."""
    return lambda _: print(text, flush=True)


def twice(answer: Answer) -> None:
    print(json.dumps(answer) + "\n" + json.dumps(answer), flush=True)


BAD = {
    "hangs": hang, "late": late, "slow": slow, "owns": owns, "nulls": nulls, "dies": die, "crashes": crash, "closes": close_output, "floods": flood, "long-line": long_line,
    "floods-errors": flood_errors, "drips": drip, "leaves-child": leave_child, "babbles": said("INFO 1 became leader"), "list": said("[1, 2]"),
    "nothing": said(""), "nested": said("[" * 100_000), "huge-number": said('{"state": ' + "9" * 5000 + "}"), "not-utf8": lambda _: os.write(1, b'{"a": "\xff"}\n'),
    "twice": twice, "errs": said('{"error": "not today"}'), "odd-error": said('{"error": {"a": "\\u0007\\ud800"}}'), "no-state": said("{}"),
    "lacks-term": state_without("term"), "lacks-ready": state_without("ready"), "lacks-vote": state_without("vote"), "text-term": state_with(term="1"), "true-term": state_with(term=True),
    "negative-commit": state_with(commit=-1), "great-commit": state_with(commit=1 << 63), "float-vote": state_with(vote=1.0), "odd-role": state_with(role="boss"),
    "number-config": state_with(config=5), "text-voters": state_with(config={"voters": ["1"]}), "no-base64": state_with(content="?"),
    "odd-events": lambda answer: print(json.dumps({**answer, "events": [["LOUD", "x"]]}), flush=True),
    "odd-ready": said('{"ready": {"messages": [{"type": "MsgApp"}]}}'), "odd-type": said('{"ready": {"messages": [{"type": "a b", "from": 1, "to": 2}]}}'),
    "odd-change": said('{"ready": {"entries": [{"term": 1, "index": 11, "change": {"transition": "auto", "words": ["x"]}}]}}'),
    "odd-log": said('{"base": {"index": 10, "term": 1}, "durable": 10, "entries": [{"term": 1, "index": 13}]}'),
    "odd-view": said('{"views": [{"node": 1, "state": "asleep", "next": 1}]}'), "odd-snapshot": said('{"message": {"type": "MsgSnap", "from": 1, "to": 2}}'),
}


def main() -> None:
    kind, at_call = sys.argv[1], sys.argv[2] if len(sys.argv) > 2 else None
    adapter = Adapter(Node)
    for number, line in enumerate(sys.stdin, 1):
        call = json.loads(line)
        if kind == "owns" and call["call"] == "step":
            call["message"] = call["message"].get("own", call["message"])
        answer = adapter.answer(call)
        if call["call"] == "hello":
            answer["digest"] = False
        if call["call"] == at_call or at_call is None and number >= FIRST:
            BAD[kind](answer)
        else:
            print(json.dumps(answer), flush=True)


if __name__ == "__main__":
    main()
