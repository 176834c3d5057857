#!/usr/bin/env python3
"""Plain nodes behind the protocol that say they lack some things. A call for one of these is an error, and a part that they lack is never in a state.

    lacking_node WORD..
"""
import json
import pathlib
import sys
from typing import Any

sys.dont_write_bytecode = True
sys.path[:1] = [str(pathlib.Path(__file__).resolve().parents[2])]

from raftbench_nodes.protocol.encoding import CALLS, OPTIONS, READY  # noqa: E402
from plain.node import Node  # noqa: E402
from raftbench_nodes.protocol.adapter import Adapter  # noqa: E402

USUAL = {"inflight": 256, "prevote": False, "checkquorum": False, "step_down_on_removal": False}


def is_asked_for(word: str, call: dict[str, Any]) -> Any:
    """Whether a call needs what the node is without."""
    if word in CALLS:
        return call["call"] == word
    if word in OPTIONS:
        return call["call"] == "start" and call["options"][word] != USUAL[word]
    words = call.get("change", {}).get("words", ["v1"])
    if word == "learners":
        return "learners" in call.get("base", {}).get("config", {}) or any(it.startswith("l") for it in words)
    if word == "joint":
        return len(words) != 1 or call.get("change", {}).get("transition", "auto") != "auto"
    return word == call["call"] == "log"


def lacking(answer: dict[str, Any], word: str) -> dict[str, Any]:
    """An answer without a part of the state; or without what is to be saved and applied."""
    if word in READY:
        kept = {"ready": ("messages",), "torn": tuple(answer.get("ready", ()))}.get(word, ("hard", "snapshot", "entries", "committed", "messages"))
        return {**answer, "ready": {key: value for key, value in answer["ready"].items() if key in kept}} if "ready" in answer else answer
    if "state" in answer:
        state = {key: value for key, value in answer["state"].items() if key != word}
        if word == "auto" and "auto" in state.get("config", {}):
            state["config"] = {**state["config"], "auto": False}
        return {**answer, "state": state}
    return {key: value for key, value in answer.items() if key != word}


def main() -> None:
    words, adapter = sys.argv[1:], Adapter(Node)
    for line in sys.stdin:
        call = json.loads(line)
        answer = adapter.answer(call)
        if call["call"] == "hello":
            answer = {**answer, "without": words, "calls": [], "batch": False}
        for word in words:
            answer = {"error": f"I am without {word}"} if is_asked_for(word, call) else lacking(answer, word)
        print(json.dumps(answer), flush=True)


if __name__ == "__main__":
    main()
