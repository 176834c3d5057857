"""What `raftbench trace` writes, beside the plain bench: each object's place, node, message, text, reason and row, and how it ends, as `run` does."""
from __future__ import annotations

import collections
import json
import pathlib
import re
import subprocess
import sys
import tempfile
from collections.abc import Iterator
from typing import Any

from plain.cluster import Cluster
from plain.config import Config
from plain.node import Node
from plain.records import AnyNode, Entry, Options
from plain.script import read_script, read_with_lines
from plain.texts import entry_text
from tests.harness import TOP
from tests.page.plain_steps import DIRECTIVES, Row, rows_of
from tests.page.program import REFUSED, answer, put
from tests.page.scripts import FULL, HOSTILE, LOST, MANY, NOBODY, RARE, RESTARTS, SELF, SEVERAL, TOUR, same

Event = dict[str, Any]
# The rows of a page that say something else than what happens.
OTHERS = {"output", "mismatch", "same", "expected", "actual", "node", "config", "log", "entry", "view", "no-view"}
# The members that an object has, in their order; `?` follows those that some don't have.
MEMBERS = ["directive", "line", "node?", "message?", "type?", "from?", "to?", "term?", "text", "reason?", "row?"]
# More messages than are kept on their way.
MOST = 4096
# What has no line of its own, but a reason.
LOSSES = re.compile(r"entry \d+|entries \d+\.\.\d+|term \d+|the vote for \d+|a snapshot|the snapshot")
UNPRINTED = re.compile(r"DEBUG \d+ (?:refused Msg|removed entries)")


def decoded(value: Any) -> Any:
    """A cell as it reads back: each byte is one character."""
    if isinstance(value, int):
        return value
    return (value.encode() if isinstance(value, str) else value).decode("latin-1")


def happenings(data: bytes) -> list[list[Row]]:
    """The rows of what happens at each directive, by the plain bench."""
    found: list[list[Row]] = []
    for row in rows_of(data, "x", DIRECTIVES):
        if row[0] == "step":
            found.append([])
        elif found and row[0] not in OTHERS and row[0] != "end":
            found[-1].append([decoded(cell) for cell in row])
    return found


def events_of(output: bytes) -> tuple[Event, list[Event]]:
    """The first object of a trace, and the others."""
    first, *rest = [json.loads(line) for line in output.decode("ascii").splitlines()]
    return first, rest


def by_directive(events: list[Event], count: int) -> list[list[Event]]:
    found: list[list[Event]] = [[] for _ in range(count)]
    for event in events:
        found[event["directive"] - 1].append(event)
    return found


def traced(data: bytes, status: int = 0) -> list[Event]:
    output, errors, came = answer(["trace", "-"], data)
    same("how a trace ends", (errors, came), (b"", status))
    same("the bytes that are marks or past ASCII", re.findall(rb"[<>&]|[^\n -~]", output), [])
    first, events = events_of(output)
    same("the first object", first, {"raftbench": "trace", "format": 1, "script": "standard input"})
    return events


def status_of(data: bytes) -> int:
    return int(list(rows_of(data, "x", DIRECTIVES))[-1][2] > 0)


def scripts() -> Iterator[tuple[str, bytes]]:
    yield from ((path.name, path.read_bytes()) for path in TOUR)
    named = {"hostile": HOSTILE, "lost": LOST, "many": MANY, "nobody": NOBODY, "rare": RARE, "self": SELF, "full": FULL, "restarts": RESTARTS, "empty": b""}
    yield from named.items()


def rows_are_those_of_the_page() -> None:
    for name, data in scripts():
        wanted = happenings(data)
        came = by_directive(traced(data, status_of(data)), len(wanted))
        same(f"the rows of {name}", [[event["row"] for event in events if "row" in event] for events in came], wanted)


def members_are_in_order() -> None:
    form = re.compile("".join(f"(?:{name[:-1]} )?" if name.endswith("?") else f"{name} " for name in MEMBERS))
    for name, data in scripts():
        wrong = [event for event in traced(data, status_of(data)) if not form.fullmatch("".join(f"{member} " for member in event))]
        same(f"the objects of {name} with other members", wrong, [])


def directives_are_where_they_stand() -> None:
    for name, data in scripts():
        lines = read_with_lines(data)[1]
        events = traced(data, status_of(data))
        same(f"the lines of {name}", [event["line"] for event in events], [lines[event["directive"] - 1] for event in events])
        same(f"the order of {name}", [event["directive"] for event in events], sorted(event["directive"] for event in events))


def texts_are_the_lines_that_are_printed() -> None:
    """At level debug all of them, but for refused votes and removed entries, of which no line tells."""
    for name, data in scripts():
        cluster, blocks = Cluster(), read_script(data).blocks
        came = by_directive(traced(data, status_of(data)), len(blocks))
        for block, events in zip(blocks, came):
            is_quiet = cluster.level != "debug"
            printed = cluster.run(block.directive())
            told = [decoded(line) for line in printed if line != "ok"]
            texts = [event["text"] for event in events if not UNPRINTED.match(event["text"])]
            if is_quiet or b"log-level" in b" ".join(block.head):
                rest = iter(texts)
                same(f"what isn't told in {name}", [line for line in told if line not in rest], [])
            else:
                same(f"what is told in {name}", texts, told)


def node_of(event: Event, ready: int) -> int | None:
    """The node of an event by its row, where a node's ready is shown."""
    name, *cells = event.get("row", [""])
    if name in ("hard", "snapshot", "save", "apply"):
        return ready
    if name in ("send", "queue", "no-room"):
        return int(cells[0])
    if name == "deliver":
        return int(cells[1])
    if name in ("drop", "no-messages", "stopped", "error"):
        return None
    if name:
        return int(cells[0])
    found = re.match(r"(?:DEBUG )?(\d+) (?:refused Msg|removed entries|follower|precandidate|candidate|leader)", event["text"])
    return int(found[1]) if found else None


def nodes_are_those_of_the_rows() -> None:
    for name, data in scripts():
        ready = 0
        for event in traced(data, status_of(data)):
            if event.get("row", [""])[0] == "ready":
                ready = event["row"][1]
            same(f"the node of {event} in {name}", event.get("node"), node_of(event, ready))


def messages_keep_their_numbers() -> None:
    """Of the messages that say the same the earliest is delivered or dropped first; those without room are the last that were sent."""
    for name, data in scripts():
        sent, pending = 0, collections.deque[tuple[int, Row]]()
        for event in traced(data, status_of(data)):
            verb, *cells = event.get("row", [""])
            if "message" not in event:
                same(f"whether {event} is about a message", verb in ("send", "queue", "deliver", "drop", "no-room"), False)
                continue
            same("the members of a message", [event["from"], event["to"], event["type"], event["term"]], cells[:4])
            if verb in ("send", "queue"):
                sent += 1
                pending.append((sent, cells))
                number = sent
            elif verb == "no-room" and len(pending) <= MOST:
                number = sent = sent + 1
            else:
                like = [it for it in list(pending)[MOST if verb == "no-room" else 0:] if it[1] == cells]
                number = like[0][0]
                pending.remove(like[0])
            same(f"the number of {event} in {name}", event["message"], number)


def reasons_are_told() -> None:
    """Each ignored message, refused vote and removal has a reason, which `check --why` shows; nothing else has one, but a restart that loses something."""
    for name, data in scripts():
        events = traced(data, status_of(data))
        ignored = [event for event in events if event.get("row", [""])[0] == "ignored" or UNPRINTED.match(event["text"])]
        reasoned = [event for event in events if "reason" in event]
        lost = [event for event in reasoned if event.get("row", [""])[0] == "restarted"]
        same(f"what has a reason in {name}", [event for event in reasoned if event not in lost], ignored)
        same(f"what restarts lose in {name}", [event["reason"] for event in lost if not LOSSES.match(event["reason"])], [])
    with tempfile.TemporaryDirectory() as room:
        for path in TOUR:
            why = answer(["check", "--why", "-v", "--color", "never", put(room, path.name, path.read_bytes())])[0].decode()
            told = re.findall(r"^\^   (?:ignored: |refused: |lost: )?(.*)$", why, re.M)
            reasons = [event["reason"] for event in traced(path.read_bytes()) if "reason" in event]
            same(f"the reasons of {path.name}", [reason for reason in told if reason not in reasons], [])


class LosingNode(Node):
    """A plain node that says which entries an append removes."""

    lost: list[str]

    def put_after(self, numbered: list[tuple[int, Entry]]) -> None:
        before, first = self.entries, self.base + 1
        super().put_after(numbered)
        kept = next((k for k, (old, new) in enumerate(zip(before, self.entries)) if old is not new), min(len(before), len(self.entries)))
        if gone := [entry_text(at, entry) for at, entry in enumerate(before[kept:], first + kept)]:
            more = f" and {len(gone) - 3} more" if len(gone) > 3 else ""
            self.lost.append(", ".join(gone[:3]) + more + (" gives way" if len(gone) == 1 else " give way"))


class LosingCluster(Cluster):
    """A plain cluster, and the entries that its nodes lose."""

    def __init__(self) -> None:
        super().__init__()
        self.lost: list[str] = []

    def new_node(self, id: int, config: Config, index: int, content: bytes, options: Options) -> AnyNode:
        node = LosingNode(id, config, index, content, options)
        node.lost = self.lost
        return node


def what_gives_way_is_what_plain_nodes_remove() -> None:
    seen = 0
    for name, data in [*scripts(), ("several", SEVERAL)]:
        cluster = LosingCluster()
        for block in read_script(data).blocks:
            cluster.run(block.directive())
        told = [event["reason"] for event in traced(data, status_of(data)) if re.match(r"DEBUG \d+ removed entries", event["text"])]
        same(f"what gives way in {name}", told, cluster.lost)
        seen += len(told)
    same("whether enough gives way", seen > 3, True)


def refusals_are_those_of_run() -> None:
    with tempfile.TemporaryDirectory() as room:
        cases: list[list[str | pathlib.Path]] = [[], [room], [f"{room}/none"]]
        cases += [[put(room, name, data)] for name, data in REFUSED.items()]
        for words in cases:
            same(f"what is answered to {words}", answer(["trace", *words]), answer(["run", *words]))


def names_are_told_as_they_are() -> None:
    with tempfile.TemporaryDirectory() as room:
        for name in ("<!--<script>&'\"", "ключ \u202e.txt"):
            output = answer(["trace", put(room, name, b"")])[0]
            same("the name", events_of(output)[0]["script"], decoded(name))


def parts_of_the_format() -> list[str]:
    """What docs/FORMATS.md shows of traces: an object, and the regular expression for ShiViz."""
    text = (TOP / "docs" / "FORMATS.md").read_text().split("\n## `trace`\n")[1].split("\n## ")[0]
    return [part.strip() for part in text.split("```")[1::2]]


def object_of_the_format_is_there() -> None:
    data = b"add-nodes 3 voters=(1,2,3) index=10\n----\n\n# 1\n# 2\n# 3\ncampaign 1\n----\n\n# 4\n# 5\n# 6\n# 7\n# 8\n# 9\n# 10\nstabilize\n----\n"
    same("the object", parts_of_the_format()[0] in answer(["trace", "-"], data)[0].decode().splitlines(), True)


def shiviz_reads_it() -> None:
    """Each host's own count goes up by one, and a delivery knows what the sender knew."""
    form = re.compile(parts_of_the_format()[1].replace("(?<", "(?P<"))
    for path in TOUR:
        output = answer(["trace", path])[0]
        done = subprocess.run([sys.executable, TOP / "editors" / "to-shiviz"], input=output, capture_output=True, check=True)
        lines = done.stdout.decode().splitlines()
        found = [form.fullmatch(line) for line in lines]
        same(f"the lines of {path.name} that ShiViz doesn't read", [line for line, it in zip(lines, found) if not it], [])
        counts: collections.Counter[str] = collections.Counter()
        sent: dict[int, dict[str, int]] = {}
        events = [event for event in traced(path.read_bytes()) if "node" in event]
        same(f"how many events of {path.name} ShiViz has", len(found), len(events))
        for event, it in zip(events, found):
            assert it
            clock = json.loads(it["clock"])
            counts[it["host"]] += 1
            same("a host's own count", clock[it["host"]], counts[it["host"]])
            same("a count that nobody has reached", [node for node, count in clock.items() if count > counts[node]], [])
            verb = event.get("row", [""])[0]
            if verb in ("send", "queue"):
                sent[event["message"]] = clock
            if verb == "deliver":
                same("what the sender knew", [node for node, count in sent[event["message"]].items() if clock.get(node, 0) < count], [])


TRACES = [
    rows_are_those_of_the_page, members_are_in_order, directives_are_where_they_stand, texts_are_the_lines_that_are_printed, nodes_are_those_of_the_rows,
    messages_keep_their_numbers, reasons_are_told, what_gives_way_is_what_plain_nodes_remove, refusals_are_those_of_run, names_are_told_as_they_are, object_of_the_format_is_there, shiviz_reads_it,
]
