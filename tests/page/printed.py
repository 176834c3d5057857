"""What a script prints where everything is shown: an account of its run in which no row of its page has a part.

Each directive runs at level `debug`, and behind it each node's state, log and views are printed. docs/SCRIPTS.md has the lines. The
program prints them where it is built, and else the plain bench.
"""
from __future__ import annotations

import functools
import re
import subprocess
from collections.abc import Sequence
from typing import NamedTuple

from plain.cluster import Cluster
from plain.script import Block, joined_head, read_script, read_with_lines
from tests.harness import PROGRAM
from tests.page.program import MOST_SECONDS, found

MOST_NODES = 32
LEVEL = re.compile(rb"[ \t]log-level=[^ \t]*")
STATE = re.compile(r'(\d+) (\w+) term=(\d+) vote=(\d+) lead=(\d+) commit=(\d+) applied=(\d+) content=(\d+):"(.*)"')
BASE = re.compile(r"base=(\d+)/(\d+) durable=(\d+) commit=\d+ applied=\d+")
ENTRY = re.compile(r"(\d+)/(\d+) (.*?)( unsaved)?")
VIEW = re.compile(r"(\d+) (\w+) match=(\d+) next=(\d+) inflight=(\d+)( waiting)?(?: snapshot=(\d+))?( inactive)?")


class Numbers(NamedTuple):
    """What stands of a node in its line of `raft-state`, and in the first line of its log."""
    term: int
    vote: int
    lead: int
    commit: int
    applied: int
    base_term: int
    base: int
    durable: int


class Node(NamedTuple):
    """A node as it is printed. Entries are a term and a body by index; a view is what its line has, in order, or None."""
    role: str
    numbers: Numbers
    content: tuple[int, str]
    entries: dict[int, tuple[int, str]]
    config: str
    views: list[tuple[str, ...]]

    def last(self) -> int:
        return max(self.entries, default=self.numbers.base)


class Step(NamedTuple):
    """A directive: the line of its head, what it printed, and each node after it by id."""
    line: int
    lines: list[str]
    nodes: dict[int, Node]


def most_nodes(blocks: Sequence[Block]) -> int:
    """How many nodes there are at most."""
    added = [it.arguments[0].key for it in (block.directive() for block in blocks) if it.name == b"add-nodes"]
    return min(MOST_NODES, sum(int(count) for count in added if count.isdigit()))


def shown_script(data: bytes) -> tuple[bytes, int]:
    """The script with everything shown: in the place of each directive so many."""
    blocks = read_script(data).blocks
    ids = range(1, most_nodes(blocks) + 1)
    asked = [b"raft-state", *(b"raft-log %d" % id for id in ids), *(b"status %d" % id for id in ids)]
    texts = []
    for block in blocks:
        head = LEVEL.sub(b"", joined_head(block.head))
        texts += [b"log-level debug\n----\n\n", block._replace(lead=(), head=(head,)).text(()), *(text + b"\n----\n\n" for text in asked)]
    return b"".join(texts), len(asked) + 2


def outputs_of(script: bytes) -> list[list[str]]:
    """What each directive prints, as lists of lines."""
    if found():
        done = subprocess.run([PROGRAM, "rewrite", "-"], input=script, capture_output=True, check=True, timeout=MOST_SECONDS)
        return [[line.decode() for line in block.expected] for block in read_script(done.stdout).blocks]
    cluster = Cluster()
    return [cluster.run(block.directive()) for block in read_script(script).blocks]


def parts_of(form: re.Pattern[str], line: str) -> tuple[str, ...]:
    """The groups of a line that has this form."""
    found = form.fullmatch(line)
    assert found, line
    return found.groups()


def node_of(state: str, log: Sequence[str], status: Sequence[str]) -> tuple[int, Node]:
    """A node of its line of `raft-state` and of what `raft-log` and `status` print of it."""
    id, role, *hard, length, end = parts_of(STATE, state)
    entries = [parts_of(ENTRY, line) for line in log[1:]]
    views = [parts_of(VIEW, line) for line in status[1:]]
    numbers = Numbers(*map(int, [*hard, *parts_of(BASE, log[0])]))
    bodies = {int(index): (int(term), body) for term, index, body, _ in entries}
    return int(id), Node(role, numbers, (int(length), end), bodies, status[0], views)


def nodes_of(states: Sequence[str], printed: Sequence[Sequence[str]]) -> dict[int, Node]:
    """Each node by id, of the lines of `raft-state`, and of all logs and then all that `status` printed."""
    half = len(printed) // 2
    states = [] if states == ["ok"] else states
    return dict(node_of(*lines) for lines in zip(states, printed, printed[half:]))


@functools.cache
def steps_of(data: bytes) -> list[Step]:
    """What each directive of a script printed and left standing."""
    script, group = shown_script(data)
    outputs = outputs_of(script)
    groups = [outputs[at:at + group] for at in range(0, len(outputs), group)]
    return [Step(line, lines, nodes_of(states, rest)) for line, (_, lines, states, *rest) in zip(read_with_lines(data)[1], groups)]
