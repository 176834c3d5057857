"""The runner's steps: what no directive does. They are comments above a directive, and both sides carry them out before it.

# network: reverse 2        messages to node 2 are delivered in reverse order
# network: double 2         they are delivered a second time after all of them, in reverse order
# network: late 2           the first of them is delivered last
# network: again 2 1        the last message from 1 that was delivered to node 2 is in flight once more
# network: cut 2 1          appends to node 2 keep one entry at most
# network: hold 2 1         messages from 2 to 1 are held back, later ones too
# network: release 2 1      they are released
# node: restart 2           node 2 loses what it hasn't saved, and starts again
# node: crash 2 before save     node 2 crashes and starts again after `ready`: nothing of that is saved
# node: crash 2 in save         .. the entries are saved, the hard state isn't
# node: crash 2 after save      .. all is saved, nothing is sent
# node: crash 2 before advance  .. all is saved and sent
# node: save 2              what is ready is saved and sent, and applied later: messages may come in between
# node: read 2              a linearizable read is requested at node 2
# node: snapshot-lost 1 2   node 1 is told that its snapshot to node 2 was lost; `snapshot-arrived`: that it arrived
# node: limit 1             nodes that are added later send one entry a message (`max_size_per_msg`)
# node: uncommitted 1       as leaders they take one payload at a time (`max_uncommitted_size`)
"""
from __future__ import annotations

import re
from typing import NamedTuple

from plain.script import Block

ONE, TWO = r"(\d{1,2})", r"(\d{1,2}) (\d{1,4})"
STEP = re.compile(
    rf"[ \t]*# (?:network: (?:(reverse|double|late) {ONE}|(cut|hold|release|again) {TWO})"
    rf"|node: (?:(restart|save|read) {ONE}|crash {ONE} (before save|in save|after save|before advance)|(snapshot-lost|snapshot-arrived) {TWO}|(limit|uncommitted) (\d{{1,7}})))[ \t]*",
)
# What a network does that keeps the order of each pair's messages.
UNORDERED = ("reverse", "double", "late", "again")
# The limits of the nodes that are added, by their steps.
LIMITED = {"limit": "max_size_per_msg", "uncommitted": "max_uncommitted_size"}


class RunnerStep(NamedTuple):
    """A step: `number` is how many entries a `cut` keeps, the other node of a pair, or a limit."""

    name: str
    node: int = 0
    number: int = 0

    def text(self) -> str:
        if self.name in ("reverse", "double", "late"):
            return f"# network: {self.name} {self.node}"
        if self.name in ("cut", "hold", "release", "again"):
            return f"# network: {self.name} {self.node} {self.number}"
        if self.name in ("before save", "in save", "after save", "before advance"):
            return f"# node: crash {self.node} {self.name}"
        if self.name in LIMITED:
            return f"# node: {self.name} {self.number}"
        more = f" {self.number}" if self.name.startswith("snapshot-") else ""
        return f"# node: {self.name} {self.node}{more}"


def step_of(line: str) -> RunnerStep | None:
    """The step that a comment is, or None."""
    found = STEP.fullmatch(line)
    if found is None:
        return None
    network, network_id, pair, pair_id, pair_number, node, node_id, crash_id, crash, snapshot, snapshot_id, snapshot_to, limit, limit_number = found.groups()
    if network:
        return RunnerStep(network, int(network_id))
    if pair:
        return RunnerStep(pair, int(pair_id), int(pair_number))
    if node:
        return RunnerStep(node, int(node_id))
    if crash:
        return RunnerStep(crash, int(crash_id))
    if limit:
        return RunnerStep(limit, 0, int(limit_number))
    return RunnerStep(snapshot, int(snapshot_id), int(snapshot_to))


def steps_above(block: Block) -> list[RunnerStep]:
    """The steps in the comments above a directive, in order."""
    found = (step_of(line.decode("latin-1")) for line in block.lead)
    return [step for step in found if step]


def is_stepped(blocks: list[Block]) -> bool:
    """Whether a script has steps of the runner, which the proved program knows nothing of."""
    return any(block.lead and steps_above(block) for block in blocks)
