"""What it costs nodes to repair a long log, beside the reference: steps back by one entry each break no promise, and take many messages."""
from __future__ import annotations

from typing import NamedTuple

from ..compare.script import blocks_of, directive_of
from ..compare.stage import HostedCluster, Reference, Stage
from ..process.process import CallFailure
from ..protocol.capabilities import reduced
from .explorer import Explorer
from .library import TreeScript

# The classic whose last `stabilize` repairs a log.
REPAIR = "long-repair.txt"


class Cost(NamedTuple):
    messages: int
    entries: int

    def text(self) -> str:
        return f"{self.messages} messages with {self.entries} entries"


def repair_of(explorer: Explorer, given: TreeScript) -> str:
    """A line with both costs; none if the nodes fail or lack what the script needs."""
    chosen, process = explorer.chosen.comparison, explorer.process
    try:
        process.reset()
        theirs = cost_of(given, explorer, HostedCluster(process, chosen.begins_at_0))
    except CallFailure:
        return ""
    ours = cost_of(given, explorer, Reference(chosen.kind, chosen.begins_at_0))
    return f"{given.title}: the nodes need {theirs.text()}, the reference {ours.text()}" if theirs and ours else ""


def cost_of(given: TreeScript, explorer: Explorer, cluster: Stage) -> Cost | None:
    blocks = [reduced(block, explorer.process.hello) for block in blocks_of(given.steps)]
    last = max((at for at, step in enumerate(given.steps) if step.head.startswith("stabilize")), default=-1)
    cost = None
    for at, block in enumerate(blocks):
        if block is None:
            return None
        cluster.run(directive_of(block))
        if at == last:
            cost = Cost(len(cluster.sent), sum(len(message.entries) for message in cluster.sent))
    return cost
