"""Clusters that check Raft's promises after each call of a node."""
from __future__ import annotations

from typing import Any, Sequence

from plain.config import Config
from plain.node import Node
from plain.records import AnyNode, Message, Options, Ready
from plain.script import Block

from ..compare.runner_steps import steps_above
from ..compare.stage import HostedCluster, Reference, Stage, allowed
from ..process.process import Process
from .checker import NOTHING, Promises, Saved, name_of

# What a node has saved that nobody has looked at.
UNSAVED = Saved(0, 0, NOTHING)


class WatchedCluster(Stage):
    """A cluster with its promises."""

    promises: Promises
    brought: Message | None = None  # by the call that is under way
    image: Saved  # what a node will have saved once what was ready last is saved

    def new_node(self, id: int, config: Config, index: int, content: bytes, options: Options) -> AnyNode:
        if options.checkquorum and self.promises.shows("status", "config"):
            self.promises.activity.checking.add(id)
        return super().new_node(id, config, index, content, options)

    def touch(self, id: int) -> None:
        super().touch(id)
        is_restarted = self.what == "restart"
        if is_restarted:
            self.promises.look_at_restart(self.nodes[id])
        self.promises.look(self.nodes[id], self.nodes, is_restarted, self.brought)

    def call(self, id: int, name: str, *parts: Any) -> None:
        if name == "read":
            self.promises.ask_read(parts[0], id, self.nodes)
        self.brought = parts[0] if name == "step" else None
        super().call(id, name, *parts)
        self.brought = None

    def take_ready(self, id: int) -> Ready:
        ready = super().take_ready(id)
        self.promises.look_at_ready(self.nodes[id], ready, self.nodes, self.limit)
        self.image = self.promises.image(self.nodes[id], ready)
        return ready

    def begin(self, id: int) -> None:
        super().begin(id)
        self.promises.save(id, self.image)
        self.promises.send(id)

    def crash_while_saving(self, id: int, when: str) -> list[Message]:
        before, early = self.promises.saved.get(id, UNSAVED), super().crash_while_saving(id, when)
        if when == "after save":
            self.promises.save(id, self.image)
        elif when == "in save":
            self.promises.save(id, Saved(before.term, before.vote, self.image.entries))
        self.promises.send_early(self.nodes[id], early)
        return early

    def look_at_logs(self) -> None:
        self.promises.look_at_logs(self.nodes, self.touched)
        for id in sorted(self.touched):
            if unheard := self.promises.activity.unheard(self.nodes[id]):
                self.look_at_views(id, unheard)

    def look_at_views(self, id: int, unheard: set[int]) -> None:
        """Looks at what a leader says of members, of whom it hasn't heard some."""
        self.promises.look_at_views(self.nodes[id], self.nodes[id].views)


class WatchedHosts(WatchedCluster, HostedCluster):
    def __init__(self, process: Process, begins_at_0: bool = False) -> None:
        super().__init__(process, begins_at_0)
        self.promises = Promises(process.without)


class WatchedReference(WatchedCluster, Reference):
    def __init__(self, kind: type[Node], begins_at_0: bool = False) -> None:
        super().__init__(kind, begins_at_0)
        self.promises = Promises()


def breaks(cluster: WatchedReference, blocks: Sequence[Block], process: Process) -> set[str]:
    """The promises that a reference breaks in a script."""
    for block in blocks:
        cluster.carry_out(allowed(steps_above(block), process))
        cluster.look_at_logs()
        cluster.run(block.directive())
        cluster.look_at_logs()
    return set(map(name_of, cluster.promises.broken))
