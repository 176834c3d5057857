"""Tests of raftbench-nodes: nodes behind the protocol next to the reference, in the tour, in cases, and in scripts from seeds; planted bugs; nodes that
misbehave. Run them after a change of nodes/, raftbench_nodes/, plain/, docs/OWN-NODES.md or of a rule of a node.
"""

RUNS = ("raftbench",)
