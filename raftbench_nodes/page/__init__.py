"""The page of a run: what your nodes did next to what the reference did, in the viewer of `raftbench page`."""
