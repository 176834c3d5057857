#!/bin/sh
# raftbench-nodes where it is installed: its packages are in ../share/raftbench.
exec python3 "$(dirname -- "$(readlink -f -- "$0")")/../share/raftbench/raftbench-nodes" "$@"
