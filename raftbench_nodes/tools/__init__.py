"""The subcommands of raftbench-nodes."""
