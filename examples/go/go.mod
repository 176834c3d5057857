module raft

go 1.18

require raftbench v0.0.0

replace raftbench => ../../nodes/go
