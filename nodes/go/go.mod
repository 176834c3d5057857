module raftbench

go 1.18
