package raft

import pb "go.etcd.io/etcd/raft/raftpb"

// stepHook, if set, is called instead of a step, and takes the step itself.
var stepHook func(*raft, pb.Message) error

// Step is etcd's, whose name here is `stepped`.
func (r *raft) Step(m pb.Message) error {
	if stepHook != nil {
		return stepHook(r, m)
	}
	return r.stepped(m)
}
