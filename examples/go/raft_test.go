package raft

import (
	"testing"

	"raftbench"
)

type node struct{ *Raft }

func start(s raftbench.Start) *node {
	return &node{New(s.Node, s.Base.Config.Voters, s.Base.Index, s.Base.Term, s.Base.Content)}
}

func (n *node) State() raftbench.State {
	return raftbench.State{
		Role: raftbench.Role(n.role), Term: n.term, Vote: n.vote, Lead: n.lead, Commit: n.commit, Applied: n.applied, Content: n.content,
		Config: raftbench.Config{Voters: n.voters}, Ready: n.isChanged || len(n.outbox) > 0 || n.applied < n.commit,
	}
}

func (n *node) Log() raftbench.Log {
	base := raftbench.Position{Index: n.base, Term: n.baseTerm}
	return raftbench.Log{Base: base, Durable: n.base + uint64(len(n.saved.log)), Entries: shown(n.base, n.log)}
}

func shown(before uint64, entries []Entry) (all []raftbench.Entry) {
	for at, e := range entries {
		all = append(all, raftbench.Entry{Term: e.Term, Index: before + uint64(at) + 1, Data: e.Data})
	}
	return all
}

func (n *node) Ready() (r raftbench.Ready) {
	for _, m := range n.outbox {
		r.Messages = append(r.Messages, raftbench.Message{
			Type: m.Type, From: m.From, To: m.To, Term: m.Term, LogTerm: m.LogTerm, Index: m.Index, Commit: m.Commit,
			Entries: shown(m.Index, m.Entries), Reject: m.Reject, RejectHint: m.LastIndex, Own: m,
		})
	}
	return r
}

func (n *node) Step(m raftbench.Message) error { return n.Raft.Step(m.Own.(Message)) }

func (n *node) Restart(saved raftbench.Saved) { n.Raft = n.Restarted(saved == raftbench.All) }

func TestRaft(t *testing.T) {
	without := []string{"inflight", "prevote", "checkquorum", "step_down_on_removal", "ready", "sync", "torn"}
	raftbench.Check(t, start, raftbench.About{Name: "small Raft", Without: without})
}
