package main

import (
	"bytes"
	"math"
	"sort"
	"strconv"
	"strings"

	"go.etcd.io/etcd/raft/v3"
	pb "go.etcd.io/etcd/raft/v3/raftpb"
	"go.etcd.io/etcd/raft/v3/tracker"

	"raftbench"
)

// etcd's values as the protocol has them.

var roles = map[raft.StateType]raftbench.Role{
	raft.StateFollower: raftbench.Follower, raft.StatePreCandidate: raftbench.PreCandidate,
	raft.StateCandidate: raftbench.Candidate, raft.StateLeader: raftbench.Leader,
}

var viewStates = map[tracker.StateType]string{
	tracker.StateProbe: "probe", tracker.StateReplicate: "replicate", tracker.StateSnapshot: "snapshot",
}

var transitions = map[string]pb.ConfChangeTransition{
	"auto": pb.ConfChangeTransitionAuto, "implicit": pb.ConfChangeTransitionJointImplicit,
	"explicit": pb.ConfChangeTransitionJointExplicit,
}

// What a MsgVote has as its context where the leader asked for the campaign.
var byTransfer = []byte("CampaignTransfer")

func (n *node) State() raftbench.State {
	now := n.raw.BasicStatus()
	// By a new role or leader alone etcd is ready too, though there is nothing to save, apply or send.
	*n.private.soft = &now.SoftState
	return raftbench.State{
		Role: roles[now.RaftState], Term: now.Term, Vote: now.Vote, Lead: now.Lead, Commit: now.Commit, Applied: now.Applied,
		Content: n.store.applied.Data, Config: shownConfig(&n.private.tracker.Config), Ready: n.raw.HasReady(),
	}
}

func (n *node) Ready() raftbench.Ready {
	n.ready = n.raw.Ready()
	shown := raftbench.Ready{Entries: shownEntries(n.ready.Entries), Committed: shownEntries(n.ready.CommittedEntries), Sync: n.ready.MustSync}
	if now := n.ready.HardState; !raft.IsEmptyHardState(now) {
		shown.Hard = &raftbench.Hard{Term: now.Term, Vote: now.Vote, Commit: now.Commit}
	}
	if at := n.ready.Snapshot.Metadata; at.Index > 0 {
		shown.Snapshot = &raftbench.Position{Index: at.Index, Term: at.Term}
	}
	for _, m := range n.ready.Messages {
		message := shownMessage(m)
		message.From = n.sender(m)
		shown.Messages = append(shown.Messages, message)
	}
	for _, r := range n.ready.ReadStates {
		id, err := strconv.ParseUint(string(r.RequestCtx), 10, 64)
		must(err)
		shown.Reads = append(shown.Reads, raftbench.Read{ID: id, Index: r.Index})
	}
	return shown
}

// sender is who sends a message: 3.5 has in `From` of a MsgTransferLeader whom the lead goes to, and of a MsgProp who passed it on first.
func (n *node) sender(m pb.Message) uint64 {
	if m.Type == pb.MsgTransferLeader {
		return n.id
	}
	return m.From
}

// LogEnd is where the log ends, with what isn't saved.
func (n *node) LogEnd() raftbench.LogEnd {
	unsaved, snapshot, durable := *n.private.unsaved, *n.private.restored, *n.private.unsavedFrom-1
	if len(unsaved) > 0 {
		last := unsaved[len(unsaved)-1]
		return raftbench.LogEnd{Last: last.Index, Term: last.Term, Durable: durable}
	}
	if snapshot != nil {
		return raftbench.LogEnd{Last: snapshot.Metadata.Index, Term: snapshot.Metadata.Term, Durable: durable}
	}
	last, err := n.store.LastIndex()
	must(err)
	return raftbench.LogEnd{Last: last, Term: n.savedTerm(last), Durable: durable}
}

func (n *node) savedTerm(index uint64) uint64 {
	term, err := n.store.Term(index)
	must(err)
	return term
}

// Log has the entries that aren't saved too, which the storage lacks.
func (n *node) Log() raftbench.Log {
	from, unsaved := *n.private.unsavedFrom, *n.private.unsaved
	if snapshot := *n.private.restored; snapshot != nil {
		at := snapshot.Metadata
		return raftbench.Log{Base: raftbench.Position{Index: at.Index, Term: at.Term}, Durable: from - 1, Entries: shownEntries(unsaved)}
	}
	first, err := n.store.FirstIndex()
	must(err)
	base := raftbench.Position{Index: first - 1, Term: n.savedTerm(first - 1)}
	var saved []pb.Entry
	if from > first {
		saved, err = n.store.Entries(first, from, math.MaxUint64)
		must(err)
	}
	return raftbench.Log{Base: base, Durable: from - 1, Entries: append(shownEntries(saved), shownEntries(unsaved)...)}
}

func (n *node) Views() []raftbench.View {
	views := []raftbench.View{}
	for id, p := range n.raw.Status().Progress {
		// etcd marks whom it heard of also where nothing looks at that.
		active := p.RecentActive || !n.checksQuorum
		views = append(views, raftbench.View{
			Node: id, State: viewStates[p.State], Match: p.Match, Next: p.Next, Inflight: p.Inflights.Count(),
			Waiting: p.ProbeSent && p.State == tracker.StateProbe, Active: active, Snapshot: p.PendingSnapshot,
		})
	}
	sort.Slice(views, func(i, j int) bool { return views[i].Node < views[j].Node })
	return views
}

func shownConfig(c *tracker.Config) raftbench.Config {
	return raftbench.Config{
		Voters: ascending(c.Voters[0]), Outgoing: ascending(c.Voters[1]),
		Learners: ascending(c.Learners), Next: ascending(c.LearnersNext), Auto: c.AutoLeave,
	}
}

func ascending(set map[uint64]struct{}) []uint64 {
	if len(set) == 0 {
		return nil
	}
	ids := make([]uint64, 0, len(set))
	for id := range set {
		at := len(ids)
		for ids = append(ids, id); at > 0 && ids[at-1] > id; at-- {
			ids[at] = ids[at-1]
		}
		ids[at] = id
	}
	return ids
}

func shownEntries(all []pb.Entry) []raftbench.Entry {
	shown := make([]raftbench.Entry, 0, len(all))
	for _, e := range all {
		shown = append(shown, shownEntry(e))
	}
	return shown
}

func shownEntry(e pb.Entry) raftbench.Entry {
	shown := raftbench.Entry{Term: e.Term, Index: e.Index}
	if e.Type == pb.EntryNormal {
		shown.Data = e.Data
		return shown
	}
	asked := changeOf(e).AsV2()
	shown.Change = &raftbench.Change{Words: strings.Fields(pb.ConfChangesToString(asked.Changes))}
	for name, transition := range transitions {
		if transition == asked.Transition {
			shown.Change.Transition = name
		}
	}
	return shown
}

// isOfRead tells whether a message has the id of a read in an entry, which no log has.
func isOfRead(of pb.MessageType) bool {
	return of == pb.MsgReadIndex || of == pb.MsgReadIndexResp
}

func shownMessage(m pb.Message) raftbench.Message {
	shown := raftbench.Message{
		Type: m.Type.String(), From: m.From, To: m.To, Term: m.Term, LogTerm: m.LogTerm, Index: m.Index, Commit: m.Commit,
		Reject: m.Reject, RejectHint: m.RejectHint, Transfer: bytes.Equal(m.Context, byTransfer), Own: m,
	}
	if !isOfRead(m.Type) {
		shown.Entries = shownEntries(m.Entries)
	}
	if s := m.Snapshot; m.Type == pb.MsgSnap {
		shown.Snapshot = &raftbench.Snapshot{Index: s.Metadata.Index, Term: s.Metadata.Term, Content: s.Data, Config: shownConfState(s.Metadata.ConfState)}
	}
	// Whom the lead goes to is in `From`, and 3.5 gives it a term that the request doesn't have.
	if m.Type == pb.MsgTransferLeader {
		shown.Target, shown.Term = m.From, 0
	}
	return shown
}

func shownConfState(c pb.ConfState) raftbench.Config {
	return raftbench.Config{Voters: c.Voters, Outgoing: c.VotersOutgoing, Learners: c.Learners, Next: c.LearnersNext, Auto: c.AutoLeave}
}
