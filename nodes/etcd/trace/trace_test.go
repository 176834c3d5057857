package raft

import (
	"encoding/json"
	"fmt"
	"os"
	"runtime"
	"strings"

	pb "go.etcd.io/etcd/raft/raftpb"
)

// Writes what the network of etcd's unit tests does to its nodes as a trace for nodes/replay: calls and answers of docs/OWN-NODES.md.

type object map[string]interface{}

// The trace is written to this file; without it the tests run as they are.
var traceFile = os.Getenv("RAFT_TRACE")

var tracer struct {
	out     *os.File
	network *network
	alone   *raft             // of a test without a network
	steps   int               // that were taken with it
	known   map[uint64]string // what each node was after its last call
	elapsed map[uint64]int
}

func init() {
	if traceFile != "" {
		stepHook = stepAlone
	}
}

// mostAlone is how many steps of one node are written: a test may take thousands by hand.
const mostAlone = 20

// stepAlone is a step that a test takes by hand, with a node of no network. The trace says that the node was changed before: so it isn't compared.
func stepAlone(r *raft, m pb.Message) error {
	if !isOfTest() || tracer.network != nil && tracer.network.peers[r.id] == stateMachine(r) || !canBeShown(r) {
		return r.stepped(m)
	}
	if tracer.alone != r {
		open()
		tracer.network, tracer.alone, tracer.steps = nil, r, 0
		write(object{"call": "reset", "name": testName()}, object{})
	}
	if tracer.steps++; tracer.steps > mostAlone {
		return r.stepped(m)
	}
	call := callOf(r, m)
	write(object{"call": "changed", "node": r.id}, object{"state": shownState(r)})
	err := r.stepped(m)
	if canBeShown(r) {
		write(call, object{"state": shownState(r)})
		write(object{"call": "log", "node": r.id}, shownLog(r))
	}
	return err
}

// canBeShown says whether a test has made up a node of which not even a log can be read.
func canBeShown(r *raft) (can bool) {
	defer func() { can = recover() == nil }()
	shownLog(r)
	return true
}

// isOfTest says whether a test itself takes a step.
func isOfTest() bool {
	caller, file, _, ok := runtime.Caller(3)
	return ok && strings.HasSuffix(file, "_test.go") && strings.Contains(runtime.FuncForPC(caller).Name(), ".Test")
}

// tracedStep is what `network.send` does with a message: it delivers it, and takes what the node sends.
func (nw *network) tracedStep(p stateMachine, m pb.Message) []pb.Message {
	r, is := p.(*raft)
	if !is || traceFile == "" {
		p.Step(m)
		return p.readMessages()
	}
	nw.begin()
	resume(r)
	left, call := len(r.msgs), callOf(r, m)
	p.Step(m)
	sent := p.readMessages()
	write(call, object{"state": shownState(r)})
	write(object{"call": "log", "node": r.id}, shownLog(r))
	if call["call"] != "changed" {
		write(object{"call": "ready", "node": r.id}, object{"ready": object{"messages": shownMessages(sent[left:])}})
		write(object{"call": "advance", "node": r.id}, object{"state": shownState(r)})
	}
	remember(r)
	return sent
}

// begin starts a script where a network is seen for the first time.
func (nw *network) begin() {
	if tracer.network == nw {
		return
	}
	open()
	tracer.alone, tracer.network, tracer.known, tracer.elapsed = nil, nw, map[uint64]string{}, map[uint64]int{}
	write(object{"call": "reset", "name": testName()}, object{})
}

// open begins the trace.
func open() {
	if tracer.out != nil {
		return
	}
	var err error
	if tracer.out, err = os.Create(traceFile); err != nil {
		panic(err)
	}
	without := []string{"applied", "content", "durable", "ready", "status", "sync", "torn"}
	write(object{"call": "hello", "protocol": 1}, object{"name": "etcd's unit tests", "protocol": 1, "without": without})
}

// resume writes what has happened to a node since its last call. A test may let time pass, or change a node by hand: a follower then
// starts from what it is, and of another node the trace says that it was changed.
func resume(r *raft) {
	known, passed := tracer.known[r.id], r.electionElapsed-tracer.elapsed[r.id]
	if known == image(r) && passed >= 0 {
		for ; passed > 0 && r.state != StateLeader; passed-- {
			write(object{"call": "tick", "node": r.id}, object{"state": shownState(r)})
		}
	} else if r.state == StateFollower && r.lead == None {
		log := shownLog(r)
		base := log["base"].(object)
		base["config"] = object{"voters": r.prs.VoterNodes(), "learners": r.prs.LearnerNodes()}
		options := object{"inflight": r.prs.MaxInflight, "prevote": r.preVote, "checkquorum": r.checkQuorum}
		if r.maxMsgSize != noLimit {
			options["max_size_per_msg"] = r.maxMsgSize
		}
		hard := object{"term": r.Term, "vote": r.Vote, "commit": r.raftLog.committed}
		saved := object{"hard": hard, "entries": log["entries"]}
		write(object{"call": "start", "node": r.id, "base": base, "options": options, "saved": saved}, object{"state": shownState(r)})
	} else {
		write(object{"call": "changed", "node": r.id}, object{"state": shownState(r)})
	}
}

func remember(r *raft) { tracer.known[r.id], tracer.elapsed[r.id] = image(r), r.electionElapsed }

// image is all that the reference knows of a node too.
func image(r *raft) string {
	text, err := json.Marshal([]interface{}{shownState(r), shownLog(r), r.prs.Config, r.preVote, r.checkQuorum, r.leadTransferee})
	if err != nil {
		panic(err)
	}
	return string(text)
}

// callOf is the call that a message stands for. Local messages are calls of the protocol's own.
func callOf(r *raft, m pb.Message) object {
	call := func(name string, parts object) object {
		parts["call"], parts["node"] = name, r.id
		return parts
	}
	switch {
	case m.Type == pb.MsgHup && m.Term == 0:
		return call("campaign", object{})
	case m.Type == pb.MsgBeat && r.state == StateLeader:
		return call("tick", object{})
	case m.Type == pb.MsgProp && m.From == m.To && len(m.Entries) == 1 && m.Entries[0].Type == pb.EntryNormal:
		return call("propose", object{"data": m.Entries[0].Data})
	case m.Type == pb.MsgTransferLeader:
		return call("transfer", object{"to": m.From})
	case m.Type == pb.MsgUnreachable:
		return call("report_unreachable", object{"to": m.From})
	case IsLocalMsg(m.Type) || m.Type == pb.MsgProp && len(m.Entries) != 1 || m.Type == pb.MsgReadIndex:
		return call("changed", object{}) // No call of the protocol does this.
	}
	return call("step", object{"message": shownMessage(m)})
}

func shownState(r *raft) object {
	role := strings.ToLower(strings.TrimPrefix(r.state.String(), "State"))
	s := r.prs.ConfState()
	config := object{"voters": s.Voters, "outgoing": s.VotersOutgoing, "learners": s.Learners, "next": s.LearnersNext, "auto": s.AutoLeave}
	return object{"role": role, "term": r.Term, "vote": r.Vote, "lead": r.lead, "commit": r.raftLog.committed, "config": config, "ready": false}
}

func shownLog(r *raft) object {
	first := r.raftLog.firstIndex()
	term, err := r.raftLog.term(first - 1)
	if err != nil {
		panic(err)
	}
	return object{"base": object{"index": first - 1, "term": term}, "entries": shownEntries(r.raftLog.allEntries())}
}

func shownEntries(entries []pb.Entry) []object {
	shown := []object{}
	for _, e := range entries {
		one := object{"term": e.Term, "index": e.Index, "data": e.Data}
		if e.Type != pb.EntryNormal {
			one["data"] = []byte(fmt.Sprint(e.Type, e.Data))
		}
		shown = append(shown, one)
	}
	return shown
}

func shownMessages(messages []pb.Message) []object {
	shown := []object{}
	for _, m := range messages {
		shown = append(shown, shownMessage(m))
	}
	return shown
}

func shownMessage(m pb.Message) object {
	shown := object{
		"type": m.Type.String(), "from": m.From, "to": m.To, "term": m.Term, "logTerm": m.LogTerm, "index": m.Index, "commit": m.Commit,
		"entries": shownEntries(m.Entries), "reject": m.Reject, "rejectHint": m.RejectHint, "transfer": string(m.Context) == string(campaignTransfer),
	}
	if m.Type == pb.MsgTransferLeader {
		shown["target"] = m.From
	}
	if s := m.Snapshot.Metadata; m.Type == pb.MsgSnap {
		config := object{"voters": s.ConfState.Voters, "learners": s.ConfState.Learners}
		shown["snapshot"] = object{"index": s.Index, "term": s.Term, "content": m.Snapshot.Data, "config": config}
	}
	return shown
}

func write(call, answer object) {
	for _, line := range []struct {
		mark string
		what object
	}{{"> ", call}, {"< ", answer}} {
		text, err := json.Marshal(line.what)
		if err != nil {
			panic(err)
		}
		fmt.Fprintf(tracer.out, "%s%s\n", line.mark, text)
	}
}

// testName is the name of the test that runs.
func testName() string {
	callers := make([]uintptr, 32)
	frames := runtime.CallersFrames(callers[:runtime.Callers(2, callers)])
	for {
		frame, more := frames.Next()
		if name := frame.Function[strings.LastIndex(frame.Function, ".")+1:]; strings.HasPrefix(name, "Test") {
			return name
		}
		if !more {
			return ""
		}
	}
}
