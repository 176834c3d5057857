package main

import (
	"regexp"
	"sort"
	"strconv"
	"strings"

	"github.com/hashicorp/raft"

	"raftbench"
)

// The library's values as the protocol has them.

func (n *node) State() raftbench.State {
	term, commit, vote := n.stat("term"), n.stat("commit_index"), uint64(0)
	// A node that starts from a snapshot doesn't count it as committed until it hears a leader.
	if restored := n.stat("last_snapshot_index"); commit < restored {
		commit = restored
	}
	if voted, _ := n.store.GetUint64([]byte("LastVoteTerm")); voted == term {
		candidate, _ := n.store.Get([]byte("LastVoteCand"))
		vote = number(candidate)
	}
	return raftbench.State{
		Role: raftbench.Role(strings.ToLower(n.Raft.State().String())), Term: term, Vote: vote, Lead: number(n.Leader()), Commit: commit,
		Applied: n.applied, Content: n.content, Config: shownConfig(n.GetConfiguration().Configuration()),
		Ready: len(n.outbox) > 0 || n.applied != n.AppliedIndex(),
	}
}

// Ready is what was sent, ordered by receivers: the library's goroutines send to each of them on their own.
func (n *node) Ready() (ready raftbench.Ready) {
	sent := n.outbox
	n.outbox = nil
	sort.SliceStable(sent, func(i, j int) bool { return sent[i].receiver < sent[j].receiver })
	for _, one := range sent {
		ready.Messages = append(ready.Messages, shownLetter(one))
	}
	return ready
}

// Log is the end of the log that has no holes, or the last snapshot if that is newer.
func (n *node) Log() raftbench.Log {
	index, term, logs := n.stat("last_snapshot_index"), n.stat("last_snapshot_term"), []*raft.Log{}
	for at, _ := n.store.LastIndex(); at > 0 && at >= index; at-- {
		log := new(raft.Log)
		if n.store.GetLog(at, log) != nil {
			break
		}
		logs = append([]*raft.Log{log}, logs...)
	}
	if len(logs) > 0 && logs[0].Index-1 != index {
		index, term = logs[0].Index-1, 0
	}
	return raftbench.Log{Base: raftbench.Position{Index: index, Term: term}, Durable: n.LastIndex(), Entries: shownEntries(logs)}
}

// changes has the words of each change that was appended. The library's entry has the whole configuration.
var changes map[written][]string

// written is an entry. In clusters joined by hand, two leaders of a term may write different ones at an index.
type written struct {
	term, index uint64
	data        string
}

func writtenIn(log *raft.Log) written { return written{log.Term, log.Index, string(log.Data)} }

func shownEntries(logs []*raft.Log) (shown []raftbench.Entry) {
	for _, log := range logs {
		entry := raftbench.Entry{Index: log.Index, Term: log.Term, Data: log.Data}
		if log.Type == raft.LogConfiguration {
			entry.Change = &raftbench.Change{Transition: "auto", Words: append([]string{}, changes[writtenIn(log)]...)}
		}
		shown = append(shown, entry)
	}
	return shown
}

func shownLetter(given letter) raftbench.Message {
	shown := shownRequest(given)
	shown.Own, shown.From, shown.To = given, number(given.from), number(given.to)
	if given.answer == nil {
		return shown
	}
	shown = raftbench.Message{Own: given, From: shown.To, To: shown.From, Type: shown.Type + "Resp", Reject: given.answer.Error != nil}
	switch said := given.answer.Response.(type) {
	case *raft.RequestVoteResponse:
		shown.Term, shown.Reject = said.Term, !said.Granted
	case *raft.AppendEntriesResponse:
		request := given.request.(*raft.AppendEntriesRequest)
		shown.Term, shown.Reject, shown.Index = said.Term, !said.Success, request.PrevLogEntry+uint64(len(request.Entries))
		if !said.Success && !isOnlyHeartbeat(request) {
			shown.Index, shown.RejectHint = request.PrevLogEntry, said.LastLog
		}
	case *raft.InstallSnapshotResponse:
		shown.Type, shown.Term, shown.Reject = "MsgAppResp", said.Term, !said.Success
		shown.Index = given.request.(*raft.InstallSnapshotRequest).LastLogIndex
	}
	return shown
}

func shownRequest(given letter) raftbench.Message {
	switch asked := given.request.(type) {
	case *raft.RequestVoteRequest:
		return raftbench.Message{Type: "MsgVote", Term: asked.Term, Index: asked.LastLogIndex, LogTerm: asked.LastLogTerm, Transfer: asked.LeadershipTransfer}
	case *raft.AppendEntriesRequest:
		kind := map[bool]string{true: "MsgHeartbeat", false: "MsgApp"}[isOnlyHeartbeat(asked)]
		return raftbench.Message{
			Type: kind, Term: asked.Term, Index: asked.PrevLogEntry, LogTerm: asked.PrevLogTerm, Commit: asked.LeaderCommitIndex, Entries: shownEntries(asked.Entries),
		}
	case *raft.InstallSnapshotRequest:
		config := shownConfig(raft.DecodeConfiguration(asked.Configuration))
		snapshot := &raftbench.Snapshot{Index: asked.LastLogIndex, Term: asked.LastLogTerm, Content: given.snapshot, Config: config}
		return raftbench.Message{Type: "MsgSnap", Term: asked.Term, Snapshot: snapshot}
	default:
		return raftbench.Message{Type: "MsgTimeoutNow"}
	}
}

func shownConfig(c raft.Configuration) raftbench.Config {
	ids := map[raft.ServerSuffrage][]uint64{}
	for _, server := range c.Servers {
		ids[server.Suffrage] = append(ids[server.Suffrage], number(server.ID))
	}
	return raftbench.Config{Voters: ids[raft.Voter], Learners: ids[raft.Nonvoter]}
}

func configurationOf(c raftbench.Config) (made raft.Configuration) {
	for suffrage, ids := range [][]uint64{raft.Voter: c.Voters, raft.Nonvoter: c.Learners} {
		for _, id := range ids {
			made.Servers = append(made.Servers, raft.Server{Suffrage: raft.ServerSuffrage(suffrage), ID: idOf(id), Address: raft.ServerAddress(idOf(id))})
		}
	}
	return made
}

var logged, pointer = regexp.MustCompile(`(?m)^\. \[([A-Z]+)\] *(.*)$`), regexp.MustCompile(`0x[0-9a-f]+`)

// Events is what the library logged since they were asked for last, without the addresses that it prints.
func (n *node) Events() (events []raftbench.Event) {
	for _, line := range logged.FindAllStringSubmatch(n.said.String(), -1) {
		events = append(events, raftbench.Event{line[1], pointer.ReplaceAllString(line[2], "0x..")})
	}
	n.said.Reset()
	return events
}

// stat is a number of the library's Stats.
func (n *node) stat(name string) uint64 { return number(n.Stats()[name]) }

func idOf(id uint64) raft.ServerID { return raft.ServerID(strconv.FormatUint(id, 10)) }

// number is an id or a figure of the library; 0 where it has none.
func number[T ~string | ~[]byte](text T) uint64 {
	value, _ := strconv.ParseUint(string(text), 10, 64)
	return value
}
