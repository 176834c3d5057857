// Package raft is a small Raft: elections, replication and restarts. In raft_test.go raftbench checks it.
package raft

import "sort"

// Roles of a node.
const (
	Follower  = "follower"
	Candidate = "candidate"
	Leader    = "leader"
)

// The ticks of an election timeout.
const timeout = 3

// Entry is a proposal in the term of its leader.
type Entry struct {
	Term uint64
	Data []byte
}

// Message goes from one node to another. Of an append, Index and LogTerm are those of the entry before its entries.
type Message struct {
	Type                                              string
	From, To, Term, Index, LogTerm, Commit, LastIndex uint64
	Entries                                           []Entry
	Reject                                            bool
}

// Raft is a node. Its log begins after the entry at base.
type Raft struct {
	id, term, vote, lead, base, baseTerm, commit, applied uint64
	voters                                                []uint64
	role                                                  string
	log                                                   []Entry
	content, begun                                        []byte // the payloads that are applied, and those of the base
	votes                                                 map[uint64]bool
	next, match                                           map[uint64]uint64
	elapsed                                               int
	outbox                                                []Message
	isChanged                                             bool // something isn't saved
	saved                                                 struct {
		term, vote uint64
		log        []Entry
	}
}

// New is a follower that has applied all up to base.
func New(id uint64, voters []uint64, base, baseTerm uint64, content []byte) *Raft {
	return &Raft{id: id, voters: voters, role: Follower, base: base, baseTerm: baseTerm, commit: base, applied: base, content: content, begun: content}
}

func (r *Raft) last() uint64 { return r.base + uint64(len(r.log)) }

// termAt is an entry's term; it is false where the log has none.
func (r *Raft) termAt(index uint64) (uint64, bool) {
	if index == r.base {
		return r.baseTerm, true
	}
	if index < r.base || index > r.last() {
		return 0, false
	}
	return r.log[index-r.base-1].Term, true
}

func (r *Raft) send(m Message) {
	m.From, m.Term = r.id, r.term
	r.outbox = append(r.outbox, m)
}

// follow also drops what wasn't sent in an earlier term: an acknowledgement in it may be of an entry that is replaced now.
func (r *Raft) follow(term, lead uint64) {
	if term > r.term {
		r.term, r.vote, r.isChanged, r.outbox = term, 0, true, nil
	}
	r.role, r.lead, r.elapsed = Follower, lead, 0
}

// Tick lets a leader send, and others campaign after a timeout.
func (r *Raft) Tick() {
	if r.role == Leader {
		r.sendToAll()
	} else if r.elapsed++; r.elapsed >= timeout {
		_ = r.Campaign()
	}
}

// Campaign asks for votes.
func (r *Raft) Campaign() error {
	isVoter := false
	for _, voter := range r.voters {
		isVoter = isVoter || voter == r.id
	}
	if r.role == Leader || !isVoter {
		return nil
	}
	r.follow(r.term+1, 0)
	r.role, r.vote, r.votes = Candidate, r.id, map[uint64]bool{}
	term, _ := r.termAt(r.last())
	for _, voter := range r.voters {
		if voter != r.id {
			r.send(Message{Type: "MsgVote", To: voter, Index: r.last(), LogTerm: term})
		}
	}
	return nil
}

func (r *Raft) takeVote(from uint64) {
	r.votes[from] = true
	if 2*len(r.votes) <= len(r.voters) {
		return
	}
	r.role, r.lead, r.next, r.match = Leader, r.id, map[uint64]uint64{}, map[uint64]uint64{}
	for _, voter := range r.voters {
		r.next[voter] = r.last() + 1
	}
	_ = r.Propose(nil)
}

// Propose appends at a leader.
func (r *Raft) Propose(data []byte) error {
	if r.role == Leader {
		r.log, r.isChanged = append(r.log, Entry{r.term, data}), true
		r.sendToAll()
	}
	return nil
}

func (r *Raft) sendToAll() {
	for _, voter := range r.voters {
		if voter != r.id {
			r.sendAppend(voter)
		}
	}
}

func (r *Raft) sendAppend(to uint64) {
	before := r.next[to] - 1
	term, _ := r.termAt(before)
	r.send(Message{Type: "MsgApp", To: to, Index: before, LogTerm: term, Commit: r.commit, Entries: append([]Entry(nil), r.log[before-r.base:]...)})
	r.next[to] = r.last() + 1
}

// Step takes in a message.
func (r *Raft) Step(m Message) error {
	if m.Term > r.term {
		r.follow(m.Term, 0)
	}
	isEarlier := m.Term < r.term
	switch {
	case m.Type == "MsgVote":
		r.handleVote(m, isEarlier)
	case m.Type == "MsgApp":
		r.handleAppend(m, isEarlier)
	case isEarlier:
	case m.Type == "MsgVoteResp" && r.role == Candidate && !m.Reject:
		r.takeVote(m.From)
	case m.Type == "MsgAppResp" && r.role == Leader:
		r.handleAnswer(m)
	}
	return nil
}

func (r *Raft) handleVote(m Message, isEarlier bool) {
	last, _ := r.termAt(r.last())
	isNew := m.LogTerm > last || m.LogTerm == last && m.Index >= r.last()
	grants := !isEarlier && isNew && (r.vote == 0 || r.vote == m.From)
	if grants {
		r.vote, r.elapsed, r.isChanged = m.From, 0, true
	}
	r.send(Message{Type: "MsgVoteResp", To: m.From, Reject: !grants})
}

func (r *Raft) handleAppend(m Message, isEarlier bool) {
	if !isEarlier {
		r.follow(m.Term, m.From)
	}
	if term, is := r.termAt(m.Index); isEarlier || !is || term != m.LogTerm {
		r.send(Message{Type: "MsgAppResp", To: m.From, Index: m.Index, LastIndex: r.last(), Reject: true})
		return
	}
	for at, entry := range m.Entries {
		index := m.Index + uint64(at) + 1
		if term, is := r.termAt(index); !is || term != entry.Term {
			r.log, r.isChanged = append(r.log[:index-r.base-1:index-r.base-1], m.Entries[at:]...), true
			break
		}
	}
	held := m.Index + uint64(len(m.Entries))
	if told := least(m.Commit, held); told > r.commit {
		r.commit = told
	}
	r.send(Message{Type: "MsgAppResp", To: m.From, Index: held})
}

func (r *Raft) handleAnswer(m Message) {
	if !m.Reject {
		r.hold(m.From, m.Index)
	} else if next := least(m.Index, m.LastIndex+1); next > r.match[m.From] && next > r.base {
		r.next[m.From] = next
		r.sendAppend(m.From)
	}
}

// hold counts what a member has saved, and commits entries of the leader's term that a quorum has.
func (r *Raft) hold(member, index uint64) {
	if index > r.match[member] {
		r.match[member] = index
	}
	held := make([]uint64, 0, len(r.voters))
	for _, voter := range r.voters {
		held = append(held, r.match[voter])
	}
	sort.Slice(held, func(i, j int) bool { return held[i] > held[j] })
	index = held[len(held)/2]
	if term, _ := r.termAt(index); index > r.commit && term == r.term {
		r.commit = index
		r.sendToAll()
	}
}

// Advance says that all was saved and sent, and that what was committed before is applied.
func (r *Raft) Advance() {
	r.outbox, r.isChanged = nil, false
	for ; r.applied < r.commit; r.applied++ {
		r.content = append(r.content[:len(r.content):len(r.content)], r.log[r.applied-r.base].Data...)
	}
	r.saved.term, r.saved.vote, r.saved.log = r.term, r.vote, r.log[:len(r.log):len(r.log)]
	if r.role == Candidate {
		r.takeVote(r.id)
	} else if r.role == Leader {
		r.hold(r.id, r.last())
	}
}

// Restarted is a node that begins with what this one has saved. isAllSaved: what waited for Advance was saved too.
func (r *Raft) Restarted(isAllSaved bool) *Raft {
	if isAllSaved {
		r.Advance()
	}
	n := New(r.id, r.voters, r.base, r.baseTerm, r.begun)
	n.saved, n.term, n.vote, n.log = r.saved, r.saved.term, r.saved.vote, r.saved.log
	return n
}

func least(a, b uint64) uint64 {
	if a < b {
		return a
	}
	return b
}
