package raftbench

// The objects of docs/OWN-NODES.md, which encoding/json reads and writes as the protocol has them. Indexes, terms and ids are from 0 to 2^63 - 1.

// Start is what a node begins with: its log begins after Base, all of which is saved, committed and applied.
type Start struct {
	Node    uint64   `json:"node"`
	Base    Snapshot `json:"base"`
	Options Options  `json:"options"`
}

// Options are those of `add-nodes`.
type Options struct {
	Inflight          int  `json:"inflight"`
	PreVote           bool `json:"prevote"`
	CheckQuorum       bool `json:"checkquorum"`
	StepDownOnRemoval bool `json:"step_down_on_removal"`
	// Limits, if About has them.
	MaxSizePerMsg      uint64 `json:"max_size_per_msg"`
	MaxUncommittedSize uint64 `json:"max_uncommitted_size"`
}

// Snapshot is a state machine after the entry at Index: what it came to, and the members.
type Snapshot struct {
	Index   uint64 `json:"index"`
	Term    uint64 `json:"term"`
	Content []byte `json:"content,omitempty"` // the payloads, one after the other
	Config  Config `json:"config"`
}

// Config has the members: Outgoing are voters of the old half of a joint configuration, Next are learners once that is left.
type Config struct {
	Voters   []uint64 `json:"voters"`
	Outgoing []uint64 `json:"outgoing,omitempty"`
	Learners []uint64 `json:"learners,omitempty"`
	Next     []uint64 `json:"next,omitempty"`
	Auto     bool     `json:"auto,omitempty"` // the joint configuration is left by itself
}

// Change is a change of members, such as {"auto", {"v3", "l4"}}.
type Change struct {
	Transition string   `json:"transition"`
	Words      []string `json:"words"`
}

// Position is an entry's.
type Position struct {
	Index uint64 `json:"index"`
	Term  uint64 `json:"term"`
}

// Entry has data, or a change.
type Entry struct {
	Term   uint64  `json:"term"`
	Index  uint64  `json:"index"`
	Data   []byte  `json:"data,omitempty"`
	Change *Change `json:"change,omitempty"`
}

// Message has the parts that its type has in docs/OWN-NODES.md.
type Message struct {
	Type       string    `json:"type"`
	From       uint64    `json:"from"`
	To         uint64    `json:"to"`
	Term       uint64    `json:"term,omitempty"`
	LogTerm    uint64    `json:"logTerm,omitempty"`
	Index      uint64    `json:"index,omitempty"`
	Commit     uint64    `json:"commit,omitempty"`
	Entries    []Entry   `json:"entries,omitempty"`
	Reject     bool      `json:"reject,omitempty"`
	RejectHint uint64    `json:"rejectHint,omitempty"`
	Transfer   bool      `json:"transfer,omitempty"`
	Target     uint64    `json:"target,omitempty"`
	Snapshot   *Snapshot `json:"snapshot,omitempty"`
	BeforeSave bool      `json:"before_save,omitempty"` // it goes out before its Ready is saved
	// The library's own form of it. The node that it goes to gets the same value.
	Own any `json:"-"`
}

// Role of a node.
type Role string

const (
	Follower     Role = "follower"
	PreCandidate Role = "precandidate"
	Candidate    Role = "candidate"
	Leader       Role = "leader"
)

// State is what is compared after each call. What About.Without names may be left as it is.
type State struct {
	Role    Role   `json:"role"`
	Term    uint64 `json:"term"`
	Vote    uint64 `json:"vote"` // 0: for nobody
	Lead    uint64 `json:"lead"` // 0: unknown
	Commit  uint64 `json:"commit"`
	Applied uint64 `json:"applied"`
	Content []byte `json:"content"` // what the state machine came to
	Config  Config `json:"config"`
	Ready   bool   `json:"ready"` // whether there is something to save, apply or send
}

// Hard is what of a state is saved.
type Hard struct {
	Term   uint64 `json:"term"`
	Vote   uint64 `json:"vote"`
	Commit uint64 `json:"commit"`
}

// Read is a read that may be answered by what is applied up to Index.
type Read struct {
	ID    uint64 `json:"id"`
	Index uint64 `json:"index"`
}

// Ready is what has to be done.
type Ready struct {
	Hard      *Hard     `json:"hard,omitempty"`     // if it changed
	Snapshot  *Position `json:"snapshot,omitempty"` // to save and apply
	Entries   []Entry   `json:"entries"`            // to save
	Committed []Entry   `json:"committed"`          // to apply
	Messages  []Message `json:"messages"`
	Sync      bool      `json:"sync"` // messages go out after all is saved
	Reads     []Read    `json:"reads,omitempty"`
}

// Log has the entries after Base; those up to Durable are saved.
type Log struct {
	Base    Position `json:"base"`
	Durable uint64   `json:"durable"`
	Entries []Entry  `json:"entries"`
}

// LogEnd has index and term of the last entry, and the last index that is saved.
type LogEnd struct {
	Last    uint64 `json:"last"`
	Term    uint64 `json:"term"`
	Durable uint64 `json:"durable"`
}

// View is what a leader knows of a member. State is probe, replicate or snapshot.
type View struct {
	Node     uint64 `json:"node"`
	State    string `json:"state"`
	Match    uint64 `json:"match"`
	Next     uint64 `json:"next"`
	Inflight int    `json:"inflight"`
	Waiting  bool   `json:"waiting"`
	Active   bool   `json:"active"`
	Snapshot uint64 `json:"snapshot"`
}

// Event is a level, which is DEBUG, INFO, WARN, ERROR or FATAL, and a line.
type Event [2]string
