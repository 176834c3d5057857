package main

import (
	"bytes"
	"errors"
	"io"
	"io/ioutil"
	"reflect"
	"sort"

	"github.com/hashicorp/raft"
)

var errLost = errors.New("the request was lost")

// rpc is a call between nodes. A goroutine of the caller waits for `done`.
type rpc struct {
	from, to raft.ServerID
	request  interface{}
	snapshot []byte
	done     chan raft.RPCResponse
	ticks    int
}

// letter is one message between nodes: the request of an RPC, or the answer to it.
type letter struct {
	*rpc
	receiver raft.ServerID
	answer   *raft.RPCResponse
}

// transport is a raft.Transport that keeps each RPC: its request goes into `outbox`, and it ends when its answer is delivered, when it is
// lost, or when it is too old. One goroutine runs at a time, and none is preempted, so there is nothing to lock.
type transport struct {
	id        raft.ServerID
	requests  chan raft.RPC
	heartbeat func(raft.RPC)
	waiting   []*rpc                         // those of this node
	asked     map[*rpc]chan raft.RPCResponse // those of others that this node has to answer
	outbox    []letter
	isStopped bool
}

// call sends a request, waits until the RPC ends, and copies the response into `answer`.
func (t *transport) call(to raft.ServerID, request, answer interface{}, snapshot []byte) error {
	if t.isStopped {
		return errLost
	}
	made := &rpc{t.id, to, request, snapshot, make(chan raft.RPCResponse, 1), 0}
	t.waiting = append(t.waiting, made)
	t.outbox = append(t.outbox, letter{made, to, nil})
	said := <-made.done
	if said.Error == nil {
		reflect.ValueOf(answer).Elem().Set(reflect.ValueOf(said.Response).Elem())
	}
	return said.Error
}

// lose ends the RPC of a request that won't arrive.
func (given letter) lose() {
	if given.answer == nil {
		given.end(raft.RPCResponse{Error: errLost})
	}
}

// end ends an RPC. Nobody reads what comes after that.
func (made *rpc) end(said raft.RPCResponse) {
	select {
	case made.done <- said:
	default:
	}
}

// giveUp ends the RPCs that have waited for `ticks` ticks, ordered by receivers.
func (t *transport) giveUp(ticks int) {
	waiting := t.waiting
	t.waiting = nil
	sort.SliceStable(waiting, func(i, j int) bool { return waiting[i].to < waiting[j].to })
	for _, made := range waiting {
		if made.ticks++; made.ticks >= ticks {
			made.end(raft.RPCResponse{Error: errLost})
		} else {
			t.waiting = append(t.waiting, made)
		}
	}
}

// deliver gives a letter to this node. Heartbeats go past the main loop, as in the library's NetworkTransport.
func (t *transport) deliver(given letter) {
	if given.answer != nil {
		given.end(*given.answer)
		return
	}
	t.asked[given.rpc] = make(chan raft.RPCResponse, 1)
	request := raft.RPC{Command: given.request, Reader: bytes.NewReader(given.snapshot), RespChan: t.asked[given.rpc]}
	if isOnlyHeartbeat(given.request) {
		t.heartbeat(request)
	} else {
		t.requests <- request
	}
}

// gather puts the answers that the node has given into its outbox.
func (t *transport) gather() {
	for made, answer := range t.asked {
		select {
		case said := <-answer:
			t.outbox = append(t.outbox, letter{made, made.from, &said})
			delete(t.asked, made)
		default:
		}
	}
}

// isOnlyHeartbeat is the test of the library's NetworkTransport.
func isOnlyHeartbeat(request interface{}) bool {
	r, is := request.(*raft.AppendEntriesRequest)
	return is && r.Term != 0 && r.PrevLogEntry == 0 && r.PrevLogTerm == 0 && len(r.Entries) == 0 && r.LeaderCommitIndex == 0
}

func (t *transport) Consumer() <-chan raft.RPC                                { return t.requests }
func (t *transport) LocalAddr() raft.ServerAddress                            { return raft.ServerAddress(t.id) }
func (t *transport) EncodePeer(_ raft.ServerID, to raft.ServerAddress) []byte { return []byte(to) }
func (t *transport) DecodePeer(to []byte) raft.ServerAddress                  { return raft.ServerAddress(to) }
func (t *transport) SetHeartbeatHandler(handler func(raft.RPC))               { t.heartbeat = handler }

func (t *transport) AppendEntriesPipeline(raft.ServerID, raft.ServerAddress) (raft.AppendPipeline, error) {
	return nil, raft.ErrPipelineReplicationNotSupported
}

func (t *transport) AppendEntries(to raft.ServerID, _ raft.ServerAddress, asked *raft.AppendEntriesRequest, said *raft.AppendEntriesResponse) error {
	request := *asked // The library uses it again.
	return t.call(to, &request, said, nil)
}

func (t *transport) RequestVote(to raft.ServerID, _ raft.ServerAddress, asked *raft.RequestVoteRequest, said *raft.RequestVoteResponse) error {
	return t.call(to, asked, said, nil)
}

func (t *transport) TimeoutNow(to raft.ServerID, _ raft.ServerAddress, asked *raft.TimeoutNowRequest, said *raft.TimeoutNowResponse) error {
	return t.call(to, asked, said, nil)
}

func (t *transport) InstallSnapshot(to raft.ServerID, _ raft.ServerAddress, asked *raft.InstallSnapshotRequest, said *raft.InstallSnapshotResponse, data io.Reader) error {
	content, _ := ioutil.ReadAll(data)
	return t.call(to, asked, said, content)
}
