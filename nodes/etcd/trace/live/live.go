package main

import (
	"encoding/json"
	"fmt"
	"math/rand"
	"os"
	"path/filepath"
	"strconv"
	"time"

	pb "go.etcd.io/etcd/raft/v3/raftpb"

	"raftbench"
)

// A cluster of etcd's nodes that runs by the real clock: a goroutine a node, ticks of 10 ms, timeouts that are drawn, and a network that loses and
// delays messages, and cuts one node off now and then, so that leaders change while entries are in flight. Each node writes its calls and answers
// into a file of its own, as a trace for nodes/replay.
//
//     live FOLDER SECONDS

const liveNodes = 3

// An append has one entry: so a new leader brings what a follower lacks of earlier terms before its own.
const mostBytes = 1

// A node is cut off for this long, and then for as long none.
const cutOff = 150 * time.Millisecond

// answer is an object of the protocol, by its parts.
type answer map[string]interface{}

// member is a node with the trace that it writes.
type member struct {
	*node
	out     *os.File
	inbox   chan pb.Message
	propose chan []byte
}

func main() {
	seconds, err := strconv.Atoi(os.Args[2])
	must(err)
	members := map[uint64]*member{}
	ids := []uint64{1, 2, 3}
	for _, id := range ids {
		members[id] = begin(os.Args[1], id, ids)
	}
	done := make(chan struct{})
	for _, m := range members {
		go m.run(members, done)
	}
	for until, at := time.Now().Add(time.Duration(seconds)*time.Second), 0; time.Now().Before(until); at++ {
		members[ids[at%liveNodes]].propose <- []byte(fmt.Sprint(at, " "))
		time.Sleep(5 * time.Millisecond)
	}
	for range members {
		done <- struct{}{}
	}
}

func begin(folder string, id uint64, ids []uint64) *member {
	out, err := os.Create(filepath.Join(folder, fmt.Sprint("node", id, ".txt")))
	must(err)
	m := &member{out: out, inbox: make(chan pb.Message, 1000), propose: make(chan []byte, 1000)}
	base := raftbench.Snapshot{Index: 10, Term: 1, Config: raftbench.Config{Voters: ids}}
	m.node = start(raftbench.Start{Node: id, Base: base, Options: raftbench.Options{Inflight: 256, MaxSizePerMsg: mostBytes}})
	m.write(answer{"call": "hello", "protocol": 1}, answer{"name": "live cluster", "protocol": 1, "without": []string{"status", "sync"}})
	m.Settle()
	m.write(answer{"call": "start", "node": id, "at": seconds(), "base": base, "options": answer{"inflight": 256, "max_size_per_msg": mostBytes}}, m.said())
	return m
}

// run is a node's loop: one call at a time, and then all that is ready.
func (m *member) run(members map[uint64]*member, done chan struct{}) {
	ticks := time.NewTicker(10 * time.Millisecond)
	for {
		select {
		case <-done:
			return
		case <-ticks.C:
			m.tick()
		case data := <-m.propose:
			m.call("propose", answer{"data": data}, func() { m.declined(m.raw.Propose(data)) })
		case message := <-m.inbox:
			m.call("step", answer{"message": shownMessage(message)}, func() { m.declined(m.raw.Step(message)) })
		}
		for m.raw.HasReady() {
			m.handleReady(members)
		}
	}
}

// tick writes a tick; if it ended a random timeout, it is a campaign.
func (m *member) tick() {
	at, term := seconds(), m.State().Term
	m.raw.Tick()
	name := "tick"
	if m.State().Term > term {
		name = "campaign"
	}
	m.draw()
	m.write(answer{"call": name, "node": m.id, "at": at}, m.said())
}

func (m *member) call(name string, parts answer, carryOut func()) {
	parts["call"], parts["node"], parts["at"] = name, m.id, seconds()
	carryOut()
	m.draw()
	m.write(parts, m.said())
	m.write(answer{"call": "log", "node": m.id, "at": seconds()}, m.Log())
}

// draw draws a timeout where a role begins. The log of etcd tells where.
func (m *member) draw() {
	if m.log.drewTimeout {
		m.log.drewTimeout = false
		m.SetTimeout(electionTicks + rand.Intn(electionTicks))
	}
}

func (m *member) declined(err error) {
	if err != nil {
		m.log.Warning(err)
	}
}

// handleReady saves and applies, and then sends: a tenth of the messages is lost, all of a node that is cut off, and all are late.
func (m *member) handleReady(members map[uint64]*member) {
	at := seconds()
	shown := m.Ready()
	messages := m.ready.Messages
	m.write(answer{"call": "ready", "node": m.id, "at": at}, answer{"ready": shown})
	m.call("advance", answer{}, m.Advance)
	for _, message := range messages {
		message := message
		if rand.Intn(10) > 0 && !isCutOff(message.From) && !isCutOff(message.To) {
			time.AfterFunc(time.Duration(rand.Intn(8))*time.Millisecond, func() { members[message.To].inbox <- message })
		}
	}
}

// isCutOff says whether it is now a node's turn to be cut off.
func isCutOff(id uint64) bool {
	turn := uint64(time.Since(begun) / cutOff)
	return turn%2 == 1 && turn/2%liveNodes+1 == id
}

var begun = time.Now()

// seconds is the time since the cluster began. All nodes are on one machine, so their clocks agree.
func seconds() float64 { return time.Since(begun).Seconds() }

// said is the answer of a call that may have changed the node.
func (m *member) said() answer {
	events := m.log.taken()
	if events == nil {
		events = []raftbench.Event{}
	}
	return answer{"state": m.State(), "events": events}
}

func (m *member) write(asked answer, said interface{}) {
	one, err := json.Marshal(asked)
	must(err)
	other, err := json.Marshal(said)
	must(err)
	fmt.Fprintf(m.out, "> %s\n< %s\n", one, other)
}
