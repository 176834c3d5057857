package raftbench

import (
	"bufio"
	"crypto/sha256"
	"encoding/hex"
	"errors"
	"fmt"
	"hash"
	"io"
	"path/filepath"
	"reflect"
	"runtime"
	"strings"
)

const version = 1

// Serve answers the calls of the bench until its input ends, or an error of reading or writing. N is the type of the nodes itself, not an
// interface, since its methods say what it can do before a node is started.
func Serve[N Node](in io.Reader, out io.Writer, start func(Start) N, about About) error {
	var none N
	if reflect.TypeOf(none) == nil {
		return errors.New("raftbench: start has to return the type of your nodes, not an interface")
	}
	h := &host{about: about, kind: none, start: func(s Start) Node { return start(s) }, nodes: map[uint64]Node{}, digest: sha256.New()}
	return h.serve(bufio.NewReaderSize(in, 1<<16), bufio.NewWriterSize(out, 1<<16))
}

// host has the nodes of a script.
type host struct {
	about About
	kind  Node // only its methods are looked at
	start func(Start) Node
	nodes map[uint64]Node
	// What nodes gave since `reset`: a message's number is its place.
	given []Message
	// The answers of so many calls are hidden: a digest is shown in their place.
	hidden int
	digest hash.Hash
}

func (h *host) serve(in *bufio.Reader, out *bufio.Writer) error {
	put, c := line{}, &call{}
	for {
		asked, err := in.ReadSlice('\n')
		if errors.Is(err, bufio.ErrBufferFull) {
			begun := append([]byte{}, asked...)
			asked, err = in.ReadBytes('\n')
			asked = append(begun, asked...)
		}
		if errors.Is(err, io.EOF) {
			return nil
		} else if err != nil {
			return err
		}
		if err := c.read(asked); err != nil {
			return fmt.Errorf("raftbench: not a call: %w", err)
		}
		if _, err := out.Write(h.shownOrHidden(c, &put)); err != nil {
			return err
		}
		// Calls may come in batches: then the answers go out together.
		if in.Buffered() == 0 {
			if err := out.Flush(); err != nil {
				return err
			}
		}
	}
}

// shownOrHidden is what is written after a call: its answer; or nothing, and after the last call that `digest` counts, a digest of their
// answers.
func (h *host) shownOrHidden(c *call, put *line) []byte {
	if c.Call == "digest" {
		h.hidden = c.Calls
		h.digest.Reset()
		return nil
	}
	*put = append(h.answered(c, append((*put)[:0], '{')), '}', '\n')
	if h.hidden == 0 {
		return *put
	}
	h.digest.Write(*put)
	if h.hidden--; h.hidden > 0 {
		return nil
	}
	return append(line{'{'}.word("digest", hex.EncodeToString(h.digest.Sum(nil))), '}', '\n')
}

// answered adds the answer to a call; a panic is its error.
func (h *host) answered(c *call, put line) (answer line) {
	begun := len(put)
	defer func() {
		if fault := recover(); fault != nil {
			answer = put[:begun].any("error", fmt.Sprint("panic: ", fault)).any("at", placeOfPanic(h.about.Source))
		}
	}()
	answer, err := h.answer(c, put)
	if err != nil {
		return put[:begun].any("error", err.Error())
	}
	return answer
}

// placeOfPanic is where the source panicked: in the library's part of it, or below what panics and recovers.
func placeOfPanic(source string) string {
	pcs := make([]uintptr, 64)
	frames := runtime.CallersFrames(pcs[:runtime.Callers(4, pcs)])
	for {
		frame, more := frames.Next()
		isRuntime := strings.HasPrefix(frame.Function, "runtime.")
		if source == "" && !isRuntime || source != "" && strings.Contains(frame.File, source) {
			return fmt.Sprintf("%s:%d", filepath.Base(frame.File), frame.Line)
		}
		if !more {
			return ""
		}
	}
}

func (h *host) answer(c *call, put line) (line, error) {
	switch c.Call {
	case "hello":
		return h.hello(put), nil
	case "reset":
		h.reset()
		return put, nil
	case "start":
		n := h.start(c.Start)
		h.nodes[c.Node] = n
		return settled(n, put, nil), nil
	}
	n := h.nodes[c.Node]
	if n == nil {
		return nil, fmt.Errorf("there is no node %d", c.Node)
	}
	switch c.Call {
	case "log":
		return put.log(n.Log()), nil
	case "ready":
		r, begun := n.Ready(), len(h.given)
		for _, m := range r.Messages {
			h.keep(m)
		}
		return append(append(put.name("ready"), '{').ready(r, begun), '}'), nil
	case "snapshot":
		if n, is := n.(Snapshotter); is {
			m := n.SnapshotFor(c.To)
			h.keep(m)
			return append(append(put.name("message"), '{').message(m, len(h.given)-1), '}'), nil
		}
	case "status":
		if n, is := n.(Viewer); is {
			return put.views(n.Views()), nil
		}
	case "step":
		return h.step(n, c, put)
	}
	return h.change(n, c, put)
}

func (h *host) hello(put line) line {
	without, calls := append([]string{}, h.about.Without...), []string{}
	for _, each := range optional {
		if !each.has(h.kind) {
			without = append(without, each.call)
		}
	}
	for _, each := range beyond {
		if each.has(h.kind) {
			calls = append(calls, each.call)
		}
	}
	put = put.word("name", h.about.Name).number("protocol", version).any("without", without).any("calls", calls)
	put = put.any("always", append([]string{}, h.about.Always...)).any("limits", append([]string{}, h.about.Limits...))
	put = put.truth("open", h.about.Open).truth("ordered", h.about.Ordered).truth("apart", h.about.Apart)
	return put.truth("batch", true).truth("digest", true)
}

func (h *host) reset() {
	for _, n := range h.nodes {
		if n, is := n.(Stopper); is {
			n.Stop()
		}
	}
	h.nodes, h.given = map[uint64]Node{}, nil
	if h.about.Reset != nil {
		h.about.Reset()
	}
}

// keep notes a message that a node gave, as it is now.
func (h *host) keep(m Message) {
	m.Entries = append([]Entry(nil), m.Entries...)
	h.given = append(h.given, m)
}

// numbered is a message that was given, of which the node may change its own copy.
func (h *host) numbered(number int) (Message, error) {
	if number < 0 || number >= len(h.given) {
		return Message{}, fmt.Errorf("no message %d was given", number)
	}
	m := h.given[number]
	m.Entries = append([]Entry(nil), m.Entries...)
	return m, nil
}

// message is what the bench gives back: of an append it may have cut the entries.
func (h *host) message(g *given) (Message, error) {
	if g.Number == nil {
		return g.Message, nil
	}
	m, err := h.numbered(*g.Number)
	if len(g.Entries) < len(m.Entries) {
		m.Entries = m.Entries[:len(g.Entries):len(g.Entries)]
	}
	return m, err
}

// step takes in one message or several.
func (h *host) step(n Node, c *call, put line) (line, error) {
	if c.Message != nil {
		m, err := h.message(c.Message)
		if err != nil {
			return nil, err
		}
		return settled(n, put, func() error { return n.Step(m) }), nil
	}
	var all []Message
	for _, number := range c.Numbers {
		m, err := h.numbered(number)
		if err != nil {
			return nil, err
		}
		all = append(all, m)
	}
	for _, each := range c.Several {
		m, err := h.message(each)
		if err != nil {
			return nil, err
		}
		all = append(all, m)
	}
	var events []Event
	put = put.list("states", len(all), func(l line, at int) line {
		events = append(events, changed(n, func() error { return n.Step(all[at]) })...)
		return l.state(n.State())
	})
	return put.events(events), nil
}

// change carries a call out that changes a node.
func (h *host) change(n Node, c *call, put line) (line, error) {
	var lost Message
	if c.Call == "lost" {
		var err error
		if lost, err = h.lost(c); err != nil {
			return nil, err
		}
	}
	does := action(n, c, lost)
	if does == nil {
		return nil, fmt.Errorf("there is no call %q", c.Call)
	}
	put = settled(n, put, does)
	if n, is := n.(LogEnder); is && (c.Call == "advance" || c.Call == "restart") {
		put = put.logEnd(n.LogEnd())
	}
	return put, nil
}

func (h *host) lost(c *call) (Message, error) {
	if c.Message != nil {
		return h.message(c.Message)
	}
	if c.Number == nil {
		return Message{}, errors.New("lost: there is neither a message nor a number")
	}
	return h.numbered(*c.Number)
}

// settled adds the answer of a call that may change a node, after it.
func settled(n Node, put line, does func() error) line {
	events := changed(n, does)
	return append(append(put.name("state"), '{').state(n.State()), '}').events(events)
}

// changed does what changes a node, and answers its events. What it declines is one of them.
func changed(n Node, does func() error) []Event {
	var declined error
	if n, is := n.(Preparer); is {
		n.Prepare()
	}
	if does != nil {
		declined = does()
	}
	if n, is := n.(Settler); is {
		n.Settle()
	}
	var events []Event
	if n, is := n.(Eventer); is {
		events = n.Events()
	}
	if declined != nil {
		events = append(events, Event{"WARN", declined.Error()})
	}
	return events
}
