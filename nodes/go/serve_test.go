package raftbench

import (
	"bytes"
	"crypto/sha256"
	"errors"
	"fmt"
	"io"
	"os"
	"reflect"
	"strings"
	"testing"
)

// small has the eight methods, and notes what it is asked.
type small struct {
	id      uint64
	data    []byte
	entries []Entry
}

func (n *small) State() State {
	return State{Role: Follower, Term: 2, Commit: n.id, Content: n.data, Config: Config{Voters: []uint64{1, 2}}, Ready: len(n.entries) > 0}
}

func (n *small) Log() Log {
	return Log{Base: Position{Index: 3, Term: 1}, Durable: 4, Entries: n.entries}
}

func (n *small) Campaign() error { return errors.New("not \"now\"") }

func (n *small) Tick() { _ = n.entries[7] }

func (n *small) Propose(data []byte) error {
	n.data = append(n.data, data...)
	return nil
}

func (n *small) Step(m Message) error {
	n.data = append(n.data, []byte(fmt.Sprint(m.Own, len(m.Entries), " "))...)
	for at := range m.Entries {
		m.Entries[at].Data = []byte("changed")
	}
	return nil
}

func (n *small) Ready() Ready {
	n.entries = []Entry{{Term: 2, Index: 4, Data: []byte("x")}, {Term: 2, Index: 5, Change: &Change{"auto", []string{"v3"}}}}
	first := Message{Type: "MsgApp", From: 1, To: 2, Term: 2, Entries: n.entries, Own: "first"}
	return Ready{Hard: &Hard{2, 1, 3}, Messages: []Message{first, {Type: "MsgVoteResp", From: 1, To: 2, Reject: true, Own: "second"}}}
}

func (n *small) Advance() { n.entries[0].Index, n.entries = 99, nil }

// large has more.
type large struct {
	small
	lost []any
}

func (n *large) Restart(saved Saved)      { n.data = []byte(saved) }
func (n *large) Lose(m Message)           { n.lost = append(n.lost, m.Own) }
func (n *large) Transfer(to uint64) error { return fmt.Errorf("to %d: é", to) }
func (n *large) LogEnd() LogEnd           { return LogEnd{5, 2, 4} }
func (n *large) Events() []Event          { return []Event{{"INFO", fmt.Sprint(n.lost)}} }
func (n *large) SnapshotFor(to uint64) Message {
	return Message{Type: "MsgSnap", From: n.id, To: to, Snapshot: &Snapshot{Index: 3, Term: 1, Content: []byte("ab"), Config: Config{Learners: []uint64{7}}}}
}

func startSmall(s Start) *small { return &small{id: s.Node, data: s.Base.Content} }
func startLarge(s Start) *large { return &large{small: *startSmall(s)} }

const (
	begun = `{"role":"follower","term":2,"vote":0,"lead":0,"commit":1,"applied":0,"content":"%s","config":{"voters":[1,2]},"ready":%t}`
	start = `{"call": "start", "node": 1, "base": {"index": 3, "term": 1, "content": "YWI=", "config": {"voters": [1, 2]}}, "options": {"inflight": 1}}`
)

func state(content string, ready bool) string { return fmt.Sprintf(begun, content, ready) }

// conversation has calls and what is answered, both as lines.
func conversation(t *testing.T, serve func(io.Reader, io.Writer) error, pairs ...string) {
	t.Helper()
	var in, want []string
	for at := 0; at < len(pairs); at += 2 {
		in = append(in, pairs[at]+"\n")
		if pairs[at+1] != "" {
			want = append(want, pairs[at+1])
		}
	}
	var out bytes.Buffer
	if err := serve(strings.NewReader(strings.Join(in, "")), &out); err != nil {
		t.Fatal(err)
	}
	got := strings.Split(strings.TrimSuffix(out.String(), "\n"), "\n")
	if !reflect.DeepEqual(got, want) {
		t.Errorf("answers:\n%s\nwant:\n%s", strings.Join(got, "\n"), strings.Join(want, "\n"))
	}
}

func serveSmall(in io.Reader, out io.Writer) error {
	return Serve(in, out, startSmall, About{Name: "s", Without: []string{"log"}, Open: true, Source: "serve_test.go"})
}

func serveLarge(in io.Reader, out io.Writer) error {
	return Serve(in, out, startLarge, About{Name: "l"})
}

func TestHello(t *testing.T) {
	lacks := `"propose_change","set_timeout",%s"forget_leader","report_unreachable","compact",%s"status"]`
	rest := `"always":[],"limits":[],"open":%t,"ordered":false,"apart":false,"batch":true,"digest":true}`
	conversation(t, serveSmall, `{"call": "hello", "protocol": 1}`,
		`{"name":"s","protocol":1,"without":["log",`+fmt.Sprintf(lacks, `"transfer",`, `"snapshot",`)+`,"calls":[],`+fmt.Sprintf(rest, true))
	conversation(t, serveLarge, `{"call": "hello", "protocol": 1}`,
		`{"name":"l","protocol":1,"without":[`+fmt.Sprintf(lacks, "", "")+`,"calls":["restart","lost"],`+fmt.Sprintf(rest, false))
}

// lineOf is where this file has a text first.
func lineOf(t *testing.T, text string) int {
	t.Helper()
	source, err := os.ReadFile("serve_test.go")
	if err != nil {
		t.Fatal(err)
	}
	return 1 + bytes.Count(source[:bytes.Index(source, []byte(text))], []byte("\n"))
}

func TestCalls(t *testing.T) {
	conversation(t, serveSmall,
		`{"call": "reset"}`, `{}`,
		start, `{"state":`+state("YWI=", false)+`,"events":[]}`,
		`{"call": "propose", "node": 1, "data": "Yw=="}`, `{"state":`+state("YWJj", false)+`,"events":[]}`,
		`{"call":"propose","node":1,"data":"Z\u0041=="}`, `{"state":`+state("YWJjZA==", false)+`,"events":[]}`,
		`{"call": "campaign", "node": 1}`, `{"state":`+state("YWJjZA==", false)+`,"events":[["WARN","not \"now\""]]}`,
		`{"call": "log", "node": 1}`, `{"base":{"index":3,"term":1},"durable":4,"entries":[]}`,
		`{"call": "tick", "node": 1}`, fmt.Sprintf(`{"error":"panic: runtime error: index out of range [7] with length 0","at":"serve_test.go:%d"}`, lineOf(t, "func (n *small) Tick()")),
		`{"call": "transfer", "node": 1, "to": 2}`, `{"error":"there is no call \"transfer\""}`,
		`{"call": "tick", "node": 2}`, `{"error":"there is no node 2"}`,
		`{"call": "step", "node": 1, "numbers": [0]}`, `{"error":"no message 0 was given"}`,
		`{"call": "reset"}`, `{}`,
		`{"call": "log", "node": 1}`, `{"error":"there is no node 1"}`)
}

// What a node gave comes back as it was, whatever the node and others do with it; the bench may cut it.
func TestMessages(t *testing.T) {
	ready := `{"ready":{"entries":[],"committed":[],"sync":false,"messages":[{"type":"MsgApp","from":1,"to":2,"term":2,"own":0,` +
		`"entries":[{"term":2,"index":4,"data":"eA=="},{"term":2,"index":5,"change":{"transition":"auto","words":["v3"]}}]},` +
		`{"type":"MsgVoteResp","from":1,"to":2,"reject":true,"own":1}],"hard":{"term":2,"vote":1,"commit":3}}}`
	conversation(t, serveSmall,
		start, `{"state":`+state("YWI=", false)+`,"events":[]}`,
		`{"call": "ready", "node": 1}`, ready,
		`{"call": "advance", "node": 1}`, `{"state":`+state("YWI=", false)+`,"events":[]}`,
		// "first2 ", "second0 ", and with one entry "first1 ".
		`{"call": "step", "node": 1, "numbers": [0, 1]}`, `{"states":[`+state("YWJmaXJzdDIg", false)+`,`+state("YWJmaXJzdDIgc2Vjb25kMCA=", false)+`],"events":[]}`,
		`{"call": "step", "node": 1, "message": {"type": "MsgApp", "from": 1, "to": 2, "own": 0, "entries": [{"term": 2, "index": 4}]}}`,
		`{"state":`+state("YWJmaXJzdDIgc2Vjb25kMCBmaXJzdDEg", false)+`,"events":[]}`,
		// A message of another process has no form of the library's own.
		`{"call": "step", "node": 1, "message": {"type": "MsgApp", "from": 1, "to": 2, "entries": [{"term": 2, "index": 4}]}}`,
		`{"state":`+state("YWJmaXJzdDIgc2Vjb25kMCBmaXJzdDEgPG5pbD4gMSA=", false)+`,"events":[]}`)
}

func TestOptionalCalls(t *testing.T) {
	conversation(t, serveLarge,
		start, `{"state":`+state("YWI=", false)+`,"events":[["INFO","[]"]]}`,
		`{"call": "transfer", "node": 1, "to": 2}`, `{"state":`+state("YWI=", false)+`,"events":[["INFO","[]"],["WARN","to 2: é"]]}`,
		`{"call": "snapshot", "node": 1, "to": 2}`, `{"message":{"type":"MsgSnap","from":1,"to":2,"own":0,"snapshot":{"index":3,"term":1,"content":"YWI=","config":{"voters":[],"learners":[7]}}}}`,
		`{"call": "lost", "node": 1, "number": 0}`, `{"state":`+state("YWI=", false)+`,"events":[["INFO","[<nil>]"]]}`,
		`{"call": "lost", "node": 1, "number": 1}`, `{"error":"no message 1 was given"}`,
		`{"call": "restart", "node": 1, "saved": "entries"}`,
		`{"state":`+state("ZW50cmllcw==", false)+`,"events":[["INFO","[<nil>]"]],"log":{"last":5,"term":2,"durable":4}}`)
}

func TestDigest(t *testing.T) {
	first, second := `{"state":`+state("YWI=", false)+`,"events":[]}`+"\n", `{"error":"there is no node 2"}`+"\n"
	sum := sha256.Sum256([]byte(first + second))
	conversation(t, serveSmall,
		`{"call": "digest", "calls": 2}`, "", start, "", `{"call": "tick", "node": 2}`, fmt.Sprintf(`{"digest":"%x"}`, sum), `{"call": "reset"}`, `{}`)
}

// counted counts writes.
type counted struct{ writes, bytes int }

func (c *counted) Write(p []byte) (int, error) {
	c.writes++
	c.bytes += len(p)
	return len(p), nil
}

func TestBatchesGoOutTogether(t *testing.T) {
	var out counted
	if err := serveSmall(strings.NewReader(strings.Repeat("{\"call\": \"reset\"}\n", 50)), &out); err != nil || out != (counted{1, 150}) {
		t.Error(out, err)
	}
	// A call that is longer than the buffer is one call.
	long := `{"call": "reset", "data": "` + strings.Repeat("YWJj", 1<<15) + `"}` + "\n"
	conversation(t, serveSmall, long[:len(long)-1], `{}`)
}

func TestFaultsOfTheBench(t *testing.T) {
	if err := serveSmall(strings.NewReader("no JSON\n"), io.Discard); err == nil {
		t.Error("no error")
	}
	hidden := func(s Start) Node { return startSmall(s) }
	if err := Serve(strings.NewReader(""), io.Discard, hidden, About{}); err == nil || !strings.Contains(err.Error(), "not an interface") {
		t.Error(err)
	}
}

func TestToolWords(t *testing.T) {
	t.Setenv("PATH", t.TempDir())
	if _, err := newCheck("TestX", []string{"run"}); err == nil || !strings.Contains(err.Error(), "install raftbench") {
		t.Error(err)
	}
	c := check{}
	c.read([]string{"explore", "--like", "a.txt", "--begin-at-0", "--count=3", "--except", "heals: why", "scripts"})
	if c.command != "explore" || !reflect.DeepEqual(c.paths, []string{"scripts"}) {
		t.Error(c)
	}
	if got := c.wordsFor(forScripts, forRun); !reflect.DeepEqual(got, []string{"--like", "a.txt", "--begin-at-0", "--except", "heals: why"}) {
		t.Error(got)
	}
	for test, want := range map[string]string{"TestX": "^TestX$", "TestX/a.b": `^TestX$/^a\.b$`} {
		if got := patternOf(test); got != want {
			t.Error(got)
		}
	}
	if got := quoted("it's"); got != `'it'\''s'` {
		t.Error(got)
	}
	if got := nameOf("promise broken: one vote per term (2)"); got != "promise-broken-one-vote-per-term" {
		t.Error(got)
	}
}
