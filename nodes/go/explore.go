package raftbench

import (
	"bytes"
	"encoding/json"
	"errors"
	"fmt"
	"os"
	"os/exec"
	"path/filepath"
	"regexp"
	"strings"
	"testing"
	"time"
)

// kind is one kind of what was found, as the tool writes it.
type kind struct {
	Kind   string   `json:"kind"`
	Count  int      `json:"count"`
	Steps  []string `json:"steps"`
	Shown  []string `json:"shown"`
	Script string   `json:"script"` // a character for each byte
	Also   []string `json:"also"`
	Cause  string   `json:"cause"`
	page   string
}

// explore has the tool look for scripts, and each kind of what it finds is a failed subtest.
func (c *check) explore(t *testing.T) {
	t.Helper()
	room := t.TempDir()
	var kinds []kind
	t.Run(c.command, func(t *testing.T) {
		t.Helper()
		result := filepath.Join(room, "result.json")
		words := []string{"--json", result, "--out", room}
		for _, option := range c.options {
			words = append(words, option...)
		}
		output, status := c.run(t, c.command, words...)
		text, err := os.ReadFile(result)
		if err != nil || status > 1 && status != 3 {
			t.Fatal(output)
		}
		var found struct{ Kinds []kind }
		if err := json.Unmarshal(text, &found); err != nil {
			t.Fatal(err)
		}
		kinds = found.Kinds
		if status != 0 {
			t.Errorf("kinds of findings: %d\n%s", len(kinds), strings.TrimSpace(output[strings.LastIndex(output, "\n\n")+1:]))
		} else {
			t.Log(output)
		}
	})
	for at, found := range kinds {
		found.page = filepath.Join(room, fmt.Sprintf("%02d-%s.html", at+1, nameOf(found.Kind)))
		name := c.freeName(nameOf(found.Kind))
		t.Run(name, func(t *testing.T) {
			t.Helper()
			c.tell(t, name, found)
		})
	}
}

var notLetters = regexp.MustCompile("[^a-z]+")

// nameOf is a kind as a part of a file's name, as the tool has it.
func nameOf(kind string) string {
	name := notLetters.ReplaceAllString(strings.ToLower(kind), "-")
	if len(name) > 60 {
		name = name[:60]
	}
	return strings.Trim(name, "-")
}

// freeName is a name that no script has.
func (c *check) freeName(name string) string {
	free := name
	for at := 2; ; at++ {
		if _, err := os.Stat(filepath.Join(c.folder, free+".txt")); errors.Is(err, os.ErrNotExist) {
			return free
		}
		free = fmt.Sprintf("%s-%d", name, at)
	}
}

// tell keeps a script with its page, and fails with it.
func (c *check) tell(t *testing.T, name string, found kind) {
	t.Helper()
	lines := []string{fmt.Sprintf("%s: in %d scripts", found.Kind, found.Count)}
	for _, step := range found.Steps {
		lines = append(lines, "    "+strings.ReplaceAll(step, "\n", "\n    "))
	}
	lines = append(lines, found.Shown...)
	if len(found.Also) > 0 {
		lines = append(lines, "    it also shows: "+strings.Join(found.Also, ", "))
	}
	if found.Cause != "" {
		lines = append(lines, "    mend first: "+found.Cause)
	}
	if found.Script != "" {
		file := filepath.Join(c.folder, name)
		if err := keep(file, found); err != nil {
			t.Error(err)
		}
		lines = append(lines, "script: "+file+".txt", c.again(t, file+".html"))
	}
	t.Error(strings.Join(lines, "\n"))
}

// keep writes a script and its page.
func keep(file string, found kind) error {
	var text []byte
	for _, r := range found.Script {
		text = append(text, byte(r))
	}
	if err := os.MkdirAll(filepath.Dir(file), 0o777); err != nil {
		return err
	}
	if page, err := os.ReadFile(found.page); err == nil {
		if err := os.WriteFile(file+".html", page, 0o666); err != nil {
			return err
		}
	}
	return os.WriteFile(file+".txt", text, 0o666)
}

// run runs a command of raftbench-nodes, with this test as the adapter: what it prints, and its status.
func (c *check) run(t *testing.T, command string, words ...string) (output string, status int) {
	t.Helper()
	tool := exec.Command(c.program, append([]string{command, "--with", c.self}, words...)...)
	tool.Env = append(os.Environ(), hosts+"="+c.test)
	var said bytes.Buffer
	tool.Stdout, tool.Stderr = &said, &said
	if err := tool.Start(); err != nil {
		t.Fatal(err)
	}
	// Before the deadline of `go test` it is interrupted, and shows what it has found, and then it is ended.
	if deadline, is := t.Deadline(); is {
		left := time.Until(deadline)
		defer time.AfterFunc(left*4/5, func() { _ = tool.Process.Signal(os.Interrupt) }).Stop()
		defer time.AfterFunc(left*19/20, func() { _ = tool.Process.Kill() }).Stop()
	}
	var exit *exec.ExitError
	if err := tool.Wait(); err != nil && !errors.As(err, &exit) {
		t.Fatal(err)
	}
	return strings.TrimRight(said.String(), "\n"), tool.ProcessState.ExitCode()
}
