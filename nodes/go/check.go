package raftbench

import (
	"errors"
	"fmt"
	"os"
	"os/exec"
	"path/filepath"
	"regexp"
	"strings"
	"testing"
)

// The environment of a test binary that hosts nodes names the test that does so.
const hosts = "RAFTBENCH_TEST"

// Check has raftbench-nodes look for bugs in nodes, and each kind that it finds is a failed subtest with its shortest script. The test
// binary hosts the nodes: raftbench-nodes starts it once more for each of its processes, and there Check serves.
//
// `tool` is a command of raftbench-nodes with its options; without it, it is promises with 300 scripts, or 30 with `go test -short`:
//
//	raftbench.Check(t, start, about, "explore", "--like", "testdata/mine.txt", "--count", "1000")
//
// A script that was found is kept as testdata/raftbench/TEST/KIND.txt, next to its page. From then on each `go test` begins with the scripts
// that are there, and looks for others once they pass; `go test -run TEST/KIND` takes one of them alone.
//
// If `tool` ends in paths, as that of run does, each script in them is a subtest.
func Check[N Node](t *testing.T, start func(Start) N, about About, tool ...string) {
	t.Helper()
	if os.Getenv(hosts) == t.Name() {
		out := os.Stdout
		// What the nodes print is not for the bench.
		os.Stdout = os.Stderr
		if err := Serve(os.Stdin, out, start, about); err != nil {
			fmt.Fprintln(os.Stderr, err)
			os.Exit(1)
		}
		os.Exit(0)
	}
	if len(tool) == 0 {
		tool = []string{"promises", "--count", "300"}
		if testing.Short() {
			tool[2] = "30"
		}
	}
	c, err := newCheck(t.Name(), tool)
	if err != nil {
		t.Fatal(err)
	}
	if len(c.paths) > 0 || c.command == "run" {
		c.scripts(t)
	} else if c.kept(t) {
		c.explore(t)
	}
}

// check is a command of raftbench-nodes, split into what has a meaning here.
type check struct {
	test, program, self string
	command             string
	options             [][]string // each with its value
	paths               []string
	folder              string // of the scripts that were found
}

// Options without a value.
var flags = map[string]bool{"--begin-at-0": true, "--first": true, "--fresh": true, "--verbose": true}

// Options that a script takes, with those that explore and promises have too.
var forScripts = map[string]bool{"--except": true, "--accepted": true, "--begin-at-0": true, "--steps": true, "--seconds": true}

// And those of run.
var forRun = map[string]bool{"--like": true, "--compare": true}

func newCheck(test string, tool []string) (*check, error) {
	program, err := exec.LookPath("raftbench-nodes")
	if err != nil {
		return nil, errors.New("raftbench: raftbench-nodes is not in the path: install raftbench")
	}
	self, err := os.Executable()
	if err != nil {
		return nil, err
	}
	c := &check{test: test, program: program, folder: filepath.Join("testdata", "raftbench", filepath.FromSlash(test))}
	c.self = fmt.Sprintf("exec %s -test.run=%s", quoted(self), quoted(patternOf(test)))
	c.read(tool)
	return c, nil
}

// read takes a command apart.
func (c *check) read(tool []string) {
	c.command = tool[0]
	for at := 1; at < len(tool); at++ {
		option := tool[at : at+1]
		if !strings.HasPrefix(option[0], "--") {
			c.paths = append(c.paths, option[0])
			continue
		}
		if !flags[option[0]] && !strings.Contains(option[0], "=") && at+1 < len(tool) {
			option = tool[at : at+2]
			at++
		}
		c.options = append(c.options, option)
	}
}

// quoted is a word for the shell.
func quoted(word string) string { return "'" + strings.ReplaceAll(word, "'", `'\''`) + "'" }

// patternOf is what -test.run takes for one test.
func patternOf(test string) string {
	parts := strings.Split(test, "/")
	for at, part := range parts {
		parts[at] = "^" + regexp.QuoteMeta(part) + "$"
	}
	return strings.Join(parts, "/")
}

func (c *check) wordsFor(tables ...map[string]bool) (words []string) {
	for _, option := range c.options {
		name := strings.SplitN(option[0], "=", 2)[0]
		for _, table := range tables {
			if table[name] {
				words = append(words, option...)
			}
		}
	}
	return words
}

// scripts takes each script of the paths, or the classics, on the nodes.
func (c *check) scripts(t *testing.T) {
	t.Helper()
	words := c.wordsFor(forScripts)
	if c.command == "run" {
		words = c.wordsFor(forScripts, forRun)
	}
	if len(c.paths) == 0 {
		t.Run("classics", func(t *testing.T) {
			t.Helper()
			c.script(t, c.command, words, "")
		})
	}
	for _, path := range c.paths {
		files, err := scriptsOf(path)
		if err != nil {
			t.Fatal(err)
		}
		for _, file := range files {
			file := file
			t.Run(stem(file), func(t *testing.T) {
				t.Helper()
				c.script(t, c.command, words, file)
			})
		}
	}
}

// scriptsOf are the scripts of a folder, or a file itself; an error if there is none.
func scriptsOf(path string) (files []string, err error) {
	err = filepath.WalkDir(path, func(file string, entry os.DirEntry, err error) error {
		if err == nil && !entry.IsDir() && (file == path || strings.HasSuffix(file, ".txt")) {
			files = append(files, file)
		}
		return err
	})
	if err == nil && len(files) == 0 {
		err = fmt.Errorf("%s: no script was found", path)
	}
	return files, err
}

func stem(file string) string { return strings.TrimSuffix(filepath.Base(file), ".txt") }

// kept takes the scripts that were found before, and answers whether all of them pass.
func (c *check) kept(t *testing.T) bool {
	t.Helper()
	files, err := filepath.Glob(filepath.Join(c.folder, "*.txt"))
	if err != nil {
		t.Fatal(err)
	}
	for _, file := range files {
		file := file
		t.Run(stem(file), func(t *testing.T) {
			t.Helper()
			c.script(t, "promises", c.wordsFor(forScripts), file)
			if c.command == "explore" && !t.Failed() {
				c.script(t, "run", append(c.compared(), c.wordsFor(forScripts, forRun)...), file)
			}
		})
	}
	return !t.Failed()
}

// compared is what explore compares, so that a script alone is compared by the same.
func (c *check) compared() []string {
	words := c.wordsFor(forRun)
	for _, word := range words {
		if strings.HasPrefix(word, "--compare") {
			return nil
		}
	}
	if len(words) > 0 {
		return []string{"--compare", "views,messages,ready"}
	}
	return []string{"--compare", "states"}
}

// script takes one script, or those of the tool. If that shows something, the test fails, and the script's page is written.
func (c *check) script(t *testing.T, command string, words []string, file string) {
	t.Helper()
	if file == "" {
		if output, status := c.run(t, command, words...); status != 0 {
			t.Error(output)
		}
		return
	}
	output, status := c.run(t, command, append(words, file)...)
	switch status {
	case 0:
		t.Log(output)
	case 1:
		text, err := os.ReadFile(file)
		if err != nil {
			t.Fatal(err)
		}
		c.run(t, command, append(words, "--page", c.folder, file)...)
		t.Errorf("%s\n%s\n%s", output, text, c.again(t, filepath.Join(c.folder, stem(file)+".html")))
	default:
		t.Fatal(output)
	}
}

// again says where a page is, if it could be written, and how to take a test once more.
func (c *check) again(t *testing.T, page string) string {
	again := fmt.Sprintf("again: go test -run '%s'", patternOf(t.Name()))
	if _, err := os.Stat(page); err != nil {
		return again
	}
	return fmt.Sprintf("page: %s\n%s", page, again)
}
