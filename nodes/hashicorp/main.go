// The nodes of hashicorp/raft behind the protocol of docs/OWN-NODES.md.
package main

import (
	"log"
	"os"
	"runtime"
	"runtime/debug"

	"raftbench"
)

// The version of the sources; the build puts it in.
var version = "of an unknown version"

func main() {
	// One goroutine at a time, and no collection of garbage within a script, so that each run is the same.
	runtime.GOMAXPROCS(1)
	debug.SetGCPercent(-1)
	about := raftbench.About{
		Name: "hashicorp/raft " + version, Always: []string{"checkquorum", "inflight=1"}, Ordered: true,
		// What the library lacks, or has in another form: README.md says why.
		Without: []string{"compact", "durable", "joint", "prevote", "ready", "step_down_on_removal", "torn"},
		Reset: func() {
			changes = map[written][]string{}
			runtime.GC()
		},
	}
	// With an argument, such as --all, the first is not in it.
	if len(os.Args) > 1 {
		about.Without, about.Ordered = about.Without[1:], false
	}
	if err := raftbench.Serve(os.Stdin, os.Stdout, start, about); err != nil {
		log.Fatal(err)
	}
}
