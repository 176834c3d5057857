// The nodes of etcd's raft behind the protocol of docs/OWN-NODES.md.
package main

import (
	"log"
	"os"
	"runtime"
	"runtime/debug"

	"raftbench"
)

// The version of the sources; the build puts it in.
var version = "of an unknown version"

func main() {
	// One goroutine, and little garbage that lives long.
	runtime.GOMAXPROCS(1)
	debug.SetGCPercent(1000)
	err := raftbench.Serve(os.Stdin, os.Stdout, start, raftbench.About{
		Name: "etcd raft " + version, Without: []string{"step_down_on_removal"}, Limits: []string{"max_size_per_msg", "max_uncommitted_size"},
		Open: true, Apart: true, Source: "/etcd/raft/",
	})
	if err != nil {
		log.Fatal(err)
	}
}
