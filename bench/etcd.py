#!/usr/bin/env python3
"""Measures the program beside etcd's own bench: the same directives, each side with the outputs that it has recorded, on one processor.

etcd's side is its rafttest under datadriven, as its interaction tests call it, built from the sources in a Go path (Debian's
golang-etcd-server-dev) without a change. Times are of the processor, the least of some runs; of etcd's side that of an empty script, in
which the test's own program starts, is taken off.

    bench/etcd.py [RUNS] [GOPATH]
"""
import os
import resource
import subprocess
import sys
import tempfile
from typing import Any

sys.dont_write_bytecode = True
sys.path[:1] = [os.path.dirname(os.path.dirname(os.path.abspath(__file__)))]

from bench import cluster  # noqa: E402
from bench.measured import PROGRAM, build, record, write_file  # noqa: E402

TEST = """package peer

import (
from collections.abc import Callable
from typing import Any
	"os"
	"testing"

	"github.com/cockroachdb/datadriven"
	"go.etcd.io/etcd/raft/rafttest"
)

func TestScript(t *testing.T) {
	env := rafttest.NewInteractionEnv(nil)
	datadriven.RunTest(t, os.Getenv("SCRIPT"), func(t *testing.T, d *datadriven.TestData) string {
		return env.Handle(t, *d)
	})
}
"""
# etcd's directives have no options of their own, and `log-level` in capitals.
BEGINNING = ["add-nodes 3 voters=(1,2,3) index=10", "campaign 1", "stabilize"]
WORK = [
    ("10,000 single steps", 10000, ["tick-heartbeat 1", "process-ready 1", "deliver-msgs 2", "deliver-msgs 3", "process-ready 2", "process-ready 3", "deliver-msgs 1"]),
    ("10,000 times tick-heartbeat", 10000, ["tick-heartbeat 1"]),
    ("2,000 proposals, each with stabilize", 4000, ["propose 1 x", "stabilize"]),
    ("2,000 proposals of 64 bytes", 4000, ["propose 1 " + "x" * 64, "stabilize"]),
]
QUIET = ("5,000 proposals, each with stabilize, at level none", 10000, ["propose 1 x", "stabilize"])


def heads_of(directives: int, repeated: list[str]) -> list[str]:
    return [*BEGINNING, *(repeated[n % len(repeated)] for n in range(directives))]


def built(room: str, gopath: str) -> str:
    folder = os.path.join(room, "src", "peer")
    os.makedirs(folder)
    write_file(os.path.join(folder, "script_test.go"), TEST.encode())
    around = {**os.environ, "GO111MODULE": "off", "GOPATH": f"{room}:{gopath}", "GOFLAGS": ""}
    path = os.path.join(room, "peer.test")
    subprocess.run(["go", "test", "-c", "-o", path], cwd=folder, env=around, check=True)
    return path


def took(call: list[str], **how: Any) -> float:
    """The processor's seconds of a call."""
    before = resource.getrusage(resource.RUSAGE_CHILDREN)
    subprocess.run(call, stdin=subprocess.DEVNULL, stdout=subprocess.DEVNULL, check=True, **how)
    after = resource.getrusage(resource.RUSAGE_CHILDREN)
    return after.ru_utime + after.ru_stime - before.ru_utime - before.ru_stime


def least(runs: int, call: list[str], **how: Any) -> float:
    return min(took(call, **how) for _ in range(runs))


def main() -> None:
    runs = int(sys.argv[1]) if len(sys.argv) > 1 else 5
    gopath = sys.argv[2] if len(sys.argv) > 2 else "/usr/share/gocode"
    os.sched_setaffinity(0, {min(os.sched_getaffinity(0))})
    build()
    script_of = cluster.script_of
    with tempfile.TemporaryDirectory() as room:
        peer, theirs, ours = built(room, gopath), os.path.join(room, "theirs"), os.path.join(room, "ours")
        around = {**os.environ, "GOMAXPROCS": "1", "SCRIPT": theirs}
        write_file(theirs, b"")
        start = least(runs, [peer, "-test.run", "TestScript"], env=around)
        print(f"an empty script: etcd's side {start * 1e3:.1f} ms, which is taken off")
        for name, directives, repeated in [*WORK, QUIET]:
            heads = heads_of(directives, repeated)
            level = name == QUIET[0]
            write_file(theirs, script_of([*(["log-level NONE"] if level else []), *heads]))
            record(ours, script_of([f"log-level {'none' if level else 'debug'}", *heads]))
            took([peer, "-test.run", "TestScript", "-rewrite"], env=around)
            etcd = least(runs, [peer, "-test.run", "TestScript"], env=around) - start
            own = least(runs, [PROGRAM, "run", ours])
            print(f"{name}: {own * 1e3:.1f} ms, etcd's side {etcd * 1e3:.0f} ms: {etcd / own:.1f} times")


if __name__ == "__main__":
    main()
