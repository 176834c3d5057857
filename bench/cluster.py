#!/usr/bin/env python3
"""Measures the built program on scripts of elections, proposals and rounds: what people run, and what is made to cost most. Each script is
recorded first and then run, so that all of it matches; where it would be too long as recorded, it is run as it is. Prints the best wall time
of some runs, the time a directive, the peak memory and the size of the script that is run.

    bench/cluster.py [RUNS]
"""
import os
import sys
import tempfile

sys.dont_write_bytecode = True
sys.path[:1] = [os.path.dirname(os.path.dirname(os.path.abspath(__file__)))]

from bench.measured import LONGEST, build, compiled, record, watched_run  # noqa: E402


def script_of(heads: list[str]) -> bytes:
    return "".join(head + "\n----\n\n" for head in heads).encode()


def elected(nodes: int, options: str = "", level: str = "debug") -> list[str]:
    """A cluster whose first node leads."""
    voters = ",".join(str(id) for id in range(1, nodes + 1))
    return [f"log-level {level}", f"add-nodes {nodes} voters=({voters}) index=10{options}", "campaign 1", "stabilize log-level=none"]


def single_steps(directives: int) -> list[str]:
    """Heartbeats and their answers, one step a directive."""
    heads = elected(3)
    round_of = ["tick-heartbeat 1", "process-ready 1", "deliver-msgs 2", "deliver-msgs 3", "process-ready 2", "process-ready 3", "deliver-msgs 1"]
    while len(heads) < directives:
        heads.append(round_of[(len(heads) - 4) % len(round_of)])
    return heads


def proposals(count: int, payload: str, level: str = "debug") -> list[str]:
    heads = elected(3, level=level)
    for _ in range(count):
        heads += [f"propose 1 {payload}", "stabilize"]
    return heads


def lead_cycle() -> list[str]:
    """Two followers that take each other for the leader hand 4,096 proposals to and fro, for 1,000 rounds."""
    heads = ["add-nodes 2 voters=(1,2) index=10", "send-snapshot 1 2", "send-snapshot 2 1", "deliver-msgs 1 2", "log-level none"]
    heads += ["process-ready 1 2", "deliver-msgs 1 2"]
    heads += ["propose 1 x"] * 4096
    return heads + ["stabilize rounds=1000"]


def many_nodes() -> list[str]:
    """32 voters, in a configuration that is made joint and left again and again."""
    heads = elected(32, level="none")
    for _ in range(20):
        heads += ["propose 1 x", "stabilize"]
    return heads


def resent() -> list[str]:
    """A follower that gets no append is probed with all entries, again and again: thousands of pending appends that name them all."""
    heads = elected(2, level="none")
    heads += ["add-nodes 1", "report-unreachable 1 2"]
    heads += ["propose 1 x", "process-ready 1", "deliver-msgs 2 type=MsgHeartbeat"] * 1500
    for _ in range(1000):
        heads += ["tick-heartbeat 1", "process-ready 1", "deliver-msgs 2 type=MsgHeartbeat", "process-ready 2", "deliver-msgs 1 type=MsgHeartbeatResp"]
    return heads


WORK = [
    ("10,000 single steps", single_steps(10000), ["run"]),
    ("20,000 single steps", single_steps(20000), ["run"]),
    ("10,000 single steps, a session", single_steps(10000), ["session"]),
    ("5,000 proposals, quiet", proposals(5000, "x", "none"), ["run"]),
    ("5,000 proposals at debug", proposals(5000, "x"), ["run"]),
    ("5,000 proposals of 64 bytes", proposals(5000, "x" * 64), ["run"]),
    ("4,096 proposals in a cycle of leads", lead_cycle(), ["run"]),
    ("32 nodes", many_nodes(), ["run"]),
    ("1,000 pending appends of 1,500 entries", resent(), ["run"]),
    ("the same, a session with --every 1", resent(), ["session", "--every", "1"]),
]


def main() -> None:
    runs = int(sys.argv[1]) if len(sys.argv) > 1 else 5
    build()
    with tempfile.TemporaryDirectory() as room:
        watched = compiled(room, "watched")
        path = os.path.join(room, "script")
        for name, heads, words in WORK:
            recorded = record(path, script_of(heads))
            told = [watched_run(watched, [words[0], path, *words[1:]]) for _ in range(runs)]
            best, most = min(nanos for nanos, _, _ in told) / 1e6, max(memory for _, memory, _ in told)
            if any(status > (len(recorded) > LONGEST) for _, _, status in told):
                sys.exit(f"{name}: status {told[0][2]}")
            print(f"{name:40} {len(heads):6} directives: {best:8.2f} ms, {best * 1e3 / len(heads):7.2f} us a directive, {most:7} KiB, script {os.path.getsize(path)} bytes")


if __name__ == "__main__":
    main()
