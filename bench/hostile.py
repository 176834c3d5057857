#!/usr/bin/env python3
"""Measures the built program on scripts that are made to cost most: the cases of tests/cases/hostile, one whose outputs and blank lines
are as long as they can be, and for each thing that a cluster can be made to spend one that spends it: rounds, looks at pending messages,
entries sent again and again, joint configurations of 32 nodes, messages that are not sent yet, and outputs of hundreds of megabytes. Prints, for
each way of running it, the best wall time of some runs, the processor time of one, the peak memory and that memory over the script's
size; and first how busy the machine is.

    bench/hostile.py [RUNS [WORD]]       WORD: only the scripts with it in their name
"""
import os
import pathlib
import resource
import sys
import tempfile

sys.dont_write_bytecode = True
sys.path[:1] = [os.path.dirname(os.path.dirname(os.path.abspath(__file__)))]

from bench.measured import TOP, build, compiled, watched_run, write_file  # noqa: E402
from tests.cases.case import cases_below  # noqa: E402

MOST_ADDRESSES = 8 << 30
# An edit after which all is run again, beside what was; and one after which it is that prints no more.
EDIT = b"replace 1 3\nadd-nodes 15 voters=(1) index=10 content=" + b"\xfe" * 1024 + b"\n----\n\n"
QUIET_EDIT = b"insert 3 2\nadd-nodes 1\n----\n"


def measured(watched: str, words: list[str], runs: int, given: bytes = b"") -> tuple[float, float, int, int]:
    """The best wall time and the processor time of a run in seconds, the most memory in KiB, and the status. What takes too many
    addresses ends with 5."""
    def narrow() -> None:
        resource.setrlimit(resource.RLIMIT_AS, (MOST_ADDRESSES, MOST_ADDRESSES))

    before = resource.getrusage(resource.RUSAGE_CHILDREN)
    told = [watched_run(watched, words, input=given, preexec_fn=narrow) for _ in range(runs)]
    after = resource.getrusage(resource.RUSAGE_CHILDREN)
    spent = (after.ru_utime + after.ru_stime - before.ru_utime - before.ru_stime) / runs
    return min(nanos for nanos, _, _ in told) / 1e9, spent, max(memory for _, memory, _ in told), told[0][2]


def most_printed() -> bytes:
    """16 nodes whose contents are 1,024 bytes that are each shown by four, and 9,999 times all their states, each block with as
    many blank lines before, within and behind its head as a script has room for."""
    nodes = b"add-nodes 16 voters=(1) index=10 content=" + b"\xff" * 1024 + b"\n----\n\n"
    blanks = b"\n" * 129
    # ahead of the head, among the input lines, and behind the separator
    block = blanks + b"raft-state\n" + blanks + b"----\n" + blanks
    return nodes + block * 9999


def script_of(heads: list[str]) -> bytes:
    return "".join(f"{head}\n----\n\n" for head in heads).encode()


def elected(voters: int, options: str = "") -> list[str]:
    """A cluster whose first node leads, and says nothing."""
    ids = ",".join(map(str, range(1, voters + 1)))
    return ["log-level none", f"add-nodes {voters} voters=({ids}) index=10{options}", "campaign 1", "stabilize"]


def led_by_each_other() -> list[str]:
    """Two followers that take each other for the leader: what is proposed is handed to and fro for ever."""
    heads = ["log-level none", "add-nodes 2 voters=(1,2) index=10", "send-snapshot 1 2", "send-snapshot 2 1"]
    return [*heads, *["deliver-msgs 1 2", "process-ready 1 2"] * 2, "deliver-msgs 1 2"]


def rounds() -> bytes:
    """4,096 messages that are handed to and fro for 1,000 rounds."""
    return script_of([*led_by_each_other(), *["propose 1 x"] * 4096, "stabilize rounds=1000"])


def pending() -> bytes:
    """4,096 messages that wait for a node that isn't there, and directives that look for others among them 126 times each."""
    ids = " ".join(["1"] * 62)
    drops = ",".join(["2"] * 64)
    return script_of([*elected(3), *["send-snapshot 1 9"] * 4096, *[f"deliver-msgs {ids} drop=({drops})"] * 9000])


def pending_in_rounds() -> bytes:
    """4,000 messages that wait for a node that isn't there, and 31 nodes that go in rounds beside them."""
    return script_of([*elected(31), *["send-snapshot 1 32"] * 4000, *["tick-heartbeat 1", "stabilize"] * 1500])


def resent() -> bytes:
    """1,000 entries that a leader sends to one that never answers, as often as it is heard of: 400 appends that each name all."""
    wakes = ["tick-heartbeat 1", "process-ready 1", "deliver-msgs 2 type=MsgHeartbeat", "process-ready 2", "deliver-msgs 1 type=MsgHeartbeatResp"]
    return script_of([*elected(2), "report-unreachable 1 2", *["propose 1 x"] * 1000, *wakes * 400])


def joint() -> bytes:
    """32 nodes whose configuration is made joint and left again: at each entry the matches of 32 nodes are counted twice."""
    leave = " ".join(f"l{id}" for id in range(17, 33))
    back = " ".join(f"v{id}" for id in range(17, 33))
    change = "propose-conf-change 1 transition=implicit\n{}"
    return script_of([*elected(32), *[line for _ in range(150) for line in (change.format(leave), "stabilize", change.format(back), "stabilize")]])


def printed() -> bytes:
    """Logs of 2,000 entries, printed 1,500 times: over 200 MB."""
    return script_of([*elected(1), *["propose 1 " + "x" * 64] * 2000, "stabilize", *["raft-log 1 log-level=debug"] * 1500])


def unsent() -> bytes:
    """A leader of 32 nodes ticks 4,000 times before it sends anything: what it has to send grows, and kept clusters share it."""
    return script_of([*elected(32), *["tick-heartbeat 1"] * 4000])


def leaders() -> bytes:
    """32 nodes that each lead the 31 others as learners, with a window of 256 appends for each: 1,024 windows, while nothing changes."""
    others = [",".join(str(id) for id in range(1, 33) if id != leader) for leader in range(1, 33)]
    nodes = [f"add-nodes 1 voters=({leader}) learners=({others[leader - 1]}) index=10" for leader in range(1, 33)]
    leads = [head for leader in range(1, 33) for head in (f"campaign {leader}", f"process-ready {leader}")]
    return script_of(["log-level none", *nodes, *leads, *["raft-log 1"] * 19900])


def proposed() -> bytes:
    """19,990 proposals of a leader that never saves them."""
    return script_of([*elected(1), *["propose 1 x"] * 19990])


def restarted() -> bytes:
    """10,000 entries that a node applies again after each of 4,990 restarts."""
    return script_of([*elected(1), *["propose 1 x"] * 10_000, "stabilize", *["restart 1", "process-ready 1"] * 4990])


def skipped() -> bytes:
    """4,096 messages that wait for one node, all but the last of which are skipped 7,900 times."""
    return script_of([*elected(2), *["send-snapshot 1 2"] * 4096, *["deliver-msgs 2 skip=4095", "send-snapshot 1 2"] * 7900])


SPENDING = [rounds, pending, pending_in_rounds, resent, joint, printed, unsent, leaders, proposed, restarted, skipped]


def main() -> None:
    runs = int(sys.argv[1]) if len(sys.argv) > 1 else 5
    word = sys.argv[2] if len(sys.argv) > 2 else ""
    build()
    with tempfile.TemporaryDirectory() as room:
        watched = compiled(room, "watched")
        path = os.path.join(room, "script")
        shown = [(name, case.data("script") or b"") for name, case in cases_below(pathlib.Path(TOP) / "tests" / "cases" / "hostile").items()]
        scripts = [(name, script, EDIT) for name, script in [*shown, ("most-printed", most_printed())]]
        scripts += [(spend.__name__.replace("_", "-"), spend(), QUIET_EDIT) for spend in SPENDING]
        print("load of the last minute and the last five: %.1f %.1f" % os.getloadavg()[:2])
        for name, script, edit in (each for each in scripts if word in each[0]):
            write_file(path, script)
            for words in (["run", path], ["rewrite", path], ["session", path], ["session", path, "--every", "1"]):
                best, spent, most, status = measured(watched, words, runs, edit if "--every" in words else b"")
                per_byte = f", {most * 1024 / len(script):5.1f} times the script" if len(script) > 1 << 20 else ""
                mode = " ".join([words[0], *words[2:]])
                print(f"{name:38} {mode:17} status {status}: {best * 1e3:7.2f} ms, {spent * 1e3:7.2f} of a processor, {most:6} KiB{per_byte}")


if __name__ == "__main__":
    main()
