#!/usr/bin/env python3
"""Measures what a log costs as it grows, at 100, 1,000 and 4,900 entries of 64 bytes in the log of one voter.

Appending is a run of so many proposals, each made durable and applied, less a run that only begins; copies are what a session that
keeps a cluster after every directive takes beyond one that keeps one in 64, in time and in peak memory; comparing is an edit at the
end that leaves the state alone, less a command that does nothing: it takes one copy and finds it the same.

    bench/log.py [ROUNDS]
"""
import os
import subprocess
import sys
import tempfile

sys.dont_write_bytecode = True
sys.path[:1] = [os.path.dirname(os.path.dirname(os.path.abspath(__file__)))]

from bench.measured import ask, build, compiled, start_session, watched_run, write_file  # noqa: E402

ENTRIES = (100, 1000, 4900)
BEGIN = b"add-nodes 1 voters=(1) index=10 log-level=none\n----\nok\n\ncampaign 1 log-level=none\n----\nok\n\nprocess-ready 1 log-level=none\n----\nok\n\n"
PROPOSE = b"propose 1 %s log-level=none\n----\nok\n\nprocess-ready 1 log-level=none\n----\nok\n\n" % (b"x" * 64)
# It leaves the state alone, so that the next kept cluster is compared with the old one.
SAME = b"replace %d 3\nprocess-ready 1 log-level=none\n----\nok\n"
NOTHING = b"sing\n"


def least(watched: str, rounds: int, *words: str) -> tuple[int, int]:
    """The least time and the most memory of some rounds. Exits where one fails."""
    runs = [watched_run(watched, list(words)) for _ in range(rounds)]
    if any(status for _, _, status in runs):
        sys.exit(f"raftbench {' '.join(words)} ended with {max(status for _, _, status in runs)}")
    return min(took for took, _, _ in runs), max(memory for _, memory, _ in runs)


def time_of(session: subprocess.Popen[bytes], command: bytes, beginning: bytes) -> int:
    """The nanoseconds until the answer, which begins so, came."""
    answer, took = ask(session, command)
    if not answer.startswith(beginning):
        sys.exit(f"{answer!r} came")
    return took


def time_same(path: str, last: int, rounds: int) -> int:
    """The least nanoseconds of an edit at the last place that leaves the state alone, less a command that does nothing."""
    with start_session(path, "--every", "1") as session:
        # The first answer comes once the script was run.
        time_of(session, NOTHING, b"refused ")
        nothing = min(time_of(session, NOTHING, b"refused ") for _ in range(rounds))
        same = min(time_of(session, SAME % last, b"done executed=1 ") for _ in range(rounds))
        assert session.stdin and session.stdout
        session.stdin.close()
        session.stdout.read()
    return same - nothing


def measure(watched: str, room: str, entries: int, rounds: int) -> None:
    path, begun = os.path.join(room, "script"), os.path.join(room, "begun")
    write_file(path, BEGIN + PROPOSE * entries)
    write_file(begun, BEGIN)
    run, _ = least(watched, rounds, "run", path)
    start, _ = least(watched, rounds, "run", begun)
    few, few_memory = least(watched, rounds, "session", path, "--every", "64")
    many, memory = least(watched, rounds, "session", path, "--every", "1")
    copies = (3 + 2 * entries) * 63 // 64
    same = time_same(path, 3 + 2 * entries, rounds)
    print(
        f"{entries:5} entries: append {(run - start) / entries:7.0f} ns an entry, {copies:5} copies more {(many - few) / copies:7.0f} ns and "
        f"{(memory - few_memory) * 1024 // copies:6} bytes each, an edit that leaves the state alone {same / 1000:7.1f} us"
    )


def main() -> None:
    rounds = int(sys.argv[1]) if len(sys.argv) > 1 else 20
    if rounds < 1:
        sys.exit("at least one round")
    build()
    with tempfile.TemporaryDirectory() as room:
        watched = compiled(room, "watched")
        for entries in ENTRIES:
            measure(watched, room, entries, rounds)


if __name__ == "__main__":
    main()
