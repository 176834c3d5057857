#!/usr/bin/env python3
"""Measures one edit in a session that stays, at the beginning, in the middle and at the end of scripts of 1,000, 10,000
and 20,000 directives: an insert, a replace, an expect and a remove that leave every state alone.

Each is sent to `raftbench session` over a pipe, and its answer read before the next is sent. Prints the median and the worst time
in microseconds, and how many directives the edit executed; and what a command costs that does nothing, for scale.

    bench/edits.py [ROUNDS]
"""
import os
import statistics
import subprocess
import sys
import tempfile

sys.dont_write_bytecode = True
sys.path[:1] = [os.path.dirname(os.path.dirname(os.path.abspath(__file__)))]

from bench.measured import ask, build, start_session, write_file  # noqa: E402

# An insert brings them to 1,000, 10,000 and 20,000.
DIRECTIVES = (999, 9_999, 19_999)
NODES = b"add-nodes 3 voters=(1,2,3) index=10\n----\n\n"
STATE = b"raft-state\n----\n\n"
LEVEL = b"log-level info\n----\nok\n\n"
NOTHING = b"sing\n"


def script_of(directives: int) -> bytes:
    return NODES + b"".join(STATE if i % 2 else LEVEL for i in range(1, directives))


def edits_at(place: int) -> dict[str, bytes]:
    """The edits of a place, in the order in which they leave the script as it was."""
    return {
        "insert": b"insert %d 2\nraft-state\n----\n" % place,
        "replace": b"replace %d 3\nraft-state log-level=none\n----\nok\n" % place,
        "expect": b"expect %d 1\nnothing\n" % place,
        "remove": b"remove %d\n" % place,
    }


def executed(answer: bytes) -> int:
    """How many directives an edit executed. Exits where it was refused."""
    if not answer.startswith(b"done executed="):
        sys.exit(f"{answer!r} came")
    return int(answer.split()[1].split(b"=")[1])


def show(kind: str, place: str, times: list[int], told: str) -> None:
    print(f"  {kind:8} at {place:>5}: median {statistics.median_high(times) / 1000:8.1f} us, worst {max(times) / 1000:8.1f} us{told}")


def measure_place(session: subprocess.Popen[bytes], place: int, rounds: int) -> None:
    edits = edits_at(place)
    times: dict[str, list[int]] = {kind: [] for kind in edits}
    most = dict.fromkeys(edits, 0)
    for _ in range(rounds):
        for kind, command in edits.items():
            answer, took = ask(session, command)
            times[kind].append(took)
            most[kind] = max(most[kind], executed(answer))
    for kind in edits:
        show(kind, str(place), times[kind], f", executed {most[kind]}")


def measure(path: str, directives: int, rounds: int) -> None:
    write_file(path, script_of(directives))
    with start_session(path) as session:
        print(f"{directives} directives")
        # The first answer comes once the script was run.
        ask(session, NOTHING)
        show("nothing", "all", [ask(session, NOTHING)[1] for _ in range(rounds)], "")
        for place in (2, directives // 2, directives):
            measure_place(session, place, rounds)
        assert session.stdin and session.stdout
        session.stdin.close()
        session.stdout.read()


def main() -> None:
    rounds = int(sys.argv[1]) if len(sys.argv) > 1 else 1000
    build()
    with tempfile.TemporaryDirectory() as room:
        for directives in DIRECTIVES:
            measure(os.path.join(room, "script"), directives, rounds)


if __name__ == "__main__":
    main()
