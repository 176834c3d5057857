#!/usr/bin/env python3
"""Measures reading and writing of a script of 4 MiB and 10,000 directives from outside, beside a plain line reader in C.

Reading is a run of the script with a fault in its last block, which ends once all is read and runs nothing, less a run of an empty
script. Writing is a session's answer to `script`, over a pipe. Prints the best of some rounds as megabytes a second, and the peak
memory of that run. The line reader is measured from inside, so it is ahead by what a file, a pipe and a process cost.

    bench/reading.py [ROUNDS]
"""
import io
import os
import subprocess
import sys
import tempfile
import time

sys.dont_write_bytecode = True
sys.path[:1] = [os.path.dirname(os.path.dirname(os.path.abspath(__file__)))]

from bench.measured import build, compiled, start_session, watched_run, write_file  # noqa: E402

BYTES, DIRECTIVES = 4194304, 10000
# The status of a script that is none, and a head that no directive has: it takes the place of the last one.
NO_SCRIPT, BAD_HEAD = 3, b"=x\n"
# The answer to `show 0`, by which the end of a script is found.
END = b"refused NoSuchPlace\n"


def script_of(size: int, directives: int) -> bytes:
    """A script of so many directives and about so many bytes."""
    blocks = []
    for number in range(1, directives + 1):
        head = "add-nodes 3 voters=(1,2,3) learners=(4 5) index=10 content=abc\n----\n"
        lead = f"# directive {number}\n"
        line = "INFO 1 started at 1/10 with voters=(1,2,3) learners=(4,5)\n"
        count, rest = divmod(max(0, size // directives - len(head) - len(lead) - 1), len(line))
        blocks.append(lead + head + line * count + ("x" * (rest - 1) + "\n" if rest > 1 else "") + "\n")
    return "".join(blocks).encode()


def run_of(watched: str, path: str, status: int) -> tuple[int, int]:
    """The nanoseconds of a run and its peak memory in KiB. Exits where the run ends with another status."""
    took, memory, ended = watched_run(watched, ["run", path])
    if ended != status:
        sys.exit(f"raftbench run ended with {ended}, not {status}")
    return took, memory


def with_bad_end(script: bytes) -> bytes:
    """The script with a bad head in place of its last."""
    at = script.rindex(b"add-nodes ")
    return script[:at] + BAD_HEAD + script[script.index(b"\n", at) + 1:]


def time_reading(watched: str, room: str, script: bytes, rounds: int) -> tuple[int, int]:
    """The least nanoseconds of reading the script, and the peak memory in KiB."""
    bad, empty = os.path.join(room, "bad"), os.path.join(room, "empty")
    write_file(bad, with_bad_end(script))
    write_file(empty, b"")
    runs = [run_of(watched, bad, NO_SCRIPT) for _ in range(rounds)]
    start = min(run_of(watched, empty, 0)[0] for _ in range(rounds))
    return min(took for took, _ in runs) - start, max(memory for _, memory in runs)


def answer_to_script(session: subprocess.Popen[bytes]) -> int:
    """How many bytes a session answers to `script`. Exits where the session ends."""
    assert session.stdin and isinstance(session.stdout, io.BufferedReader)
    session.stdin.write(b"script\nshow 0\n")
    session.stdin.flush()
    got = bytearray()
    while not got.endswith(END):
        some = session.stdout.read1(1 << 20)
        if not some:
            sys.exit("the session ended")
        got += some
    return len(got) - len(END)


def time_writing(path: str, rounds: int) -> tuple[int, int]:
    """The least nanoseconds of writing the script at the path, and how many bytes that are."""
    with start_session(path, "--every", "64") as session:
        times, size = [], 0
        for _ in range(rounds):
            start = time.perf_counter_ns()
            size = answer_to_script(session)
            times.append(time.perf_counter_ns() - start)
        assert session.stdin and session.stdout
        session.stdin.close()
        session.stdout.read()
    return min(times), size


def show(name: str, size: int, read: int, written: int, write: int, memory: str) -> None:
    print(f"{name:18} reads {size * 1000 // max(read, 1):6} MB/s  writes {written * 1000 // max(write, 1):6} MB/s{memory}")


def main() -> None:
    rounds = int(sys.argv[1]) if len(sys.argv) > 1 else 20
    build()
    with tempfile.TemporaryDirectory() as room:
        watched, lines, path = compiled(room, "watched"), compiled(room, "lines"), os.path.join(room, "script")
        script = script_of(BYTES, DIRECTIVES)
        write_file(path, script)
        print(f"{len(script)} bytes, {DIRECTIVES} directives")
        read, memory = time_reading(watched, room, script, rounds)
        write, written = time_writing(path, rounds)
        show("raftbench", len(script), read, written, write, f"  peak memory {memory * 1024 / len(script):.1f} times the script")
        printed = subprocess.run([lines, path, str(rounds)], stdout=subprocess.PIPE, check=True).stdout.splitlines()
        told = {words[0]: words[1] for words in map(bytes.split, printed)}
        show("plain lines in C", len(script), int(told[b"read"]), len(script), int(told[b"write"]), "")


if __name__ == "__main__":
    main()
