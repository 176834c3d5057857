"""What the measures share: the built program, runs of it that are watched, sessions that answer, and scripts."""
import os
import subprocess
import time
from typing import Any

TOP = os.path.dirname(os.path.dirname(os.path.abspath(__file__)))
PROGRAM = os.path.join(TOP, "crates", "raftbench", "out", "raftbench")
# The most bytes of a script.
LONGEST = 4_194_304


def build() -> None:
    """The wrapper builds where that is needed."""
    subprocess.run([os.path.join(TOP, "raftbench"), "--help"], stdout=subprocess.DEVNULL, check=True)


def compiled(room: str, name: str) -> str:
    """A program of this folder in C."""
    path = os.path.join(room, name)
    subprocess.run(["cc", "-O2", "-o", path, os.path.join(TOP, "bench", f"{name}.c")], check=True)
    return path


def watched_run(watched: str, words: list[str], **how: Any) -> tuple[int, int, int]:
    """The nanoseconds of a run of the program, its peak memory in KiB and its status."""
    how = {"input": b"", "stdout": subprocess.PIPE, "check": True, **how}
    took, memory, status = map(int, subprocess.run([watched, PROGRAM, *words], **how).stdout.split())
    return took, memory, status


def write_file(path: str, content: bytes) -> None:
    with open(path, "wb") as file:
        file.write(content)


def record(path: str, script: bytes) -> bytes:
    """Writes the script with its outputs there, or as it is where that would be too long. Gives it with its outputs."""
    write_file(path, script)
    recorded = subprocess.run([PROGRAM, "rewrite", path], stdout=subprocess.PIPE, check=True).stdout
    if len(recorded) <= LONGEST:
        write_file(path, recorded)
    return recorded


def start_session(path: str, *words: str) -> subprocess.Popen[bytes]:
    return subprocess.Popen([PROGRAM, "session", path, *words], stdin=subprocess.PIPE, stdout=subprocess.PIPE)


def ask(session: subprocess.Popen[bytes], command: bytes) -> tuple[bytes, int]:
    """The session's answer of one line, and the nanoseconds until it came."""
    start = time.perf_counter_ns()
    assert session.stdin and session.stdout
    session.stdin.write(command)
    session.stdin.flush()
    answer = session.stdout.readline()
    return answer, time.perf_counter_ns() - start
