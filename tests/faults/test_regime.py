"""A part of `python3 -m bench.faults`, on the program, and on small wrong programs in its place: what each does wrong is found."""
import os
import pathlib
import subprocess
import sys
from collections.abc import Iterator

from bench.faults.__main__ import KINDS
from tests.harness import TOP, NotHere

# How many of each kind the gate makes.
COUNTS = {"system-calls": 2, "memory": 2, "kills": 6, "full-disk": 2, "changing": 2, "crowds": 1500, "names": 3}
# Of what is found at few places, or at the first.
MANY = {"system-calls": 20, "names": 1}
# A program in raftbench's place, by the kind of fault that shows what is wrong with it, and what is said of it.
WRONG = {
    "system-calls": ("cat script.txt || exit 9", "status 9"),
    "memory": ("cat script.txt", "status"),
    "kills": ('case "$*" in *--accept*) printf "" >script.txt; printf "%s" whole >script.txt;; esac', "torn"),
    "full-disk": ('case "$*" in *--accept*) printf "" >script.txt;  head -c 100000 /dev/zero >script.txt;; esac', "torn"),
    "changing": ("echo $$", "status 0"),
    "crowds": ('echo "1 script"', "status 0"),
    "names": ('printf "%s\\n" "$*"', "a line of a name's own"),
}


def tried(kind: str, count: int, program: str | None = None) -> tuple[int, str]:
    """The status and the output of the tool, on the program or another one in its place."""
    if not KINDS[kind].is_here():
        raise NotHere(f"what {kind} needs")
    around = {**os.environ, **({"RAFTBENCH": program} if program else {})}
    done = subprocess.run([sys.executable, "-m", "bench.faults", kind, "--count", str(count)], cwd=TOP, env=around, capture_output=True, text=True, timeout=600, check=False)
    return done.returncode, done.stdout + done.stderr


def problem_of(kind: str) -> Iterator[str]:
    """What a part of this kind finds wrong with the program."""
    status, output = tried(kind, COUNTS[kind])
    if status or " 0\n" not in output:
        yield output


def test_system_calls() -> Iterator[str]:
    yield from problem_of("system-calls")


def test_memory() -> Iterator[str]:
    yield from problem_of("memory")


def test_kills() -> Iterator[str]:
    yield from problem_of("kills")


def test_full_disk() -> Iterator[str]:
    yield from problem_of("full-disk")


def test_changing() -> Iterator[str]:
    yield from problem_of("changing")


def test_crowds() -> Iterator[str]:
    yield from problem_of("crowds")


def test_names() -> Iterator[str]:
    yield from problem_of("names")


def test_wrong_is_found(room: pathlib.Path) -> Iterator[str]:
    for kind, (body, wanted) in WRONG.items():
        program = room / kind
        program.write_text(f"#!/bin/sh\n{body}\n")
        program.chmod(0o755)
        status, output = tried(kind, MANY.get(kind) or COUNTS[kind], str(program))
        if status != 1 or wanted not in output:
            yield f"{kind}: {status}, {output}"
