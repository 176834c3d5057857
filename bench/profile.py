#!/usr/bin/env python3
"""Counts the instructions of the built program under valgrind's callgrind, on the scripts of bench/cluster.py that people run, and says where they
go: by crate, in the allocator, and in copies of memory; the functions that take most; and how often memory is asked for. Instructions are the same
whatever else the machine does.

    bench/profile.py [WORD]
"""
import collections
import os
import re
import subprocess
import sys
import tempfile

sys.dont_write_bytecode = True
sys.path[:1] = [os.path.dirname(os.path.dirname(os.path.abspath(__file__)))]

from bench import cluster  # noqa: E402
from bench.measured import PROGRAM, build, record  # noqa: E402

LINE = re.compile(r"^\s*([\d,]+) \(\s*[\d.]+%\)\s+(.*?):(\S+?)(?: \[.*\])?$")
# A call in callgrind's own file: of a function by its number, which is named where it comes first.
CALLED = re.compile(r"^cfn=\((\d+)\).*\ncalls=(\d+)", re.M)
NAMED = re.compile(r"^c?fn=\((\d+)\) (\S+)", re.M)
FUNCTIONS = 8


def group_of(file: str, function: str) -> str:
    """The crate, or what the system does."""
    if file.startswith("./malloc") or function in ("rattle_alloc", "rattle_dealloc", "rattle_realloc"):
        return "allocator"
    if file.startswith("./string"):
        return "copies of memory"
    return function.partition(":")[0] if "::" in function else "others"


def calls_of(name: str, profile: str) -> int:
    """How often a function is called."""
    numbers = {number for number, named in NAMED.findall(profile) if named == name}
    return sum(int(calls) for number, calls in CALLED.findall(profile) if number in numbers)


def counted(path: str, words: list[str]) -> tuple[list[tuple[int, str, str]], int]:
    """The instructions of each function, most first; and how often memory is asked for."""
    with tempfile.NamedTemporaryFile() as out:
        call = ["valgrind", "--tool=callgrind", f"--callgrind-out-file={out.name}", path, *words]
        subprocess.run(call, stdin=subprocess.DEVNULL, stdout=subprocess.DEVNULL, stderr=subprocess.DEVNULL)
        told = subprocess.run(["callgrind_annotate", "--threshold=100", out.name], stdout=subprocess.PIPE, check=True).stdout.decode()
        asked = calls_of("rattle_alloc", out.read().decode())
    found = [LINE.match(line) for line in told.splitlines()]
    return [(int(line[1].replace(",", "")), line[2], line[3]) for line in found if line], asked


def main() -> None:
    word = sys.argv[1] if len(sys.argv) > 1 else ""
    build()
    with tempfile.NamedTemporaryFile() as script:
        for name, heads, words in (each for each in cluster.WORK[:6] if word in each[0]):
            record(script.name, cluster.script_of(heads))
            functions, asked = counted(PROGRAM, [words[0], script.name, *words[1:]])
            total = sum(count for count, _, _ in functions)
            groups: collections.Counter[str] = collections.Counter()
            for count, file, function in functions:
                groups[group_of(file, function)] += count
            print(f"{name}: {total / 1e6:.1f} million instructions, {total // len(heads)} a directive, {asked / len(heads):.1f} allocations")
            print("  " + ", ".join(f"{group} {count * 100 / total:.1f} %" for group, count in groups.most_common() if count * 100 > total))
            for count, _, function in functions[:FUNCTIONS]:
                print(f"  {count * 100 / total:5.1f} % {function}")


if __name__ == "__main__":
    main()
