"""Refuses each allocation in turn, of every test of the crates whose name ends in `_under_refusals`: such a test passes whether or not memory
was refused, and prints `refused` if it was. It is run with the first allocation refused, then the second, and so on, until a run meets no
refusal. The test programs are those that `rt ci` has built.
"""
import os
import pathlib
import re
import subprocess
import tempfile
from collections.abc import Iterator

from tests.harness import TESTS, TOP, Result

MOST = 200_000
MOST_SECONDS = 60


def compiled(folder: str) -> pathlib.Path:
    """The library that refuses allocations."""
    path = pathlib.Path(folder) / "refuse.so"
    subprocess.run(["cc", "-shared", "-fPIC", "-O2", "-o", path, TESTS / "faults" / "refuse.c", "-ldl"], check=True)
    return path


def problems_of(program: pathlib.Path, name: str, library: pathlib.Path) -> Iterator[str]:
    """What is wrong with a test when one of its allocations is refused."""
    for at in range(1, MOST):
        around = {**os.environ, "REFUSE_AT": str(at), "LD_PRELOAD": str(library)}
        done = subprocess.run([program, name], env=around, stdout=subprocess.PIPE, stderr=subprocess.STDOUT, timeout=MOST_SECONDS)
        if done.returncode:
            yield f"it fails if allocation {at} is refused: {done.stdout.decode(errors='replace')}"
            return
        if b"refused" not in done.stdout:
            print(f"{name}: {at - 1} refusals")
            if at == 1:
                yield "no allocation was refused"
            return
    yield f"a refusal is met still at allocation {MOST}"


def results(word: str) -> Iterator[Result]:
    """Each such test of each test program."""
    count = 0
    with tempfile.TemporaryDirectory() as folder:
        library = compiled(folder)
        programs = [program for program in sorted(TOP.glob("crates/*/out/*_tests")) if os.access(program, os.X_OK)]
        for program in programs:
            listed = subprocess.run([program, "--list"], capture_output=True, text=True, timeout=MOST_SECONDS).stdout
            for name in re.findall(r"[A-Za-z0-9_:]+_under_refusals", listed):
                count += 1
                if word in name:
                    yield Result(name, tuple(problems_of(program, name, library)))
    lacking = "no test program has one" if programs else "no test program is built: `rt ci` builds those of crates whose tests compile"
    yield Result("there are tests to run", () if count else (lacking,))
