"""What all tests share: where things are, the programs that are tested, and how a file of tests is run and counted.

A file test_NAME.py has functions `test_*`. Each takes nothing, or an empty folder (`room`), or a clone of the repository with parts of it (`place`). It
asserts, or yields a text for each problem. A file that finds its tests otherwise has `results(word)`, which yields results.
"""
import dataclasses
import functools
import inspect
import os
import pathlib
import queue
import re
import subprocess
import sys
import tarfile
import tempfile
import types
from collections.abc import Callable, Iterable, Iterator

TOP = pathlib.Path(__file__).resolve().parents[1]
TESTS = TOP / "tests"
MOST_PROBLEMS = 3
MOST_SHOWN = 2000
# What a test may fail with.
FAILURES = (AssertionError, OSError, EOFError, ValueError, LookupError, RuntimeError, queue.Empty, subprocess.SubprocessError, tarfile.TarError)


class NotHere(Exception):
    """What a test needs isn't on this machine, or isn't allowed here. The message says what it is."""


@dataclasses.dataclass(frozen=True)
class Result:
    """What became of a test: its problems, or what it needs and isn't here."""

    name: str
    problems: tuple[str, ...] = ()
    missing: str = ""


def program_at(variable: str, crate: str) -> pathlib.Path:
    """Where a program is: where the variable says, or where its crate is built. With RAFTBENCH_UNPROVED=1 the program without proof will do."""
    if variable in os.environ:
        return pathlib.Path(os.environ[variable])
    built = TOP / "crates" / crate / "out" / crate
    if not built.exists() and os.environ.get("RAFTBENCH_UNPROVED"):
        return next((TOP / "crates" / crate / "out" / "unproved").glob("[0-9a-f]*"), built)
    return built


BUILT = TOP / "crates" / "raftbench" / "out" / "raftbench"
PROGRAM = program_at("RAFTBENCH", "raftbench")
# Holds a session over plain logs on the script on standard input.
OVER_PLAIN_LOGS = program_at("RB_PLAIN", "rb_plain")


def build(names: Iterable[str]) -> str:
    """Builds these programs, `raftbench` or `rb_plain`, where no variable names them. Gives what was said if that failed."""
    commands = {"raftbench": ("RAFTBENCH", [str(TOP / "raftbench"), "--help"], TOP), "rb_plain": ("RB_PLAIN", ["rt", "run"], TOP / "crates" / "rb_plain")}
    for name in names:
        variable, command, folder = commands[name]
        is_unproved = bool(os.environ.get("RAFTBENCH_UNPROVED"))
        # No proof is begun for rb_plain where none is asked for.
        if variable in os.environ or name == "rb_plain" and (OVER_PLAIN_LOGS.exists() or is_unproved):
            continue
        around = os.environ if is_unproved else {**os.environ, "RAFTBENCH_PROVE_FIRST": "1"}
        done = subprocess.run(command, cwd=folder, env=around, stdin=subprocess.DEVNULL, capture_output=True, text=True, errors="replace")
        if done.returncode:
            return f"{name} could not be built:\n{done.stderr}"
    return ""


def shown(value: object) -> str:
    """A value for a message, cut if it is long."""
    text = repr(value)
    return text if len(text) <= MOST_SHOWN else f"{text[:MOST_SHOWN]}.. ({len(text)} characters)"


def matched(pattern: str, text: str) -> re.Match[str]:
    """What a pattern finds first in a text. Raises LookupError if it finds nothing."""
    found = re.search(pattern, text, re.M)
    if not found:
        raise LookupError(f"no {pattern} in {shown(text)}")
    return found


def functions_of(module: types.ModuleType) -> dict[str, Callable[..., object]]:
    """A file's tests by name, in their order."""
    return {name.removeprefix("test_").replace("_", "-"): it for name, it in vars(module).items() if name.startswith("test_") and inspect.isfunction(it)}


def result_of(name: str, test: Callable[[], object]) -> Result:
    """What becomes of a test that asserts or yields its problems."""
    try:
        told = test()
        return Result(name, tuple(map(str, told)) if isinstance(told, Iterable) else ())
    except NotHere as error:
        return Result(name, missing=str(error) or "what it needs")
    except FAILURES as error:
        return Result(name, (f"{type(error).__name__}: {error}",))


def results_of(tests: Iterable[Callable[..., object]], word: str, missing: str = "", *given: object) -> Iterator[Result]:
    """The results of these tests, called with what is given, or that they aren't tried."""
    for test in tests:
        name = test.__name__.replace("_", "-")
        if word in name:
            yield Result(name, missing=missing) if missing else result_of(name, functools.partial(test, *given))


def called(test: Callable[..., object], place: Callable[[pathlib.Path], object] | None) -> object:
    """What a test gives when it is called with what it takes."""
    wanted = list(inspect.signature(test).parameters)
    if not wanted:
        return test()
    with tempfile.TemporaryDirectory() as folder:
        # Others may come in, which some tests act as.
        pathlib.Path(folder).chmod(0o755)
        room = pathlib.Path(folder) / "room"
        room.mkdir()
        told = test(place(room) if wanted == ["place"] and place else room)
        return list(told) if isinstance(told, Iterator) else told


def module_results(module: types.ModuleType, word: str) -> Iterator[Result]:
    """The results of a file's tests with this word in their names."""
    if hasattr(module, "results"):
        yield from module.results(word)
        return
    place = getattr(module, "Clone", None)
    for name, test in functions_of(module).items():
        if word in name:
            yield result_of(name, functools.partial(called, test, place))


def run_file(module: types.ModuleType, word: str) -> int:
    """Runs a file's tests and prints what failed, what was not tried, and the count. Gives the status."""
    passed = failed = 0
    for result in module_results(module, word):
        if result.missing:
            print(f"{result.name}: not tried, since {result.missing} isn't here")
            continue
        for problem in result.problems[:MOST_PROBLEMS]:
            print(f"FAILED {result.name}: {problem[:MOST_SHOWN]}")
        passed, failed = passed + (not result.problems), failed + bool(result.problems)
        sys.stdout.flush()
    print(f"{passed} passed, {failed} failed")
    return 1 if failed else 0
