#!/usr/bin/env python3
"""Tries wrong bodies of the crates: each is an edit, and the function that it names must refuse it by a goal of its own.

    tests/bodies/judge.py               those that are marked `tried: yes` in tests/bodies/CRATE.edits, and the judge itself (trials.edits)
    tests/bodies/judge.py CRATE..       those of these crates
    tests/bodies/judge.py all [CRATE..] all that are kept
    tests/bodies/judge.py trials        the judge alone

A crate must be proved as it stands: what `rt ci` or `rt check` left in out/ is used, and what is missing is proved first.
`--beside FOLDER`, in front of all that, stands for a run of `rt ci` that has begun in this copy of the repository, in which nothing was built
before: the folder's file `said` has what it has said, and `status` comes with its end. A crate is tried once the run has proved it, on
processors that the run leaves idle.
"""
import concurrent.futures
import functools
import os
import pathlib
import resource
import sys
import time
from collections.abc import Callable

HERE = pathlib.Path(__file__).resolve().parent
sys.dont_write_bytecode = True
sys.path[:1] = [str(HERE.parents[1])]

from tests.bodies import trials  # noqa: E402
from tests.bodies.batches import judged  # noqa: E402
from tests.bodies.beside import Gate  # noqa: E402
from tests.bodies.crates import Crate, NotReady, crates_of  # noqa: E402
from tests.bodies.edits import BadEdit, Edit, read_edits  # noqa: E402
from tests.bodies.verdicts import Kind, Verdict  # noqa: E402
from tests.lanes import lanes  # noqa: E402


def edits_of(name: str, is_all: bool) -> dict[str, Edit | BadEdit]:
    """A crate's edits that are tried, or all of them, and those that can't be read. Raises BadEdit."""
    path = HERE / f"{name}.edits"
    edits = read_edits(path, name) if path.exists() else {}
    return {key: it for key, it in edits.items() if is_all or isinstance(it, BadEdit) or it.tried}


def tried(crate: Crate, edits: dict[str, Edit | BadEdit]) -> tuple[int, int]:
    """Tries a crate's edits, prints a line for each, and gives how many have passed and how many failed."""
    start, passed = time.monotonic(), 0

    def told(edit: Edit, verdict: Verdict) -> None:
        nonlocal passed
        if verdict.kind is Kind.REFUSED:
            passed += 1
            print(f"{edit}: {edit.function}: {verdict.line[:160]}", flush=True)
        else:
            print(f"FAILED {edit}: {verdict.kind.value}: {verdict.line[:400]}", flush=True)

    for name, it in edits.items():
        if isinstance(it, BadEdit):
            print(f"FAILED {crate.name}/{name}: {it}", flush=True)
    try:
        judged(crate, [it for it in edits.values() if isinstance(it, Edit)], told)
    except NotReady as error:
        print(f"FAILED {crate.name}: {error}", flush=True)
    print(f"{crate.name}: {passed} of {len(edits)} refused in {time.monotonic() - start:.0f} s", flush=True)
    return passed, len(edits) - passed


def done_in_turn(tasks: list[tuple[str, Callable[[], tuple[int, int]]]], gate: Gate | None) -> tuple[int, int]:
    """Does these tasks, each once the crate that it names is proved, in as many lanes as there are, or beside a run of `rt ci` in those that it
    leaves. Adds what they give."""
    count, left = lanes(), tasks
    running: set[concurrent.futures.Future[tuple[int, int]]] = set()
    passed = failed = 0
    with concurrent.futures.ThreadPoolExecutor(count) as pool:
        while left or running:
            if gate:
                gate.read()
            ready = [it for it in left if not gate or gate.may_judge(it[0])]
            begun = ready[: max(count - (gate.busy() if gate else 0) - len(running), 0)]
            left = [it for it in left if it not in begun]
            running |= {pool.submit(call) for _, call in begun}
            done, running = concurrent.futures.wait(running, 2, concurrent.futures.FIRST_COMPLETED)
            if not done and not running:
                time.sleep(2)
            for it in done:
                passed, failed = passed + it.result()[0], failed + it.result()[1]
    return passed, failed


def main(words: list[str]) -> int:
    crates, gate = crates_of(), None
    if words[:1] == ["--beside"]:
        gate, words = Gate(pathlib.Path(words[1]), crates), words[2:]
        # What the run proves goes before.
        os.nice(10)
    is_all = words[:1] == ["all"]
    names = words[1:] if is_all else words
    has_trials = names in ([], ["trials"])
    if has_trials:
        names = [] if names else [*crates]
    strange = [name for name in names if name not in crates]
    strange += [it.stem for it in HERE.glob("*.edits") if it.stem not in (*crates, "trials")]
    if strange:
        print(f"no crate has the name {' or '.join(strange)}", file=sys.stderr)
        print("0 passed, 1 failed")
        return 2
    edits = {name: edits_of(name, is_all) for name in names}
    # The largest crates first, so that no lane is left alone with one.
    tasks = sorted((name for name in names if edits[name]), key=lambda name: -sum(path.stat().st_size for path in crates[name].files()))
    calls: list[tuple[str, Callable[[], tuple[int, int]]]] = [(name, functools.partial(tried, crates[name], edits[name])) for name in tasks]
    calls += [(trials.CRATE, functools.partial(trials.tried, crates))] * has_trials
    passed, failed = done_in_turn(calls, gate)
    used = resource.getrusage(resource.RUSAGE_CHILDREN)
    print(f"{used.ru_utime + used.ru_stime:.0f} processor seconds")
    print(f"{passed} passed, {failed} failed")
    return 1 if failed or not passed else 0


if __name__ == "__main__":
    sys.exit(main(sys.argv[1:]))
