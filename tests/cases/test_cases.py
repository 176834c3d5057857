"""Runs the program on each case and compares what it writes byte for byte, and what it leaves.

The subjects: `words` (of the command line), `scripts` (that are run or rewritten), `arguments` (of directives: what each takes, and what
refuses it), `cluster` (what directives do), `limits` (what is possible at a limit, and no further), `session`, `look`, `check`, and `hostile`
(texts that look like nothing, or are made to cost much). In `rules` is a script for each rule of docs/NODE.md: the program and the plain bench
agree with it, and nodes with the wrong rules that it names don't (rules/seen.py).

The program runs over split logs. If `run SCRIPT` makes a report of a script, rb_plain holds a session over plain logs on it, removes the directive in
the middle and puts it back: its report must be the same.
"""
import contextlib
import dataclasses
import os
import pathlib
import re
import subprocess
import tempfile
from collections.abc import Iterator
from typing import IO

from tests.cases.case import Case, Part, cases_below, write_case
from tests.cases.rules import seen
from tests.harness import OVER_PLAIN_LOGS, PROGRAM, Result, shown

HERE = pathlib.Path(__file__).resolve().parent
MOST_SECONDS = 120
# The longest output that is written into a case.
MOST_ACCEPTED = 100_000
# The case in which the program says that it was proved.
OF_PROOF = "words/version"
TIME = re.compile(rb"\d+\.\d{3} s\n\Z")


@dataclasses.dataclass(frozen=True)
class Outcome:
    """What came of a run: the status, what was written, and the files that are left."""

    status: int
    output: bytes
    errors: bytes
    left: dict[str, bytes]


def runs_of(case: Case) -> Iterator[tuple[str, bytes | None, bytes | None]]:
    """How the case is run: what is said of it, the script and the input."""
    script, given = case.data("script"), case.data("input")
    if case.again:
        yield "", script, given
        yield " again", case.data("output") or b"", given
    elif not case.lengths:
        yield "", script, given
    for first, last in case.lengths:
        for n in range(first, last + 1):
            cut = f" cut to {n} bytes"
            yield (cut, (script or b"")[:n], None) if given is None else (cut, script, given[:n])


def going_to(case: Case, how: str) -> contextlib.AbstractContextManager[IO[bytes] | int]:
    """The file that a stream goes to, or a pipe."""
    for stream in case.streams:
        if re.fullmatch(f"{re.escape(how)}[^&]+", stream):
            return open(stream.removeprefix(how), "wb")
    return contextlib.nullcontext(subprocess.PIPE)


def outcome_of(case: Case, script: bytes | None, given: bytes | None) -> Outcome:
    """Runs a case in a folder of its own. Raises subprocess.TimeoutExpired."""
    with tempfile.TemporaryDirectory() as folder:
        room = pathlib.Path(folder) / "room"
        room.mkdir()
        path = os.fsencode(pathlib.Path(folder) / "script")
        if script is not None:
            pathlib.Path(os.fsdecode(path)).write_bytes(script)
        for name, data in case.files("file").items():
            (room / name).parent.mkdir(parents=True, exist_ok=True)
            (room / name).write_bytes(data)
        words = [path + word[6:] if re.fullmatch(b"SCRIPT(:.*)?", word) else word for word in case.words]
        closed = " ".join(it for it in case.streams if it.endswith("&-"))
        shell = [b"/bin/sh", b"-c", f'exec "$@" {closed}'.encode(), b"sh"] if closed else []
        with going_to(case, ">") as output, going_to(case, "2>") as errors:
            done = subprocess.run(
                [*shell, os.fsencode(PROGRAM), *words], cwd=room, input=given or b"", stdout=output, stderr=errors, timeout=MOST_SECONDS)
        left = {str(it.relative_to(room)): it.read_bytes() for it in sorted(room.rglob("*")) if it.is_file()}
    out, said = (text.replace(path, b"SCRIPT") for text in (done.stdout or b"", done.stderr or b""))
    return Outcome(done.returncode, TIME.sub(b"TIME\n", out) if case.words[:1] == (b"check",) else out, said, left)


def differences(case: Case, outcome: Outcome) -> Iterator[str]:
    """A text for each part of an outcome that isn't the case's."""
    if outcome.status != case.status:
        yield f"status {outcome.status}, and not {case.status}"
    for line in case.error_lines:
        if line.encode() not in outcome.errors.splitlines():
            yield f"the errors don't have {line!r}: {shown(outcome.errors)}"
    for name, actual in (("output", outcome.output), ("errors", outcome.errors)):
        wanted = case.data(name) or b""
        if name not in case.not_compared and wanted != actual:
            yield f"{name} wanted: {shown(wanted)}\n    {name} actual: {shown(actual)}"
    due = {**case.files("file"), **case.files("after")}
    for name in sorted({*outcome.left, *due}):
        if outcome.left.get(name) != due.get(name):
            yield f"it leaves {name} as {shown(outcome.left.get(name))}, and not {shown(due.get(name))}"


def is_for_both_logs(case: Case) -> bool:
    """Whether a script is run whole, and has a report."""
    is_run = case.words == (b"run", b"SCRIPT") and case.status in (0, 1)
    return is_run and not case.streams and not case.lengths and "output" not in case.not_compared


def problems_over_plain_logs(script: bytes, report: bytes) -> Iterator[str]:
    """What rb_plain prints of a script, where that isn't the report."""
    try:
        done = subprocess.run([OVER_PLAIN_LOGS], input=script, capture_output=True, timeout=MOST_SECONDS)
    except subprocess.TimeoutExpired:
        yield f"over plain logs: no end within {MOST_SECONDS} seconds"
        return
    if (done.returncode, done.stdout) != (0, report):
        yield f"over plain logs: status {done.returncode}\n    wanted: {shown(report)}\n    actual: {shown(done.stdout)}"


def problems_of(case: Case) -> Iterator[str]:
    """What is wrong with the program, by a case."""
    for how, script, given in runs_of(case):
        try:
            yield from (f"{how.strip()}: {it}".removeprefix(": ") for it in differences(case, outcome_of(case, script, given)))
        except subprocess.TimeoutExpired:
            yield f"{how.strip()}: no end within {MOST_SECONDS} seconds".removeprefix(": ")
    if is_for_both_logs(case) and OVER_PLAIN_LOGS.exists():
        yield from problems_over_plain_logs(case.data("script") or b"", case.data("output") or b"")


def problems_of_rule(path: pathlib.Path) -> Iterator[str]:
    """Whether the program agrees with a rule's script, over either log."""
    try:
        done = subprocess.run([PROGRAM, "run", path], capture_output=True, timeout=MOST_SECONDS)
    except subprocess.TimeoutExpired:
        yield f"no end within {MOST_SECONDS} seconds"
        return
    if done.returncode != 0 or not done.stdout.endswith(b", 0 mismatches\n"):
        yield shown(done.stdout + done.stderr)
    if OVER_PLAIN_LOGS.exists():
        yield from problems_over_plain_logs(path.read_bytes(), done.stdout)


def accept(name: str, case: Case) -> Iterator[str]:
    """Writes the actual outcome into a case's file. Yields what can't be written."""
    _, script, given = next(runs_of(case))
    outcome = outcome_of(case, script, given)
    if max(len(outcome.output), len(outcome.errors)) > MOST_ACCEPTED:
        yield "its output is too long to be written into it"
        return
    parts = {key: part for key, part in case.parts.items() if not key.startswith("after ")}
    for key, data in (("output", outcome.output), ("errors", outcome.errors)):
        if key not in case.not_compared and data != (case.data(key) or b""):
            parts[key] = Part(data)
            if not data:
                del parts[key]
    files = case.files("file")
    parts |= {f"after {key}": Part(data) for key, data in outcome.left.items() if files.get(key) != data}
    (HERE / f"{name}.case").write_bytes(write_case(dataclasses.replace(case, status=outcome.status, parts=parts)).encode())


def results(word: str) -> Iterator[Result]:
    """The cases with this word in their names, and the rules."""
    if not OVER_PLAIN_LOGS.exists():
        yield Result("over plain logs", missing="rb_plain")
    is_accepting = bool(os.environ.get("RAFTBENCH_ACCEPT"))
    for name, case in cases_below(HERE, word).items():
        if name == OF_PROOF and PROGRAM.parent.name == "unproved":
            yield Result(name, missing="a proved program")
            continue
        problems = tuple(problems_of(case))
        if problems and is_accepting:
            problems = tuple(accept(name, case))
            print(f"accepted {name}" if not problems else f"not accepted {name}")
        yield Result(name, problems)
    for name, wrong in seen.problems():
        path = HERE / "rules" / f"{name}.txt"
        if word in f"rules/{name}":
            yield Result(f"rules/{name}", (*wrong, *(problems_of_rule(path) if path.exists() else ())))
