"""Sends scripts that look random to `raftbench run` and `rewrite`, and lists of edits to `raftbench session`, beside the plain slow
bench of plain/: node.py and cluster.py do what a directive does with lists, sets and counts, script.py reads scripts line by
line, and session.py runs a script anew after each edit and finds the cost of the edit and the kept places by looking at the
states at every point.

Scripts whose logs go over many pages are run by rb_plain too, which holds a session over plain logs on each.

Outputs, reports, rewritten scripts, statuses, answers and the numbers of directives that edits execute must be equal to the byte. The
seeds are always the same, and over them each line, error, directive and option of docs/SCRIPTS.md and each type of message at
each role must have come up at least once (covered.py).

    tests/run plain                   as ./test runs it; with TIMES=N in the environment N times as many seeds
    tests/plain/seed.py script SEED   one script: what differs, and the script itself; `session SEED` and `long SEED` do the same
"""
import collections
import dataclasses
import multiprocessing
import multiprocessing.pool
import os
import pathlib
import subprocess
import tempfile
from collections.abc import Callable, Iterable, Iterator
from typing import Any

from plain.cluster import Cluster
from plain.dice import Dice
from plain.node import Node
from plain.script import Fault, read_script
from plain.session import Session, Talk, report_of, run
from tests.harness import OVER_PLAIN_LOGS, PROGRAM, Result
from tests.plain.commands import Commands
from tests.plain.covered import Covered, lacks_of_roles

# The output, the errors and the status.
Answer = tuple[bytes, bytes, int]
SCRIPTS, LONG_SCRIPTS, SESSIONS, EDITS = 1500, 60, 300, 20
# The durable entries of a split log stand in pages of so many.
PAGE = 64
SPACINGS = [1, 2, 3, 4, 5, 7, 16, 64]
MOST_SECONDS = 120


def program(words: list[str], given: bytes, path: pathlib.Path = PROGRAM) -> Answer:
    """The output, what stands on standard error, and the status."""
    done = subprocess.run([path, *words], input=given, capture_output=True, timeout=MOST_SECONDS)
    return done.stdout, done.stderr, done.returncode


def wanted_of(data: bytes, mode: str) -> Answer:
    """What a run has to answer."""
    try:
        output, status = run(data, mode)
        return output, b"", status
    except Fault as fault:
        return b"", f"raftbench: script refused: {fault}\n".encode(), 3


def difference(what: str, came: Answer, wanted: Answer) -> str | None:
    """Where two answers differ first, or None."""
    if came == wanted:
        return None
    for part, one, other in zip(("output", "errors"), came, wanted):
        if one != other and isinstance(one, bytes) and isinstance(other, bytes):
            pairs = enumerate(zip(one.split(b"\n") + [b""], other.split(b"\n") + [b""]), 1)
            at, (a, b) = next((at, pair) for at, pair in pairs if pair[0] != pair[1])
            return f"{what}: line {at} of its {part} is {a!r}, and not {b!r}"
    return f"{what}: status {came[2]}, and not {wanted[2]}"


@dataclasses.dataclass(frozen=True)
class Seen:
    """What one seed shows: what differs, if something does, what is counted, and what was not met."""

    problem: str | None
    count: int
    early: int = 0
    lacks: frozenset[str] = frozenset()


# Scripts


def script_of(seed: int) -> bytes:
    dice = Dice(seed)
    made: bytes = dice.script(dice.choice([5, 15, 30, 45]))
    return made


class CountedCluster(Cluster):
    """A cluster that counts how often a message of each type met a node of each role."""

    def __init__(self, met: "collections.Counter[tuple[str, str]]") -> None:
        super().__init__()
        self.met = met

    def new_node(self, *parts: Any) -> Node:
        node = CountedNode(*parts)
        node.met = self.met
        return node


class CountedNode(Node):
    """A node that counts each message by its type and the role of this node."""

    met: "collections.Counter[tuple[str, str]]"

    def step(self, m: Any) -> None:
        self.met[m.kind, self.role] += 1
        super().step(m)


def cover(data: bytes, covered: Covered, met: "collections.Counter[tuple[str, str]]") -> int:
    """Takes note of what a script meets."""
    try:
        script = read_script(data)
    except Fault:
        return 0
    cluster = CountedCluster(met)
    for block in script.blocks:
        directive = block.directive()
        covered.take(directive, cluster.run(directive))
    return len(script.blocks)


def script(seed: int) -> Seen:
    """What one script shows; its directives are counted."""
    data, covered = script_of(seed), Covered()
    met: collections.Counter[tuple[str, str]] = collections.Counter()
    count = cover(data, covered, met)
    for mode in ("rewrite", "run"):
        wanted = wanted_of(data, mode)
        problem = difference(mode, program([mode, "-"], data), wanted)
        if mode == "rewrite" and not problem and wanted[2] == 0:
            clean = b"%d directives, 0 mismatches\n" % count
            problem = difference("run of the rewritten script", program(["run", "-"], wanted[0]), (clean, b"", 0))
        if problem:
            return Seen(problem, count)
    return Seen(None, count, lacks=frozenset(covered.lacks() | lacks_of_roles(met)))


# Long logs


def long_script_of(seed: int) -> bytes:
    dice = Dice(seed)
    made: bytes = dice.long_script(dice.choice([2, 4, 8]))
    return made


def long(seed: int) -> Seen:
    """What one script over both logs shows; the lines of the longest log are counted."""
    data = long_script_of(seed)
    wanted = wanted_of(data, "run")
    problem = difference("run", program(["run", "-"], data), wanted)
    problem = problem or difference("a session over plain logs", program([], data, OVER_PLAIN_LOGS), (wanted[0], b"", 0))
    return Seen(problem, max(part.count(b"\n+ ") for part in wanted[0].split(b"mismatch ")))


# Sessions


def talk_of(seed: int, edits: int = EDITS) -> tuple[bytes, int, bytes, bytes, int, list[int], Session]:
    """A script, its spacing, what is sent, and what has to be answered; and how many edits were made, and stopped before the end."""
    dice = Commands(seed)
    script, every = dice.script(dice.choice([0, 1, 6, 12, 24, 36])), dice.choice(SPACINGS)
    session = Session(script, every)
    sent, said, status, made = [], [], session.status(), [0, 0]
    for _ in range(edits):
        command = dice.command(session)
        said_now, status = Talk(session, command).answers()
        note_edit(made, command, said_now, session)
        sent.append(command + b"report\n" + dice.choice([b"", b"", b"rewrite\n", b"script\n"]))
        said += [said_now, Talk(session, sent[-1][len(command):]).answers()[0]]
    if dice.some(0.1):
        sent.append(dice.throw_end(session))
        said_now, status = Talk(session, sent[-1]).answers()
        said.append(said_now)
    return script, every, b"".join(sent), b"".join(said), status, made, session


def note_edit(made: list[int], command: bytes, said: bytes, session: Session) -> None:
    """Counts the edits that change directives, and those of them that stop before the end."""
    words = command.split()
    if said.startswith(b"done ") and words[0] in (b"insert", b"replace", b"remove"):
        made[0] += 1
        made[1] += session.stop < len(session.script.blocks)


def session(seed: int) -> Seen:
    """What one list of edits shows; the edits of directives are counted, and those that stopped early."""
    try:
        text, every, sent, said, status, made, edited = talk_of(seed)
    except Fault:
        return Seen(None, 0)
    with tempfile.NamedTemporaryFile() as file:
        file.write(text)
        file.flush()
        problem = difference("session", program(["session", file.name, "--every", str(every)], sent), (said, b"", status))
    fresh = report_of(edited.script, edited.outputs), b"", edited.status()
    problem = problem or difference("a fresh run of the edited script", program(["run", "-"], edited.script.text()), fresh)
    return Seen(problem, made[0], made[1])


def look_at(pool: multiprocessing.pool.Pool, look: Callable[[int], Seen], seeds: Iterable[int]) -> tuple[list[Result], list[Seen]]:
    """The result of each seed, and what it shows."""
    results, all_seen = [], []
    for seed, seen in zip(seeds, pool.imap(look, seeds, chunksize=4)):
        results.append(Result(f"{look.__name__} of seed {seed}", (seen.problem,) if seen.problem else ()))
        all_seen.append(seen)
    return results, all_seen


def scripts_seen(pool: multiprocessing.pool.Pool, times: int) -> Iterator[Result]:
    """Short scripts, which have to meet all that covered.py names."""
    results, seen = look_at(pool, script, range(SCRIPTS * times))
    yield from results
    print(f"{len(seen)} scripts of {sum(it.count for it in seen)} directives")
    lacks = frozenset.intersection(*(it.lacks for it in seen if not it.problem))
    yield Result("all is met", tuple(sorted(lacks)))


def logs_seen(pool: multiprocessing.pool.Pool, times: int) -> Iterator[Result]:
    """Scripts with long logs."""
    results, seen = look_at(pool, long, range(LONG_SCRIPTS * times))
    yield from results
    print(f"{len(seen)} scripts over both logs; the longest log has {max(it.count for it in seen) - 1} entries")
    many = sum(it.count > PAGE + 1 for it in seen)
    yield Result("logs of more than a page", () if many * 2 >= len(seen) else (f"{many} of {len(seen)} scripts show one",))


def sessions_seen(pool: multiprocessing.pool.Pool, times: int) -> Iterator[Result]:
    """Lists of edits."""
    results, seen = look_at(pool, session, range(SESSIONS * times))
    yield from results
    edits, early = sum(it.count for it in seen), sum(it.early for it in seen)
    print(f"{len(seen)} sessions of {edits} edits, {early} of which stopped early")
    yield Result("edits that stop early", () if early * 10 >= edits else (f"{early} of {edits}",))


def results(word: str) -> Iterator[Result]:
    """Each seed, and what all seeds together must have met."""
    times = int(os.environ.get("TIMES", "1"))
    with multiprocessing.Pool() as pool:
        for name, look in (("scripts", scripts_seen), ("logs", logs_seen), ("sessions", sessions_seen)):
            if word in name:
                yield from look(pool, times)
