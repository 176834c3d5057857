"""Refuses each allocation of the program in turn: the first, then the second, and so on, until a run meets no refusal; and then all
from the first on, all from the second on, and so on. The script has every directive, and the conversation every command; a second script
comes to what the first one doesn't. rb_plain, which holds a session over plain logs, is tried on both.

A run, a rewriting or a page with a refusal ends with 5, its line on standard error and no output, or answers as ever. A session
that starts refuses the edits that find no memory, and answers everything else as if they hadn't been sent, with the costs that they
have then; what shows the script and its outputs takes no memory, and is never refused. Each edit is sent twice, so that one that was
refused is sent again with memory. What has to come is said by the plain bench (plain/). What is told for wrong words and for
help needs memory too.
"""
import concurrent.futures
import functools
import itertools
import os
import pathlib
import subprocess
import tempfile
from collections.abc import Iterator
from typing import NamedTuple

from plain.directives import TABLE
from plain.script import read_script
from plain.session import Session, Talk, run
from tests.harness import OVER_PLAIN_LOGS, PROGRAM, TESTS, Result
from tests.page.program import FORMAT, without_remarks
from tests.page.scripts import page_of

# The output, the errors and the status.
Answer = tuple[bytes, bytes, int]
MET = b"refused\n"
NO_MEMORY = b"raftbench: out of memory\n"
EDIT_REFUSED = b"refused OutOfMemory\n"
MOST = 50_000
MOST_SECONDS = 60
# How many runs are begun before it is looked whether they met a refusal.
AT_ONCE = 64
EVERY = 3

HEADS = [
    "# Three nodes, one of which learns.\nadd-nodes 3 voters=(1,2) learners=(3) \\\n  index=10 content=ab inflight=2 prevote=true checkquorum=true step-down-on-removal=true",
    "campaign 1", "process-ready 1", "deliver-msgs 2 type=MsgPreVote drop=(3)", "stabilize", "propose 1 abc", "tick-heartbeat 1",
    "stabilize 1 2 3 rounds=50", "propose-conf-change 1 transition=explicit\nv3", "stabilize log-level=none", "raft-log 2",
    "propose-conf-change 1", "stabilize log-level=warn", "set-randomized-election-timeout 2 timeout=5", "tick-election 2",
    "transfer-leadership from=1 to=2", "stabilize log-level=info", "forget-leader 3", "report-unreachable 2 3", "send-snapshot 2 3",
    "compact 2 12", "stabilize log-level=none", "status 2", "raft-state", "log-level none", "propose 2 d", "restart 1 2",
]


def script_of(heads: list[str]) -> bytes:
    return "".join(f"{head}\n----\nok\n\n" for head in heads).encode()


SCRIPT = script_of(HEADS)
# What the first one doesn't come to.
FURTHER = script_of([
    # Node 1 refuses its vote to node 2, gives up an entry of its own, can't place an append, and gets a snapshot.
    "add-nodes 3 voters=(1,2,3) index=10 content=cd", "campaign 1", "stabilize", "propose 1 x", "process-ready 1", "deliver-msgs drop=(2,3)",
    "campaign 2", "stabilize", "propose 2 y", "process-ready 2", "deliver-msgs drop=(1,3)", "propose 2 z", "stabilize", "report-unreachable 2 1",
    "propose 2 w", "stabilize 2 3", "deliver-msgs drop=1", "compact 2 15", "tick-heartbeat 2", "stabilize",
    # More than eight voters, and a change of four words.
    "add-nodes 12 voters=(4,5,6,7,8,9,10,11,12,13,14,15) index=10", "campaign 4", "stabilize", "propose-conf-change 4\nv16 l4 l5 r6", "stabilize", "status 4",
    # A log that goes past a page and is cut at its beginning, and a content that goes past a piece.
    "log-level none", "add-nodes 2 voters=16 index=10 content=ab", "campaign 16", "stabilize 16", *["propose 16 a"] * 66, "stabilize 16",
    f"propose 16 {'x' * 1024}", f"propose 16 {'y' * 1024}", "stabilize 16", "compact 16 75", "send-snapshot 16 17", "stabilize 16 17", "log-level debug",
    "raft-log 16", "raft-state",
])

EDITS = [
    b"insert 20 2\nraft-state\n----\n",
    b"replace 24 4\n# its log\nraft-log 2\n----\nno\n",
    b"remove 19\n",
    b"expect 3 2\none\ntwo\n",
    b"accept\n",
    b"insert 25 3\nlog-level debug\n----\nok\n",
    b"insert 99 2\nraft-state\n----\n",
    b"expect 1 2\na\n----\n",
    b"replace 2 1\nraft-state\n",
]
# What shows, and takes no memory.
SHOWS = [b"report\n", b"script\n", b"rewrite\n", b"show 5\n", b"show 99\n", b"\n"]
COMMANDS = [command for edit in EDITS for command in (edit, *SHOWS, edit)] + SHOWS
# It stands behind each command, so that its answer ends the command's.
MARK, MARK_REFUSED = b"sing\n", b"refused BadCommand\n"
TALK = b"".join(command + MARK for command in COMMANDS)


class Case(NamedTuple):
    """A call of the program, or without words of rb_plain, and what it answers with memory."""

    name: str
    words: list[str]
    given: bytes
    plain: Answer


class Room:
    """A folder with the script in it, and the library that refuses allocations."""

    def __init__(self, folder: str) -> None:
        self.folder = pathlib.Path(folder)
        self.script, self.refuse = self.folder / "script", self.folder / "refuse.so"
        self.script.write_bytes(SCRIPT)
        subprocess.run(["cc", "-shared", "-fPIC", "-O2", "-o", self.refuse, TESTS / "faults" / "refuse.c", "-ldl"], check=True)

    def answer(self, words: list[str], given: bytes, at: int, onwards: bool) -> tuple[Answer, bool]:
        """What the program answers where this allocation is refused, and those behind it too or not; and whether there was such a one."""
        around = dict(os.environ, REFUSE_AT=str(at), LD_PRELOAD=str(self.refuse), **({"FROM_THERE_ON": "1"} if onwards else {}))
        command = [str(PROGRAM), *words] if words else [str(OVER_PLAIN_LOGS)]
        done = subprocess.run(command, input=given, capture_output=True, env=around, timeout=MOST_SECONDS)
        return (done.stdout, done.stderr.replace(MET, b"", 1), done.returncode), MET in done.stderr


@functools.lru_cache(maxsize=None)
def wanted_talk(refused: tuple[bool, ...]) -> Answer:
    """What has to be answered to the commands but the refused ones, and the status."""
    left = b"".join(command + MARK for command, is_out in zip(COMMANDS, refused) if not is_out)
    output, status = Talk(Session(SCRIPT, EVERY), left).answers()
    return output, b"", status


def refused_edits(output: bytes) -> tuple[bool, ...]:
    """Which commands were refused for memory, of those that take some."""
    said = output.split(MARK_REFUSED)[:-1]
    return tuple(command in EDITS and answer == EDIT_REFUSED for command, answer in itertools.zip_longest(COMMANDS, said))


def is_right_session(came: Answer, onwards: bool) -> bool:
    """Whether the answers are those to the commands that weren't refused for memory; of one refused allocation one edit is refused."""
    refused = refused_edits(came[0])
    if len(refused) != len(COMMANDS) or not (any(refused) if onwards else sum(refused) == 1):
        return False
    rest = came[0].replace(EDIT_REFUSED + MARK_REFUSED, b"")
    return (rest, *came[1:]) == wanted_talk(refused)


def wrong_at(room: Room, case: Case, at: int, onwards: bool) -> tuple[str | None, bool]:
    """What is wrong where this allocation is refused, or None; and whether there was such an allocation."""
    name, words, given, plain = case
    came, met = room.answer(words, given, at, onwards)
    refused = (b"", NO_MEMORY, 5) if words else (b"", b"", 1)
    if came == plain or met and came == refused or met and name == "session" and is_right_session(came, onwards):
        return None, met
    return f"at allocation {at}: {came[0][-300:]!r}, {came[1]!r}, {came[2]}", met


def tried(room: Room, pool: concurrent.futures.Executor, case: Case, onwards: bool) -> tuple[list[str], int]:
    """What is wrong, and how many allocations were refused."""
    wrong = []
    for first in range(1, MOST, AT_ONCE):
        told = list(pool.map(lambda at: wrong_at(room, case, at, onwards), range(first, first + AT_ONCE)))
        wrong += [problem for problem, _ in told if problem]
        met = [met for _, met in told]
        if not all(met):
            return wrong, first - 1 + met.index(False)
    return [*wrong, "there is no end"], MOST


def cases_of(room: Room) -> Iterator[Case]:
    """Each with its name, its words and its input, and what has to be answered with memory."""
    def wanted_run(mode: str) -> Answer:
        output, status = run(SCRIPT, mode)
        return output, b"", status

    def wanted_report(data: bytes) -> Answer:
        return run(data, "run")[0], b"", 0

    def plain(words: list[str]) -> Answer:
        return room.answer(words, b"", 0, False)[0]
    yield Case("run", ["run", str(room.script)], b"", wanted_run("run"))
    page = plain(["page", str(room.script)])[0]
    plain_page = page_of(SCRIPT, "script", FORMAT).encode()
    wanted_page = page if without_remarks(page) == plain_page else plain_page
    yield Case("page", ["page", str(room.script)], b"", (wanted_page, b"", run(SCRIPT, "run")[1]))
    yield Case("rewrite further", ["rewrite", "-"], FURTHER, (run(FURTHER, "rewrite")[0], b"", 0))
    yield Case("plain logs", [], SCRIPT, wanted_report(SCRIPT))
    yield Case("plain logs further", [], FURTHER, wanted_report(FURTHER))
    yield Case("rewrite", ["rewrite", "-", "--every", "2"], SCRIPT, wanted_run("rewrite"))
    yield Case("session", ["session", str(room.script), "--every", str(EVERY)], TALK, wanted_talk((False,) * len(COMMANDS)))
    yield Case("help", ["--help"], b"", plain(["--help"]))
    yield Case("wrong words", ["run", str(room.script), str(room.script)], b"", plain(["run", str(room.script), str(room.script)]))


def results(word: str) -> Iterator[Result]:
    """Each call, with one allocation refused, and with all later ones refused too."""
    lacking = set(TABLE) - {block.directive()[0].decode() for block in read_script(SCRIPT).blocks}
    yield Result("the script has every directive", tuple(sorted(lacking)))
    with tempfile.TemporaryDirectory() as folder, concurrent.futures.ThreadPoolExecutor(os.cpu_count()) as pool:
        room = Room(folder)
        for case in cases_of(room):
            for onwards in (False, True):
                name = f"{case.name}, and all later ones" if onwards else case.name
                if word not in name:
                    continue
                wrong, count = tried(room, pool, case, onwards)
                print(f"{name}: {count} refusals")
                yield Result(name, tuple(wrong) if count >= 2 else (*wrong, "no two allocations are refused"))
