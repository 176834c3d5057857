"""Breaks off what comes in and what goes out, at each byte: a script and a conversation that uses every command of a session are cut,
each read and each write of them fails in turn or takes one byte alone, the reader of the output goes away, and the file that the output
goes to may grow no further. What has to come is said by the plain bench (plain/). Of `check`, which that bench doesn't know, each read
and each write fails in turn too: what has to come then is a beginning of what comes without a failure, or a file that could not be read.
So it is with the server for editors, whose answers are due by a case of tests/editors.
"""
import concurrent.futures
import errno
import fcntl
import json
import os
import pathlib
import re
import resource
import struct
import subprocess
import tempfile
import termios
import time
from collections.abc import Callable, Iterator
from functools import partial
from typing import Any

from plain.script import Fault
from plain.session import Session, Talk, run
from tests.editors.client import framed, unframed
from tests.harness import PROGRAM, TESTS, Result
from tests.page.program import FORMAT, without_remarks
from tests.page.scripts import page_of

# The output, the errors and the status; a call of the program, which gives what is wrong with it.
Answer = tuple[bytes, bytes, int]
Call = Callable[[], str | None]
MOST_SECONDS = 60
FAILED = b"raftbench: input or output failed\n"
UNSHOWN = b"raftbench: the report could not be written\n"
# Where FILE is opened: the first descriptor behind the standard ones.
FILE_DESCRIPTOR = 3

SCRIPT = b"""# Two nodes, one of which
# is elected.
add-nodes 2 \\\r
  voters=(1, 2) index=10\r
----
INFO 1 started at 1/10 with voters=(1,2)
INFO 2 started at 1/10 with voters=(1,2)

campaign 1
 ----\t
----

not this

----
----

propose-conf-change 1 transition=explicit
v1
l2
----
WARN 1 dropped a proposal

stabilize log-level=none
----
ok

  # the end"""

TALK = b"""report

insert 5 3
propose 1 a
----
ok
show 5
 replace  2 \t 3\r
campaign 2
----
INFO 2 became candidate at term 1
expect 3 2
one
two
remove 4
show 9
sing
insert 1 1
raft-state
expect 1 2
a
----
insert 2 5
# a snapshot

send-snapshot 2 1
----
----
insert 2 4
# a snapshot
send-snapshot 2 1
----
queue 2->1 MsgSnap term=0 snapshot=1/10
insert 5 2
raft-state log-level=none
----
accept
script
rewrite
report"""


# What `check` shows of the script, up to the time that it took; and what it says where the script could not be read.
CHECKED = b"""script:9: campaign 1
- $
- not this
- $
+ INFO 1 became candidate at term 1

1 script, 4 directives, 1 mismatch, 0 refused, """
UNREAD = b"0 scripts, 0 directives, 0 mismatches, 0 refused, 1 failed, ", b"script: it could not be read\n", 4


def started(words: list[str], around: dict[str, str] | None = None, **how: Any) -> subprocess.Popen[bytes]:
    return subprocess.Popen([PROGRAM, *words], stderr=subprocess.PIPE, env=around, **how)


def answer(words: list[str], given: bytes, around: dict[str, str] | None = None, **how: Any) -> Answer:
    """The output, what stands on standard error, and the status."""
    with started(words, around, stdin=subprocess.PIPE, stdout=subprocess.PIPE, **how) as program:
        output, errors = program.communicate(given, timeout=MOST_SECONDS)
    return output, errors, program.returncode


def compared(name: str, words: list[str], given: bytes, wanted: Callable[[], Answer], around: dict[str, str] | None = None) -> str | None:
    """Calls the program, and gives what is wrong with its answer."""
    return difference(name, answer(words, given, around), wanted())


def compared_page(name: str, data: bytes) -> str | None:
    """The same of a page, but for what it says of others of its rows."""
    output, errors, status = answer(["page", "-"], data)
    return difference(name, (without_remarks(output), errors, status), wanted_page(data))


def wanted_run(mode: str, data: bytes) -> Answer:
    try:
        output, status = run(data, mode)
        return output, b"", status
    except Fault as fault:
        return b"", f"raftbench: script refused: {fault}\n".encode(), 3


def wanted_page(data: bytes) -> Answer:
    _, errors, status = wanted_run("run", data)
    return b"" if errors else page_of(data, "standard input", FORMAT).encode(), errors, status


def wanted_talk(data: bytes) -> Answer:
    output, status = Talk(Session(SCRIPT, 2), data).answers()
    return output, b"", status


def told_before(data: bytes) -> Answer:
    """The answers to the commands that stand whole in what was read before a read failed."""
    output = wanted_talk(data[:data.rfind(b"\n") + 1])[0]
    return output.removesuffix(b"refused CutOff\n"), FAILED, 4


class Room:
    """A folder with the script in it, and the library that makes calls fail."""

    def __init__(self, folder: str) -> None:
        self.folder = pathlib.Path(folder)
        self.script, self.calls = self.folder / "script", self.folder / "calls.so"
        self.script.write_bytes(SCRIPT)
        subprocess.run(["cc", "-shared", "-fPIC", "-O2", "-o", self.calls, pathlib.Path(__file__).parent / "calls.c", "-ldl"], check=True)
        self.talks = ["session", str(self.script), "--every", "2"]

    def with_calls(self, **what: Any) -> dict[str, str]:
        return {**os.environ, "LD_PRELOAD": str(self.calls), **{name: str(value) for name, value in what.items()}}


def difference(name: str, came: object, wanted: object) -> str | None:
    return None if came == wanted else f"{name}: {came!r} came, and not {wanted!r}"


# Checks: each gives the calls that it makes, as functions that answer what is wrong or None


def cut_scripts(room: Room) -> Iterator[Call]:
    """A script, cut at each byte."""
    for n in range(len(SCRIPT) + 1):
        for mode in ("run", "rewrite"):
            yield partial(compared, f"{mode} of {n} bytes", [mode, "-"], SCRIPT[:n], partial(wanted_run, mode, SCRIPT[:n]))
        yield partial(compared_page, f"the page of {n} bytes", SCRIPT[:n])


def cut_conversations(room: Room) -> Iterator[Call]:
    """A conversation, cut at each byte."""
    for n in range(len(TALK) + 1):
        yield partial(compared, f"{n} bytes of the conversation", room.talks, TALK[:n], partial(wanted_talk, TALK[:n]))


def one_byte_a_call(room: Room) -> Iterator[Call]:
    """Each read and each write takes one byte."""
    around = room.with_calls(ONE_BYTE=1)
    yield partial(compared, "session, a byte a call", room.talks, TALK, partial(wanted_talk, TALK), around)
    for mode in ("run", "rewrite"):
        yield partial(compared, f"{mode}, a byte a call", [mode, "-"], SCRIPT, partial(wanted_run, mode, SCRIPT), around)


def failing_reads(room: Room) -> Iterator[Call]:
    """Each read of one byte fails in turn; one that a signal interrupts has failed too, and one of no bytes is the end."""
    def failed(words: list[str], given: bytes, wanted: Callable[[], Answer], **what: object) -> Call:
        return partial(compared, f"{words} with {what}", words, given, wanted, room.with_calls(ONE_BYTE=1, **what))

    def refused() -> Answer:
        return b"", FAILED, 4
    for n in range(1, len(TALK) + 2):
        kind = [errno.EIO, errno.EINTR][n % 2]
        yield failed(room.talks, TALK, partial(told_before, TALK[:n - 1]), READ_FAILS=n, WITH=kind)
        if n % 5 == 0:
            yield failed(room.talks, TALK, partial(wanted_talk, TALK[:n - 1]), READ_FAILS=n, WITH=0)
    for n in range(1, len(SCRIPT) + 2):
        kind = [errno.EIO, errno.EINTR][n % 2]
        yield failed(["run", "-"], SCRIPT, refused, READ_FAILS=n, WITH=kind)
        what = {"READ_FAILS": n, "WITH": kind, "READ_FROM": FILE_DESCRIPTOR}
        yield failed(["rewrite", str(room.script)], b"", refused, **what)
        yield failed(room.talks, TALK, refused, **what)


def failing_writes(room: Room) -> Iterator[Call]:
    """Each write of one byte fails in turn, or takes none, and so do all later ones; or it alone. One that a signal interrupts has failed."""
    for words, given, wanted in (
        (room.talks, TALK, wanted_talk(TALK)),
        (["run", "-"], SCRIPT, wanted_run("run", SCRIPT)),
        (["rewrite", "-"], SCRIPT, wanted_run("rewrite", SCRIPT)),
    ):
        for n in range(1, len(wanted[0]) + 1):
            kind = [errno.EIO, errno.ENOSPC, 0, errno.EINTR][n % 4]
            yield partial(failing_write, room, words, given, wanted, n, kind)


def failing_write(room: Room, words: list[str], given: bytes, wanted: Answer, n: int, kind: int) -> str | None:
    name, what = f"{words}, write {n} fails with {kind}", {"ONE_BYTE": 1, "WRITE_FAILS": n, "WITH": kind}
    alone = answer(words, given, room.with_calls(**what))
    # What is left in a buffer may go out at the end, after a write that failed alone: a beginning of the text all the same.
    output, errors, status = alone
    if (errors, status) != (FAILED, 4) or not wanted[0].startswith(output) or len(output) < n - 1:
        return f"{name}: {alone!r} came"
    onwards = answer(words, given, room.with_calls(FROM_THERE_ON=1, **what))
    return difference(f"{name}, and all later ones", onwards, (wanted[0][:n - 1], FAILED, 4))


def checked(room: Room, **what: Any) -> Answer:
    """What `check` of the script answers, a byte a call, without the time that it took."""
    output, errors, status = answer(["check", room.script.name], b"", room.with_calls(ONE_BYTE=1, **what), cwd=room.folder)
    return re.sub(rb"\d+\.\d{3} s\n$", b"", output), errors, status


def failing_checks(room: Room) -> Iterator[Call]:
    """Each read of one byte fails in turn under `check`, also the one that finds the file's end, and each write."""
    yield lambda: difference("check, a byte a call", checked(room), (CHECKED, b"", 1))
    for n in range(1, len(SCRIPT) + 2):
        what = {"READ_FAILS": n, "WITH": [errno.EIO, errno.EINTR][n % 2], "READ_FROM": FILE_DESCRIPTOR}
        yield partial(unread_check, room, what)
    for n in range(1, len(CHECKED) + 1):
        kind = [errno.EIO, errno.ENOSPC, 0, errno.EINTR][n % 4]
        yield partial(failing_report, room, {"WRITE_FAILS": n, "WITH": kind})


def unread_check(room: Room, what: dict[str, int]) -> str | None:
    return difference(f"check with {what}", checked(room, **what), UNREAD)


def failing_report(room: Room, what: dict[str, int]) -> str | None:
    name, n, alone = f"check with {what}", what["WRITE_FAILS"], checked(room, **what)
    if alone[1:] != (UNSHOWN, 4) or not CHECKED.startswith(alone[0]) or len(alone[0]) < n - 1:
        return f"{name}: {alone!r} came"
    return difference(f"{name}, and all later ones", checked(room, FROM_THERE_ON=1, **what), (CHECKED[:n - 1], UNSHOWN, 4))


def conversation_of_an_editor() -> tuple[list[bytes], list[list[Any]]]:
    """What an editor sends, message by message, and what is due for each."""
    talk = json.loads((TESTS / "editors" / "cases" / "life.json").read_text())["talk"]
    return [framed(it["send"]) for it in talk], [it["due"] for it in talk]


def failing_reads_of_a_server(room: Room) -> Iterator[Call]:
    """Each read of one byte of what an editor sends fails in turn: what came whole before it was answered."""
    sent, due = conversation_of_an_editor()
    ends = [sum(map(len, sent[:n])) for n in range(1, len(sent))]

    def failed(n: int, kind: int) -> str | None:
        output, errors, status = answer(["lsp"], b"".join(sent), room.with_calls(ONE_BYTE=1, READ_FAILS=n, WITH=kind))
        whole = sum(1 for end in ends if end < n)
        wanted = [it for messages in due[:whole] for it in messages], FAILED, 4
        return difference(f"lsp, read {n} fails with {kind}", (unframed(output), errors, status), wanted)
    for n in range(1, len(b"".join(sent)) + 1):
        yield partial(failed, n, [errno.EIO, errno.EINTR][n % 2])


def failing_writes_of_a_server(room: Room) -> Iterator[Call]:
    """Of the writes of one byte of a server's answers each third fails in turn; nothing stands in a buffer, and one that a signal interrupts has failed."""
    sent, due = conversation_of_an_editor()
    wanted = answer(["lsp"], b"".join(sent))
    yield lambda: difference("lsp", (unframed(wanted[0]), *wanted[1:]), ([it for messages in due for it in messages], b"", 0))
    for n in range(1, len(wanted[0]) + 1, 3):
        kind = [errno.EIO, errno.ENOSPC, 0, errno.EINTR][n % 4]
        yield partial(failing_write, room, ["lsp"], b"".join(sent), wanted, n, kind)


def full_files(room: Room) -> Iterator[Call]:
    """The output goes to a file that may have so many bytes and no more."""
    def limited(words: list[str], given: bytes, most: int, wanted: Answer) -> str | None:
        with tempfile.TemporaryFile(dir=room.folder) as file:
            # SIGXFSZ stays ignored, as this program has it.
            with started(words, stdin=subprocess.PIPE, stdout=file, restore_signals=False) as program:
                resource.prlimit(program.pid, resource.RLIMIT_FSIZE, (most, most))
                errors = program.communicate(given, timeout=MOST_SECONDS)[1]
            file.seek(0)
            return difference(f"{words} into {most} bytes", (file.read(), errors, program.returncode), wanted)
    talk, script = wanted_talk(TALK)[0], wanted_run("rewrite", SCRIPT)[0]
    for most in range(0, len(talk), 3):
        yield partial(limited, room.talks, TALK, most, (talk[:most], FAILED, 4))
    for most in range(0, len(script), 3):
        yield partial(limited, ["rewrite", "-"], SCRIPT, most, (script[:most], FAILED, 4))
    page = wanted_page(SCRIPT)[0]
    for most in range(0, len(page), 997):
        yield partial(limited, ["page", "-"], SCRIPT, most, (page[:most], FAILED, 4))


def gone_readers(room: Room) -> Iterator[Call]:
    """Who reads the answers goes away after each of them: the next one is a failed write, whatever SIGPIPE would do."""
    lines = TALK.splitlines(keepends=True)
    whole = [n for n in range(len(lines)) if not wanted_talk(b"".join(lines[:n]))[0].endswith(b"refused CutOff\n")]
    for n in whole[:-1]:
        first = b"".join(lines[:n])
        for is_ignored in (True, False):
            yield partial(goes_away, room, first, TALK[len(first):], is_ignored)


def goes_away(room: Room, first: bytes, rest: bytes, is_ignored: bool) -> str | None:
    wanted = wanted_talk(first)[0]
    with started(room.talks, stdin=subprocess.PIPE, stdout=subprocess.PIPE, bufsize=0, restore_signals=not is_ignored) as program:
        assert program.stdin and program.stdout and program.stderr
        program.stdin.write(first)
        came = b""
        while len(came) < len(wanted):
            came += program.stdout.read(len(wanted) - len(came))
        program.stdout.close()
        try:
            program.stdin.write(rest)
            program.stdin.close()
        except BrokenPipeError:
            pass
        errors, status = program.stderr.read(), program.wait(MOST_SECONDS)
    return difference(f"a reader that goes after {first!r}", (came, errors, status), (wanted, FAILED, 4))


def slow_writers(room: Room) -> Iterator[Call]:
    """A conversation that is sent byte by byte: the next when the last was read."""
    def sent() -> str | None:
        with started(room.talks, stdin=subprocess.PIPE, stdout=subprocess.PIPE, bufsize=0) as program:
            assert program.stdin and program.stdout and program.stderr
            end = time.monotonic() + MOST_SECONDS
            for at in range(len(TALK)):
                program.stdin.write(TALK[at:at + 1])
                while struct.unpack("i", fcntl.ioctl(program.stdin, termios.FIONREAD, b"\0" * 4))[0] and time.monotonic() < end:
                    time.sleep(0)
            program.stdin.close()
            output, errors = program.stdout.read(), program.stderr.read()
        return difference("a conversation byte by byte", (output, errors, program.wait()), wanted_talk(TALK))
    yield sent


CHECKS = [
    cut_scripts, cut_conversations, one_byte_a_call, failing_reads, failing_writes, failing_checks, failing_reads_of_a_server,
    failing_writes_of_a_server, full_files, gone_readers, slow_writers,
]


def called(call: Call) -> str | None:
    return call()


def results(word: str) -> Iterator[Result]:
    """Each check, with what is wrong with its calls."""
    with tempfile.TemporaryDirectory() as folder, concurrent.futures.ThreadPoolExecutor(os.cpu_count()) as pool:
        room = Room(folder)
        for check in CHECKS:
            name = check.__name__.replace("_", "-")
            if word not in name:
                continue
            # A program that begins beside another holds the other's pipes for a moment: so a reader goes away alone.
            calls = list(check(room))
            told = [call() for call in calls] if check is gone_readers else list(pool.map(called, calls))
            print(f"{name}: {len(told)} runs")
            yield Result(name, tuple(it for it in told if it) if told else ("it makes no call",))
