"""The process that hosts your nodes: a call is a line to it, an answer a line from it. If it hangs, dies, or writes what isn't an answer, the call raises
`CallFailure` with a sentence, and the process is killed. The next script starts a new one.

The process runs in a group of its own, with a mark in its environment. A watchdog kills the group, and whatever has the mark, when the tool ends, however
it ends: it reads a pipe that only the tool holds open.
"""
from __future__ import annotations

import contextlib
import importlib
import json
import os
import secrets
import select
import signal
import subprocess
import time
from typing import IO, Any, Callable, Sequence

from ..protocol.answers import hello_in
from ..protocol.encoding import VERSION, Hello, Json, Parts, Wrong, printable, shown
from .cache import Transcript
from .delays import marked_with, waited


def json_functions() -> tuple[Callable[[bytes], Any], Callable[[Any], bytes]]:
    """What reads and writes JSON: orjson where it is installed, which is faster."""
    try:
        orjson = importlib.import_module("orjson")
    except ImportError:
        return json.loads, lambda value: json.dumps(value, separators=(",", ":")).encode()

    def loaded(text: bytes) -> Any:
        """What orjson refuses and JSON allows, as half a pair of surrogates, is read by the standard library."""
        try:
            return orjson.loads(text)
        except ValueError:
            return json.loads(text)

    return loaded, orjson.dumps


loads, dumps = json_functions()

# A command may need longer to start than to answer.
START_SECONDS = 20.0
MOST_LINE = 128 << 20
MOST_ERRORS = 2000
# So many calls of a batch have the time of one.
CALLS_IN_TIME = 100
CHUNK = 1 << 16
# What all that a command starts has in its environment, with a value of its own: so it is found in whatever group it is.
MARK = "RAFTBENCH_ADAPTER"
# Reads the group's number, and kills that group at the end of its input, and what has the mark. Nothing but SIGKILL ends it before.
WATCHDOG = (
    'trap "" INT TERM HUP QUIT; read group || exit; while read line; do :; done; kill -s KILL -- "-$group"; '
    'for file in $(grep -ls "$0" /proc/[0-9]*/environ); do file=${file#/proc/}; kill -s KILL "${file%/environ}"; done'
)


class CallFailure(Exception):
    """A call that had no good answer; `short` is what happened, without what changes from one time to the next; `at` is its place in the source."""

    def __init__(self, call: Json, why: str, errors: str = "", at: str = "") -> None:
        super().__init__(call, why, errors)
        self.call, self.node = str(call["call"]), int(call.get("node", 0))
        self.short = f"at {at}" if at else short_of(why)
        self.at = at
        self.number = 1 << 30  # of the call, among those that were asked at once and answered

    def __str__(self) -> str:
        return sentence(*self.args) + (f" ({self.at})" if self.at else "")


def sentence(call: Json, why: str, errors: str) -> str:
    who = f" of node {call['node']}" if "node" in call else ""
    return f"{call['call']}{who}: {why}" + (f"; on standard error: {errors}" if errors else "")


def short_of(why: str) -> str:
    """A text without its numbers and quotations, by which failures are told apart."""
    return "".join(c for c in why.split("[")[0] if not c.isdigit())[:60].strip()


def error_of(call: Json, answer: Json) -> CallFailure:
    """The failure that an answer with `error` is."""
    error, at = answer["error"], answer.get("at", "")
    return CallFailure(call, "error: " + printable(error if isinstance(error, str) else shown(error)), at=printable(at)[:80] if isinstance(at, str) else "")


class Watchdog:
    """Kills a process group when this process ends. It is started before the group, whose first process names itself."""

    def __init__(self, mark: str) -> None:
        reads, self.writes = os.pipe()
        # It holds none of the streams that others may read to their ends.
        self.process = subprocess.Popen(["/bin/sh", "-c", WATCHDOG, mark], stdin=reads, stdout=subprocess.DEVNULL, stderr=subprocess.DEVNULL, start_new_session=True)
        os.close(reads)

    def watch_this_process(self) -> None:
        """Called in the new process before it becomes the command: the pipe stays open up to then."""
        os.write(self.writes, b"%d\n" % os.getpid())

    def end(self) -> None:
        """Ends it without killing anything."""
        self.process.kill()
        self.process.wait()
        os.close(self.writes)


class Process:
    """A command, started by the first `reset` and again after each failure."""

    def __init__(self, command: str | Sequence[str], seconds: float = 5.0, script_seconds: float = 60.0) -> None:
        self.command, self.seconds, self.script_seconds = command, seconds, script_seconds
        self.process: subprocess.Popen[bytes] | None = None
        self.until = float("inf")
        self.hello = Hello()
        self.calls = self.starts = 0
        self.record: list[tuple[Json, Json]] | None = None  # takes each call and its answer
        self.transcript: Transcript | None = None  # takes calls and answers, until the process is killed
        self.about = ""  # what it said to `hello`

    @property
    def is_started(self) -> bool:
        return self.process is not None

    @property
    def name(self) -> str:
        return self.hello.name

    @property
    def without(self) -> frozenset[str]:
        return self.hello.without

    def start(self) -> None:
        value = f"{os.getpid()}-{secrets.token_hex(8)}"
        self.mark = f"{MARK}={value}"
        watchdog = Watchdog(self.mark)
        try:
            self.process = subprocess.Popen(
                self.command, shell=isinstance(self.command, str), stdin=subprocess.PIPE, stdout=subprocess.PIPE, stderr=subprocess.PIPE,
                bufsize=0, start_new_session=True, preexec_fn=watchdog.watch_this_process, env={**os.environ, MARK: value},
            )
        except BaseException:
            watchdog.end()
            raise
        self.watchdog = watchdog
        self.pipes = [pipe.fileno() for pipe in streams_of(self.process)]
        for pipe in self.pipes:
            os.set_blocking(pipe, False)
        self.rest, self.errors = bytearray(), b""
        self.ended: set[int] = set()
        self.waited = waited(self.process.pid, self.mark)
        self.starts += 1
        call = {"call": "hello", "protocol": VERSION}
        answer = self.ask(call)
        self.about = json.dumps(answer, sort_keys=True)
        try:
            self.hello = hello_in(Parts(answer, ""))
        except Wrong as wrong:
            raise self.failed(call, str(wrong)) from None

    def close(self) -> None:
        """Ends the process and all that it started, in its group and in others."""
        if self.process is None:
            return
        with contextlib.suppress(ProcessLookupError):
            os.killpg(self.process.pid, signal.SIGKILL)
        for process in marked_with(self.mark):
            with contextlib.suppress(ProcessLookupError):
                os.kill(process, signal.SIGKILL)
        # The number isn't another group's until this process is waited for.
        self.watchdog.end()
        self.process.wait()
        for pipe in streams_of(self.process):
            pipe.close()
        self.process = None

    def reset(self) -> None:
        """No nodes, for the next script, which has its time from now on. A process that doesn't do that any more gives way to a new one."""
        self.until = time.monotonic() + self.script_seconds
        self.errors = b""
        try:
            if self.process is not None:
                self.ask({"call": "reset"})
        except CallFailure:
            self.close()
        if self.process is None:
            self.start()
            self.ask({"call": "reset"})

    def ask(self, call: Json) -> Json:
        """The answer to a call, an object; CallFailure where there is none. Where it is an error the process stays as it is."""
        return self.ask_all([call])[0]

    def ask_all(self, calls: Sequence[Json], begun: int = 0) -> list[Json]:
        """The answers to calls that are written at once. If one is an error, that is raised, with its number from `begun` on."""
        self.calls += len(calls)
        if self.rest:
            raise self.failed(calls[0], f"it said what it wasn't asked: {shown(bytes(self.rest[:200]).decode('latin-1'))}")
        answers: list[Json] = []
        given = b"".join([dumps(call) + b"\n" for call in calls])
        lines = self.exchange(calls, given)
        if self.transcript is not None:
            self.transcript.add(given, lines)
        for call, line in zip(calls, lines):
            try:
                answer = loads(line)
            except (ValueError, RecursionError):
                raise self.failed(call, f"no JSON: {shown(line[:200].decode('latin-1'))}") from None
            if not isinstance(answer, dict):
                raise self.failed(call, f"not an object: {shown(answer)}")
            if self.record is not None:
                self.record.append((call, answer))
            if "error" in answer:
                failed = error_of(call, answer)
                failed.number = begun + len(answers)
                raise failed
            answers.append(answer)
        return answers

    def digest_of(self, calls: bytes, count: int) -> bytes:
        """The digest of the answers to lines with so many calls, by nodes that are reset; CallFailure where there is none."""
        if self.process is None:
            self.reset()
        self.until = time.monotonic() + self.script_seconds
        self.calls += count
        asked: list[Json] = [{"call": "reset"}, {"call": "digest", "calls": count}]
        *_, line = self.exchange(asked, b"".join([dumps(call) + b"\n" for call in asked]) + calls, count)
        try:
            return bytes.fromhex(loads(line)["digest"])
        except (ValueError, TypeError, KeyError, RecursionError):
            raise self.failed(asked[1], f"not a digest: {shown(line[:200].decode('latin-1'))}") from None

    def exchange(self, calls: Sequence[Json], given: bytes, count: int = 0) -> list[bytes]:
        """Writes calls and reads a line for each; all within the time, and whichever the process does first. `count`: of calls, if it isn't theirs."""
        many = count or len(calls)
        seconds = max(self.seconds, START_SECONDS) if calls[0]["call"] == "hello" else self.seconds * (1 + many // CALLS_IN_TIME)
        end, looked, written = min(time.monotonic() + seconds, self.until), 0, 0
        given_to, taken, told = self.pipes
        lines: list[bytes] = []
        while True:
            call = calls[len(lines)]
            if written < len(given):
                written += self.written(call, given[written:written + CHUNK])
            waits = [pipe for pipe in (taken, told) if pipe not in self.ended]
            readable, _, _ = select.select(waits, [given_to] if written < len(given) else [], [], max(0.0, end - time.monotonic()))
            if told in readable:
                self.take_errors()
            if taken in readable:
                self.rest += self.read(taken)
                if self.rest.find(b"\n", looked) >= 0:
                    *whole, last = self.rest.split(b"\n", len(calls) - len(lines))
                    for line in whole:
                        self.check_length(calls[len(lines)], len(line))
                        lines.append(bytes(line))
                    self.rest = bytearray(last)
                if len(lines) == len(calls):
                    return lines
                self.check_length(calls[len(lines)], len(self.rest))
                looked = len(self.rest)
            if taken in self.ended:
                raise self.failed(calls[len(lines)], self.how_it_ended())
            if time.monotonic() >= end:
                end = min(time.monotonic(), end) + self.excused_seconds(seconds)
                if time.monotonic() >= end:
                    raise self.failed(calls[len(lines)], self.too_late(call, seconds))

    def excused_seconds(self, seconds: float) -> float:
        """For how long this process and the nodes', also those in other sessions, had no processor since this was asked last; nothing if that is little. It
        isn't theirs.
        """
        assert self.process is not None
        now = waited(self.process.pid, self.mark)
        excused, self.waited = now - self.waited, now
        if excused < seconds / 10:
            return 0.0
        self.until += excused
        return excused

    def check_length(self, call: Json, length: int) -> None:
        if length > MOST_LINE:
            raise self.failed(call, f"a line of more than {MOST_LINE >> 20} MiB")

    def written(self, call: Json, piece: bytes) -> int:
        try:
            return os.write(self.pipes[0], piece)
        except BlockingIOError:
            return 0
        except BrokenPipeError:
            raise self.failed(call, self.how_it_ended()) from None

    def read(self, pipe: int) -> bytes:
        try:
            data = os.read(pipe, CHUNK)
        except BlockingIOError:
            return b""
        if not data:
            self.ended.add(pipe)
        return data

    def take_errors(self) -> None:
        self.errors = (self.errors + self.read(self.pipes[2]))[-MOST_ERRORS:]

    def too_late(self, call: Json, seconds: float) -> str:
        if time.monotonic() >= self.until:
            return f"the script took more than {self.script_seconds:g} s"
        return f"no answer within {seconds:g} s" + (": is each answer flushed?" if call["call"] == "hello" else "")

    def how_it_ended(self) -> str:
        assert self.process is not None
        try:
            status = self.process.wait(0.5)
        except subprocess.TimeoutExpired:
            return "it closed its output"
        return f"it ended by signal {-status}" if status < 0 else f"it ended with status {status}"

    def failed(self, call: Json, why: str) -> CallFailure:
        """Kills the process; answers the failure."""
        self.transcript = None
        until = time.monotonic() + 0.2
        told = self.pipes[2]
        while told not in self.ended and time.monotonic() < until and select.select([told], [], [], 0.02)[0]:
            self.take_errors()
        self.close()
        return CallFailure(call, why, printable(self.errors.decode("utf-8", "replace").strip()))


def streams_of(process: subprocess.Popen[bytes]) -> tuple[IO[bytes], IO[bytes], IO[bytes]]:
    assert process.stdin and process.stdout and process.stderr
    return process.stdin, process.stdout, process.stderr
