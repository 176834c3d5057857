"""What `raftbench check` says of a text, as diagnostics of an editor."""
import json
import pathlib
import re
import subprocess
import tempfile
from collections.abc import Sequence
from typing import Any

from tests.editors.served import served
from tests.harness import matched

MOST_SECONDS = 120
# By docs/USING.md: how many bytes are told of a diff, or of an actual output, and of all of a document; and what ends a diff that is cut.
MOST_OF_ONE, MOST_OF_ALL = 4_096, 65_536
REST = b"raftbench check shows the whole diff"
# How many lines of an output are shown at most.
MOST_SHOWN = 20
# A diagnostic, and whether it is a mismatch whose output has room to be told.
Found = tuple[dict[str, Any], bool]
HEADING = re.compile(r"script:(?:(\d+):)? ?(.*)\Z", re.S)
# What would act in a terminal: control characters but tabs and ends of lines, and marks that turn text or end lines. A report of a script that has one
# writes all but printable ASCII by numbers.
ACTING = re.compile("[\\x00-\\x08\\x0b-\\x1f\\x7f-\\x9f\\u061c\\u200e\\u200f\\u2028-\\u202e\\u2066-\\u2069\\ufeff]")


# What would act in a message of a diagnostic or in a name, and what isn't seen there: tabs and ends of lines too. Tags are seen by nobody.
ACTING_THERE = re.compile("[\\x00-\\x1f\\x7f-\\x9f\\u061c\\u200b-\\u200f\\u2028-\\u202e\\u2060-\\u2069\\ufeff\\U000e0000-\\U000e007f]")


def shown(message: str) -> str:
    """A message or a name in which nothing acts: if something would, all of it but printable ASCII and ends of lines is written by numbers."""
    if not ACTING_THERE.search(message.replace("\n", "")):
        return message
    return "".join(chr(b) if b == 10 or 32 <= b <= 126 and b != 92 else f"\\x{b:02x}" for b in message.encode())


def line_starts(text: str) -> list[int]:
    """Where each line of a script begins, which ends at LF alone, and where the text ends."""
    starts = [0] + [at + 1 for at, letter in enumerate(text) if letter == "\n"]
    return starts


def position(text: str, offset: int, encoding: str) -> dict[str, int]:
    """The position of a place in the text. An editor's lines end at LF, CR LF and CR."""
    line, start, at = 0, 0, 0
    while at < offset:
        if text[at] == "\n" or (text[at] == "\r" and text[at + 1:at + 2] != "\n"):
            line, start = line + 1, at + 1
        at += 1
    width = len(text[start:offset].encode(encoding)) // (2 if encoding == "utf-16-le" else 1)
    return {"line": line, "character": width}


def whole_line(text: str, line: int, encoding: str) -> dict[str, dict[str, int]]:
    """The range of a line of a script, which counts from 1."""
    starts = line_starts(text)
    start, end = (position(text, starts[n] if n < len(starts) else len(text), encoding) for n in (line - 1, line))
    return {"start": start, "end": end}


def diagnostic(text: str, line: int, encoding: str, severity: int, code: str, message: str) -> dict[str, Any]:
    return {"range": whole_line(text, line, encoding), "severity": severity, "code": code, "source": "raftbench", "message": shown(message)}


def separator(lines: list[str], head: int) -> int:
    """The index of the line ---- of a directive whose head begins on the line with this index."""
    at = head
    while lines[at].endswith("\\"):
        at += 1
    return next(n for n in range(at + 1, len(lines)) if lines[n].strip(" \t") == "----")


def front_of(expected: list[str], output: list[str]) -> int:
    """How many lines both have at their front."""
    return next((n for n, (a, b) in enumerate(zip(expected, output)) if a != b), min(len(expected), len(output)))


def marked_line(text: str, line: int, expected: list[str], output: list[str]) -> int:
    """The line of the first expected line that differs; the last line of the expectation if none does. Lines count from 1."""
    lines = [it.rstrip("\r") for it in text.split("\n")]
    below = separator(lines, line - 1) + 1
    first = below + (lines[below:below + 1] == ["----"])
    return first + min(front_of(expected, output) + 1, len(expected))


def opening(expected: list[str], output: list[str]) -> str:
    """The first lines that differ, and an empty line; nothing if a diff begins with them anyway."""
    front = front_of(expected, output)
    if not front:
        return ""
    return "".join(mark + it + "\n" for mark, side in (("- ", expected), ("+ ", output)) for it in side[front:front + 1]) + "\n"


def slips(report: str) -> list[tuple[int, str]]:
    """The lines that a report warns of, which count from 1, each with the sentence."""
    return [(int(it[1]), it[2]) for it in re.finditer(r"^script:(\d+): warning: (.*)$", report, re.M)]


def read_back(text: str, report: str) -> str:
    """The report as it would be if nothing of the script were written by numbers."""
    if not any(ACTING.search(line.rstrip("\r")) for line in text.split("\n")):
        return report
    return re.sub(rb"\\x([0-9a-f]{2})", lambda it: bytes.fromhex(it[1].decode()), report.encode()).decode()


def first_lines(output: Sequence[str]) -> str:
    """The lines of an output, as far as they are shown at its expectation."""
    more = len(output) - MOST_SHOWN
    return "\n".join([*output[:MOST_SHOWN], *[f"and {more} more"] * (more > 0)])


def cut(message: bytes, most: int) -> bytes:
    """A message, or its first lines."""
    return message if len(message) <= most else message[:message.rfind(b"\n", 0, most) + 1] + REST


def with_room(mismatch: tuple[str, str], left: int) -> tuple[str, bool, int]:
    """What is told of a message, whether the shown output behind it is told too, and how many bytes are left then of these."""
    message, output = (it.encode() for it in mismatch)
    told = cut(message, min(left, MOST_OF_ONE))
    left = max(0, left - len(told))
    has_room = len(output) <= min(left, MOST_OF_ONE)
    return told.decode(), has_room, left - len(output) * has_room


def of_report(text: str, report: str, differing: dict[int, Any], encoding: str) -> list[Found]:
    """Those that a report of `check` shows: a heading with a diff below it, up to an empty line, or a heading that ends in an error; below
    either, the word that was probably meant. Mismatches after the first are information. The warnings come last."""
    found: list[Found] = []
    left = MOST_OF_ALL
    lines = [read_back(text, it) for it in report.split("\n")[:-2] if not re.match(r"script:\d+: warning: ", it)]
    severity, at = 1, 0
    while at < len(lines):
        heading = matched(HEADING.pattern, lines[at])
        line, said = int(heading[1]), heading[2]
        at += 1
        body: list[str] = []
        while at < len(lines) and lines[at][:2] in ("- ", "+ ", "  "):
            body.append(lines[at])
            at += 1
        hint = [it for it in lines[at:at + 1] if it and not re.match(r"script:\d+: ", it)]
        at += len(hint)
        if body:
            # Each byte outside ASCII is a character of its own there.
            expected, output = ([it.encode("latin-1").decode() for it in differing[line][side]] for side in ("expected", "output"))
            message, has_room, left = with_room((opening(expected, output) + "\n".join(body + hint), first_lines(output)), left)
            found.append((diagnostic(text, marked_line(text, line, expected, output), encoding, severity, "mismatch", message), has_room))
            severity = 3
            at += 1
        else:
            found.append((diagnostic(text, line, encoding, 2, "error-output", "\n".join([said[said.rindex(": error: ") + 2:]] + hint)), False))
    return found + [(diagnostic(text, line, encoding, 2, "slip", sentence), False) for line, sentence in slips(report)]


def checked(program: pathlib.Path, text: str, words: list[str]) -> tuple[int, str, str]:
    """What `check` with these words ends with and writes, of a file with the text."""
    with tempfile.TemporaryDirectory() as room:
        pathlib.Path(room, "script").write_bytes(text.encode())
        done = subprocess.run([program, "check", *words, "script"], cwd=room, capture_output=True, timeout=MOST_SECONDS)
    return done.returncode, done.stdout.decode(), done.stderr.decode()


def diagnostics(program: pathlib.Path, text: str, encoding: str) -> list[dict[str, Any]]:
    """What `check` says of the text, in the order of its lines, and then what it warns of; if the text isn't a script, what it says of the text
    above the fault, and then of the fault."""
    return [it for it, _ in found_in(program, text, encoding)]


def found_in(program: pathlib.Path, text: str, encoding: str) -> list[Found]:
    """The same, each with whether it is a mismatch whose output has room to be told."""
    status, report, told = checked(program, text, ["--color", "never"])
    if status in (0, 1):
        objects = [json.loads(it) for it in checked(program, text, ["--format", "json"])[1].splitlines()] if status else []
        return of_report(text, report, {it["line"]: it for it in objects if it.get("status") == "mismatch"}, encoding)
    refusal = next(line for line in (told + report).split("\n") if line.startswith("script:"))
    heading = matched(HEADING.pattern, refusal)
    fault = diagnostic(text, int(heading[1] or 1), encoding, 1, "no-script", heading[2].removeprefix(" "))
    above = served(text)
    return (found_in(program, above, encoding) if above else []) + [(fault, False)]
