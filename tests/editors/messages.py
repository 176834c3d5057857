"""Which lines of a text are about a message, and what a server must answer of them.

By docs/USING.md: of equal messages the first that was sent is the first to arrive, or to be lost.
"""
import collections
import re
from typing import Any

from plain import script
from tests.editors.oracle import line_starts, position
from tests.editors.plainly import line_of

SENT = re.compile(r"  send (.*)", re.S)
ENDED = re.compile(r"(?:deliver|drop) (.*)", re.S)
# By the protocol: what is written, and what is read.
WRITE, READ = 3, 2


def messages(text: str) -> list[tuple[int | None, int | None]]:
    """Of each message the line on which it is sent, and the one on which it arrives or is lost; lines count from 0."""
    sent: list[int | None] = []
    ended: list[int | None] = []
    in_flight: dict[str, list[int]] = collections.defaultdict(list)
    for n, line in enumerate(it.decode() for it in script.lines_of(text.encode())):
        if it := SENT.fullmatch(line):
            in_flight[it[1]].append(len(sent))
            sent.append(n)
            ended.append(None)
        elif it := ENDED.fullmatch(line):
            if in_flight[it[1]]:
                ended[in_flight[it[1]].pop(0)] = n
            else:
                sent.append(None)
                ended.append(n)
    return list(zip(sent, ended))


def message_at(text: str, place: dict[str, int], encoding: str) -> tuple[int | None, int | None]:
    """The lines of the message that is on the line of a position."""
    line = line_of(text, place, encoding)
    return next((it for it in messages(text) if line in it), (None, None))


def range_of(text: str, line: int, encoding: str) -> dict[str, Any]:
    starts = line_starts(text)
    start, end = (position(text, starts[n] if n < len(starts) else len(text), encoding) for n in (line, line + 1))
    return {"start": start, "end": end}


def definition(text: str, uri: str, place: dict[str, int], encoding: str) -> Any:
    """Where the message at a position is sent."""
    sent, _ = message_at(text, place, encoding)
    return None if sent is None else {"uri": uri, "range": range_of(text, sent, encoding)}


def references(text: str, uri: str, place: dict[str, int], encoding: str, includes: bool) -> Any:
    """Where it is sent, if that is asked for, and where it arrives or is lost."""
    sent, ended = message_at(text, place, encoding)
    return [{"uri": uri, "range": range_of(text, line, encoding)} for line in (sent if includes else None, ended) if line is not None]


def highlights(text: str, place: dict[str, int], encoding: str) -> Any:
    """The same lines, as what is written and what is read."""
    sent, ended = message_at(text, place, encoding)
    return [{"range": range_of(text, line, encoding), "kind": kind} for line, kind in ((sent, WRITE), (ended, READ)) if line is not None]


def places(text: str, encoding: str) -> list[dict[str, int]]:
    """Where the lines of messages begin."""
    starts = line_starts(text)
    return [position(text, starts[line], encoding) for it in messages(text) for line in it if line is not None]
