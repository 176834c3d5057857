"""What random scripts have to have met at least once: each line of docs/SCRIPTS.md with each word that may stand in it, each
error, each directive and each value of each option that is one of a few, and each type of message at each role.

Left out is what no script can reach: the events `can't campaign: term limit` (a directive raises the terms of a cluster by a few at most)
and `appends nothing: index limit` (logs begin at 1,000,000,000 at most, and 20,000 directives add some 20,000 entries and an empty one an
election), and `refused change ..: MoreThanOneVoter` (one word moves one voter). No MsgUnreachable is ever pending.
"""
import re
from collections.abc import Iterator, Mapping, Sequence
from typing import Any

from plain.directives import LEVELS, TABLE, TYPES

ROLES = ["follower", "precandidate", "candidate", "leader"]
QUOTED = r'"([ !#-\[\]-~]|\\x[0-9a-f]{2})*"'
BODY = rf"({QUOTED}|change (auto|explicit|implicit)( [vlru]\d+)*)"
ENTRY = r"\d+/\d+ " + BODY
CONFIG = r"voters=\([\d,]*\)( outgoing=\([\d,]+\))?( learners=\([\d,]+\))?( next=\([\d,]+\))?( auto)?"
BODIES = ['""', '"a"', "change auto", "change auto v", "change explicit", "change implicit", "change auto l", "change auto r", "change auto u"]

MESSAGES = [r"Msg(Pre)?Vote term=\d+ last=\d+/\d+", r"MsgVote term=\d+ last=\d+/\d+ transfer"]
MESSAGES += [rf"{kind} term=\d+ {how}" for kind in ("MsgVoteResp", "MsgPreVoteResp") for how in ("granted", "refused")]
MESSAGES += [rf"MsgApp term=\d+ prev=\d+/\d+ commit=\d+ entries={count}" for count in ("0", "1", r"([2-9]|\d\d+)")]
MESSAGES += [r"MsgAppResp term=\d+ match=\d+", r"MsgAppResp term=\d+ refused=\d+ hint=\d+", r"MsgHeartbeat term=\d+ commit=\d+"]
MESSAGES += [r"MsgHeartbeatResp term=\d+", r"MsgSnap term=\d+ snapshot=\d+/\d+", "MsgProp " + BODY, r"MsgTransferLeader target=\d+"]
MESSAGES += [r"MsgTimeoutNow term=\d+"]

LINES = [
    "ok", r"\d+ ready", r"no room for \d+->\d+ .*", r"  hard term=\d+ vote=\d+ commit=\d+", r"  snapshot \d+/\d+", r"  save " + ENTRY, r"  apply " + ENTRY,
    r"\d+ has nothing ready", "no messages", r"stopped after \d+ rounds", r"queue \d+->\d+ MsgSnap .*",
    r"base=\d+/\d+ durable=\d+ commit=\d+ applied=\d+", ENTRY, ENTRY + " unsaved", CONFIG,
]
LINES += [rf"  {verb} \d+/\d+ {re.escape(body)}.*" for verb in ("save", "apply") for body in BODIES]
LINES += [rf"(  send|deliver) \d+->\d+ {message}" for message in MESSAGES]
LINES += [rf"drop \d+->\d+ {kind}\b.*" for kind in TYPES[:-1]]
LINES += [rf"\d+ {role} term=\d+ vote=\d+ lead=\d+ commit=\d+ applied=\d+ content=\d+:\".*\"" for role in ROLES]
LINES += [r"voters=\([\d,]*\)" + part for part in ("", r" outgoing=.*", r" learners=.*", r" .*next=.*", ".* auto")]
LINES += [
    rf"\d+ {view} match=\d+ next=\d+ inflight=\d+{more}( inactive)?"
    for view, more in (("probe", ""), ("probe", " waiting"), ("replicate", ""), ("snapshot", r" snapshot=\d+"))
]
LINES += [r"\d+ (probe|replicate|snapshot) .* inactive"]

EVENTS = [r"INFO \d+ started at (0/0|1/\d+) with " + CONFIG, r"INFO \d+ restored snapshot \d+/\d+", r"WARN \d+ dropped a proposal"]
EVENTS += [rf"INFO \d+ became {role} at term \d+" for role in ROLES]
EVENTS += [rf"WARN \d+ can't campaign: {why}" for why in ("leader", "not a voter", "snapshot pending", "change pending")]
EVENTS += [
    rf"INFO \d+ has {kind} {how} from \d+: {result}"
    for kind in ("MsgVoteResp", "MsgPreVoteResp")
    for how, result in (("granted", "won"), ("granted", "pending"), ("refused", "pending"), ("refused", "lost"))
]
EVENTS += [rf"DEBUG \d+ ignored {kind} from \d+" for kind in TYPES if kind not in ("MsgProp", "MsgUnreachable", "MsgPreVoteResp")]
EVENTS += [r"DEBUG \d+ ignored MsgPreVoteResp from \d+", r"ERROR \d+ conflict at \d+, commit \d+", r"WARN \d+ lost its quorum"]
EVENTS += [rf"INFO \d+ replaced change at \d+ by an empty entry: {why}" for why in ("unapplied", "joint", "not joint")]
EVENTS += [rf"ERROR \d+ refused change at \d+: {why}" for why in ("AlreadyJoint", "NotJoint", "SimpleWhileJoint", "NoVoters")]
EVENTS += [r"INFO \d+ restarted at term=\d+ vote=\d+ log=\d+\.\.\d+ commit=\d+"]
EVENTS += [r"INFO \d+ switched to " + CONFIG, r"INFO \d+ starts transfer to \d+", r"INFO \d+ ends transfer to \d+"]

ERRORS = [rf"error: {what} {QUOTED}" for what in ("unknown directive", "unsupported option", "bad argument", "bad change")]
ERRORS += [rf'error: missing argument "{name}"' for name in ("n", "id", "payload", "index", "level", "from", "to", "timeout")]
ERRORS += [
    r"error: no node \d+", "error: too many nodes", "error: index must be above 1", "error: already compacted", "error: index past applied",
    "error: v1 takes one change and no transition",
]

CHOICES = {
    "prevote": ["true", "false"], "checkquorum": ["true", "false"], "step-down-on-removal": ["true", "false"], "v1": ["true", "false"],
    "transition": ["auto", "explicit", "implicit"], "log-level": LEVELS,
}


def heads_of(name: str, options: Any) -> Iterator[str]:
    """What has to have stood in a head that was carried out."""
    yield name
    yield f"{name} log-level="
    for key in options:
        for value in CHOICES.get(key, [""]):
            yield f"{name} {key}={value}"


HEADS = [head for name, (_, options) in TABLE.items() for head in heads_of(name, options)]
HEADS += [f"deliver-msgs type={kind}" for kind in TYPES] + [f"log-level {name}" for name in LEVELS]
HEADS += [f"campaign log-level={name}" for name in LEVELS]


def marks_of(name: bytes, arguments: Sequence[Any]) -> Iterator[str]:
    """The marks of `HEADS` that a head has."""
    yield name.decode()
    for argument in arguments:
        if not argument.has_equals:
            if name == b"log-level":
                yield f"log-level {argument.key.decode().lower()}"
            continue
        key = argument.key.decode()
        for value in [""] if key not in CHOICES and key != "type" else [value.decode() for value in argument.values]:
            yield f"{name.decode()} {key}={value.lower()}" if key != "type" else f"deliver-msgs type={value}"
        yield f"{name.decode()} {key}="


class Covered:
    """What was not met yet."""

    def __init__(self) -> None:
        self.shapes = [re.compile(pattern) for pattern in LINES + EVENTS + ERRORS]
        self.heads = set(HEADS)
        self.seen: set[str] = set()

    def take(self, directive: Any, output: list[str]) -> None:
        """Takes note of what a directive printed; lines that differ in long numbers alone are looked at once."""
        for line in {re.sub(r"\d\d+", "10", line) for line in output} - self.seen:
            self.seen.add(line)
            if any(shape.fullmatch(line) for shape in self.shapes):
                self.shapes = [shape for shape in self.shapes if not shape.fullmatch(line)]
        if not output[0].startswith("error: "):
            self.heads.difference_update(marks_of(*directive[:2]))

    def lacks(self) -> set[str]:
        return {f"no line {shape.pattern}" for shape in self.shapes} | {f"no directive {head}" for head in self.heads}


def lacks_of_roles(met: Mapping[tuple[str, str], int]) -> set[str]:
    """Which types of messages never came to which role; `met` counts such pairs."""
    return {f"no {kind} at a {role}" for kind in TYPES[:-1] for role in ROLES if not met[kind, role]}
