"""What nodes answer to each call (docs/OWN-NODES.md). An answer is checked here, once, and becomes a value with types: a state, what is ready, a message,
a log, or a leader's views. A wrong part raises `Wrong`.
"""
from __future__ import annotations

import dataclasses
import functools
import operator
from typing import Callable, NamedTuple, Union

from plain.config import Config
from plain.records import Event, Hard, Message, Numbered, Read, Ready

from .encoding import (
    ALWAYS, CALLS, CHANGES, GREATEST, LIMITS, OPTIONAL_CALLS, OPTIONS, READY, VERSION, Hello, Json, Parts, WireMessage, Wrong, config_in, decoded, entries_in,
    message_in, printable, shown,
)

ROLES = ("follower", "precandidate", "candidate", "leader")
LEVELS = ("DEBUG", "INFO", "WARN", "ERROR", "FATAL")
VIEW_STATES = ("probe", "replicate", "snapshot")


class State(NamedTuple):
    """A node's state. This is the one table of its parts, in the order in which a difference is named."""

    role: str
    term: int
    vote: int
    lead: int
    commit: int
    applied: int
    content: bytes
    config: Config
    ready: bool


STATE = State._fields
all_parts = operator.itemgetter(*STATE)
TYPES = (str, *[int] * 5, str, dict, bool)
CONFIGS: dict[str, Config] = {}
MOST_CONFIGS = 10_000
NUMBERS = STATE[1:6]
# The parts that nodes may lack.
OPTIONAL = STATE[2:8]
STATES = (*OPTIONAL, "log", "durable", "auto")


@dataclasses.dataclass(slots=True)
class Log:
    base: int
    base_term: int
    durable: int  # the last index that is saved
    entries: list[Numbered]


@dataclasses.dataclass(slots=True)
class LogEnd:
    """Index and term of the last entry, and the last index that is saved."""

    last: int
    term: int
    durable: int


class MemberView(NamedTuple):
    """What a leader says of a member."""

    state: str
    match: int
    next: int
    inflight: int
    waiting: bool
    active: bool
    pending: int  # the index of the snapshot that is under way


Views = dict[int, MemberView]


@dataclasses.dataclass(slots=True)
class CallResult:
    """The answer to a call that may change a node: its states, one after each message; its events; and where its log ends, if the answer says so."""

    states: list[State]
    events: list[Event]
    end: LogEnd | None = None


Answer = Union[CallResult, Ready, Message, Log, Views]


def answer_in(call: Json, answer: Json, without: frozenset[str]) -> Answer:
    """The answer to a call of a node."""
    parts, reader = Parts(answer, ""), READERS.get(call["call"])
    return reader(parts, without) if reader else result_in(parts, without, "numbers" in call)


def hello_in(parts: Parts) -> Hello:
    if parts.number("protocol", needed=True) != VERSION:
        raise Wrong(f"protocol: this bench speaks {VERSION}, and not {shown(parts.value['protocol'])}")
    return Hello(
        printable(parts.text("name", needed=True)), parts.words("without", CALLS + OPTIONS + CHANGES + STATES + READY, "something that nodes may be without"),
        parts.words("calls", OPTIONAL_CALLS, "an optional call"), parts.words("always", ALWAYS, "something that nodes may always do"),
        parts.words("limits", LIMITS, "a limit that nodes may have"), parts.truth("open"), parts.truth("ordered"), parts.truth("apart"), parts.truth("batch"),
        parts.truth("batch") and parts.truth("digest"),
    )


def result_in(parts: Parts, without: frozenset[str], has_several: bool = False) -> CallResult:
    states = parts.objects("states") if has_several else [parts.needed_object("state")]
    return CallResult([state_in(each, without) for each in states], events_in(parts), log_end_in(parts) if "log" in parts.value else None)


@functools.lru_cache(maxsize=100)
def needed_parts(without: frozenset[str]) -> tuple[str, ...]:
    return tuple(name for name in OPTIONAL if name not in without)


def state_in(parts: Parts, without: frozenset[str]) -> State:
    return usual_state(parts.value) or state_by_parts(parts, without)


def usual_state(value: Json) -> State | None:
    """A state that has all parts, none of them wrong; None for others. Most are such, and this takes a fifth of the time."""
    try:
        values = all_parts(value)
        role, term, vote, lead, commit, applied, content, config, ready = values
        if tuple(map(type, values)) != TYPES or role not in ROLES or min(values[1:6]) < 0 or max(values[1:6]) > GREATEST:
            return None
        return State(role, term, vote, lead, commit, applied, decoded(content), config_of(config), ready)
    except (KeyError, ValueError, Wrong):
        return None


def config_of(value: Json) -> Config:
    """A configuration, of which there are few."""
    text = repr(value)
    config = CONFIGS.get(text)
    if config is None:
        if len(CONFIGS) >= MOST_CONFIGS:
            CONFIGS.clear()
        config = CONFIGS[text] = config_in(Parts(value, ""))
    return config


def state_by_parts(parts: Parts, without: frozenset[str]) -> State:
    if missing := [name for name in needed_parts(without) if name not in parts.value]:
        raise Wrong(f"parts of {parts.path} are missing, and not in `without`: {', '.join(missing)}")
    role, term = parts.word("role", ROLES), parts.number("term", needed=True)
    vote, lead, commit, applied = [parts.number(name, needed=name not in without) for name in NUMBERS[1:]]
    content, config = parts.data("content", needed="content" not in without), parts.object("config")
    if config is None and "config" not in without:
        raise Wrong(f"{parts.where('config')} is missing")
    return State(role, term, vote, lead, commit, applied, content, config_in(config), parts.truth("ready", needed=True))


def events_in(parts: Parts) -> list[Event]:
    events = parts.items("events")
    for event in events:
        if not (type(event) is list and len(event) == 2 and event[0] in LEVELS and type(event[1]) is str):
            raise Wrong(f"{parts.where('events')}: {shown(event)} is not a pair of a level and a line")
    return [(level, printable(line)) for level, line in events]


def log_end_in(parts: Parts) -> LogEnd | None:
    end = parts.object("log")
    return LogEnd(end.number("last", needed=True), end.number("term", needed=True), end.number("durable")) if end else None


def log_in(parts: Parts, without: frozenset[str]) -> Log:
    base, entries = parts.needed_object("base"), entries_in(parts)
    for at, (index, _) in enumerate(entries, base.number("index", needed=True) + 1):
        if index != at:
            raise Wrong(f"entries: index {index}, where {at} is due")
    return Log(base.number("index"), base.number("term", needed=True), parts.number("durable", needed="durable" not in without), entries)


def views_in(parts: Parts, without: frozenset[str] = frozenset()) -> Views:
    return {
        view.number("node", needed=True): MemberView(
            view.word("state", VIEW_STATES), view.number("match"), view.number("next", needed=True), view.number("inflight"), view.truth("waiting"),
            view.truth("active"), view.number("snapshot"),
        )
        for view in parts.objects("views")
    }


def snapshot_in(parts: Parts, without: frozenset[str] = frozenset()) -> WireMessage:
    return message_in(parts.needed_object("message"))


def ready_in(parts: Parts, without: frozenset[str] = frozenset()) -> Ready:
    ready = parts.needed_object("ready")
    hard, snapshot = ready.object("hard"), ready.object("snapshot")
    return Ready(
        Hard(hard.number("term"), hard.number("vote"), hard.number("commit")) if hard else None,
        (snapshot.number("index"), snapshot.number("term")) if snapshot else None,
        entries_in(ready), entries_in(ready, "committed"), [message_in(m) for m in ready.objects("messages")],
        ready.truth("sync"), tuple(Read(read.number("id"), read.number("index")) for read in ready.objects("reads")),
    )


# How the answer to a call is read that has a form of its own.
READERS: dict[str, Callable[[Parts, frozenset[str]], Answer]] = {"ready": ready_in, "snapshot": snapshot_in, "status": views_in, "log": log_in}
