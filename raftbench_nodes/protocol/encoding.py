"""The values of the protocol (docs/OWN-NODES.md) and their JSON, both ways: configurations, changes, entries, messages. `Parts` reads an object of JSON.
A part that is missing or has another type raises `Wrong`, which names its place and value. What nodes answer is in answers.py.
"""
from __future__ import annotations

import base64
import binascii
import dataclasses
import functools
import json
import re
from typing import Any, Iterable, NamedTuple, Sequence

from plain.config import Change, Config
from plain.records import Body, Entry, Message, Numbered, Ready, ShownView, Snapshot

VERSION = 1
GREATEST = (1 << 63) - 1
MOST_SHOWN = 80
TRANSITIONS = ("auto", "explicit", "implicit")
# Calls that a library may lack, and those that it may have.
CALLS = ("campaign", "tick", "forget_leader", "propose_change", "set_timeout", "transfer", "report_unreachable", "compact", "snapshot", "status")
OPTIONAL_CALLS = ("restart", "lost", "read", "report_snapshot")
OPTIONS = ("inflight", "prevote", "checkquorum", "step_down_on_removal")
CHANGES = ("learners", "joint")
READY = ("ready", "sync", "torn")
ALWAYS = ("prevote", "checkquorum", "step_down_on_removal", "inflight=1")
LIMITS = ("max_size_per_msg", "max_uncommitted_size")
# What of a ready that wasn't advanced is saved at a restart.
SAVED = ("nothing", "entries", "all")

Json = dict[str, Any]


class Wrong(Exception):
    """What is wrong with an answer, in words."""


class Hello(NamedTuple):
    """What a library says of itself: the table `hello` of the document has the parts."""

    name: str = ""
    without: frozenset[str] = frozenset()
    calls: frozenset[str] = frozenset()
    always: frozenset[str] = frozenset()
    limits: frozenset[str] = frozenset()
    is_open: bool = False
    is_ordered: bool = False
    is_apart: bool = False
    has_batch: bool = False
    has_digest: bool = False


def shown(value: object) -> str:
    """A value as JSON, cut to a length that fits into a line."""
    text = json.dumps(value)
    return text if len(text) <= MOST_SHOWN else text[:MOST_SHOWN] + ".."


def printable(text: str) -> str:
    """A text in printable ASCII, whatever it has."""
    if text.isascii() and text.isprintable():
        return text
    return "".join(c if " " <= c <= "~" else c.encode("unicode_escape", "backslashreplace").decode() for c in text)


@functools.lru_cache(maxsize=10_000)
def decoded(text: str) -> bytes:
    return base64.b64decode(text.encode(), validate=True)


class Parts:
    """An object of an answer: its parts, read by name. A part that is left out is 0, false or empty, but for one that is `needed`. `above` is the object that
    has this one, as `name` or at a place of that list.
    """

    __slots__ = ("value", "name", "above", "at")

    def __init__(self, value: object, name: str = "", above: Parts | None = None, at: int | None = None) -> None:
        self.name, self.above, self.at = name, above, at
        if not isinstance(value, dict):
            raise Wrong(f"{self.path}: {shown(value)} is not an object")
        self.value: Json = value

    @property
    def path(self) -> str:
        """Where in the answer this is."""
        place = self.above.where(self.name) if self.above else self.name
        return place if self.at is None else f"{place}[{self.at}]"

    def where(self, name: str) -> str:
        return f"{self.path}.{name}" if self.path else name

    def part(self, name: str, kind: type, what: str, default: Any, needed: bool = False) -> Any:
        value = self.value.get(name)
        if type(value) is kind:
            return value
        if value is None:
            if needed and name not in self.value:
                raise Wrong(f"{self.where(name)} is missing")
            return default
        raise Wrong(f"{self.where(name)}: {shown(value)} is not {what}")

    def number(self, name: str, needed: bool = False) -> int:
        value = self.value.get(name)
        if type(value) is int and 0 <= value <= GREATEST:
            return value
        value = self.part(name, int, "a number", 0, needed)
        if not 0 <= value <= GREATEST:
            raise Wrong(f"{self.where(name)}: {shown(value)} is not a number from 0 to {GREATEST}")
        return int(value)

    def truth(self, name: str, needed: bool = False) -> bool:
        return bool(self.part(name, bool, "true or false", False, needed))

    def text(self, name: str, needed: bool = False) -> str:
        return str(self.part(name, str, "a text", "", needed))

    def word(self, name: str, words: Sequence[str]) -> str:
        value = self.text(name, needed=True)
        if value not in words:
            raise Wrong(f"{self.where(name)}: {shown(value)} is not one of {', '.join(words)}")
        return value

    def data(self, name: str, needed: bool = False) -> bytes:
        """Bytes, which are written in base64."""
        value = self.text(name, needed)
        try:
            return decoded(value)
        except (binascii.Error, UnicodeEncodeError):
            raise Wrong(f"{self.where(name)}: {shown(value)} is not base64") from None

    def items(self, name: str) -> list[Any]:
        return list(self.part(name, list, "a list", ()))

    def words(self, name: str, known: Iterable[str], what: str) -> frozenset[str]:
        """A list of known words."""
        words = self.items(name)
        for word in words:
            if word not in known:
                raise Wrong(f"{self.where(name)}: {shown(word)} is not {what}")
        return frozenset(words)

    def ids(self, name: str) -> frozenset[int]:
        values = self.items(name)
        if not values:
            return frozenset()
        if any(type(id) is not int or not 0 <= id <= GREATEST for id in values):
            raise Wrong(f"{self.where(name)}: {shown(values)} is not a list of ids")
        return frozenset(values)

    def needed_object(self, name: str) -> Parts:
        found = self.object(name)
        if found is None:
            raise Wrong(f"{self.where(name)} is missing")
        return found

    def object(self, name: str) -> Parts | None:
        """The parts of an object in this one, or None."""
        value = self.value.get(name)
        return None if value is None else Parts(value, name, self)

    def objects(self, name: str) -> list[Parts]:
        return [Parts(value, name, self, at) for at, value in enumerate(self.items(name))]


# Out: what the bench and the plain node's adapter write


def data_out(data: bytes) -> str:
    return base64.b64encode(data).decode()


def config_out(config: Config) -> Json:
    sets = {"voters": config.incoming, "outgoing": config.outgoing, "learners": config.learners, "next": config.next}
    out: Json = {name: sorted(ids) for name, ids in sets.items() if ids or name == "voters"}
    return {**out, "auto": True} if config.auto else out


def change_out(change: Change) -> Json:
    return {"transition": change.transition, "words": [f"{letter}{id}" for letter, id in change.words]}


def body_out(body: Body) -> Json:
    return {"data": data_out(body)} if isinstance(body, bytes) else {"change": change_out(body)}


def entries_out(pairs: Iterable[Numbered]) -> list[Json]:
    return [{"term": entry.term, "index": index, **body_out(entry.body)} for index, entry in pairs]


# Parts of a message that are numbers or truths: the name in JSON, and in plain.records.Message.
NUMBERS = {"term": "term", "logTerm": "log_term", "index": "index", "commit": "commit", "rejectHint": "hint", "target": "target", "context": "context"}
TRUTHS = {"reject": "refused", "transfer": "by_transfer"}


def message_out(m: Message) -> Json:
    out: Json = {"type": m.kind, "from": m.sender, "to": m.to}
    out.update((name, getattr(m, part)) for name, part in {**NUMBERS, **TRUTHS}.items() if getattr(m, part))
    if m.entries:
        out["entries"] = entries_out(enumerate(m.entries, m.index + 1))
    if m.body is not None:
        out["entries"] = [body_out(m.body)]
    if m.snapshot:
        s = m.snapshot
        out["snapshot"] = {"index": s.index, "term": s.term, "content": data_out(s.content), "config": config_out(s.config)}
    return out


def ready_out(ready: Ready) -> Json:
    return {
        "hard": ready.hard and ready.hard._asdict(), "snapshot": ready.snapshot and dict(zip(("index", "term"), ready.snapshot)),
        "entries": entries_out(ready.entries), "committed": entries_out(ready.committed), "messages": [message_out(m) for m in ready.messages],
        "sync": ready.sync, **({"reads": [dataclasses.asdict(read) for read in ready.reads]} if ready.reads else {}),
    }


def view_out(id: int, view: ShownView) -> Json:
    return {
        "node": id, "state": view.state, "match": view.match, "next": view.next, "inflight": view.inflight, "waiting": view.waiting,
        "active": view.active, "snapshot": view.pending,
    }


# In: what both sides read


def config_in(parts: Parts | None) -> Config:
    if parts is None:
        return Config(frozenset())
    return Config(parts.ids("voters"), parts.ids("outgoing"), parts.ids("learners"), parts.ids("next"), parts.truth("auto"))


def change_in(parts: Parts) -> Change:
    words = parts.items("words")
    for word in words:
        if not isinstance(word, str) or not re.fullmatch("[vlru][0-9]{1,10}", word):
            raise Wrong(f"{parts.where('words')}: {shown(word)} is not a word of a change")
    return Change(parts.word("transition", TRANSITIONS), tuple((word[0], int(word[1:])) for word in words))


def body_in(parts: Parts) -> Body:
    change = parts.object("change")
    return change_in(change) if change else parts.data("data")


def entries_in(parts: Parts, name: str = "entries") -> list[Numbered]:
    """Pairs of an index and an entry."""
    return [usual_entry(value) or entry_in(Parts(value, name, parts, at)) for at, value in enumerate(parts.items(name))]


def entry_in(parts: Parts) -> Numbered:
    return parts.number("index"), Entry(parts.number("term"), body_in(parts))


def usual_entry(value: Any) -> Numbered | None:
    """An entry with a payload, none of whose parts is wrong; None for others."""
    try:
        index, term, data = value.get("index", 0), value.get("term", 0), value.get("data", "")
        if type(index) is int and type(term) is int and 0 <= index <= GREATEST and 0 <= term <= GREATEST and "change" not in value:
            return index, Entry(term, decoded(data))
    except (AttributeError, TypeError, ValueError):
        pass
    return None


class WireMessage(Message):
    """A message of somebody else's node: what is known of it, and `json`, which goes to its receiver unchanged."""

    json: Json


@functools.lru_cache(maxsize=1000)
def is_type(text: str) -> bool:
    return re.fullmatch("[A-Za-z0-9_]{1,40}", text) is not None


def message_in(parts: Parts) -> WireMessage:
    kind = parts.text("type", needed=True)
    if not is_type(kind):
        raise Wrong(f"{parts.where('type')}: {shown(kind)} is not a type of a message")
    value = parts.value
    known: Json = {}
    for json_name, name in NUMBERS.items():
        if json_name in value:
            known[name] = parts.number(json_name)
    for json_name, name in TRUTHS.items():
        if json_name in value:
            known[name] = parts.truth(json_name)
    if "entries" in value or kind == "MsgProp":
        known.update(bodies_in(parts, kind))
    if kind == "MsgSnap":
        s = parts.needed_object("snapshot")
        known["snapshot"] = Snapshot(s.number("index", True), s.number("term", True), s.data("content"), config_in(s.object("config")))
    if "before_save" in value:
        parts.truth("before_save")
    message = WireMessage(kind, parts.number("from", True), parts.number("to", True), **known)
    message.json = value
    return message


def bodies_in(parts: Parts, kind: str) -> Json:
    """The entries of a message, or what is proposed."""
    entries = tuple([entry for _, entry in entries_in(parts)])
    return {"body": entries[0].body if entries else b""} if kind == "MsgProp" else {"entries": entries}


def is_early(message: Message) -> bool:
    """Whether a message goes out before what was ready with it is saved."""
    return isinstance(message, WireMessage) and message.json.get("before_save") is True
