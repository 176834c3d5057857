"""The directives (docs/SCRIPTS.md): their names and arguments. A head becomes a request, or is refused."""
from __future__ import annotations

from typing import Any, Callable, Mapping, Sequence

from .config import Change
from .script import Argument
from .texts import quoted

Values = Sequence[bytes]
# What an argument's values come to, or Bad.
Taken = Callable[[Values], Any]

MOST_NODES = GREATEST_ID = 32
LEVELS = ["debug", "info", "warn", "error", "fatal", "none"]
TYPES = [
    "MsgVote", "MsgVoteResp", "MsgPreVote", "MsgPreVoteResp", "MsgApp", "MsgAppResp", "MsgHeartbeat", "MsgHeartbeatResp",
    "MsgSnap", "MsgProp", "MsgTransferLeader", "MsgTimeoutNow", "MsgUnreachable",
]


class Refused(Exception):
    """Why a directive is refused; its text stands behind `error: `."""


class Bad(Exception):
    """A value that an argument doesn't take."""


# What arguments take: functions of a list of values


def one(values: Values) -> bytes:
    if len(values) != 1:
        raise Bad
    return values[0]


def number(least: int, greatest: int) -> Taken:
    def of(values: Values) -> int:
        value = one(values)
        if not (1 <= len(value) <= 10 and all(b in b"0123456789" for b in value) and least <= int(value) <= greatest):
            raise Bad
        return int(value)
    return of


def word(*words: str) -> Taken:
    def of(values: Values) -> str:
        if one(values) not in [w.encode() for w in words]:
            raise Bad
        return one(values).decode()
    return of


def text(least: int, greatest: int) -> Taken:
    def of(values: Values) -> bytes:
        if not least <= len(one(values)) <= greatest:
            raise Bad
        return one(values)
    return of


def listed(member: Taken) -> Taken:
    return lambda values: [member([value]) for value in values]


def truth(values: Values) -> bool:
    return bool(word("true", "false")(values) == "true")


def level(values: Values) -> str:
    return str(word(*LEVELS)([one(values).lower()]))


# The id of a node that has to be there, and one of a node that need not.
an_id = number(1, GREATEST_ID)
any_id = number(1, GREATEST_ID)
ids = listed(any_id)

# Each directive: the names of its words with what they take, and its options. A word's name with `*` takes any number.
TABLE: dict[str, tuple[list[tuple[str, Taken]], dict[str, Taken]]] = {
    "add-nodes": (
        [("n", number(1, MOST_NODES))],
        {
            "voters": ids, "learners": ids, "index": number(0, 1_000_000_000), "content": text(0, 1024), "inflight": number(1, 256),
            "prevote": truth, "checkquorum": truth, "step-down-on-removal": truth,
        },
    ),
    "campaign": ([("id", an_id)], {}),
    "propose": ([("id", an_id), ("payload", text(1, 1024))], {}),
    "propose-conf-change": ([("id", an_id)], {"v1": truth, "transition": word("auto", "explicit", "implicit")}),
    "process-ready": ([("id", an_id), ("*id", an_id)], {}),
    "deliver-msgs": (
        [("*id", an_id)],
        {"type": listed(word(*TYPES)), "drop": ids, "from": any_id, "skip": number(0, 4096), "count": number(1, 4096)},
    ),
    "restart": ([("id", an_id), ("*id", an_id)], {}),
    "stabilize": ([("*id", an_id)], {"rounds": number(1, 1000)}),
    "tick-election": ([("id", an_id)], {}),
    "tick-heartbeat": ([("id", an_id)], {}),
    "set-randomized-election-timeout": ([("id", an_id)], {"timeout": number(1, 1000)}),
    "transfer-leadership": ([], {"from": an_id, "to": any_id}),
    "forget-leader": ([("id", an_id)], {}),
    "report-unreachable": ([("id", an_id), ("id", any_id)], {}),
    "send-snapshot": ([("from", an_id), ("to", any_id)], {}),
    "compact": ([("id", an_id), ("index", number(0, 2_000_000_000))], {}),
    "log-level": ([("level", level)], {}),
    "raft-log": ([("id", an_id)], {}),
    "status": ([("id", an_id)], {}),
    "raft-state": ([], {}),
}
# Options that have to be given, and the order in which what is missing is looked for.
WANTED = {"transfer-leadership": ["from", "to"], "set-randomized-election-timeout": ["timeout"]}
ORDER = ["n", "id", "payload", "index", "level", "from", "to", "timeout"]


def shortened(data: bytes) -> str:
    return quoted(data[:64])


class Request:
    """A directive's arguments, read from left to right."""

    def __init__(self, name: bytes, arguments: Sequence[Argument]) -> None:
        if name.decode("latin-1") not in TABLE:
            raise Refused(f"unknown directive {shortened(name)}")
        self.name = name.decode()
        self.words: list[Any] = []
        self.options: dict[str, Any] = {}
        self.kinds, known = TABLE[self.name]
        self.known = {**known, "log-level": level}
        for argument in arguments:
            (self.take_option if argument.has_equals else self.take_word)(argument)
        self.look_for_missing()

    def take_option(self, argument: Argument) -> None:
        key = argument.key.decode("latin-1")
        if key not in self.known:
            raise Refused(f"unsupported option {shortened(argument.key)}")
        try:
            if key in self.options:
                raise Bad
            self.options[key] = self.known[key](argument.values)
            if set(self.options.get("voters", [])) & set(self.options.get("learners", [])):
                raise Bad
        except Bad:
            raise Refused(f"bad argument {shortened(argument.key)}") from None

    def kind_of(self, at: int) -> Taken:
        """What the word at this place takes."""
        names = [name for name, _ in self.kinds]
        if at >= len(names) and not (names and names[-1].startswith("*")):
            raise Bad
        return self.kinds[min(at, len(names) - 1)][1]

    def take_word(self, argument: Argument) -> None:
        try:
            self.words.append(self.kind_of(len(self.words))([argument.key]))
        except Bad:
            raise Refused(f"bad argument {shortened(argument.key)}") from None

    def look_for_missing(self) -> None:
        missing = [name for name, _ in self.kinds[len(self.words):] if not name.startswith("*")]
        missing += [name for name in WANTED.get(self.name, []) if name not in self.options]
        if missing:
            raise Refused(f"missing argument {shortened(min(missing, key=ORDER.index).encode())}")

    def named(self) -> list[int]:
        """The ids that have to be those of nodes, in the order in which they are looked for."""
        words = [word for at, word in enumerate(self.words) if self.kind_of(at) is an_id]
        return words + [value for key, value in self.options.items() if self.known[key] is an_id]


def change_of(piece: bytes) -> tuple[str, int]:
    try:
        if chr(piece[0]) not in "vlru":
            raise Bad
        return chr(piece[0]), any_id([piece[1:]])
    except Bad:
        raise Refused(f"bad change {shortened(piece)}") from None


def change_asked(options: Mapping[str, Any], given: Sequence[bytes]) -> Change:
    """The change that `propose-conf-change` asks for by its options and its input lines."""
    changes = [piece for line in given for piece in line.replace(b"\t", b" ").split(b" ") if piece]
    pairs = tuple(map(change_of, changes))
    transition = options.get("transition", "auto")
    if options.get("v1") and (len(pairs) != 1 or transition != "auto"):
        raise Refused("v1 takes one change and no transition")
    return Change(transition, pairs)
