"""What a run's messages and nodes come to in a picture: by the lines that everything was shown in (printed.py), and of messages by
the rows of a page too.
"""
from __future__ import annotations

import re
from collections import Counter, defaultdict
from collections.abc import Callable, Iterable
from dataclasses import dataclass
from typing import Any, NamedTuple

from tests.page.plain_chart import KINDS, MARKS, Mark
from tests.page.plain_steps import Row, event_row
from tests.page.printed import Node, Step

# What is told of a message in whatever words: who, to whom, which type, and the numbers and answers in it; and what became of it.
GIST = re.compile(r"Msg\w+|\d+|granted|refused|transfer|delivered|dropped|given up|on its way")
# Of a mark its sign and its numbers.
SIGNS = "★✓✗↺↻◆▣!+"
SIGN = re.compile(rf"[{SIGNS}]|\d+")
MESSAGE = re.compile(r"(?:  )?(send|queue|deliver|drop|no room for) (\d+)->(\d+) (Msg\w+)(.*)")
READY = re.compile(r"(\d+) ready")
EVENT = re.compile(r"(?:DEBUG|INFO|WARN|ERROR) (.*)")
OF_READY = re.compile(r"  (?:(hard) term=\d+ vote=\d+ commit=(\d+)|(save|apply) \d+/(\d+) .*|snapshot .*)")
IDLE = re.compile(r"(\d+) has nothing ready")
NOTE = re.compile(r"no messages|stopped after \d+ rounds|error: .*")
FATES = {"deliver": "delivered", "drop": "dropped"}
# The words of marks that a picture alone doesn't have.
PAGE_MARKS: dict[str, Callable[..., Mark]] = {
    "started": lambda id: ("started", "quiet"),
    "nothing-ready": lambda id: ("nothing ready", "quiet"),
    "appended": lambda id, index, body: (f"+ {index} {body}", "quiet"),
    "replaced": lambda id, index: (f"↺ {index}+ replaced", "change"),
    "lost": lambda id, first, last: (f"✗ {first if first == last else f'{first}–{last}'} lost", "bad"),
}


def gist(text: str) -> tuple[str, ...]:
    return tuple(GIST.findall(text))


# Messages


class Arrow(NamedTuple):
    """An arrow: how it looks, from which line and node it leads to which side, in which line it ends, at which node, and in which sign."""
    kind: str
    sent: int
    sender: int | None
    side: int
    end: int
    to: int | None
    sign: str


@dataclass
class Message:
    """A message: from, to and type, the lines of the directives where it was sent and met, its text where that is known, and how many were
    met before it."""
    sender: int
    to: int
    kind: str
    sent: int
    met: int | None = None
    fate: str = "waiting"
    text: str = ""
    order: int = 0

    def course(self) -> tuple[Any, ...]:
        """All but its text."""
        return self.sender, self.to, self.kind, self.sent, self.met, self.fate

    def gist(self) -> tuple[str, ...]:
        """What is told of it; a message of term 0 is told without a term."""
        return gist(self.text.replace(" term=0", ""))

    def label(self) -> tuple[str, ...]:
        """What is told of it, and of what became of it."""
        fate = {"waiting": "on its way", "delivered": f"delivered at line {self.met}"}.get(self.fate, self.fate)
        return self.gist() + gist(fate)

    def arrow(self, nodes: int) -> Arrow:
        """Its arrow where there are so many nodes; one that comes to no node ends anywhere on its way."""
        sign = {"delivered": "tip", "waiting": "dots"}.get(self.fate, "cross")
        side = -1 if self.to < self.sender else 1
        to = self.to if self.is_met() and self.to <= nodes else None
        return Arrow(KINDS[self.kind], self.sent, self.sender, side, self.met or self.sent, to, sign)

    def is_met(self) -> bool:
        return self.fate in FATES.values()

    def is_pending_after(self, line: int) -> bool:
        return self.sent <= line and (self.met is None or self.met > line)


class Mail:
    """Messages and what becomes of them. Of those with one key the earliest is the one that is met, and the latest the one without room."""

    def __init__(self) -> None:
        self.messages: list[Message] = []
        self.waiting: defaultdict[object, list[Message]] = defaultdict(list)
        self.ready: list[tuple[object, Message]] = []
        self.met = 0

    def read(self, verb: str, key: object, message: Message) -> None:
        """Takes a message as sent or met; what met it is the line where the given one was sent."""
        if verb in FATES:
            self.end(self.waiting[key].pop(0), message, FATES[verb])
        elif verb.startswith("no") and not any(key == of for of, _ in self.ready):
            self.messages.append(message)
            self.end(message, message, "given up")
        elif verb.startswith("no"):
            self.ready.remove((key, self.waiting[key][-1]))
            self.end(self.waiting[key].pop(), message, "given up")
        else:
            self.messages.append(message)
            self.waiting[key].append(message)
            self.ready += [(key, message)] if verb == "send" else []

    def end(self, message: Message, at: Message, fate: str) -> None:
        message.met, message.fate, message.order = at.sent, fate, self.met
        self.met += 1


def messages_of_lines(steps: Iterable[Step]) -> list[Message]:
    """The messages of what was printed, in the order in which they were sent; those with one text are alike."""
    mail = Mail()
    for step in steps:
        mail.ready = []
        for line in step.lines:
            if found := MESSAGE.fullmatch(line):
                verb, sender, to, kind, _ = found.groups()
                text = line.split(f"{verb} ", 1)[1]
                mail.read(verb, text, Message(int(sender), int(to), kind, step.line, text=text))
            elif READY.fullmatch(line):
                mail.ready = []
    return mail.messages


def messages_of_rows(rows: Iterable[Row]) -> list[Message]:
    """The messages of a page's rows. Those that say the same are met in their order."""
    mail, line = Mail(), 0
    for name, *cells in rows:
        if name in ("step", "ready"):
            line, mail.ready = cells[0] if name == "step" else line, []
        elif name in ("send", "queue", "deliver", "drop", "no-room"):
            sender, to, kind = cells[:3]
            mail.read(name, tuple(cells), Message(sender, to, kind, line))
    return mail.messages


# Marks


class Marker:
    """Goes over what was printed and tells which marks come of it: lists of a line, a node, a look, and a sign with numbers."""

    def __init__(self) -> None:
        self.marks: list[tuple[int, int, str, tuple[str, ...]]] = []
        self.commits: dict[int, int] = {}
        self.before: dict[int, Node] = {}
        self.line, self.ready = 0, 0
        self.saves: list[int] = []
        self.restored: set[int] = set()
        self.restarted: set[int] = set()

    def read(self, step: Step) -> None:
        self.line, self.restored, self.restarted = step.line, set(), set()
        for line in step.lines:
            self.read_line(line)
        self.end_saves()
        for id, node in step.nodes.items():
            self.end_node(id, node)
        self.before = step.nodes

    def mark(self, name: str, id: int, *cells: Any) -> None:
        words, look = (MARKS.get(name) or PAGE_MARKS[name])(id, *cells)
        self.marks.append((self.line, id, look, tuple(SIGN.findall(words))))

    def read_line(self, line: str) -> None:
        found = OF_READY.fullmatch(line)
        if found and found[3] == "save":
            self.saves.append(int(found[4]))
            return
        self.end_saves()
        if found and found[1]:
            self.commit(self.ready, int(found[2]))
        elif found := READY.fullmatch(line):
            self.ready = int(found[1])
        elif found := IDLE.fullmatch(line):
            self.mark("nothing-ready", int(found[1]))
        elif found := EVENT.fullmatch(line):
            self.event(*event_row(found[1]))

    def event(self, name: str, id: int, *cells: Any) -> None:
        self.mark(name, id, *cells)
        if name == "restored":
            self.commits[id] = cells[1]
            self.restored.add(id)
        elif name == "restarted":
            self.commits[id] = cells[4]
            self.restarted.add(id)

    def commit(self, id: int, index: int) -> None:
        if index > self.commits[id]:
            self.commits[id] = index
            self.mark("committed", id, index)

    def end_saves(self) -> None:
        if self.saves:
            self.mark("saved", self.ready, self.saves[0], self.saves[-1])
            self.saves = []

    def end_node(self, id: int, node: Node) -> None:
        """What no line tells: a commit that no ready has shown, a log that begins later, and entries that came or gave way."""
        if id not in self.before:
            self.commits[id] = node.numbers.commit
            return
        self.commit(id, node.numbers.commit)
        old, stays = self.before[id], stays_of(self.before[id], node)
        if node.numbers.base > old.numbers.base and id not in self.restored:
            self.mark("compacted", id, node.numbers.base)
        if old.numbers.base <= stays < old.last() and id in self.restarted and node.last() <= stays:
            self.mark("lost", id, stays + 1, old.last())
        elif old.numbers.base <= stays < old.last():
            self.mark("replaced", id, stays + 1)
        if node.last() > max(stays, node.numbers.durable):
            self.mark("appended", id, node.last(), node.entries[node.last()][1])


def stays_of(old: Node, new: Node) -> int:
    """Up to which index a log is as it was."""
    index = new.numbers.base
    while index + 1 in new.entries and old.entries.get(index + 1) == new.entries[index + 1]:
        index += 1
    return index


def marks_of(steps: Iterable[Step]) -> Counter[Any]:
    marker = Marker()
    for step in steps:
        marker.read(step)
    return Counter(marker.marks)


def notes_of(steps: Iterable[Step]) -> Counter[Any]:
    """What is said of directives as a whole."""
    return Counter((step.line, line) for step in steps for line in step.lines if NOTE.fullmatch(line))


def turns_of(steps: Iterable[Step]) -> Counter[Any]:
    """Where each role begins: how often by line, node and role."""
    events = [(step.line, found[1]) for step in steps for line in step.lines if (found := EVENT.fullmatch(line))]
    rows = [(line, event_row(text)) for line, text in events if re.search(" (re)?started at | became ", text)]
    return Counter((line, id, rest[0] if name == "became" else "follower") for line, (name, id, *rest) in rows)


def happened_in(step: Step) -> list[tuple[str, ...]]:
    """What happened in a directive, in order: of a message what is told of it, of anything else nothing."""
    forms = (MESSAGE, OF_READY, EVENT, IDLE, NOTE)
    happened = [line for line in step.lines if any(form.fullmatch(line) for form in forms)]
    return [gist(line.replace(" term=0", "")) if MESSAGE.fullmatch(line) else () for line in happened]
