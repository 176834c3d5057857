"""Each message that waits after a directive of a script in examples/: what its buttons write takes it alone, by the plain bench and by the program."""
from __future__ import annotations

import json
import pathlib
from collections.abc import Iterable, Iterator, Sequence
from typing import Any, NamedTuple

from live.blocks import Block, cut, new_block
from live.chunks import Blocks
from live.program import Program
from live.session import Session
from plain.cluster import Cluster
from plain.records import Message
from plain.script import Directive, Fault, read_script
from plain.texts import message_text
from tests.harness import PROGRAM, TOP
from tests.live.player import Player
from tests.live.playing import on_script
from tests.live.running import START, Running
from tests.page.browser import Browser
from tests.page.plain_steps import json_text, rows_of, said
from tests.page.scripts import RESTARTS, TOUR, same

EXAMPLES = sorted((TOP / "examples").rglob("*.txt"))
# Of two messages that say the same the first stays, and then what is between them.
EQUAL = b"".join(head + b"\n----\n\n" for head in [
    b"add-nodes 3 voters=(1,2,3) index=10", b"campaign 1", b"stabilize", b"tick-heartbeat 1", b"process-ready 1", b"propose 1 x", b"process-ready 1", b"tick-heartbeat 1",
    b"process-ready 1", b"deliver-msgs 2 skip=2", b"deliver-msgs 3 type=(MsgHeartbeat) from=1 skip=(1)", b"deliver-msgs drop=(2,3) skip=1", b"raft-state",
])
ALL = "deliver-msgs drop=(" + ",".join(map(str, range(1, 33))) + ") log-level=info"
LEAST = 2000
# Of each directive the messages that wait after it, each as it is and with the directives of its buttons.
WAYS = """(async (usage, rows) => {
  const [{ Ways }, { Run }] = await Promise.all([import("/ways.js"), import("/run.js")]);
  const ways = new Ways(usage);
  const run = new Run(rows);
  run.goOn(1e9);
  return run.model.steps.map(({ place, serial, events }) => {
    const pending = run.model.spans.pendingAfter(place, serial + events.length - 1);
    return pending.map((it) => [[it.from, it.to, it.type, it.term, ...it.said], ways.one(it, pending, false).text, ways.one(it, pending, true).text]);
  });
})"""


class Way(NamedTuple):
    """A message, and the directives that deliver it and drop it."""

    message: list[Any]
    deliver: str
    drop: str


def directive(text: str) -> Directive:
    """A directive of a text."""
    return read_script(f"{text}\n----\n".encode()).blocks[0].directive()


class Taking(Cluster):
    """A cluster that keeps the messages that a directive takes, and does nothing with them."""

    def __init__(self) -> None:
        super().__init__()
        self.taken: list[Message] = []
        self.run(directive("add-nodes 32"))

    def takes(self, text: str, pending: Iterable[Message]) -> list[Message]:
        """Which of these messages a directive takes."""
        self.network.pending, self.taken = list(pending), []
        self.run(directive(text))
        return self.taken

    def call(self, id: int, name: str, *parts: Any) -> None:
        """Takes the messages that a node is given."""
        self.taken += parts

    def drop(self, message: Message) -> None:
        """Takes a message that would be dropped."""
        self.taken.append(message)


TAKING = Taking()


def pending_of(data: bytes) -> Iterator[tuple[list[Message], int]]:
    """The messages that wait after each directive, and how many nodes there are, by the plain bench."""
    cluster = Cluster()
    for block in read_script(data).blocks:
        cluster.run(block.directive())
        yield list(cluster.network.pending), len(cluster.nodes)


def wrong_in(pending: Sequence[Message], ways: Sequence[Way]) -> Iterator[str]:
    """Which directives take another message than theirs, or more."""
    own = [[m.sender, m.to, m.kind, m.term, *said(m)] for m in pending]
    if own != [way.message for way in ways]:
        yield f"{[way.message for way in ways]} wait, and not {own}"
        return
    for message, way in zip(pending, ways):
        for text in (way.deliver, way.drop):
            taken = TAKING.takes(text, pending)
            if [id(it) for it in taken] != [id(message)]:
                yield f"{text} takes {[message_text(it) for it in taken]}, and not {message_text(message)} alone"


def wrong_of_program(blocks: Sequence[Block], pending: Sequence[Message], nodes: int, ways: Sequence[Way], session: Session) -> Iterator[str]:
    """The same by the program: what it says of each directive, and which messages are left then. None is delivered to a node that isn't there."""
    for at, (message, way) in enumerate(zip(pending, ways)):
        others = sorted([*pending[:at], *pending[at + 1:]], key=lambda it: it.to)
        left = [f"drop {message_text(it)}" for it in others] or ["no messages"]
        for verb, text in (("deliver", way.deliver), ("drop", way.drop))[int(message.to > nodes):]:
            session.become(Blocks([*blocks, *(new_block([it.encode()], (), b"\n") for it in (f"{text} log-level=info", ALL))]))
            taken, then = ([line.decode() for line in session.output(len(blocks) + more)] for more in (1, 2))
            if [line for line in taken if line.startswith(("deliver ", "drop "))] != [f"{verb} {message_text(message)}"] or then != left:
                yield f"{text}: {taken}, {then}"


def ways_of(player: Player, data: bytes, usage: str) -> list[list[Way]]:
    """What the page's buttons write of each message, after each directive."""
    told = player.browser.value(f"{WAYS}({json.dumps(usage)}, {json_text(rows_of(data, 'x'))})")
    return [[Way(*it) for it in ways] for ways in told]


def each_waiting_message_is_taken_alone(browser: Browser) -> None:
    """By the plain bench, which is written from the documents."""
    usage = Program(PROGRAM).names()["deliver-msgs"]

    def does(player: Player, server: Running, path: pathlib.Path) -> None:
        count = 0
        for data in [EQUAL, RESTARTS, *(path.read_bytes() for path in EXAMPLES)]:
            try:
                after = list(pending_of(data))
            except Fault:
                continue
            ways = ways_of(player, data, usage)
            count += sum(map(len, ways))
            same(f"what is wrong with {data[:60]!r}", [it for (pending, _), own in zip(after, ways, strict=True) for it in wrong_in(pending, own)][:3], [])
        same(f"whether {count} messages are many", count > LEAST, True)
    on_script(browser, START, does)


def the_program_takes_it_alone(browser: Browser) -> None:
    """By the program, in the scripts of the tour."""
    program = Program(PROGRAM)

    def does(player: Player, server: Running, path: pathlib.Path) -> None:
        for data in [EQUAL, *(path.read_bytes() for path in TOUR)]:
            session = Session(PROGRAM)
            try:
                all_blocks, _ = cut(data, program.rows(data).heads())
                ways = ways_of(player, data, program.names()["deliver-msgs"])
                for place, ((pending, nodes), own) in enumerate(zip(pending_of(data), ways, strict=True), 1):
                    blocks = all_blocks[:place]
                    wrong = list(wrong_of_program([*blocks[:-1], blocks[-1].closed()], pending, nodes, own, session))
                    same(f"what is wrong with step {place} of {data[:60]!r}", wrong[:3], [])
            finally:
                session.close()
    on_script(browser, START, does)
