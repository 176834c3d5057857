"""A node in another process. It has the calls that a plain cluster makes of a node."""
from __future__ import annotations

from typing import Any, Callable, TypeVar

from plain.config import Change, Config
from plain.records import Event, Message, Numbered, Options, Ready

from ..protocol.answers import Log, State, Views, result_in, log_in, ready_in, snapshot_in, views_in
from ..protocol.encoding import Json, Parts, WireMessage, Wrong, change_out, config_out, data_out
from .process import Process

T = TypeVar("T")
NO_LOG = Log(0, 0, 0, [])


class HostedNode:
    """Each call is one to the process. Its state is that of the last answer; its log is asked for where it is looked at."""

    def __init__(self, process: Process, id: int, config: Config, index: int, content: bytes, options: Options) -> None:
        self.process, self.id = process, id
        self.events: list[Event] = []
        self.known_log: Log | None = None
        base = {"index": index, "term": 1 if index else 0, "content": data_out(content), "config": config_out(config)}
        self.change_by("start", base=base, options=options_out(options, process.hello.limits))

    def ask(self, name: str, read: Callable[[Parts, frozenset[str]], T], **given: Any) -> T:
        """The answer to a call; where it is wrong the call failed."""
        call = {"call": name, "node": self.id, **given}
        answer = self.process.ask(call)
        try:
            return read(Parts(answer, ""), self.process.without)
        except Wrong as wrong:
            raise self.process.failed(call, str(wrong)) from None

    def change_by(self, name: str, **given: Any) -> None:
        result = self.ask(name, result_in, **given)
        self.take_state(result.states[0])
        self.events += result.events

    def take_state(self, state: State) -> None:
        self.state, self.known_log = state, None
        self.role, self.term, self.vote, self.lead, self.commit, self.applied = state.role, state.term, state.vote, state.lead, state.commit, state.applied
        self.content, self.config = state.content, state.config

    # What it says of itself

    def log(self) -> Log:
        if "log" in self.process.without:
            return NO_LOG
        if self.known_log is None:
            self.known_log = self.ask("log", log_in)
        return self.known_log

    @property
    def base_term(self) -> int:
        return self.log().base_term

    @property
    def base(self) -> int:
        return self.log().base

    @property
    def durable(self) -> int:
        return self.log().durable

    def entries_from(self, index: int) -> list[Numbered]:
        return [pair for pair in self.log().entries if pair[0] >= index]

    @property
    def views(self) -> Views:
        return {} if "status" in self.process.without else self.ask("status", views_in)

    def has_ready(self) -> bool:
        return self.state.ready

    # Calls

    def campaign(self) -> None:
        self.change_by("campaign")

    def tick(self) -> None:
        self.change_by("tick")

    def propose(self, body: bytes) -> None:
        self.change_by("propose", data=data_out(body))

    def propose_change(self, change: Change, is_v1: bool = False) -> None:
        self.change_by("propose_change", change=change_out(change), v1=is_v1)

    def transfer(self, to: int) -> None:
        self.change_by("transfer", to=to)

    def set_timeout(self, ticks: int) -> None:
        self.change_by("set_timeout", ticks=ticks)

    def forget_leader(self) -> None:
        self.change_by("forget_leader")

    def report_unreachable(self, id: int) -> None:
        self.change_by("report_unreachable", to=id)

    def report_snapshot(self, id: int, is_lost: bool) -> None:
        self.change_by("report_snapshot", to=id, failed=is_lost)

    def lose(self, message: Message) -> None:
        self.change_by("lost", message=json_of(message))

    def read(self, id: int) -> None:
        self.change_by("read", id=id)

    def restart(self, saved: str = "nothing") -> None:
        self.change_by("restart", saved=saved)

    def step(self, m: Message) -> None:
        self.change_by("step", message=json_of(m))

    def compact(self, index: int) -> None:
        self.change_by("compact", index=index)

    def snapshot_for(self, to: int) -> Message:
        return self.ask("snapshot", snapshot_in, to=to)

    def ready(self) -> Ready:
        return self.ask("ready", ready_in)

    def advance(self) -> None:
        self.change_by("advance")


def json_of(message: Message) -> Json:
    """A message as its sender wrote it."""
    assert isinstance(message, WireMessage)
    return message.json


def options_out(options: Options, limits: frozenset[str]) -> Json:
    """The options of `start`: limits only where a library has them."""
    return {name: value for name, value in options._asdict().items() if not name.startswith("max_") or name in limits}
