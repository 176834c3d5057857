"""What is compared of what nodes answer, and how it is shown. Each part becomes a text or a value, without what the nodes lack; two answers are equal if
these are. All tools that compare nodes with the reference compare by these functions.
"""
from __future__ import annotations

import operator
from typing import AbstractSet, Mapping, Sequence, Union

from plain.config import Config
from plain.records import AnyNode, Message, Ready, ShownView
from plain.texts import config_text, content_text, entry_text, message_text, view_text

from ..protocol.answers import STATE, Answer, Log, State

# The parts of a state that are compared by value, in the order in which a difference is named.
VALUES = STATE[:7]
values_of, parts_of = operator.attrgetter(*VALUES), operator.attrgetter(*STATE[:-1])


# A state, or a node that has one.
StateParts = Union[State, AnyNode]


def state_of(node: AnyNode) -> State:
    return State(*parts_of(node) + (node.has_ready(),))


def log_of(node: AnyNode) -> Log:
    return Log(node.base, node.base_term, node.durable, node.entries_from(node.base + 1))


def differing_part(wanted: StateParts, came: StateParts, skipped: AbstractSet[str]) -> str | None:
    """The first part of two states that differs, but for `config` and `ready`."""
    if values_of(wanted) == values_of(came):
        return None
    return next((name for name in VALUES if getattr(wanted, name) != getattr(came, name) and name not in skipped), None)


def direction(part: str, wanted: StateParts, came: StateParts) -> str:
    """A part of a state with what is surprising about it."""
    if part == "role":
        return f"role {came.role} for {wanted.role}"
    if part in ("term", "commit", "applied"):
        return f"{part} {'ahead' if getattr(came, part) > getattr(wanted, part) else 'behind'}"
    return part


def state_line(id: int, state: StateParts, without: AbstractSet[str]) -> str:
    return " ".join([str(id), *(part_text(name, state) for name in VALUES if name not in without)])


def part_text(name: str, state: StateParts) -> str:
    return state.role if name == "role" else f"content={content_text(state.content)}" if name == "content" else f"{name}={getattr(state, name)}"


def compared_config(config: Config, without: AbstractSet[str]) -> Config:
    return config._replace(auto=False) if config.auto and "auto" in without else config


def config_line(id: int, config: Config, without: AbstractSet[str]) -> str:
    return f"{id} {config_text(compared_config(config, without))}"


def log_lines(log: Log, without: AbstractSet[str]) -> list[str]:
    """Where a log begins, its entries, and which aren't saved."""
    if "durable" in without:
        return [f"base={log.base_term}/{log.base}", *(entry_text(index, entry) for index, entry in log.entries)]
    saved = [entry_text(index, entry) + (" unsaved" if index > log.durable else "") for index, entry in log.entries]
    return [f"base={log.base_term}/{log.base} durable={log.durable}", *saved]


def view_lines(id: int, views: Mapping[int, ShownView]) -> list[str]:
    """What a leader knows of the others."""
    return [f"{id} sees {view_text(to, view)}" for to, view in sorted(views.items()) if to != id]


def message_line(m: Message, without: AbstractSet[str] = frozenset()) -> str:
    """A message. Who a passed on transfer is from isn't compared: not every library says so."""
    text = message_text(m._replace(commit=0) if "commit" in without else m)
    if m.kind == "MsgTransferLeader":
        text = text.partition("->")[2]
    hint = f" logTerm={m.log_term}" if m.kind == "MsgAppResp" and m.log_term else ""
    return text + hint + "".join([f" {entry_text(index, entry)}" for index, entry in enumerate(m.entries, m.index + 1)])


def ready_lines(id: int, ready: Ready, without: AbstractSet[str]) -> list[str]:
    """What is to be saved and applied; nothing if there is nothing."""
    lines = []
    if ready.hard:
        lines.append(f"{id} hard term={ready.hard.term} vote={ready.hard.vote} commit={ready.hard.commit}")
    if ready.snapshot:
        lines.append(f"{id} snapshot {ready.snapshot[1]}/{ready.snapshot[0]}")
    for verb, entries in (("save", ready.entries), ("apply", ready.committed)):
        lines += [f"{id} {verb} {entry_text(index, entry)}" for index, entry in entries]
    if lines and "sync" not in without:
        lines.append(f"{id} {'must' if ready.sync else 'need not'} be saved before anything is sent")
    return lines


def answer_lines(id: int, answer: Answer, without: AbstractSet[str]) -> Sequence[str]:
    """What is compared of an answer that isn't a call's result; `ready` in `without` leaves messages."""
    if isinstance(answer, Ready):
        return [*(message_line(m, without) for m in answer.messages), *([] if "ready" in without else ready_lines(id, answer, without))]
    if isinstance(answer, Message):
        return [message_line(answer, without)]
    if isinstance(answer, Log):
        return log_lines(answer, without)
    assert isinstance(answer, dict)
    return view_lines(id, answer)
