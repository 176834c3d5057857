"""The answers that nodes have to give if they behave as the reference, and whether they gave them."""
from __future__ import annotations

import dataclasses
from typing import Sequence

from plain.records import Message, Ready
from plain.texts import config_text, content_text

from ..protocol.answers import Answer, CallResult, Log, LogEnd, State, Views
from ..protocol.encoding import Hello, Json
from .answers import answer_lines, compared_config, differing_part, direction
from .comparison import Difference


NONE: frozenset[int] = frozenset()


class NumberedMessage(Message):
    """A message of the reference with the number that it has among those that the process gives, and with how many entries it was given."""

    number: int
    given: int

    def is_cut(self) -> bool:
        return len(self.entries) < self.given


@dataclasses.dataclass(slots=True)
class ExpectedState:
    """A state that has to be answered. Its parts in `skipped` can't be compared now."""

    state: State
    skipped: frozenset[str]


@dataclasses.dataclass(slots=True)
class PlannedCall:
    """A call, and what is expected: states, of which the last may come with the log's end, or another answer."""

    call: Json
    states: list[ExpectedState] = dataclasses.field(default_factory=list)
    answer: Ready | Message | Log | Views | None = None
    end: LogEnd | None = None
    role: str = ""  # the node's before the call
    cut: NumberedMessage | None = None  # the message of a `step`, which is made from what the process gave before
    unheard: frozenset[int] = NONE  # members that must not be active in the views that are answered; nothing else of them counts
    whats: tuple[tuple[str, str], ...] = ()  # of a `step`: each message's type, and the role before it


class Checker:
    """Whether answers are the expected ones."""

    def __init__(self, hello: Hello, aspects: frozenset[str]) -> None:
        self.without = hello.without | ({"ready"} - aspects)

    def first_other(self, planned: Sequence[PlannedCall], answers: Sequence[Answer]) -> int | None:
        """The place of the first answer that isn't the expected one."""
        return next((at for at, (each, answer) in enumerate(zip(planned, answers)) if not self.is_expected(each, answer)), None)

    def is_expected(self, planned: PlannedCall, answer: Answer) -> bool:
        if planned.unheard:
            return isinstance(answer, dict) and not any(view.active for id, view in answer.items() if id in planned.unheard)
        if not isinstance(answer, CallResult):
            node, wanted = planned.call["node"], planned.answer
            # Most answers are equal as they are, which is seen sooner.
            return wanted == answer or wanted is not None and answer_lines(node, wanted, self.without) == answer_lines(node, answer, self.without)
        if len(answer.states) != len(planned.states):
            return False
        if answer.end and planned.end and (answer.end.last, answer.end.term) != (planned.end.last, planned.end.term):
            return False
        return all([self.differing(wanted, state) is None for wanted, state in zip(planned.states, answer.states)])

    def differing(self, wanted: ExpectedState, came: State) -> str | None:
        """The part in which a state differs, or None."""
        ours, without = wanted.state, self.without
        if ours == came:
            return None
        skipped = without | wanted.skipped if wanted.skipped else without
        part = differing_part(ours, came, skipped)
        if part is None and ours.ready != came.ready and "ready" not in skipped:
            part = "ready"
        if part is None and "config" not in skipped and compared_config(ours.config, without) != compared_config(came.config, without):
            part = "config"
        return part

    def other_state(self, planned: PlannedCall, answer: Answer, place: int, directive: str) -> Difference | None:
        """How the first state differs that an answer has to show; None if the call asked for something else."""
        if not isinstance(answer, CallResult) or len(answer.states) != len(planned.states):
            return None
        parts = ((at, self.differing(*pair)) for at, pair in enumerate(zip(planned.states, answer.states)))
        at, part = next((pair for pair in parts if pair[1]), (0, None))
        if part is None:
            return None
        ours, theirs, node = planned.states[at].state, answer.states[at], planned.call["node"]
        what, role = planned.whats[at] if at < len(planned.whats) else (planned.call["call"], planned.role)
        after = f"after {what}{f' at a {role}' if role else ''} within a directive"
        wanted, came = ([f"{node} {part}={value_text(side, part)}"] for side in (ours, theirs))
        return Difference(place, directive, direction(part, ours, theirs), node, wanted, came, after)


def value_text(state: State, part: str) -> str:
    """A part of a state as it is shown."""
    if part == "content":
        return content_text(state.content)
    return config_text(state.config) if part == "config" else str(getattr(state, part))
