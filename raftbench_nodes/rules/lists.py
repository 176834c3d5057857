"""The reference with switches: it does as a known library does, and what still differs is new.

The proved program has no switches: a switched reference is the plain node alone.
"""
from __future__ import annotations

import pathlib
from typing import Iterable

from plain.node import Node

from .appends import AppendRules
from .calls import CallRules
from .campaigns import CampaignRules
from .changes import ChangeRules
from .clocks import BeatRules, ClockRules, QuorumRules
from .limits import LimitRules
from .own import OwnRules, Ruled
from .reads import ReadRules
from .saves import AcknowledgeRules, SaveRules
from .streams import StreamRules
from .switches import Unknown, switches_of
from .terms import OtherTermRules, PreVoteTermRules, TermRules, VoteRules
from .transfers import TransferRules
from .views import ViewRules

LIKE = pathlib.Path(__file__).resolve().parents[2] / "nodes" / "like"

# All rules. What an earlier class does is done before, or instead of, what a later one does.
RULES: tuple[type[Ruled], ...] = (
    CallRules, LimitRules, StreamRules, ReadRules, CampaignRules, QuorumRules, ClockRules, PreVoteTermRules, TermRules, OtherTermRules, VoteRules,
    TransferRules, BeatRules, ViewRules, AppendRules, AcknowledgeRules, SaveRules, ChangeRules, OwnRules,
)


def kind_like(name: str) -> type[Node]:
    """The kind of node for `--like`: a name of nodes/like, or a file; the plain one without a name."""
    if not name:
        return Node
    known = LIKE / f"{name}.txt"
    try:
        text = (known if known.exists() else pathlib.Path(name)).read_text(encoding="utf-8")
    except (OSError, UnicodeDecodeError) as fault:
        raise Unknown(f"--like {name}: {fault}; known are {', '.join(sorted(path.stem for path in LIKE.glob('*.txt')))}") from None
    return kind_with(switches_of(text))


def kind_with(switches: Iterable[str]) -> type[Ruled]:
    """The plain node with the rules that some switches need."""
    names = frozenset(switches)
    rules = (it for it in RULES if not names.isdisjoint(it.serves))
    return type("SwitchedNode", (*rules, Ruled), {"switches": names})
