"""What a script reaches in the reference: each call in its context, as a number. A script is worth keeping if it reaches a context that no other reached."""
from __future__ import annotations

import hashlib

from plain.node import Node
from plain.records import Message

from ..compare.made import NodeBefore

NUMBERS: dict[tuple[object, ...], int] = {}
# The effect of a call that moves neither term, commit nor log.
STILL = 0, 0, 0


def number_of(context: tuple[object, ...]) -> int:
    """A context's number, which is the same in each process."""
    number = NUMBERS.get(context)
    if number is None:
        number = NUMBERS[context] = int.from_bytes(hashlib.blake2b(repr(context).encode(), digest_size=7).digest(), "big")
    return number


def sign(one: int, other: int) -> int:
    return (one > other) - (one < other)


def message_relation(node: Node, before: NodeBefore, m: Message) -> tuple[object, ...]:
    """How a message relates to what a node has: its term, its index, its entries, and what it says."""
    at, commit, last, base, kind, conflict, entries = m.index, before.commit, before.last, before.base, m.kind, None, m.entries
    if entries and (there := node.term_at(at + 1)) is not None:
        conflict = there == entries[0].term
    places = (at > last) - (at < last), (at > commit) - (at < commit), (at > base) - (at < base), node.term_at(at) == m.log_term
    snapshot = sign(m.snapshot.index, commit) if m.snapshot else None
    is_newer = sign(m.log_term, node.last_term()) if kind == "MsgVote" or kind == "MsgPreVote" else None
    told = 0 if m.commit == commit else 1 if m.commit > commit else -1
    term = 0 if m.term == before.term else 1 if m.term > before.term else -1
    return term, places, min(2, len(entries)) if entries else 0, conflict, snapshot, is_newer, m.refused, m.by_transfer, m.sender == node.lead, told


def view_relation(node: Node, m: Message) -> tuple[object, ...]:
    """How an answer relates to what a leader knows of its sender."""
    view = node.views.get(m.sender) if node.role == "leader" else None
    if view is None:
        return (node.config.is_voter(m.sender), m.sender in node.votes)
    return view.state, view.waiting, view.active, sign(m.index, view.match), sign(m.index + 1, view.next), len(view.window) >= node.options.inflight, node.transferee == m.sender


def situation(node: Node, last: int, is_restarted: bool, is_under_way: bool) -> tuple[object, ...]:
    """What is special about a node, whose log ends with `last`."""
    id, config, applied = node.id, node.config, node.applied
    place = id in config.incoming, id in config.outgoing, id in config.learners
    pending = node.restored, node.durable < last, node.commit > applied, node.pending_change > applied, node.transferee != 0
    return node.role, place, bool(config.outgoing), pending, node.lead != 0, is_restarted, is_under_way


def effect(node: Node, before: NodeBefore) -> tuple[object, ...]:
    """What a call has done."""
    role, last, moved = node.role, node.last(), STILL
    if last != before.last or node.commit != before.commit or node.term != before.term:
        moved = sign(node.term, before.term), sign(node.commit, before.commit), sign(last, before.last)
    return "" if role == before.role else role, *moved, bool(node.sent), bool(node.waiting)
