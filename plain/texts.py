"""The texts of outputs (docs/SCRIPTS.md, "What an output means"). A line is a string of printable characters."""
from __future__ import annotations

from typing import Iterable

from .config import Change, Config
from .records import AnyNode, Entry, Message, ShownView


def quoted(data: bytes) -> str:
    """Bytes in double quotes; those outside 32 to 126, double quotes and backslashes as \\xNN."""
    return '"' + "".join(chr(b) if 32 <= b <= 126 and b not in b'"\\' else f"\\x{b:02x}" for b in data) + '"'


def ids_text(ids: Iterable[int]) -> str:
    return "(" + ",".join(map(str, sorted(ids))) + ")"


def config_text(config: Config) -> str:
    text = "voters=" + ids_text(config.incoming)
    for name, ids in (("outgoing", config.outgoing), ("learners", config.learners), ("next", config.next)):
        if ids:
            text += f" {name}=" + ids_text(ids)
    return text + (" auto" if config.auto else "")


def content_text(content: bytes) -> str:
    return f"{len(content)}:{quoted(content[-32:])}"


def body_text(body: bytes | Change) -> str:
    if isinstance(body, bytes):
        return quoted(body)
    return " ".join(["change", body.transition] + [f"{letter}{id}" for letter, id in body.words])


def entry_text(index: int, entry: Entry) -> str:
    return f"{entry.term}/{index} {body_text(entry.body)}"


def rest_text(m: Message) -> str:
    """What a message's text ends in."""
    if m.kind in ("MsgVote", "MsgPreVote"):
        return f" last={m.log_term}/{m.index}" + (" transfer" if m.by_transfer else "")
    if m.kind in ("MsgVoteResp", "MsgPreVoteResp"):
        return " refused" if m.refused else " granted"
    if m.kind == "MsgApp":
        return f" prev={m.log_term}/{m.index} commit={m.commit} entries={len(m.entries)}"
    if m.kind == "MsgAppResp":
        return f" refused={m.index} hint={m.hint}" if m.refused else f" match={m.index}"
    if m.kind == "MsgHeartbeat":
        return f" commit={m.commit}"
    if m.snapshot:
        return f" snapshot={m.snapshot.term}/{m.snapshot.index}"
    if m.body is not None:
        return " " + body_text(m.body)
    if m.kind == "MsgTransferLeader":
        return f" target={m.target}"
    return ""


def message_text(m: Message) -> str:
    term = "" if m.kind in ("MsgProp", "MsgTransferLeader") else f" term={m.term}"
    return f"{m.sender}->{m.to} {m.kind}{term}{rest_text(m)}"


def state_text(node: AnyNode) -> str:
    hard = f"term={node.term} vote={node.vote} lead={node.lead} commit={node.commit} applied={node.applied}"
    return f"{node.id} {node.role} {hard} content={content_text(node.content)}"


def log_texts(node: AnyNode) -> list[str]:
    lines = [f"base={node.base_term}/{node.base} durable={node.durable} commit={node.commit} applied={node.applied}"]
    for index, entry in node.entries_from(node.base + 1):
        lines.append(entry_text(index, entry) + (" unsaved" if index > node.durable else ""))
    return lines


def view_text(id: int, view: ShownView) -> str:
    text = f"{id} {view.state} match={view.match} next={view.next} inflight={view.inflight}"
    if view.state == "probe" and view.waiting:
        text += " waiting"
    if view.state == "snapshot":
        text += f" snapshot={view.pending}"
    return text + ("" if view.active else " inactive")


def status_texts(node: AnyNode) -> list[str]:
    return [config_text(node.config)] + [view_text(id, node.views[id]) for id in sorted(node.views)]
