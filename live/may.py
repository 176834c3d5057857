"""What each node may do next. Each possible directive is tried in a session of its own; if it can't be done, its output says why.

So the rules and their words are the program's.
"""
from __future__ import annotations

import re
import threading
from collections.abc import Sequence

from .blocks import new_block
from .chunks import Blocks
from .program import Program, Refused
from .session import Session

# What is tried at each node; `{id}` is the node, `{lead}` the leader of the latest term or 0, `{applied}` the node's applied index.
TRIED = {
    "campaign": "campaign {id}",
    "tick-election": "tick-election {id}",
    "tick-heartbeat": "tick-heartbeat {id}",
    "process-ready": "process-ready {id}",
    "propose": "propose {id} x",
    "propose-conf-change": "propose-conf-change {id}\nu{id}",
    "transfer-leadership": "transfer-leadership from={lead} to={id}",
    "compact": "compact {id} {applied}",
    "forget-leader": "forget-leader {id}",
    "restart": "restart {id}",
}
# Ticks always do something, and so does a restart.
ASKED = TRIED.keys() - {"tick-election", "tick-heartbeat", "restart", "forget-leader"}
WHY_NOT = re.compile(
    r"^(?:error: (?P<error>.*)|\w+ \d+ can't campaign: (?P<campaign>.*)|\w+ \d+ (?P<event>dropped a proposal|ignored \w+.*)|\d+ (?P<ready>has nothing ready)"
    r"|INFO \d+ replaced change at \d+ by an empty entry: (?P<change>.*)|\w+ \d+ (?P<limit>appends nothing: .*))$",
)
STATE = re.compile(r"^(\d+) (\w+) term=(\d+) vote=\d+ lead=(\d+) commit=\d+ applied=(\d+) ")


def why_not(output: Sequence[str]) -> str:
    """Why a directive does nothing, by what it printed; nothing if it does something."""
    found = [WHY_NOT.match(line) for line in output]
    if not found or not all(found):
        return ""
    return next(text for text in found[0].groups() if text) if found[0] else ""


def texts_of(lines: Sequence[bytes]) -> list[str]:
    """Lines as texts."""
    return [line.decode("utf-8", "replace") for line in lines]


class Node:
    """A line of `raft-state`."""

    def __init__(self, found: re.Match[str]) -> None:
        self.id, self.role, self.term, self.lead, self.applied = int(found[1]), found[2], int(found[3]), int(found[4]), int(found[5])

    def why_not(self, name: str, lead: int) -> str:
        """What the state itself says. docs/SCRIPTS.md: a follower forgets its leader, and at any other node nothing happens; a leader is asked to
        hand over, and not to itself."""
        if name == "forget-leader" and self.role != "follower":
            return f"it is no follower, but {self.role}"
        if name == "forget-leader" and not self.lead:
            return "it has no leader"
        if name == "transfer-leadership" and not lead:
            return "there is no leader"
        return "it leads already" if name == "transfer-leadership" and lead == self.id else ""


class Offers:
    """Finds what may be done. What was found last is kept, since two windows may ask for it."""

    def __init__(self, program: Program, names: dict[str, str]) -> None:
        self.program = program
        self.tried = {name: text for name, text in TRIED.items() if name in names}
        self.lock = threading.Lock()
        self.kept: tuple[Blocks, dict[str, dict[str, str]]] = (Blocks(), {})
        self.session: Session | None = None

    def close(self) -> None:
        """Ends the session."""
        if self.session:
            self.session.close()
            self.session = None

    def after(self, blocks: Blocks) -> dict[str, dict[str, str]]:
        """By node, why each directive can't be done there; an empty text if it can."""
        with self.lock:
            if self.kept[0] != blocks or not self.kept[1]:
                self.kept = (blocks, self._try_all(blocks))
            return self.kept[1]

    def _try_all(self, blocks: Blocks) -> dict[str, dict[str, str]]:
        """The session stays at the end of the directives that it was asked about last, so that going on from there runs little."""
        last = len(blocks) - 1
        before = blocks.with_these(last, last + 1, [blocks[last].closed(), new_block([b"log-level debug"], (), b"\n")])
        try:
            if self.session is None:
                self.session = Session(self.program.path, before)
            else:
                self.session.become(before)
            return self._ask(self.session)
        except (Refused, OSError):
            self.close()
            raise

    def _ask(self, session: Session) -> dict[str, dict[str, str]]:
        """Tries what may be done at the end of the session's script."""
        nodes = [Node(found) for found in map(STATE.match, texts_of(session.tried([[b"raft-state"]])[0])) if found]
        leaders = sorted((it for it in nodes if it.role == "leader"), key=lambda it: it.term)
        lead = leaders[-1].id if leaders else 0
        found = {str(node.id): {name: node.why_not(name, lead) for name in self.tried} for node in nodes}
        asked = [(node, name) for node in nodes for name in self.tried if name in ASKED and not found[str(node.id)][name]]
        outputs = session.tried([self.tried[name].format(id=node.id, lead=lead, applied=node.applied).encode().split(b"\n") for node, name in asked])
        for (node, name), output in zip(asked, outputs):
            found[str(node.id)][name] = why_not(texts_of(output))
        return found
