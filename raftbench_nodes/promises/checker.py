"""Checks Raft's promises (Ongaro's thesis, figure 3.2, and what follows from it) on what nodes report. A broken promise is a text that begins with the
promise's name.

Scripts that join clusters by hand break promises of any Raft. So the reference is checked too, and what it breaks doesn't count.
"""
from __future__ import annotations

from typing import Iterator, Mapping, NamedTuple, Sequence

from plain.config import both
from plain.node import Node
from plain.records import AnyNode, Entry, Message, Ready, ShownView
from plain.texts import content_text, entry_text

from .activity import Activity
from .one_step import StateBefore, StepPromises

# The promises, each with its place in the thesis.
PROMISES = {
    "one leader per term": "two nodes never lead in one term (3.4)",
    "one vote per term": "a node votes for one candidate in a term, and keeps to it (3.4)",
    "votes go to new logs": "a node votes for a candidate whose log is at least as new as its own (3.6.1)",
    "a leader has a quorum of votes": "a quorum of its configuration voted for it (3.4, 4.3)",
    "terms and commits don't fall": "term, commit and applied of a node only rise, but a restart may lower commit and applied (3.3, 3.5)",
    "earlier terms change nothing": "a message of an earlier term changes neither role, term nor vote (3.3)",
    "a leader only appends": "a leader keeps the entries of its log (3.5)",
    "logs match": "logs with an entry of the same index and term are the same up to it (3.5)",
    "a leader has all committed entries": "an entry that was committed is in the log of each later leader (3.6.3)",
    "no two nodes commit different entries": "an index holds one committed entry (3.6.3)",
    "no two nodes apply different entries": "nodes that have applied up to the same index have applied the same entries (3.6.3)",
    "a quorum holds what a leader commits": "a leader commits an entry of its term once a quorum has it (3.5, 3.6.2)",
    "followers commit what they are told": "a follower commits what a leader told it, up to what it matched (3.5)",
    "acknowledged entries are held": "a node that acknowledges entries has them while the term lasts, and they are the leader's (3.5)",
    "a granted vote is kept": "a node that grants a vote has voted for that candidate (3.4)",
    "a restart keeps term and vote": "a saved term and vote are there after a restart (3.8)",
    "a restart keeps saved entries": "saved entries are there after a restart (3.8)",
    "a restart keeps acknowledged entries": "acknowledged entries are there after a restart (3.8)",
    "active members were heard": "with `checkquorum`, a leader takes a member for active only if it has heard it in its term (6.2)",
    "what is saved is the state": "what a node saves and applies is its term, its vote, and the entries of its log (3.8)",
    "unsaved state sets sync": "`sync` is true if entries, a term or a vote have to be saved (3.8)",
    "a read is linearizable": "a read sees everything that was committed when it was requested (6.4)",
    "a read is answered where it was asked": "the node that was asked answers, and nobody else (6.4)",
    "appends keep to the size limit": "an append with several entries keeps to `max_size_per_msg`",
    "comes to rest": "if no message is lost, nothing is left to do after 200 rounds",
    "heals": "once all messages are delivered and time passes, there is a leader, it commits, and all members catch up",
}


def name_of(broken: str) -> str:
    """The promise that a text is about."""
    return broken.split(":")[0]


class LogPart:
    """A log: entries after an index, which are the first so many of a list that only grows."""

    def __init__(self, base: int, entries: Sequence[Entry]) -> None:
        self.base, self.list, self.length = base, entries, len(entries)

    def __contains__(self, index: int) -> bool:
        return self.base < index <= self.last()

    def __eq__(self, other: object) -> bool:
        if not isinstance(other, LogPart) or self.length != other.length:
            return False
        return not self.length or self.base == other.base and (self.list is other.list or self.list[:self.length] == other.list[:other.length])

    def last(self) -> int:
        return self.base + self.length

    def up_to(self, index: int) -> LogPart:
        """The same without what is after an index."""
        less = LogPart(self.base, self.list)
        less.length = max(0, min(self.length, index - self.base))
        return less

    def get(self, index: int) -> Entry | None:
        at = index - self.base - 1
        return self.list[at] if 0 <= at < self.length else None

    def pairs(self, most: int) -> Iterator[tuple[int, Entry]]:
        """Indexes with their entries, up to an index."""
        return zip(range(self.base + 1, min(most, self.last()) + 1), self.list)


NOTHING = LogPart(0, ())


def log_of(node: AnyNode) -> LogPart:
    return LogPart(node.base, node.entries if isinstance(node, Node) else [entry for _, entry in node.entries_from(node.base + 1)])


class Saved(NamedTuple):
    """What a node has saved: its term and vote, and its log."""

    term: int
    vote: int
    entries: LogPart


class Promises:
    """Checked after each call of a node. `without` names parts of the state that the nodes don't show."""

    def __init__(self, without: frozenset[str] = frozenset()) -> None:
        self.without = without
        self.broken: list[str] = []  # in the order in which they were seen, each once
        self.leaders: dict[int, int] = {}
        self.votes: dict[tuple[int, int], int] = {}
        self.before: dict[int, StateBefore] = {}
        self.entries: dict[int, tuple[int, Entry, int]] = {}
        self.contents: dict[int, tuple[bytes, int]] = {}
        self.logs: dict[int, LogPart] = {}
        self.led: dict[int, tuple[int, LogPart]] = {}  # the term in which a node led at the last look, and its log then
        self.saved: dict[int, Saved] = {}
        self.acknowledged: dict[int, dict[int, Entry]] = {}
        self.untold: dict[int, dict[int, Entry]] = {}  # acknowledgements that aren't sent yet
        self.promised: dict[int, tuple[int, dict[int, Entry]]] = {}  # a term, and what was acknowledged in it
        self.asked: dict[int, tuple[int, int]] = {}  # who was asked for a read, and what was committed then
        self.steps, self.activity = StepPromises(self.note, self.shows), Activity()

    def note(self, text: str) -> None:
        if text not in self.broken:
            self.broken.append(text)

    def shows(self, *parts: str) -> bool:
        return not self.without.intersection(parts)

    # After each call

    def look(self, node: AnyNode, nodes: Mapping[int, AnyNode], is_restarted: bool = False, message: Message | None = None) -> None:
        """Looks at a node after a call. `message` is the one that a step brought."""
        id, was = node.id, self.before.get(node.id)
        self.saved.setdefault(id, Saved(node.term, node.vote, NOTHING))
        now = self.before[id] = StateBefore(node.role, node.term, node.vote, node.commit, node.applied, node.config)
        if is_restarted:
            self.steps.begin_again(node)
        else:
            self.steps.look(node, was, message)
        self.activity.look(node, None if is_restarted else message)
        if node.vote and self.votes.setdefault((id, node.term), node.vote) != node.vote:
            self.note(f"one vote per term: {id} voted for {self.votes[id, node.term]} and {node.vote} in term {node.term}")
        if node.role == "leader":
            self.look_at_role(node, was)
        # It may have stepped down in the same call.
        if was and was.role == "leader" and was.term == now.term and now.commit > was.commit and was.config == now.config:
            self.look_at_commit(node, nodes)
        if was and not is_restarted:
            for name in ("term", "commit", "applied"):
                if getattr(now, name) < getattr(was, name):
                    self.note(f"terms and commits don't fall: the {name} of {id} falls from {getattr(was, name)} to {getattr(now, name)}")

    def look_at_role(self, node: AnyNode, was: StateBefore | None) -> None:
        id, term = node.id, node.term
        if self.leaders.setdefault(term, id) != id:
            self.note(f"one leader per term: {self.leaders[term]} and {id} lead in term {term}")
        begins = was and (was.role, was.term) != ("leader", term) and was.config == node.config
        if begins and self.shows("vote", "config") and not both(node.config, lambda voter: self.votes.get((voter, term)) == id):
            voters = [voter for voter in sorted(node.config.voters()) if self.votes.get((voter, term)) == id]
            self.note(f"a leader has a quorum of votes: {id} leads in term {term} by {voters}")

    def look_at_commit(self, node: AnyNode, nodes: Mapping[int, AnyNode]) -> None:
        """A leader's commit has moved: the entry there is of its term, and a quorum has it."""
        if not self.shows("log", "commit", "config") or node.commit <= node.base:
            return
        at, entry = node.commit, self.look_at_own_term(node)

        def holds(id: int) -> bool:
            other = nodes.get(id)
            return id == node.id or other is not None and (other.base >= at or (at, entry) in other.entries_from(at))

        if entry and entry.term == node.term and not both(node.config, holds):
            self.note(f"a quorum holds what a leader commits: {node.id} commits {at}, which {[id for id in sorted(nodes) if holds(id)]} have")

    def look_at_own_term(self, node: AnyNode) -> Entry | None:
        """What a leader has committed last is of its term (3.6.2); answers the entry."""
        entry = next((entry for index, entry in node.entries_from(node.commit) if index == node.commit), None)
        if entry is None or entry.term != node.term:
            self.note(f"a quorum holds what a leader commits: {node.id} commits {node.commit}, which is not of its term {node.term}")
        return entry

    # After each directive

    def look_at_logs(self, nodes: Mapping[int, AnyNode], touched: set[int]) -> None:
        """Looks at the logs of the nodes that a directive called."""
        if not self.shows("log"):
            return
        changed = []
        for id in sorted(touched):
            log, before = log_of(nodes[id]), self.logs.get(id)
            if log != before:
                changed.append(id)
            self.logs[id] = log
        for id in sorted(touched):
            self.look_at_promised(nodes[id], self.logs[id])
            self.look_at_led(nodes[id], self.logs[id])
            self.look_at_committed(nodes[id], self.logs[id])
            if nodes[id].role == "leader":
                self.look_at_leader(nodes[id], self.logs[id])
        for id in changed:
            for other in self.logs:
                if other != id and not (other in changed and other < id):
                    self.compare(id, self.logs[id], other, self.logs[other])

    def look_at_promised(self, node: AnyNode, log: LogPart) -> None:
        """While a term lasts its leader takes no entry back, and neither may who acknowledged it."""
        term, entries = self.promised.get(node.id, (0, {}))
        if term == node.term:
            lost = next((index for index, entry in entries.items() if index > node.base and log.get(index) != entry), None)
            if lost is not None:
                self.note(f"acknowledged entries are held: {node.id} acknowledged {lost} in term {term}, and lacks it")

    def look_at_led(self, node: AnyNode, log: LogPart) -> None:
        """While it leads, a leader keeps what its log has."""
        term, had = self.led.pop(node.id, (0, NOTHING))
        if node.role != "leader":
            return
        self.led[node.id] = node.term, log
        if term == node.term and not (had.base == log.base and log.up_to(had.last()) == had):
            lost = next((index for index, entry in had.pairs(had.last()) if index > log.base and log.get(index) != entry), None)
            if lost is not None:
                self.note(f"a leader only appends: {node.id} leads in term {term}, had {entry_text(lost, had.list[lost - had.base - 1])}, and lacks it")

    def look_at_views(self, node: AnyNode, views: Mapping[int, ShownView]) -> None:
        """Looks at a leader's views: whom it hasn't heard in its term isn't active."""
        unheard = self.activity.unheard(node)
        for id in sorted(id for id, view in views.items() if id in unheard and view.active):
            self.note(f"active members were heard: {node.id} leads in term {node.term}, and takes {id} for active, which it hasn't heard")

    def look_at_committed(self, node: AnyNode, log: LogPart) -> None:
        if self.shows("commit"):
            for index, entry in log.pairs(node.commit):
                _, first, who = self.entries.setdefault(index, (node.term, entry, node.id))
                if first != entry:
                    self.note(f"no two nodes commit different entries: {who} and {node.id} do at {index}: {entry_text(index, first)}, {entry_text(index, entry)}")
        if self.shows("applied", "content"):
            content, who = self.contents.setdefault(node.applied, (node.content, node.id))
            if content != node.content and node.applied:
                self.note(f"no two nodes apply different entries: {who} and {node.id} do up to {node.applied}: {content_text(content)}, {content_text(node.content)}")

    def look_at_leader(self, node: AnyNode, log: LogPart) -> None:
        for index, (term, entry, _) in self.entries.items():
            if term < node.term and index > node.base and log.get(index) != entry:
                return self.note(f"a leader has all committed entries: {node.id}, in term {node.term}, lacks {index}")
        return None

    def compare(self, one: int, mine: LogPart, other: int, theirs: LogPart) -> None:
        """Logs with an entry of the same index and term are the same up to it."""
        shared = range(max(mine.base, theirs.base) + 1, min(mine.last(), theirs.last()) + 1)
        pairs = [(index, mine.list[index - mine.base - 1], theirs.list[index - theirs.base - 1]) for index in shared]
        agreed = next((index for index, entry, its in reversed(pairs) if entry.term == its.term), 0)
        wrong = next((index for index, entry, its in pairs if index <= agreed and entry != its), None)
        if wrong is not None:
            texts = ", ".join(entry_text(wrong, log.list[wrong - log.base - 1]) for _, log in sorted([(one, mine), (other, theirs)], key=lambda pair: pair[0]))
            self.note(f"logs match: {min(one, other)} and {max(one, other)} agree at {agreed} and not at {wrong}: {texts}")

    # What is ready and saved

    def look_at_ready(self, node: AnyNode, ready: Ready, nodes: Mapping[int, AnyNode], limit: int) -> None:
        saved = self.saved.get(node.id)
        if self.shows("sync", "ready", "vote") and not ready.sync:
            if ready.entries or saved and (node.term, node.vote) != (saved.term, saved.vote):
                self.note(f"unsaved state sets sync: {node.id} has a term, a vote or entries to save, and `sync` of its ready is false")
        self.steps.look_at_ready(node, ready)
        for read in ready.reads:
            asked, committed = self.asked.get(read.id, (0, 0))
            if read.index < committed:
                self.note(f"a read is linearizable: {node.id} serves one at {read.index}, and {committed} was committed before")
            if asked != node.id:
                self.note(f"a read is answered where it was asked: {node.id} serves read {read.id}, which {f'{asked} was' if asked else 'nobody was'} asked for")
        for m in ready.messages:
            if m.kind == "MsgVoteResp" and not m.refused and self.shows("vote") and self.votes.get((node.id, m.term), m.to) != m.to:
                self.note(f"a granted vote is kept: {node.id} grants {m.to} its vote, and voted for {self.votes[node.id, m.term]}")
            elif m.kind == "MsgAppResp" and not m.refused and m.index and self.shows("log"):
                self.look_at_acknowledgement(node, m, nodes)
            elif m.kind == "MsgApp" and limit and len(m.entries) > 1:
                size = sum(max(1, len(entry.body if isinstance(entry.body, bytes) else entry.body.words)) for entry in m.entries)
                if size > limit:
                    self.note(f"appends keep to the size limit: {node.id} sends {len(m.entries)} entries of {size} bytes")

    def look_at_acknowledgement(self, node: AnyNode, m: Message, nodes: Mapping[int, AnyNode]) -> None:
        log, leader = log_of(node), nodes.get(m.to)
        if m.index > node.base and m.index not in log:
            return self.note(f"acknowledged entries are held: {node.id} acknowledges {m.index}, which it lacks")
        if leader and leader.role == "leader" and leader.term == m.term == node.term and m.index in log:
            there = log_of(leader).get(m.index)
            if there is not None and there != log.get(m.index):
                self.note(f"acknowledged entries are held: {node.id} acknowledges {m.index} to {m.to}, which has another entry there")
        self.untold.setdefault(node.id, {}).update(log.pairs(m.index))
        if m.term == node.term:
            term, entries = self.promised.get(node.id, (0, {}))
            self.promised[node.id] = node.term, {**(entries if term == node.term else {}), **dict(log.pairs(m.index))}
        return None

    def image(self, node: AnyNode, ready: Ready) -> Saved:
        """What a node will have saved once this is saved: of its log what it lists, and what it had saved before."""
        log = log_of(node) if self.shows("log") else NOTHING
        if self.shows("log", "ready"):
            log = log.up_to(ready.entries[-1][0] if ready.entries else self.saved[node.id].entries.last())
        return Saved(node.term, node.vote, log)

    def save(self, id: int, image: Saved) -> None:
        self.saved[id] = image
        told = self.acknowledged.get(id, {})
        self.acknowledged[id] = {index: entry for index, entry in told.items() if image.entries.get(index) == entry}

    def send(self, id: int) -> None:
        """What a node had ready is sent: from now on its acknowledgements hold."""
        self.acknowledged.setdefault(id, {}).update(self.untold.pop(id, {}))

    def send_early(self, node: AnyNode, messages: Sequence[Message]) -> None:
        """Messages went out before anything was saved, and the node crashes: what they acknowledge is promised all the same."""
        log = log_of(node) if messages and self.shows("log") else NOTHING
        for m in messages:
            if m.kind == "MsgAppResp" and not m.refused:
                self.acknowledged.setdefault(node.id, {}).update(log.pairs(m.index))

    def look_at_restart(self, node: AnyNode) -> None:
        """A node has started again: what it saved and what it acknowledged is there. What it didn't save counts for nothing."""
        id, saved = node.id, self.saved[node.id]
        is_vote_lost = node.term == saved.term and self.shows("vote") and saved.vote not in (0, node.vote)
        if node.term < saved.term or is_vote_lost:
            self.note(f"a restart keeps term and vote: {id} saved {saved.term} and {saved.vote}, and starts with {node.term} and {node.vote}")
        self.forget(id, saved, node.base)
        self.untold.pop(id, None)
        self.promised.pop(id, None)
        if not self.shows("log"):
            return
        log, base = log_of(node), node.base
        acknowledged, all_saved = self.acknowledged.get(id, {}).items(), saved.entries.pairs(saved.entries.last())
        for name, kept in (("a restart keeps acknowledged entries", acknowledged), ("a restart keeps saved entries", all_saved)):
            lost = next((index for index, entry in kept if index > base and log.get(index) != entry), None)
            if lost is not None:
                self.note(f"{name}: {id} lacks {lost}")

    def forget(self, id: int, saved: Saved, base: int) -> None:
        """What a node had not saved binds nobody: it has told nobody."""
        kept = {saved.term} if saved.vote else set()
        self.votes = {(who, term): vote for (who, term), vote in self.votes.items() if who != id or term < saved.term or term in kept}
        self.entries = {at: known for at, known in self.entries.items() if known[2] != id or at <= base or at in saved.entries}
        self.logs.pop(id, None)
        self.led.pop(id, None)

    def ask_read(self, id: int, node: int, nodes: Mapping[int, AnyNode]) -> None:
        """A read is asked for at a node."""
        self.asked[id] = node, max(node.commit for node in nodes.values())


class NoPromises(Promises):
    """Checks nothing, for a reference: what it breaks doesn't count. It only notes whom leaders have heard, and what reads have to see."""

    def look(self, node: AnyNode, nodes: Mapping[int, AnyNode], is_restarted: bool = False, message: Message | None = None) -> None:
        self.activity.look(node, None if is_restarted else message)

    def look_at_logs(self, nodes: Mapping[int, AnyNode], touched: set[int]) -> None:
        pass

    def look_at_ready(self, node: AnyNode, ready: Ready, nodes: Mapping[int, AnyNode], limit: int) -> None:
        pass

    def look_at_restart(self, node: AnyNode) -> None:
        pass

    def image(self, node: AnyNode, ready: Ready) -> Saved:
        return Saved(node.term, node.vote, NOTHING)

    def send_early(self, node: AnyNode, messages: Sequence[Message]) -> None:
        pass
