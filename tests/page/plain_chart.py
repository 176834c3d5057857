"""The picture of a script in the plainest way: SVG that stands without scripts, made of the rows that plain_steps.py gives.

Nodes stand side by side and time goes downwards. A message is an arrow from where it was sent to where it was delivered; a cross ends one
that was lost, and a dotted one is still on its way: to whom these are stands before their labels. For readers who can't see there are a
title, the script's notes and heads, and a sentence for each thing that happened.

    plain_chart.py FILE [UNTIL [FROM]]     writes the picture of a script, or of its directives up to the one at a line, from one on
"""
from __future__ import annotations

import bisect
import itertools
import os
import pathlib
import re
import sys
from collections import defaultdict
from collections.abc import Callable, Iterator, Sequence
from dataclasses import dataclass, field
from typing import Any
from xml.sax.saxutils import escape

sys.dont_write_bytecode = True
sys.path[:1] = [str(pathlib.Path(__file__).resolve().parents[2])]

from plain.directives import Refused, Request  # noqa: E402
from plain.network import Choice  # noqa: E402
from plain.script import Directive, lines_of, read_script  # noqa: E402
from tests.page.plain_steps import DIRECTIVES, rows_of  # noqa: E402

# Sizes, in pixels. A row is its heading, a slot for each thing that happens in it, and a little room.
SLOT, ROW_TOP, ROW_BOTTOM, HEADING = 18, 25, 8, 34
LINE_X, HEAD_X, FIRST, GAP, LEAD, OUT = 42, 50, 280, 220, 170, 40
# How far a line goes on behind its level part where it is on its way, and where it is given up.
WAITING, GIVEN_UP = 26, 14
# How much room is to the right of the last node, and of what is drawn.
LEAST, EDGE = 60, 10
HALF_BAND = 5
# Half of the gap in the band of a node that restarts.
HALF_GAP = 4
HALVES = {"leader": HALF_BAND, "candidate": 4, "precandidate": 4, "follower": 3}
MOST_HEAD, MOST_NOTE, MOST_LABEL, MOST_MARK = 32, 36, 30, 29
# What a character takes at most: those that take less than others, those that take more, as all past ASCII do, and the others.
NARROW, NARROW_WIDTH = " !'(),./:;I[]fijlrt|", 6
BROAD, BROAD_WIDTH = "#%&+<=>@ABCDEFGHJKLMNOPQRSTUVWXYZmw~", 12
WIDTH = 8
# The types of messages, in the order in which those on their way to a node are told.
KINDS = {
    "MsgVote": "vote", "MsgPreVote": "vote", "MsgVoteResp": "vote", "MsgPreVoteResp": "vote", "MsgApp": "append", "MsgAppResp": "append",
    "MsgHeartbeat": "heartbeat", "MsgHeartbeatResp": "heartbeat", "MsgSnap": "snapshot", "MsgProp": "proposal",
    "MsgTransferLeader": "proposal", "MsgTimeoutNow": "vote",
}
# Words, and how they look.
Mark = tuple[str, str]
# How things look, and the tips of arrows, of which there is one a kind.
STYLE = (pathlib.Path(__file__).resolve().parents[2] / "crates" / "rb_view" / "assets" / "style.svg").read_text()


# Characters that have no look of their own, or turn the text around.
UNSEEN = re.compile("[\x00-\x1f\x7f-\x9f\xad\u061c\u200b-\u200f\u2028-\u202e\u2060-\u2069\ufeff\ufffe\uffff]")


def shown(data: bytes) -> str:
    """Bytes as people read them: UTF-8 where they are, and else each byte past ASCII by its number; so is what can't be seen."""
    try:
        text = data.decode()
    except UnicodeDecodeError:
        text = "".join(chr(b) if b < 128 else f"\\x{b:02x}" for b in data)
    return UNSEEN.sub(lambda found: f"\\u{ord(found[0]):04x}", text)


def said(kind: str, cells: Sequence[Any]) -> str:
    """What matters of a message, in few words."""
    if kind in ("MsgVote", "MsgPreVote"):
        return f"last {cells[0]}/{cells[1]}" + (" transfer" if cells[2] else "")
    if kind in ("MsgVoteResp", "MsgPreVoteResp"):
        return "granted" if cells[0] else "refused"
    if kind == "MsgApp":
        return f"+{cells[3]} after {cells[0]}/{cells[1]}" if cells[3] else f"commit {cells[2]}"
    if kind == "MsgAppResp":
        return f"refused {cells[1]}, hint {cells[2]}" if cells[0] else f"match {cells[1]}"
    if kind == "MsgHeartbeat":
        return f"commit {cells[0]}"
    if kind == "MsgSnap":
        return f"{cells[0]}/{cells[1]}"
    if kind == "MsgProp":
        return str(cells[0])
    return f"to {cells[0]}" if kind == "MsgTransferLeader" else ""


def message_words(kind: str, term: int, cells: Sequence[Any]) -> str:
    """A message's type, its term where it is of one, and what matters of it."""
    return " ".join(filter(None, [kind[3:], f"t{term}" if term else "", said(kind, cells)]))


def label_of(kind: str, term: int, cells: Sequence[Any]) -> str:
    """The same at its line: without the term where there is no room for it."""
    words = message_words(kind, term, cells)
    return words if columns_of(words) <= MOST_LABEL else fitted(message_words(kind, 0, cells), MOST_LABEL)


def vote_mark(id: int, kind: str, granted: int, sender: int, result: str) -> Mark:
    whose = "own vote" if sender == id else f"vote of {sender}" if granted else f"no vote of {sender}"
    return f"{whose}: {result}", "quiet"


# What a node tells: its words beside the band, and how they look.
MARKS: dict[str, Callable[..., Mark]] = {
    "became": lambda id, role, term: (f"★ leader, t{term}", "won") if role == "leader" else (f"{role}, t{term}", "turn"),
    "cannot-campaign": lambda id, why: (f"! can't campaign: {why}", "bad"),
    "vote": vote_mark,
    "ignored": lambda id, kind, sender: (f"ignores {kind[3:]}", "quiet"),
    "dropped-proposal": lambda id: ("! proposal dropped", "bad"),
    "conflict": lambda id, index, commit: (f"! conflict at {index}, commit {commit}", "bad"),
    "appends-nothing": lambda id: ("! appends nothing: index limit", "bad"),
    "replaced-change": lambda id, index, why: (f"! change {index} made empty: {why}", "bad"),
    "switched": lambda id, config: (f"◆ {config}", "change"),
    "refused-change": lambda id, index, fault: (f"! change {index} refused: {fault}", "bad"),
    "restarted": lambda id, term, *_: (f"↻ restarted, t{term}", "turn"),
    "restored": lambda id, term, index: (f"▣ snapshot {term}/{index}", "installed"),
    "transfer-starts": lambda id, to: (f"hands over to {to}", "change"),
    "transfer-ends": lambda id, to: (f"hand-over to {to} ends", "quiet"),
    "lost-quorum": lambda id: ("! lost its quorum", "bad"),
    "committed": lambda id, index: (f"✓ commit {index}", "moved"),
    "compacted": lambda id, index: (f"▣ compacted to {index}", "installed"),
    "saved": lambda id, first, last: (f"saves {first}" if first == last else f"saves {first}–{last}", "quiet"),
}
NOTES: dict[str, Callable[..., Mark]] = {
    "no-messages": lambda: ("no messages", "quiet"),
    "stopped": lambda rounds: (f"stopped after {rounds} rounds", "quiet"),
    "error": lambda text: (f"error: {text}", "bad"),
}


@dataclass
class Arrow:
    """A message on its way: who sent it, where its line begins, which of the lines is its own and which of the texts, its label, and the cells of
    its row."""
    sender: int
    start: int
    place: int
    text: int
    label: str
    cells: tuple[Any, ...]


@dataclass
class Row:
    """A directive: where its row begins, and how many things stand in it and in its gutter."""
    line: int
    top: int
    slots: int = 0
    notes: int = 0


@dataclass
class Chart:
    """Elements of a picture: what lies below, the lines of messages, and texts."""
    title: str
    under: list[str] = field(default_factory=list)
    over: list[str] = field(default_factory=list)
    texts: list[str] = field(default_factory=list)
    told: list[str] = field(default_factory=list)
    width: int = 0
    height: int = HEADING

    def reach(self, x: int) -> None:
        """Something is drawn as far as this to the right."""
        self.width = max(self.width, x + EDGE)


class Drafter:
    """Goes over the rows of a script and places what they say."""

    def __init__(self, title: str) -> None:
        self.chart = Chart(title)
        self.rows: list[Row] = []
        self.mail: defaultdict[Any, list[Arrow]] = defaultdict(list)
        self.commits: dict[int, int] = {}
        self.bases: dict[int, int] = {}
        self.bands: dict[int, tuple[str, int]] = {}
        self.ready, self.sent = 0, 0
        self.choice = Choice()
        self.saves: tuple[int, int] | None = None

    def begin_after(self, above: Drafter, line: int) -> None:
        """Takes over what is so after the directives that another drafter has read: nodes, roles and what is on its way, which comes in from
        above, each message in a slot of the first row."""
        self.commits, self.bases = above.commits, above.bases
        self.bands = {id: (role, HEADING) for id, (role, _) in above.bands.items()}
        for id in self.bands:
            self.words("name", x_of(id), 22, f"node {id}")
        waiting = sorted((arrow for queue in above.mail.values() for arrow in queue), key=lambda arrow: arrow.text)
        self.rows.append(Row(line, HEADING))
        self.sent = 0
        for id, (role, _) in self.bands.items():
            self.tell(f"node {id} is {role}")
        if waiting:
            self.chart.under.append(f'<rect class="edge" y="{HEADING}" width="100%" height="1"/>')
            self.words("quiet", HEAD_X, HEADING + 17, "on its way before")
        for arrow in waiting:
            self.send(*arrow.cells)
        if not waiting:
            self.rows.clear()

    def read(self, name: str, *cells: Any) -> None:
        if name != "save":
            self.end_saves()
        read = getattr(self, "read_" + name.replace("-", "_"), None)
        if read:
            read(*cells)
        elif name in ("send", "queue"):
            self.send(*cells)
        elif name in ("deliver", "drop"):
            self.meet({"deliver": "delivered", "drop": "dropped"}[name], *cells)
        elif name in MARKS:
            self.mark(name, *cells)
        elif name in NOTES:
            self.note(*NOTES[name](*cells))

    # Rows

    @property
    def row(self) -> Row:
        """The row that is drawn."""
        return self.rows[-1]

    def slot(self) -> int:
        self.row.slots += 1
        return self.row.top + ROW_TOP + SLOT * self.row.slots - SLOT // 2

    def end_row(self) -> None:
        if self.rows:
            self.end_saves()
            self.chart.height = self.row.top + ROW_TOP + SLOT * max(self.row.slots, self.row.notes) + ROW_BOTTOM

    def begin_row(self, line: int, head: str) -> None:
        self.end_row()
        self.rows.append(Row(line, self.chart.height))
        self.sent = 0
        self.chart.under.append(f'<rect class="edge" y="{self.row.top}" width="100%" height="1"/>')
        self.words("line", LINE_X, self.row.top + 17, str(line))
        self.words("head", HEAD_X, self.row.top + 17, fitted(head, MOST_HEAD))
        self.tell(head)

    def note(self, text: str, look: str) -> None:
        self.row.notes += 1
        self.tell(text)
        self.words(look, HEAD_X, self.row.top + ROW_TOP + SLOT * self.row.notes - SLOT // 2, fitted(text, MOST_NOTE))

    def words(self, look: str, x: int, y: int, text: str) -> None:
        if look not in ("line", "name") and not look.endswith(" end"):
            self.chart.reach(x + width_of(text))
        self.chart.texts.append(f'<text class="{look}" x="{x}" y="{y}">{escape(text)}</text>')

    def tell(self, sentence: str) -> None:
        self.chart.told.append(f"Line {self.row.line}: {sentence}.")

    def tell_notes(self, line: int, lines: Any) -> None:
        """The comments among these lines, the first of which is this one; those that follow one another are one note."""
        is_in_note = False
        for number, text in enumerate(lines, line):
            text = re.sub("^#+ ?", "", shown(text.strip(b" \t")))
            if text:
                self.chart.told.append(text if is_in_note else f"Line {number}: note: {text}")
            is_in_note = bool(text)

    # Nodes

    def end_band(self, id: int, bottom: int) -> str:
        role, top = self.bands[id]
        half = HALVES[role]
        return f'<rect class="{role}" x="{x_of(id) - half}" y="{top}" width="{2 * half}" height="{bottom - top}"/>'

    def read_started(self, id: int) -> None:
        self.bands[id] = "follower", self.row.top
        self.words("name", x_of(id), 22, f"node {id}")

    def read_became(self, id: int, role: str, term: int) -> None:
        y = self.mark("became", id, role, term)
        self.chart.under.append(self.end_band(id, y))
        self.bands[id] = role, y

    def read_restarted(self, id: int, term: int, vote: int, base: int, last: int, commit: int) -> None:
        y = self.mark("restarted", id, term)
        self.chart.under.append(self.end_band(id, y - HALF_GAP))
        self.bands[id] = "follower", y + HALF_GAP
        self.commits[id], self.bases[id] = commit, base

    def read_ready(self, id: int) -> None:
        self.ready, self.sent = id, 0

    def read_save(self, index: int, term: int, body: str) -> None:
        self.saves = (self.saves[0] if self.saves else index, index)

    def end_saves(self) -> None:
        if self.saves:
            first, last = self.saves
            self.saves = None
            self.mark("saved", self.ready, first, last)

    def read_hard(self, term: int, vote: int, commit: int) -> None:
        if commit > self.commits[self.ready]:
            self.commits[self.ready] = commit
            self.mark("committed", self.ready, commit)

    def read_restored(self, id: int, term: int, index: int) -> None:
        self.commits[id] = self.bases[id] = index
        self.mark("restored", id, term, index)

    def read_node(self, id: int, role: str, term: int, vote: int, lead: int, commit: int, *rest: Any) -> None:
        if commit > self.commits.setdefault(id, commit):
            self.commits[id] = commit
            self.mark("committed", id, commit)

    def read_log(self, id: int, term: int, base: int, stays: int) -> None:
        if base > self.bases.setdefault(id, base):
            self.bases[id] = base
            self.mark("compacted", id, base)

    def mark(self, name: str, *cells: Any) -> int:
        words, look = MARKS[name](*cells)
        y = self.slot()
        self.words(look, x_of(cells[0]) + HALF_BAND + 5, y - 2, fitted(words, MOST_MARK))
        self.tell(f"node {cells[0]}: {words}")
        return y

    # Messages

    def send(self, sender: int, to: int, kind: str, term: int, *cells: Any) -> None:
        label, is_left = label_of(kind, term, cells), to < sender
        arrow = Arrow(sender, self.slot(), len(self.chart.over), len(self.chart.texts), label, (sender, to, kind, term, *cells))
        self.chart.over += line(sender, to, kind, arrow.start, "waiting")
        self.chart.reach(x_of(sender) + (HALF_BAND + 1 + OUT if to == sender else 0 if is_left else LEAD + WAITING))
        x = x_of(sender) + (-HALF_BAND - 5 if is_left else HALF_BAND + 5)
        self.words(KINDS[kind] + " end" * is_left, x, arrow.start - 5, aim(to) + label)
        self.mail[to, kind].append(arrow)
        self.sent += 1
        self.tell(f"node {sender} sends {message_words(kind, term, cells)} to node {to}")

    def meet(self, fate: str, sender: int, to: int, kind: str, term: int, *cells: Any) -> None:
        arrow, end = self.take(to), self.slot()
        is_short = fate == "dropped" and to not in self.bands
        if fate == "delivered":
            # Its arrow tells to whom it is.
            self.chart.texts[arrow.text] = self.chart.texts[arrow.text].replace(aim(to), "", 1)
        self.draw_anew(arrow.place, line(sender, to, kind, arrow.start, "given up" if is_short else fate, end))
        self.tell_end(fate, sender, to, message_words(kind, term, cells))

    def take(self, to: int) -> Arrow:
        """The next of a node's messages that the directive chooses, which is on its way no longer."""
        types, sender = self.choice.types, self.choice.sender
        queues = [self.mail[to, kind] for kind in KINDS if types is None or kind in types]
        meant = [(arrow.text, queue) for queue in queues for arrow in queue if sender in (None, arrow.sender)]
        text, queue = sorted(meant, key=lambda pair: pair[0])[self.choice.skip]
        return queue.pop(next(at for at, arrow in enumerate(queue) if arrow.text == text))

    def read_no_room(self, sender: int, to: int, kind: str, term: int, *cells: Any) -> None:
        if not self.sent:
            self.send(sender, to, kind, term, *cells)
        arrow = self.mail[to, kind].pop()
        self.sent -= 1
        self.draw_anew(arrow.place, line(sender, to, kind, arrow.start, "given up"))
        self.tell_end("given up", sender, to, message_words(kind, term, cells))

    def draw_anew(self, place: int, drawn: Any) -> None:
        self.chart.over[place] = "\n".join(drawn)

    def tell_end(self, fate: str, sender: int, to: int, words: str) -> None:
        self.tell(f"{words} from node {sender} to node {to} is {fate}")

    # The end

    def done(self) -> Chart:
        self.end_row()
        for to, kind in sorted(self.mail, key=lambda queue: (queue[0], [*KINDS].index(queue[1]))):
            for arrow in self.mail[to, kind]:
                self.tell_end("on its way", arrow.sender, to, arrow.label)
        self.chart.under += [self.end_band(id, self.chart.height) for id in sorted(self.bands)]
        self.chart.reach(x_of(max([*self.bands, 1])) + LEAST)
        return self.chart


def choice_of(directive: Directive) -> Choice:
    """Which messages a directive chooses: all, unless it says which."""
    try:
        request = Request(directive.name, directive.arguments)
    except Refused:
        return Choice()
    options = request.options if request.name == "deliver-msgs" else {}
    return Choice(options.get("type"), options.get("from"), options.get("skip", 0))


def title_of(name: str, until: int | None, start: int | None) -> str:
    title = shown(name if isinstance(name, bytes) else os.fsencode(name))
    return title + (f", from line {start}" if start is not None else "") + (f", up to line {until}" if until is not None else "")


def chart_of(data: bytes, name: str, until: int | None = None, start: int | None = None) -> Chart:
    """All that a script's picture has; of the directives up to the one at a line, and from one at a line on, where there are these."""
    title = title_of(name, until, start)
    above, drafter = None, Drafter(title)
    if start is not None:
        above, drafter = drafter, Drafter(title)
    script = read_script(data)
    blocks = iter(script.blocks)
    for row in rows_of(data, name, DIRECTIVES):
        if row[0] == "step" and until is not None and row[1] > until:
            break
        if row[0] == "step" and above and row[1] >= start:
            above.end_saves()
            drafter.begin_after(above, row[1])
            above = None
        if row[0] == "step":
            block, drawn = next(blocks), above or drafter
            drawn.end_saves()
            drawn.choice = choice_of(block.directive())
            drawn.tell_notes(row[1] - len(block.lead), block.lead)
            drawn.begin_row(row[1], shown(block.head[0]))
        elif row[0] == "end":
            drafter.end_saves()
            drafter.tell_notes(1 + len(lines_of(data)) - len(script.tail), script.tail)
        elif row[0] not in ("raftbench", "text", "output", "expected", "mismatch"):
            (above or drafter).read(*row)
    return drafter.done()


# Drawing


def x_of(id: int) -> int:
    return FIRST + GAP * (id - 1)


def width_of(text: str) -> int:
    return sum(NARROW_WIDTH if c in NARROW else BROAD_WIDTH if c in BROAD or c > "\x7f" else WIDTH for c in text)


def aim(to: int) -> str:
    """To whom a message is, before its label."""
    return f"→{to} "


def columns_of(text: str) -> int:
    """How many columns it takes: letters of some scripts, and pictures, take two."""
    return sum(1 + (c >= "\u3000") for c in text)


def fitted(text: str, most: int) -> str:
    """As much of a text as fits into so many columns; where that is not all, an ellipsis behind it."""
    taken = list(itertools.accumulate(1 + (c >= "\u3000") for c in text))
    return text if not taken or taken[-1] <= most else text[:bisect.bisect(taken, most - 1)] + "…"


def line(sender: Any, to: Any, kind: str, start: Any, fate: str, end: int = 0) -> list[str]:
    """The line of a message, along its label and from there to where it ends; and a cross where it is lost."""
    kind, side = KINDS[kind], -1 if to < sender else 1
    x, bend = x_of(sender) + side * HALF_BAND, x_of(sender) + side * LEAD
    if to == sender:
        x += 1
        to_x, end = x, end if fate in ("delivered", "dropped") else start + SLOT
        path = f"M{x} {start}C{x + OUT} {start} {x + OUT} {end} {x} {end}"
    else:
        to_x = x_of(to) - side * (HALF_BAND + (1 if fate == "delivered" else 19))
        if fate in ("waiting", "given up"):
            to_x, end = bend + side * (WAITING if fate == "waiting" else GIVEN_UP), start + 8
        path = f"M{x} {start}H{bend}L{to_x} {end}"
    look = fate if fate in ("delivered", "waiting") else "lost"
    crosses = [f'<path class="cross" d="M{to_x} {end}m-4 -4l8 8m0 -8l-8 8"/>'] if look == "lost" else []
    return [f'<path class="arrow {kind} {look}" d="{path}"/>', *crosses]


def svg_lines(chart: Chart) -> Iterator[str]:
    width, height = chart.width, chart.height
    yield (f'<svg xmlns="http://www.w3.org/2000/svg" role="img" aria-labelledby="title" aria-describedby="what" '
           f'viewBox="0 0 {width} {height}" width="{width}" height="{height}">')
    yield f'<title id="title">{escape(chart.title)}</title>'
    yield f'<desc id="what">{escape("".join(f"{sentence}{chr(10)}" for sentence in chart.told))}</desc>'
    yield STYLE.rstrip("\n")
    yield '<rect class="background" width="100%" height="100%"/>'
    yield from chart.under
    yield from chart.over
    yield from chart.texts
    yield "</svg>"


def svg_of(data: bytes, name: str, until: int | None = None, start: int | None = None) -> str:
    """The picture of a script, as the text of an SVG file."""
    return "\n".join(svg_lines(chart_of(data, name, until, start))) + "\n"


def main() -> None:
    path = pathlib.Path(sys.argv[1])
    sys.stdout.write(svg_of(path.read_bytes(), path.name, *map(int, sys.argv[2:])))


if __name__ == "__main__":
    main()
