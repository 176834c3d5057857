"""What a browser shows of each script, beside what the script prints where everything is shown: each arrow from end to end, each mark,
each band and all that stands after each step.
"""
from __future__ import annotations

import functools
from collections import Counter
from collections.abc import Iterator
from typing import Any

from tests.page import standing
from tests.page.assemble import parts
from tests.page.plain_steps import json_text, rows_of
from tests.page.printed import Node, Step, steps_of
from tests.page.reader import TALL, Reader
from tests.page.scripts import FULL, HOSTILE, LOST, MANY, NOBODY, RARE, RESTARTS, SELF, TOUR, Failed, page_of, same
from tests.page.seen import CODE, Sheet
from tests.page.told import SIGNS, Arrow, gist, happened_in, marks_of, messages_of_lines, messages_of_rows, notes_of, turns_of

OWN = {"self": SELF, "nobody": NOBODY, "rare": RARE, "lost": LOST, "hostile": HOSTILE, "many": MANY, "restarts": RESTARTS}
SCRIPTS = {path.stem: path.read_bytes() for path in TOUR} | OWN
MOST_TOLD = 4
# Roles from the narrowest band to the widest; two of them are alike.
BY_STRENGTH = ("follower", "candidate", "precandidate", "leader")
# Rows that a browser test beside what is printed doesn't look at: what they say is in the left pane, or they part others.
UNSEEN = {"raftbench", "text", "output", "mismatch", "expected", "same", "actual", "ready"}


def same_counts(what: str, came: Counter[Any], wanted: Counter[Any]) -> None:
    """Fails with what there is of one and not of the other."""
    if came != wanted:
        more, less = list((came - wanted).elements()), list((wanted - came).elements())
        raise Failed(f"{what}: {len(more)} should not be, as {more[:MOST_TOLD]}, and {len(less)} are wanting, as {less[:MOST_TOLD]}")


def rows_tell_what_is_printed() -> None:
    """Without a browser: by a page's rows messages take the course that they take by what is printed."""
    for name, data in {**SCRIPTS, "full": FULL}.items():
        printed, rows = messages_of_lines(steps_of(data)), messages_of_rows(rows_of(data, name))
        same(f"the messages of {name}", [message.course() for message in rows], [message.course() for message in printed])
    same("what became of messages", {message.fate for message in printed}, {"waiting", "delivered", "dropped", "given up"})


# One script


def arrows_as_printed(name: str, data: bytes, sheet: Sheet) -> None:
    """Also within a step: from the top downwards arrows begin in the order in which messages are sent, and end in that in which they are met."""
    messages, arrows = messages_of_lines(steps_of(data)), sheet.arrows()
    wanted = [message.arrow(len(sheet.columns)) for message in messages]
    same_arrows(f"the arrows of {name}", [arrow for arrow, _, _ in arrows], wanted)
    ends = sorted((end, message.order) for (_, _, end), message in zip(arrows, messages) if message.is_met())
    same(f"the order in which arrows of {name} end", [order for _, order in ends], sorted(order for _, order in ends))
    same_counts(f"the labels of {name}", sheet.labels(), Counter(message.label() for message in messages))


def same_arrows(what: str, came: list[Arrow], wanted: list[Arrow]) -> None:
    """Where an arrow ends that leads to no node doesn't matter."""
    more, less = Counter(came) - Counter(wanted), Counter(wanted) - Counter(came)
    same_counts(what, Counter(arrow._replace(to=None) for arrow in more.elements()), less)
    came = [arrow if want.to else arrow._replace(to=None) for arrow, want in zip(came, wanted)]
    for at, arrow in enumerate(wanted):
        same(f"{what} in place {at}", came[at], arrow)


def marks_as_printed(name: str, data: bytes, sheet: Sheet) -> None:
    same_counts(f"the marks of {name}", sheet.marks(), marks_of(steps_of(data)))
    same_counts(f"the notes of {name}", sheet.notes(), notes_of(steps_of(data)))


def bands_as_printed(name: str, data: bytes, sheet: Sheet) -> None:
    roles = {(step.line, id): node.role for step in steps_of(data) for id, node in step.nodes.items()}
    same(f"the bands of {name}", sheet.roles(), roles)
    same_counts(f"the beginnings of bands of {name}", sheet.turns(), turns_of(steps_of(data)))
    strong = [role for _, role in sheet.widths()]
    same(f"the roles of {name} by how wide their bands are", strong, [role for role in BY_STRENGTH if role in set(strong)])


def states_as_printed(name: str, data: bytes, reader: Reader) -> None:
    """The page is open."""
    steps, messages = steps_of(data), messages_of_lines(steps_of(data))
    states = reader.browser.value(f"{CODE}.states({len(steps)})")
    for step, seen in zip(steps, states, strict=True):
        pending = [message.gist() for message in messages if message.is_pending_after(step.line)]
        state_as_printed(f"in {name} after line {step.line}", seen, step, pending)
    reader.quiet()


def state_as_printed(where: str, seen: Any, step: Step, pending: Any) -> None:
    happened, nodes = happened_in(step), {id: standing.wanted(node) for id, node in step.nodes.items()}
    same(f"how much happened {where}", seen["count"], f"What happened ({len(happened)})")
    same(f"what happened {where}", standing.messages_told(seen["happened"]), standing.listed(happened))
    same(f"what is on its way {where}", [gist(text) for text in seen["pending"]], standing.listed(pending))
    came = {int(article["id"].split()[1]): standing.told(article) for article in seen["nodes"]}
    same(f"the nodes {where}", list(came), list(nodes))
    for id, node in nodes.items():
        same(f"what stands of node {id} {where}", came[id], node)
    logs_as_printed(where, seen["logs"], step.nodes)


def logs_as_printed(where: str, logs: Any, nodes: dict[int, Node]) -> None:
    """The table of logs: its columns, and of each node the cells; below them the leader's match and next."""
    if not nodes:
        return
    columns = logs["columns"]
    same(f"the columns {where}", columns, standing.columns_wanted(nodes, columns))
    for (id, node), row in zip(nodes.items(), logs["rows"], strict=True):
        same(f"whose row it is {where}", row["head"], f"node {id} {node.role} t{node.numbers.term}")
        same(f"the log of node {id} {where}", standing.row_told(row, columns), standing.row_wanted(node, columns))
        same(f"the marks below node {id} {where}", [[name, columns[at]] for name, at in row["marks"]], standing.marks_wanted(nodes, id, columns))


# All of them, in a browser


def open_sheet(reader: Reader, name: str, page: str) -> Sheet:
    """Opens a page, and reads its whole picture."""
    reader.browser.size(1500, TALL)
    reader.open_page(page, name)
    sheet = Sheet(reader.browser.value(f"{CODE}.picture()"))
    reader.quiet()
    reader.browser.size(1500, 900)
    return sheet


@functools.cache
def sheet_of(reader: Reader, name: str, data: bytes) -> Sheet:
    return open_sheet(reader, name, page_of(data, name))


def arrows_lead_where_messages_went(reader: Reader) -> None:
    for name, data in {**SCRIPTS, "full": FULL}.items():
        arrows_as_printed(name, data, sheet_of(reader, name, data))


def marks_stand_where_it_happened(reader: Reader) -> None:
    seen: Counter[str] = Counter()
    for name, data in SCRIPTS.items():
        marks_as_printed(name, data, sheet_of(reader, name, data))
        seen.update(signs[0] for _, _, _, signs in sheet_of(reader, name, data).marks().elements() if signs)
    same("the signs that were seen", {sign for sign in seen if not sign.isdigit()}, set(SIGNS))
    print("marks that stand where it happened: " + ", ".join(f"{seen[sign]} {sign}" for sign in SIGNS))


def bands_are_of_the_roles(reader: Reader) -> None:
    for name, data in SCRIPTS.items():
        bands_as_printed(name, data, sheet_of(reader, name, data))


def what_stands_is_what_is_printed(reader: Reader) -> None:
    for name, data in SCRIPTS.items():
        reader.open(data, name)
        states_as_printed(name, data, reader)


def pages_without_a_row() -> Iterator[tuple[str, str, bytes, str]]:
    """For each kind of row the shortest script that has such rows, and its page without the last of them."""
    tried, (before, after) = set(UNSEEN), parts()
    for name, data in sorted(SCRIPTS.items(), key=lambda pair: len(pair[1])):
        rows = list(rows_of(data, name))
        for kind in sorted({row[0] for row in rows} - tried):
            tried.add(kind)
            last = max(at for at, row in enumerate(rows) if row[0] == kind)
            yield kind, name, data, before + json_text(rows[:last] + rows[last + 1:]) + after


def each_row_is_looked_at(reader: Reader) -> None:
    """That the tests above see what they look for: a page in which one row is wanting is found by some of them."""
    kinds = []
    for kind, name, data, page in pages_without_a_row():
        kinds.append(kind)
        if not is_found(reader, name, data, page):
            raise Failed(f"nobody sees that a row {kind} of {name} is wanting")
    print(f"seen where one is wanting: rows {', '.join(kinds)}")


def is_found(reader: Reader, name: str, data: bytes, page: str) -> bool:
    """Whether something of the page isn't as it is printed."""
    try:
        sheet = open_sheet(reader, "wanting", page)
        for check in (arrows_as_printed, marks_as_printed, bands_as_printed):
            check(name, data, sheet)
        states_as_printed(name, data, reader)
    except (Failed, RuntimeError, ValueError, LookupError):
        return True
    return False


BESIDE = [
    arrows_lead_where_messages_went, marks_stand_where_it_happened, bands_are_of_the_roles, what_stands_is_what_is_printed,
    each_row_is_looked_at,
]
