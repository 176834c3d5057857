"""What stands after a step in a page's right pane, beside what is printed of the nodes (printed.py)."""
from __future__ import annotations

import re
from collections.abc import Sequence
from typing import Any

from tests.page.told import gist
from tests.page.printed import Node

FACTS = re.compile(r"\d+|no vote|no leader")
CONTENT = re.compile(r", content (\d+) bytes?: …?(.*)")
# The signs of an entry, which stand in words behind it as well.
SIGNS = re.compile(r"[:,] (?:durable|committed|applied|unsaved)")
MOST_ENTRIES = 24
MOST_LISTED = 200


def told(article: dict[str, Any]) -> dict[str, Any]:
    """What is told of a node: its role twice, its numbers, its content, its configuration, its boxes and its views."""
    first, second, config = article["facts"]
    numbers, *content = CONTENT.split(second)
    return {
        "role": [article["look"].split()[1], article["role"]],
        "numbers": FACTS.findall(first) + FACTS.findall(numbers),
        "content": (int(content[0]), content[1]) if content else (0, ""),
        "configuration": config,
        "views": article["views"],
    }


def wanted(node: Node) -> dict[str, Any]:
    """The same of a node as it is printed."""
    term, vote, lead, commit, applied, _, _, durable = node.numbers
    first = [f"{term}", f"{vote}" if vote else "no vote", f"{lead}" if lead else "no leader"]
    return {
        "role": [node.role, node.role],
        "numbers": [*first, f"{commit}", f"{applied}", f"{durable}"],
        "content": node.content,
        "configuration": node.config,
        "views": [view(*cells) for cells in node.views],
    }


def columns_wanted(nodes: dict[int, Node], seen: Sequence[int]) -> list[int]:
    """Which indexes a table of logs has: the last 24, up to the last entry of all nodes, and to what their leader sends next; no others but
    those of entries that gave way."""
    leaders = sorted((node for node in nodes.values() if node.role == "leader"), key=lambda node: -node.numbers.term)
    nexts = [int(cells[3]) for leader in leaders[:1] for cells in leader.views if int(cells[0]) in nodes]
    last = max([*(node.last() for node in nodes.values()), *nexts, *seen[-1:]])
    first = max(min(node.numbers.base for node in nodes.values()), 1, last - MOST_ENTRIES + 1)
    return list(range(first, last + 1))


def row_wanted(node: Node, columns: Sequence[int]) -> list[Any]:
    """The cells of a node's log in these columns: signs and texts."""
    cells = []
    for index in columns:
        edge = ["edge"] if index == node.numbers.commit else []
        if index == node.numbers.base:
            cells.append((index, {"base", *edge}, f"{node.numbers.base_term}/{index}"))
        elif index in node.entries:
            term, body = node.entries[index]
            held = {"committed": index <= node.numbers.commit, "applied": index <= node.numbers.applied, "unsaved": index > node.numbers.durable}
            cells.append((index, {*(sign for sign, holds in held.items() if holds), *edge}, f"{term}/{index} {body}"))
    return cells


def row_told(row: Any, columns: Sequence[int]) -> list[Any]:
    """The same of a row of the table; a cell in which an entry gave way to none isn't counted."""
    told = []
    for cell in row["cells"]:
        looks = set(cell["looks"]) - {"new", "gone"} - {f"t{term}" for term in range(8)}
        if cell["looks"] != ["gone"]:
            told.append((columns[cell["at"]], looks, SIGNS.sub("", cell["whole"].split("; ")[0].split(": the base")[0])))
    return told


def marks_wanted(nodes: dict[int, Node], id: int, columns: Sequence[int]) -> list[Any]:
    """What the leader of the latest term knows of a node, where its columns are shown."""
    leaders = sorted((node for node in nodes.values() if node.role == "leader"), key=lambda node: -node.numbers.term)
    for member, _, match, next, *_ in leaders[0].views if leaders else []:
        if int(member) == id:
            return [[name, int(index)] for name, index in (("match", match), ("next", next)) if int(index) in columns]
    return []


def view(member: Any, state: Any, match: Any, next: Any, inflight: Any, waiting: Any, pending: Any, inactive: Any) -> list[Any]:
    words = state + (", waiting" if waiting else f" {pending}" if pending else "") + (", inactive" if inactive else "")
    return [member, words, match, next, inflight]


def listed(told: list[Any]) -> list[Any]:
    """Of what is told in a list as much as a page shows, and how much more there is."""
    more = len(told) - MOST_LISTED
    return told[:MOST_LISTED] + [(f"{more}",)] * (more > 0)


def messages_told(texts: list[str]) -> list[Any]:
    """What a list tells of messages, of anything else nothing; and at its end how much more there is."""
    return [gist(text) if "→" in text else () for text in texts[:MOST_LISTED]] + list(map(gist, texts[MOST_LISTED:]))
