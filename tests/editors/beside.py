"""What a server must show beside the lines of a script, and what can be selected around a place.

By docs/USING.md and the protocol's specification (LSP 3.17). The plain bench (plain/) runs the scripts.
"""
import re
from collections.abc import Iterator
from typing import Any

from plain.cluster import Cluster
from plain.session import run_quickly
from tests.editors import offers, plainly
from tests.editors.oracle import line_starts, position
from tests.editors.served import served

ACCEPT, PAGE = "raftbench.accept", "raftbench.openPage"
WORD = re.compile(r"[^ \t=(),]+")
# Blanks in parentheses are a part of an argument.
ARGUMENT = re.compile(r"(?:\([^)]*\)?|[^ \t(])+")


# ---- lenses

def accepted(text: str, head: int, output: Any) -> Any:
    """The script of a text with this output of the directive whose head begins on a line."""
    script, heads = plainly.read(text)
    blocks = tuple(block._replace(expected=output) if at - 1 == head else block for block, at in zip(script.blocks, heads))
    return script._replace(blocks=blocks)


def lenses_due(text: str, runs: list[str], has_slips: bool) -> list[tuple[str, int, Any]]:
    """Of each lens the command, the line of the head, and the output of the directive there."""
    if (found := plainly.read(text)) is None:
        return []
    script, heads = found
    due = []
    for block, output, head in zip(script.blocks, run_quickly(script), heads):
        if block.expected != output:
            if ACCEPT in runs and not has_slips and not plainly.is_new_error(block, output):
                due.append((ACCEPT, head - 1, output))
            if PAGE in runs:
                due.append((PAGE, head - 1, output))
    return due


def wrong_lenses(text: str, uri: str, runs: list[str], has_slips: bool, told: Any, encoding: str) -> Iterator[str]:
    """Texts for what is wrong with the lenses that are told of a text, of a client that runs these commands. Each accepts one output, or opens the page
    at its head."""
    above = served(text)
    due = lenses_due(above, runs, has_slips)
    if [it["command"]["command"] for it in told] != [name for name, *_ in due]:
        yield f"{told}, and due is {due}"
        return
    for lens, (name, head, output) in zip(told, due):
        command = lens["command"]
        if lens["range"] != plainly.range_of(text, head, head, encoding):
            yield f"{lens}: the head is on line {head}"
        if name == PAGE and (command["title"], command["arguments"]) != ("Open the page here", [uri, head + 1]):
            yield f"{command}: the head is on line {head}"
        if name == ACCEPT:
            made = plainly.read(plainly.applied(above, command["arguments"][0]["changes"][uri], encoding))
            if command["title"] != "Accept the actual output" or made is None or made[0] != accepted(above, head, output):
                yield f"{command} makes {made}"


# ---- hints

def label(cluster: Cluster) -> str:
    """Who leads, in which term: the leader of the greatest term; where none is, the greatest term of a node."""
    nodes = list(cluster.nodes.values())
    leaders = [it for it in nodes if it.role == "leader"]
    if not leaders:
        return f"no leader, term {max(it.term for it in nodes)}"
    leader = max(leaders, key=lambda it: it.term)
    return f"leader {leader.id}, term {leader.term}"


def hints(text: str, first: int, last: int, encoding: str) -> list[dict[str, Any]]:
    """One for each line `----` of those from `first` to `last`, counted from 0, unless there are no nodes after its directive."""
    above = served(text)
    if (found := plainly.read(above)) is None:
        return []
    script, heads = found
    lines, cluster, due = above.split("\n"), Cluster(), []
    for block, (_, expected, _) in zip(script.blocks, plainly.extents(above, script, heads)):
        cluster.run(block.directive())
        line = expected - 1
        if first <= line <= last and cluster.nodes:
            place = {"line": position(text, line_starts(text)[line], encoding)["line"], "character": len(lines[line].rstrip("\r"))}
            due.append({"position": place, "label": label(cluster), "paddingLeft": True})
    return due


# ---- selections

def piece(pattern: re.Pattern[str], line: str, column: int) -> tuple[int, int]:
    """The piece of a line that a place touches; nothing there if there is none."""
    return next((it.span() for it in pattern.finditer(line) if it.start() <= column <= it.end()), (column, column))


def part(n: int, block: tuple[int, int, int, int]) -> tuple[int, int]:
    """The head of a block, what is between it and the output, or the output: the lines of the one that has this line."""
    head, behind, below, end = block
    return next((first, last) for first, last in ((head, behind), (behind, below), (below, end)) if first <= n < last)


def selection(text: str, at: int, encoding: str) -> Any:
    """What can be selected around a place, each in the next: the word, the argument, the line, the part of the block, the block, and the whole text."""
    begin, n = text.rfind("\n", 0, at) + 1, text.count("\n", 0, at)
    line = text[begin:].split("\n")[0].rstrip("\r")
    column = min(at - begin, len(line))
    spans = [(begin + first, begin + last) for first, last in (piece(WORD, line, column), piece(ARGUMENT, line, column), (0, len(line)))]
    starts = [*line_starts(text), len(text)]
    for block in offers.blocks(text):
        if block[0] <= n < block[3]:
            spans += [(starts[first], starts[min(last, len(starts) - 1)]) for first, last in (part(n, block), (block[0], block[3]))]
    spans.append((0, len(text)))
    found: list[tuple[int, int]] = []
    for first, last in spans:
        if (first < last) if not found else (first <= found[-1][0] and found[-1][1] <= last and (first, last) != found[-1]):
            found.append((first, last))
    made = None
    for first, last in reversed(found or [(0, len(text))]):
        range_ = {"start": position(text, first, encoding), "end": position(text, last, encoding)}
        made = {"range": range_} | ({"parent": made} if made else {})
    return made
