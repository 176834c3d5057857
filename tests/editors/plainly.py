"""What the plain bench (plain/) says of a place in a script: what is shown there, and what accepting makes of the script."""
import copy
from typing import Any

from plain.cluster import Cluster
from plain.script import RULE, Fault, Script, lines_of, read_block, read_script, read_with_lines
from plain.session import run_quickly
from tests.editors.oracle import Found, first_lines, line_starts, position

MARK = b"# expects an error"
DROPS_ALL = "deliver-msgs drop=(" + ",".join(str(id) for id in range(1, 33)) + ")"


def read(text: str) -> Any:
    """The script of a text and the lines of its heads, which count from 1; None where it is no script."""
    try:
        read_script(text.encode())
        return read_with_lines(text.encode())
    except Fault:
        return None


def extents(text: str, script: Script, heads: list[int]) -> Any:
    """Of each directive the lines, counted from 0, on which its head and its expectation begin, and the one behind it."""
    lines, found = lines_of(text.encode()), []
    for block, head in zip(script.blocks, heads):
        expected = head - 1 + len(block.head) + len(block.input) + 1
        rules = 3 if lines[expected:expected + 1] == [RULE] else 0
        found.append((head - 1, expected, expected + len(block.expected) + rules))
    return found


def offset_of(text: str, place: dict[str, int], encoding: str) -> int:
    """The place in the text of a position, as position() of the oracle has them."""
    line, start, at = 0, 0, 0
    while line < place["line"] and at < len(text):
        if text[at] == "\n" or (text[at] == "\r" and text[at + 1:at + 2] != "\n"):
            line, start = line + 1, at + 1
        at += 1
    at = start if line == place["line"] else len(text)
    while at < len(text) and text[at] not in "\r\n" and position(text, at + 1, encoding)["character"] <= place["character"]:
        at += 1
    return at


def line_of(text: str, place: dict[str, int], encoding: str) -> int:
    """The line of the script, counted from 0, on which a position stands."""
    return text.count("\n", 0, offset_of(text, place, encoding))


def range_of(text: str, first: int, behind: int, encoding: str) -> dict[str, Any]:
    starts = line_starts(text)
    start, end = (position(text, starts[n] if n < len(starts) else len(text), encoding) for n in (first, behind))
    return {"start": start, "end": end}


def asked(cluster: Cluster, head: Any) -> Any:
    """What a directive would print, shown at each level. The cluster stays as it is."""
    return copy.deepcopy(cluster).run(read_block(f"{head} log-level=debug\n----\n".encode()).directive())


def seen(cluster: Cluster) -> Any:
    """The lines of `raftbench look`, without its heading."""
    lines = []
    questions = ["raft-state", *(f"{name} {id}" for id in range(1, len(cluster.nodes) + 1) for name in ("raft-log", "status"))]
    for question in questions:
        lines += [question, *(f"  {line}" for line in asked(cluster, question))]
    return [*lines, "on their way", *(f"  {line.removeprefix('drop ')}" for line in asked(cluster, DROPS_ALL))]


def hover(text: str, place: dict[str, int], encoding: str) -> Any:
    """What is shown of a position, or None."""
    if (found := read(text)) is None:
        return None
    script, heads = found
    line, cluster = line_of(text, place, encoding), Cluster()
    for block, (head, _, behind) in zip(script.blocks, extents(text, script, heads)):
        output = cluster.run(block.directive())
        if head <= line < behind:
            value = "".join(f"{it}\n" for it in [*output, "", *seen(cluster)])
            return {"range": range_of(text, head, behind, encoding), "contents": {"kind": "plaintext", "value": value}}
    return None


def is_new_error(block: Any, output: Any) -> bool:
    """Whether an output is an error that no comment above the directive says is expected."""
    return output[0].startswith(b"error: ") and all(line.lstrip(b" \t") != MARK for line in block.lead)


def accepting(text: str, first: int | None = None, last: int | None = None) -> Any:
    """Of the directives that stand among some lines, or of all up to the first new error: the script with what came, and how many of them expect
    another output then. None where the text is no script."""
    if (found := read(text)) is None:
        return None
    script, heads = found
    blocks, count, stopped = [], 0, False
    for block, output, (head, _, behind) in zip(script.blocks, run_quickly(script), extents(text, script, heads)):
        is_among = not stopped if first is None else head <= last and first < behind
        if block.expected != output and is_new_error(block, output):
            stopped = True
        elif is_among and block.expected != output:
            block, count = block._replace(expected=output), count + 1
        blocks.append(block)
    return Script(tuple(blocks), script.tail), count


def with_what_came(diagnostics: list[Found], text: str, uri: str, encoding: str) -> Any:
    """Diagnostics of a text, of which each mismatch tells what came, if that has room, at the lines that expect another output."""
    if (found := read(text)) is None:
        return [it for it, _ in diagnostics]
    script, heads = found
    places = iter([(expected, behind, first_lines([line.decode() for line in output])) for block, output, (_, expected, behind) in zip(script.blocks, run_quickly(script), extents(text, script, heads)) if block.expected != output])
    told = []
    for it, has_room in diagnostics:
        if it["code"] == "mismatch":
            expected, behind, message = next(places)
        if has_room:
            it = it | {"relatedInformation": [{"location": {"uri": uri, "range": range_of(text, expected, behind, encoding)}, "message": message}]}
        told.append(it)
    return told


def applied(text: str, edits: list[dict[str, Any]], encoding: str) -> str:
    """The text with edits, which don't overlap, made by their ranges."""
    places = sorted(((offset_of(text, it["range"]["start"], encoding), offset_of(text, it["range"]["end"], encoding), it["newText"]) for it in edits), reverse=True)
    for start, end, new in places:
        text = text[:start] + new + text[end:]
    return text
