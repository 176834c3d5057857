"""The rows of some directives (`raftbench/rows`, docs/FORMATS.md): those that `raftbench page` writes of the whole script."""
import itertools
import json
import random
import subprocess
from collections.abc import Iterator
from typing import Any

from tests.editors.bounds import NOT_RUN, heads_to_and_fro, script_of
from tests.editors.client import MOST_SECONDS, Client, changed, opened, request
from tests.harness import PROGRAM, TOP

URI = "file:///script.txt"
BEGIN = b'<script type="application/json" id="steps">'
MOST_CELLS = 20_000_000
SCRIPTS = [TOP / "examples" / "tour" / name for name in ("01-election.txt", "12-broken.txt")]
# What an edit puts in: directives that change the cluster, or don't; one that errs; a comment; a mismatch; and what is no script.
PUT_IN = [
    "", "\n", "# a comment\n", "campaign 1\n----\n\n", "raft-state\n----\nok\n\n", "log-level none\n----\nok\n\n", "tick-election 2\n----\n", "stabilize\n----\n\n",
    "nonsense 7\n----\n\n", "propose 1 é\n----\n\n", "ok\n", "----\n",
]


def page_rows(text: str) -> list[list[Any]] | None:
    """The rows of a script's page; None if it has none."""
    done = subprocess.run([PROGRAM, "page", "-"], input=text.encode(), capture_output=True, timeout=MOST_SECONDS, check=False)
    start = done.stdout.find(BEGIN) + len(BEGIN)
    rows: list[list[Any]] | None = json.loads(done.stdout[start:done.stdout.index(b"<", start)]) if start >= len(BEGIN) else None
    return rows


def some_rows(rows: list[list[Any]], first: int, count: int, cells: int = MOST_CELLS) -> list[list[Any]]:
    """Those of some directives, as an answer has them."""
    starts = [at for at, row in enumerate(rows) if row[0] == "step"]
    end = next(at for at, row in enumerate(rows) if row[0] in ("warning", "end"))
    steps = [rows[start:after] for start, after in zip(starts, [*starts[1:], end])]
    return [["raftbench", 2, URI], *(row for step in steps[first:first + count] for row in step), ["cells", cells], *rows[end:]]


def asked(client: Client, number: int, first: int, count: int) -> Any:
    """An answer. What comes before it is passed over."""
    span: dict[str, Any] = {"from": first, "count": count}
    client.send(request(number, "raftbench/rows", textDocument={"uri": URI}, **span))
    while (answer := client.receive()).get("id") != number:
        pass
    return answer["result"] if "result" in answer else answer["error"]


def cells_of(rows: Any) -> int:
    return next((row[1] for row in rows if row[0] == "cells"), 0) if isinstance(rows, list) else 0


def test_each_part_of_a_script_has_the_rows_of_its_page() -> Iterator[str]:
    for path in SCRIPTS:
        text = path.read_text()
        rows = page_rows(text)
        assert rows
        count = sum(row[0] == "step" for row in rows)
        with Client(PROGRAM) as client:
            client.begin()
            client.send(opened(URI, text))
            numbers = itertools.count(1)
            cells = cells_of(asked(client, 0, 0, 0))
            for first, many in itertools.product(range(count + 2), (0, 1, 2, count, 2 ** 63)):
                if asked(client, next(numbers), first, many) != some_rows(rows, first, many, cells):
                    yield f"{path.name}: {many} directives after {first}"


def test_after_each_edit_the_rows_are_those_of_the_new_script() -> Iterator[str]:
    """Whatever the session ran before. A text that isn't a script has none."""
    numbers = random.Random(18)
    refused = 0
    for path in SCRIPTS:
        text, versions = path.read_text(), itertools.count(2)
        with Client(PROGRAM) as client:
            client.begin("utf-8")
            client.send(opened(URI, text))
            for _edit in range(60):
                before, lines, own = text, text.split("\n"), numbers.choice(PUT_IN)
                first = numbers.randrange(len(lines))
                last = min(len(lines) - 1, first + numbers.choice([0, 0, 1, 4]))
                text = "\n".join([*lines[:first], own + lines[last], *lines[last + 1:]])
                client.send(changed(URI, next(versions), {"range": {"start": {"line": first, "character": 0}, "end": {"line": last, "character": 0}}, "text": own}))
                rows = page_rows(text)
                start, many = numbers.randrange(30), numbers.randrange(8)
                found = asked(client, 1, start, many)
                if found != (rows and some_rows(rows, start, many, cells_of(found))):
                    yield f"{path.name}: {many} directives after {start} of {text!r}"
                if rows is None:
                    refused, text = refused + 1, before
                    client.send(changed(URI, next(versions), {"text": text}))
    if not 10 < refused < 90:
        yield f"{refused} texts are no script"


def test_a_comparison_leaves_fewer_cells() -> Iterator[str]:
    """One more than the expected lines of a mismatch, times one more than the lines of its output."""
    text = "add-nodes 1 voters=(1) index=10\n----\nno\nno\n\nlog-level none\n----\nok\n\nlog-level none\n----\nnone\n"
    with Client(PROGRAM) as client:
        client.begin()
        client.send(opened(URI, text))
        if (left := cells_of(asked(client, 1, 0, 9))) != MOST_CELLS - 3 * 2 - 2 * 2:
            yield f"{left} cells are left"


def test_what_is_no_request_is_refused() -> Iterator[str]:
    with Client(PROGRAM) as client:
        client.begin()
        client.send(opened(URI, "log-level none\n----\nok\n"))
        client.receive()
        document: dict[str, Any] = {"textDocument": {"uri": URI}}
        wrong: list[dict[str, Any]] = [{}, {"from": 0}, {"count": 1}, {"from": -1, "count": 1}, {"from": 0, "count": "1"}]
        for params in ({"from": 0, "count": 1}, *({**document, **it} for it in wrong)):
            if client.ask(1, "raftbench/rows", **params) != {"code": -32602, "message": "the method takes other params"}:
                yield f"{params}"
        other: dict[str, Any] = {"textDocument": {"uri": "file:///other.txt"}, "from": 0, "count": 1}
        if client.ask(2, "raftbench/rows", **other) != {"code": -32602, "message": "the document isn't open"}:
            yield "one that isn't open"


def test_a_run_that_stopped_has_no_rows() -> Iterator[str]:
    """An editor waits for 4,000,000 steps (docs/USING.md)."""
    with Client(PROGRAM) as client:
        client.begin()
        client.send(opened(URI, script_of([*heads_to_and_fro(), *["stabilize rounds=1000"] * 3000])))
        if (found := asked(client, 1, 0, 1)) != NOT_RUN:
            yield f"{found}"
