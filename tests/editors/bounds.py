"""What a server does where an editor would wait: a run stops after so much work, as few lines are compared as by `check`, so much is told of diffs, cancelled
requests aren't done, and a change whose version goes back is refused. What is due comes from docs/USING.md and the protocol (LSP 3.17, "Cancellation Support", "VersionedTextDocumentIdentifier").
"""
import pathlib
import subprocess
from collections.abc import Iterator
from typing import Any

from tests.editors import oracle, plainly
from tests.editors.client import MOST_SECONDS, Client, changed, framed, notification, opened, request, unframed
from tests.harness import PROGRAM

URI, OTHER = "file:///script.txt", "file:///other.txt"
SMALL = "log-level debug\n----\nno\n"
STOPPED = "the script is not run from here on: an editor waits for 16,000,000 steps; raftbench check runs it all"
NOT_RUN = {"code": -32803, "message": "the run of this script was stopped"}
CANCELLED = {"code": -32800, "message": "the request was cancelled"}
# Processor seconds. A run that stops takes some two; by a program without a proof, which checks each step, eighty. A letter runs nothing.
MOST_RUN = 160.0 if PROGRAM.parent.name == "unproved" else 5.0
MOST_LETTER = 3.0


def heads_to_and_fro() -> list[str]:
    """Two followers take each other for the leader, and hand 4,096 proposals to and fro."""
    heads = ["add-nodes 2 voters=(1,2) index=10", "send-snapshot 1 2", "send-snapshot 2 1", "deliver-msgs 1 2", "log-level none"]
    return [*heads, "process-ready 1 2", "deliver-msgs 1 2", *["propose 1 x"] * 4096]


def script_of(heads: list[str]) -> str:
    return "".join(f"{head}\n----\nok\n\n" for head in heads)


def seconds(client: Client) -> float:
    """The processor seconds of the server so far."""
    fields = pathlib.Path(f"/proc/{client.server.pid}/stat").read_text().rpartition(")")[2].split()
    return (int(fields[11]) + int(fields[12])) / 100


def told(client: Client) -> tuple[list[dict[str, Any]], float]:
    before = seconds(client)
    message = client.receive()
    assert message["method"] == "textDocument/publishDiagnostics", message
    return message["params"]["diagnostics"], seconds(client) - before


def stops_at(found: list[dict[str, Any]]) -> list[int]:
    return [it["range"]["start"]["line"] for it in found if it["code"] == "stopped"]


def bounded_runs(_edits: int) -> Iterator[str]:
    """A script that would run for hours stops: what is above is told as of a text that ends there, and one diagnostic at the directive says where the
    run stopped. Other documents are answered in their turn. A letter runs nothing anew. Where the work becomes less, all is run; where it
    becomes more, less."""
    text = script_of([*heads_to_and_fro(), *["stabilize rounds=1000"] * 3000])
    with Client(PROGRAM) as client:
        client.begin()
        for uri, content in ((URI, text), (OTHER, SMALL)):
            client.send(opened(uri, content))
        found, spent = told(client)
        if spent > MOST_RUN:
            yield f"{spent} s"
        lines = stops_at(found)
        if len(lines) != 1 or found[-1] != {"range": {"start": {"line": lines[0], "character": 0}, "end": {"line": lines[0] + 1, "character": 0}}, "severity": 2,
                                            "code": "stopped", "source": "raftbench", "message": STOPPED}:
            yield f"another end: {found[-1:]}"
            return
        rows = text.split("\n")
        if rows[lines[0]] != "stabilize rounds=1000":
            yield f"it stops at {rows[lines[0]]!r}"
        if (got := [it["code"] for it in told(client)[0]]) != ["mismatch"]:
            yield f"another document: {got}"
        front = "".join(f"{row}\n" for row in rows[:lines[0]])
        client.send(opened("file:///front.txt", front))
        if told(client)[0] != found[:-1]:
            yield "what is above is told otherwise than of a text that ends there"
        for version, (place, due) in enumerate(((0, lines[0] + 1), (lines[0] + 1, lines[0] + 2), (10_000_000, lines[0] + 2)), 2):
            at = {"line": place, "character": 0}
            client.send(changed(URI, version, {"range": {"start": at, "end": at}, "text": "# a comment\n"}))
            again, spent = told(client)
            if stops_at(again) != [due]:
                yield f"a comment at line {place}: it stops at {stops_at(again)}, and {due} is due"
            if spent > MOST_LETTER:
                yield f"a comment at line {place}: {spent} s"
        error = client.ask(1, "textDocument/hover", textDocument={"uri": URI}, position={"line": 0, "character": 0})
        if error != NOT_RUN:
            yield f"a hover: {error}"
        if not isinstance(client.ask(2, "textDocument/foldingRange", textDocument={"uri": URI}), list):
            yield "folds need no run"
        client.send(changed(URI, 20_000, {"text": script_of([*heads_to_and_fro(), "stabilize rounds=2"])}))
        if stops_at(told(client)[0]):
            yield "a run that fits stops"
        # Above the stop there is more work, and its directive stays.
        client.send(changed(URI, 20_001, {"text": script_of([*heads_to_and_fro(), "stabilize rounds=1", *["stabilize rounds=1000"] * 2])}))
        [late] = stops_at(told(client)[0])
        at = {"line": 4 * len(heads_to_and_fro()), "character": len("stabilize rounds=1")}
        client.send(changed(URI, 20_002, {"range": {"start": at, "end": at}, "text": "000"}))
        if stops_at(told(client)[0]) != [at["line"]] or late != at["line"] + 4:
            yield "it doesn't stop earlier"
        # The directive at which it stopped has less work.
        client.send(changed(URI, 20_003, {"range": {"start": at, "end": {**at, "character": at["character"] + 3}}, "text": ""}))
        if stops_at(told(client)[0]) != [late]:
            yield "it stops at a directive that was edited"
        if (status := client.end()) != 0:
            yield f"status {status}"


def bounded_comparisons(_edits: int) -> Iterator[str]:
    """Outputs of 1,990 lines with one in common with what is expected in the middle: 4 million pairs of lines each. Five are compared, as by `check`, and then
    those whose lines still fit; the next letter begins anew. Without the first the sixth is compared too. What is told of a diff shows a line of the output
    only if the line in common was found."""
    quiet = ["add-nodes 1 voters=(1) index=10", "campaign 1", "stabilize", *["propose 1 a"] * 1990, "stabilize"]
    same = '1/1000 "a"'
    wrong = "".join((same if line == 500 else f"{line}") + "\n" for line in range(1990))
    front = script_of([f"{head} log-level=none" if head[:1] != "p" else head for head in quiet])
    block = f"raft-log 1\n----\n{wrong}\n"
    text = front + block * 8
    last = "status 1\n----\nx\n"

    def compared(mismatches: list[dict[str, Any]]) -> list[bool]:
        """Whether the line in common was found, of each mismatch."""
        return [any(line[:2] == "+ " for line in it["message"].split("\n")) for it in mismatches]

    with Client(PROGRAM) as client:
        client.begin()
        client.send(opened(URI, text + last))
        found, _ = told(client)
        were = compared(found[:8])
        if were != [True] * 5 + [False] * 3 or len(found) != 9 or not found[8]["message"].startswith("- x\n"):
            yield f"{len(found)} diagnostics, and compared are {were}"
        for version, letter in enumerate("yz", 2):
            at = {"line": (text + last).count("\n") - 1, "character": 0}
            client.send(changed(URI, version, {"range": {"start": at, "end": at}, "text": letter}))
            again, _ = told(client)
            if again[:8] != found[:8] or not again[8]["message"].startswith(f"- {'yz'[version - 2::-1]}x\n"):
                yield f"after {letter!r} others: {[it['message'][:20] for it in again]}"
        first, behind = {"line": front.count("\n"), "character": 0}, {"line": (front + block).count("\n"), "character": 0}
        for version, end, new, count in (4, behind, "", 7), (5, first, block, 8):
            client.send(changed(URI, version, {"range": {"start": first, "end": end}, "text": new}))
            again, _ = told(client)
            if len(again) != count + 1 or compared(again[:count]) != [True] * 5 + [False] * (count - 5):
                yield f"of {count} mismatches {len(again)} diagnostics, and compared are {compared(again[:count])}"
        if (status := client.end()) != 0:
            yield f"status {status}"


def bounded_diffs(_edits: int) -> Iterator[str]:
    """Of each diff 4 KiB are told, of all 64 KiB, in whole lines, and behind a diff that is cut where the rest is. Each mismatch has its mark, and its output if
    that has room."""
    long = "".join(f"a line that is expected, {n}\n" for n in range(200))
    text = "".join(f"log-level debug\n----\n{long if n % 3 else 'no' + chr(10)}\n" for n in range(40))
    found = oracle.found_in(PROGRAM, text, "utf-16-le")
    sizes = [len(it["message"].encode()) for it, _ in found]
    if not (len(sizes) == 40 and sum(sizes) <= 65_536 + 40 * 36 and max(sizes) <= 4_096 + 36 and min(sizes[30:]) == 36):
        yield f"sizes: {sizes}"
    for related in False, True:
        with Client(PROGRAM) as client:
            client.begin(related=related)
            client.send(opened(URI, text))
            due = plainly.with_what_came(found, text, URI, "utf-16-le") if related else [it for it, _ in found]
            if (got := told(client)[0]) != due:
                yield f"{related}: {[it['message'][-40:] for it in got]}"


def cancelled_requests(_edits: int) -> Iterator[str]:
    """A request is answered as cancelled if its cancellation was read with it, by number or text; others are done, and so is what changes the server."""
    place = {"textDocument": {"uri": URI}, "position": {"line": 0, "character": 0}}
    cancel = [notification("$/cancelRequest", id=it) for it in (1, "b", "2", 99, "end")]
    ids: list[int | str] = [1, 2, "b", "1"]
    asked = [request(it, "textDocument/hover", **place) for it in ids]
    sent = [request(0, "initialize", capabilities={}), opened(URI, SMALL), *asked, *cancel, request(1, "textDocument/hover", **place), request("end", "shutdown"),
            notification("exit")]
    done = subprocess.run([PROGRAM, "lsp"], input=b"".join(map(framed, sent)), capture_output=True, timeout=MOST_SECONDS)
    got = unframed(done.stdout)
    if [it.get("id") for it in got] != [0, None, 1, 2, "b", "1", 1, "end"]:
        yield f"other answers: {str(got)[:500]}"
    errors = [it.get("error") for it in got]
    if errors != [None, None, CANCELLED, None, CANCELLED, None, None, None]:
        yield f"errors: {errors}"
    if done.returncode != 0:
        yield f"status {done.returncode}"


def versions_that_go_back(_edits: int) -> Iterator[str]:
    """A change whose version doesn't come after the document's is refused, and that is shown; the document stays, and the next version is taken."""
    with Client(PROGRAM) as client:
        client.begin()
        client.send(opened(URI, SMALL, 5))
        told(client)
        for version in 5, 4, 0:
            client.send(changed(URI, version, {"text": "log-level debug\n----\nok\n"}))
            got = client.receive()
            text = f"raftbench: a change was refused: its version, {version}, doesn't follow the document's, 5; close the document and open it again"
            if got != {"jsonrpc": "2.0", "method": "window/showMessage", "params": {"type": 2, "message": text}}:
                yield f"version {version}: {got}"
        client.send(changed(URI, 6, {"range": {"start": {"line": 2, "character": 0}, "end": {"line": 2, "character": 0}}, "text": "yes or "}))
        got = client.receive()["params"]
        if (got["version"], [it["message"] for it in got["diagnostics"]]) != (6, ["- yes or no\n+ ok"]):
            yield f"the next version: {got}"
        # A document that is opened again begins anew.
        client.send(opened(URI, SMALL, 1))
        if client.receive()["params"]["version"] != 1:
            yield "opened again"
        client.send(changed(URI, 2, {"text": SMALL}))
        if client.receive()["params"]["version"] != 2:
            yield "changed after it was opened again"
        if (status := client.end()) != 0:
            yield f"status {status}"
