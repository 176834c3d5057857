"""Drives `raftbench lsp` without an editor.

A case of cases/ is a conversation: what is sent, and what must come, both by hand from the protocol's specification (LSP 3.17). Lists of edits are
made by a fixed seed over examples/tour and tests/cases: after each edit the diagnostics must be what `check` says of the text, what the
server offers of it what docs/SCRIPTS.md say (offers.py), and what came of a mismatch, what is shown of a place, and what
an action makes of the script, what the plain bench says (plainly.py, beside.py).

With EDITS=N in the environment N edits of each script are made, and 20 else.

Two looks need what few machines have, and say so where they aren't tried. LSP_METAMODEL names metaModel.json, the specification's own model of the
protocol, which is in the npm package vscode-languageserver-protocol and the source of Debian's node-vscode-lsp: each message that the server and the
editors' clients send must be of it (metamodel.py). MONACO names the folder of Monaco that has vs/ (Debian's node-monaco-editor, where it isn't given).
"""
import functools
import hashlib
import itertools
import json
import os
import pathlib
import random
import re
import shutil
import subprocess
import tempfile
from collections.abc import Callable, Iterable, Iterator
from typing import Any

from tests.harness import PROGRAM, TOP, NotHere, Result, result_of

HERE = pathlib.Path(__file__).resolve().parent

from tests.editors import beside
from tests.editors import bounds
from tests.editors import memory
from tests.editors import messages
from tests.editors import metamodel
from tests.editors import neovim
from tests.editors import offers
from tests.editors import oracle
from tests.editors import plainly
from tests.editors.client import MOST_SECONDS, Client, changed, framed, notification, opened, recorded, recorder, request, unframed
from tests.editors.oracle import diagnostics, position
from tests.editors.served import served

CASES = sorted((HERE / "cases").glob("*.json"))
URI = "file:///script.txt"
# Some editors tell of capabilities that the protocol doesn't have.
OWN_CAPABILITY = re.compile(r"initialize\.params\.capabilities[.\w]*: the type has no ")
# What columns may count in, and what a client says that it takes then.
ENCODINGS: list[tuple[str, list[str]]] = [("utf-16-le", []), ("utf-8", ["utf-8"])]
# By docs/SCRIPTS.md.
MOST_BYTES, MOST_DIRECTIVES = 4_194_304, 20_000
# What puts in what is missing above a line that looks like a slip, by how `check` warns of it.
FIXES = {
    "this looks like a directive inside an expectation": ("Insert the missing empty line", "\n"),
    "this looks like a directive inside input": ("Insert the missing ---- and an empty line", "----\n\n"),
    "this is input": ("Insert the missing ----", "----\n"),
}
NOT_OPEN = {"code": -32602, "message": "the document isn't open"}
# How many lists of edits are tried, each on a script as it stands.
EDITING_LISTS = 500
# By docs/USING.md: how many documents have a session.
MOST_DOCUMENTS = 1_000
# What an edit puts in: names, rules, line ends of each kind, letters of one to four bytes, and what no script has.
PUT_IN = ["", "\n", "\r\n", "\r", "----\n", "ok\n", "# é\n", "\U0001d11e", "log-level debug\n----\nok\n\n", "campaign 1\n", " ", "(", "status 9\n----\n\n", "error: x\n"]


def talked(entries: list[dict[str, Any]], program: pathlib.Path = PROGRAM) -> tuple[bytes, int]:
    """What a server writes for these messages, and its status, where all of them come at once."""
    sent = b"".join(framed(it["raw"].encode() if "raw" in it else it["send"]) for it in entries)
    done = subprocess.run([program, "lsp"], input=sent, capture_output=True, timeout=MOST_SECONDS)
    return done.stdout, done.returncode


def due_of(entries: list[dict[str, Any]]) -> list[Any]:
    return [message for it in entries for message in it["due"]]


def look_at_case(case: dict[str, Any]) -> Iterator[str]:
    """Texts for what is not as it must be."""
    written, status = talked(case["talk"])
    if (got := unframed(written)) != due_of(case["talk"]):
        first = next((n for n, (a, b) in enumerate(zip(got, due_of(case["talk"]))) if a != b), min(len(got), len(due_of(case["talk"]))))
        yield f"message {first}: {got[first:first + 1]}, and due is {due_of(case['talk'])[first:first + 1]}"
    if status != case["status"]:
        yield f"status {status}, and due is {case['status']}"


def one_byte_at_a_time(_edits: int) -> Iterator[str]:
    """A conversation that comes byte by byte has the same answers."""
    case = json.loads((HERE / "cases" / "life.json").read_text())
    sent = b"".join(framed(it["send"]) for it in case["talk"])
    with Client(PROGRAM) as client:
        assert client.server.stdin
        for byte in sent:
            client.server.stdin.write(bytes([byte]))
            client.server.stdin.flush()
        written, _ = client.server.communicate(timeout=MOST_SECONDS)
    if unframed(written) != due_of(case["talk"]):
        yield "another conversation"


def cut_off(_edits: int) -> Iterator[str]:
    """An input that ends anywhere has the answers of its whole messages; the status says whether it ended within one."""
    entries = json.loads((HERE / "cases" / "life.json").read_text())["talk"][:4]
    messages = [framed(it["send"]) for it in entries]
    sent = b"".join(messages)
    ends = [sum(map(len, messages[:n])) for n in range(len(messages) + 1)]
    for cut in range(len(sent) + 1):
        done = subprocess.run([PROGRAM, "lsp"], input=sent[:cut], capture_output=True, timeout=MOST_SECONDS)
        whole = sum(1 for end in ends[1:] if end <= cut)
        if unframed(done.stdout) != due_of(entries[:whole]):
            yield f"cut at {cut}: other answers"
        if done.returncode != (1 if cut in ends else 4):
            yield f"cut at {cut}: status {done.returncode}"


def no_message(_edits: int) -> Iterator[str]:
    """Bytes that begin no message end the server with status 4, with nothing written."""
    bad = [b"\r\n", b"what is this\r\n\r\n", b"Content-Length: x\r\n\r\n", b"Content-Length: 99999999999\r\n\r\n", b"Content-Type: a\r\n\r\n{}", b"a" * 5000, b"Content-Length: 40000000\r\n\r\n"]
    for sent in bad:
        done = subprocess.run([PROGRAM, "lsp"], input=sent, capture_output=True, timeout=MOST_SECONDS)
        if (done.returncode, done.stdout) != (4, b""):
            yield f"{sent[:30]!r}: status {done.returncode}, {done.stdout[:60]!r}"


def reader_that_goes(_edits: int) -> Iterator[str]:
    """Where nobody reads any more the server ends with status 4."""
    with Client(PROGRAM) as client:
        client.begin()
        assert client.server.stdout
        client.server.stdout.close()
        try:
            for version in range(1, 4):
                client.send(opened(URI, "log-level debug\n----\nno\n", version))
        except BrokenPipeError:
            pass
        status = client.server.wait(timeout=MOST_SECONDS)
    if status != 4:
        yield f"status {status}"


def many_documents(_edits: int) -> Iterator[str]:
    """Each document has its own text and its own diagnostics."""
    with Client(PROGRAM) as client:
        client.begin()
        for n in range(20):
            client.send(opened(f"file:///{n}", f"log-level debug\n----\n{n}\n"))
            told = client.receive()["params"]
            if told["uri"] != f"file:///{n}" or told["diagnostics"][0]["message"] != f"- {n}\n+ ok":
                yield f"document {n}: {told}"
        client.send(notification("textDocument/didClose", textDocument={"uri": "file:///3"}))
        client.receive()
        client.send(changed("file:///4", 2, {"text": "log-level debug\n----\nok\n"}))
        if client.receive()["params"] != {"uri": "file:///4", "version": 2, "diagnostics": []}:
            yield "a document beside a closed one"
        if (status := client.end()) != 0:
            yield f"status {status}"


def too_many_documents(_edits: int) -> Iterator[str]:
    """Of one document more than are kept it is said that it isn't checked, and what is asked of it is refused; where one is closed another has
    room."""
    with Client(PROGRAM) as client:
        client.begin()
        for n in range(MOST_DOCUMENTS + 1):
            client.send(opened(f"file:///{n}", "log-level debug\n----\nno\n"))
            told = client.receive()["params"]["diagnostics"]
            if [it["code"] for it in told] != ["mismatch" if n < MOST_DOCUMENTS else "not-checked"]:
                yield f"document {n}: {told}"
        if (error := client.ask(1, "textDocument/foldingRange", textDocument={"uri": f"file:///{MOST_DOCUMENTS}"})) != NOT_OPEN:
            yield f"a document past the last: {error}"
        client.send(notification("textDocument/didClose", textDocument={"uri": "file:///7"}))
        client.receive()
        client.send(opened("file:///another", "log-level debug\n----\nno\n"))
        if [it["code"] for it in client.receive()["params"]["diagnostics"]] != ["mismatch"]:
            yield "a document in the place of a closed one"


def scripts() -> list[pathlib.Path]:
    found = sorted((TOP / "examples" / "tour").glob("*.txt")) + sorted((TOP / "tests" / "cases").rglob("*.txt"))
    return [it for it in found if it.stat().st_size < 20_000]


def edited(dice: random.Random, text: str) -> Any:
    """The text with a part of it replaced, and that part: no part begins or ends between CR and LF."""
    places = [at for at in range(len(text) + 1) if text[at - 1:at + 1] != "\r\n"]
    start = dice.choice(places)
    behind = [at for at in places if start <= at <= start + dice.choice([0, 0, 1, 8, 60])]
    stop = dice.choice(behind)
    new = dice.choice(PUT_IN)
    return text[:start] + new + text[stop:], start, stop, new


def one_change(dice: random.Random, text: str, encoding: str) -> Any:
    """The text after a random edit, and the change that makes it."""
    new_text, start, stop, new = edited(dice, text)
    return new_text, {"range": {"start": position(text, start, encoding), "end": position(text, stop, encoding)}, "text": new}


def random_edits(edits: int) -> Iterator[str]:
    """After each edit the diagnostics are what `check` says of the text."""
    dice = random.Random(37)
    for number, path in enumerate(dice.sample(scripts(), min(len(scripts()), 25))):
        text = path.read_bytes().decode()
        encoding, offered = ("utf-8", ["utf-8"]) if number % 2 else ("utf-16-le", [])
        with Client(PROGRAM) as client:
            client.begin(*offered)
            client.send(opened(URI, text))
            told = client.receive()["params"]["diagnostics"]
            for version in range(2, edits + 2):
                text, change = one_change(dice, text, encoding)
                client.send(changed(URI, version, change))
                told = client.receive()["params"]["diagnostics"]
                if told != (due := diagnostics(PROGRAM, text, encoding)):
                    yield f"{path.name}, version {version}: {told}, and due is {due}"
                    break


def editing_lists(_edits: int) -> Iterator[str]:
    """After each of 500 lists of changes, a list a message, the diagnostics are what `check` says of the text: many documents of one server."""
    dice, found = random.Random(43), scripts()
    for encoding, offered in ENCODINGS:
        with Client(PROGRAM) as client:
            client.begin(*offered)
            for number in range(EDITING_LISTS // 2):
                path, uri = dice.choice(found), f"file:///{number}"
                text, changes = path.read_bytes().decode(), []
                client.send(opened(uri, text))
                client.receive()
                for _ in range(dice.randrange(1, 9)):
                    text, change = one_change(dice, text, encoding)
                    changes.append(change)
                client.send(changed(uri, 2, *changes))
                if (told := client.receive()["params"]["diagnostics"]) != (due := diagnostics(PROGRAM, text, encoding)):
                    yield f"{path.name}, {changes}: {told}, and due is {due}"


def other_texts(_edits: int) -> Iterator[str]:
    """One document gets whole texts, one after another, that share much, little or nothing, and none that is a script; beside it another
    gets them from the last to the first. Each is told what `check` says of it, and once more where it was closed and is opened again."""
    tour = sorted((TOP / "examples" / "tour").glob("*.txt"))
    first, second = tour[0].read_bytes().decode(), tour[1].read_bytes().decode()
    half = first.find("\n\n", len(first) // 2) + 2
    texts = [first, first[half:], second, first[:half], "# only a comment\n", first, "(", first.replace("\nINFO ", "\nINFO: "), first + second, "log-level none\n----\nok\n\n" + first, ""]
    due = [diagnostics(PROGRAM, text, "utf-16-le") for text in texts]
    with Client(PROGRAM) as client:
        client.begin()
        for opening in range(2):
            for uri, order in (URI, range(len(texts))), (URI + "x", reversed(range(len(texts)))):
                for version, at in enumerate(order, 1):
                    client.send(changed(uri, version, {"text": texts[at]}) if version > 1 else opened(uri, texts[at]))
                    if (told := client.receive()["params"]["diagnostics"]) != due[at]:
                        yield f"opening {opening}, {uri}, text {at}: {told}, and due is {due[at]}"
            for uri in URI, URI + "x":
                client.send(notification("textDocument/didClose", textDocument={"uri": uri}))
                client.receive()


def ends_of_lines(_edits: int) -> Iterator[str]:
    """Texts with each kind of line end, with letters of two units, and with nothing in them."""
    texts = ["", "\n", "\r", "a\r\n", "log-level debug\r\n----\r\nno\r\n", "# \U0001d11e\rlog-level debug\n----\nno\n", "log-level x\n----\n", "# é\n\nraft-state \U0001d11e\n----\nok\n",
             "log-level debug\n----\n\U0001d11eé\n"]
    for encoding, offered in ENCODINGS:
        with Client(PROGRAM) as client:
            client.begin(*offered)
            for version, text in enumerate(texts):
                client.send(opened(URI, text, version))
                if (told := client.receive()["params"]["diagnostics"]) != (due := diagnostics(PROGRAM, text, encoding)):
                    yield f"{text!r}: {told}, and due is {due}"


def sizes(_edits: int) -> Iterator[str]:
    """As many bytes as a script may have, and as many directives, and then more than that: by a change, which is taken back."""
    block = "log-level debug\n----\nok\n\n"
    wrong, line = "log-level debug\n----\nno\n\n", "#" + "x" * 62 + "\n"
    rest = MOST_BYTES - len(wrong)
    longest = line * (rest // len(line)) + "#" * (rest % len(line) - 1) + "\n" + wrong
    for text, more in (longest, "#"), (block * (MOST_DIRECTIVES - 1) + wrong, block):
        due = [diagnostics(PROGRAM, it, "utf-16-le") for it in (text, more + text, text)]
        if [[it["code"] for it in told] for told in due] != [["mismatch"], ["no-script"], ["mismatch"]]:
            yield f"{len(text)} bytes: due is {due}"
        start, lines = {"line": 0, "character": 0}, more.count("\n")
        end = {"line": lines, "character": 0 if lines else len(more)}
        with Client(PROGRAM) as client:
            client.begin()
            messages = opened(URI, text), changed(URI, 2, {"range": {"start": start, "end": start}, "text": more}), changed(URI, 3, {"range": {"start": start, "end": end}, "text": ""})
            for message, wanted in zip(messages, due):
                client.send(message)
                if (told := client.receive()["params"]["diagnostics"]) != wanted:
                    yield f"{len(text)} bytes: {told}, and due is {wanted}"


def what_came(edits: int) -> Iterator[str]:
    """A client that takes related information is told with each mismatch what came, as the plain bench has it; another is not."""
    dice = random.Random(47)
    for number, path in enumerate(dice.sample(scripts(), min(len(scripts()), 25))):
        text = path.read_bytes().decode()
        encoding, offered = ("utf-8", ["utf-8"]) if number % 2 else ("utf-16-le", [])
        related: Any = {22: False, 23: "true", 24: None}.get(number, True)
        with Client(PROGRAM) as client:
            client.begin(*offered, related=related)
            for version in range(1, edits + 1):
                client.send(changed(URI, version, {"text": text}) if version > 1 else opened(URI, text))
                told, found = client.receive()["params"]["diagnostics"], oracle.found_in(PROGRAM, text, encoding)
                if told != (due := plainly.with_what_came(found, served(text), URI, encoding) if related is True else [it for it, _ in found]):
                    yield f"{path.name}, version {version}: {told}, and due is {due}"
                    break
                text, *_ = edited(dice, text)


def want_of_memory(_edits: int) -> Iterator[str]:
    """A document whose run finds no memory says so, a request is refused, and the server lives."""
    yield from memory.run_without_memory(PROGRAM)


def refused_allocations(_edits: int) -> Iterator[str]:
    """Wherever an allocation is refused, what goes out is what is due, or says that there was no memory, or the server ends with 5."""
    if not shutil.which("cc"):
        raise NotHere("cc")
    yield from memory.refused_allocations(PROGRAM)


def fixes_due(slips: list[tuple[int, str]], text: str, first: int, last: int, encoding: str) -> list[tuple[str, str, list[dict[str, Any]]]]:
    """The quick fix of the first slip on some lines, which count from 0: its title, its kind, and its edits."""
    for line, sentence in slips:
        if first <= line - 1 <= last:
            title, new = next(fix for reason, fix in FIXES.items() if sentence.startswith(reason))
            place = plainly.range_of(text, line - 1, line - 1, encoding)
            return [(title, "quickfix", [{"range": place, "newText": new}])]
    return []


def hint_of(text: str, line: int) -> str | None:
    """The word that `check` suggests for the directive whose head begins on a line, which counts from 1."""
    parts = re.split(r"(?m)^script:(\d+): ", oracle.checked(PROGRAM, text, ["--color", "never", "--verbose"])[1])[1:]
    said = dict(zip(map(int, parts[::2]), parts[1::2])).get(line, "")
    found = re.search(r'(?m)^did you mean "(\S+)"\?$', said)
    return found[1] if found else None


def corrected(text: str, encoding: str, action: Any, first: int, last: int) -> Iterator[str]:
    """A correction is of the first directive on some lines for which `check` suggests a word: that takes the place of a whole word of its head."""
    found = plainly.read(text)
    (edit,) = action["edit"]["changes"][URI]
    word, line = edit["newText"], edit["range"]["start"]["line"]
    heads = [head for head, _, behind in plainly.extents(text, *found) if head <= last and first < behind and hint_of(text, head + 1)] if found else []
    if action["title"] != f"Replace with {word}" or action["kind"] != "quickfix" or not heads or hint_of(text, heads[0] + 1) != word:
        yield f"{action}, for {heads}"
        return
    at, end = (plainly.offset_of(text, edit["range"][it], encoding) for it in ("start", "end"))
    around = text[at - 1:at] + text[end:end + 1]
    if plainly.line_of(text, edit["range"]["start"], encoding) != heads[0] or re.search(r"[ \t=(),\n]", text[at:end]) or re.search(r"[^ \t=(),\r\n]", around):
        yield f"{action}: {text[at:end]!r} on line {line}"


def wrong_words(_edits: int) -> Iterator[str]:
    """A wrong name, option, value or level has a quick fix, which puts in the word that was probably meant; what is written otherwise has none."""
    texts = [("campain 1", "campaign 1"), ("add-nodes 1 voterz=(1) index=10", "add-nodes 1 voters=(1) index=10"), ("add-nodes 1 prevote=tru", "add-nodes 1 prevote=true"),
             ("deliver-msgs 1 type=(MsgApp,MsgVot)", "deliver-msgs 1 type=(MsgApp,MsgVote)"), ("log-level \t debgu", "log-level \t debug"), ("  stabilise \\\n  1", "  stabilize \\\n  1"),
             ("campaign 1 2", None), ("add-nodes 1 voters=(1)", None), ("campaign 1", None)]
    for wrong, right in texts:
        text = f"# \U0001d11e\nadd-nodes 2\n----\nok\n\n{wrong}\n----\nok\n"
        for encoding, offered in ENCODINGS:
            with Client(PROGRAM) as client:
                client.begin(*offered)
                client.send(opened(URI, text))
                client.receive()
                place = {"line": 5, "character": 0}
                told = answer_of(client, 1, "codeAction", range={"start": place, "end": place}, context={"diagnostics": []})
                made = [plainly.applied(text, it["edit"]["changes"][URI], encoding) for it in told if it["title"].startswith("Replace with ")]
                if made != ([text.replace(wrong, right)] if right else []):
                    yield f"{wrong}: {told}"


def missing_index(_edits: int) -> Iterator[str]:
    """What add-nodes is missing is said in a sentence of its own."""
    with Client(PROGRAM) as client:
        client.begin()
        client.send(opened(URI, "add-nodes 1 voters=(1)\n----\nok\n"))
        message = client.receive()["params"]["diagnostics"][0]["message"]
        if message.split("\n")[-1] != "voters, learners and content need index=N, 2 or more":
            yield message


def other_actions(text: str, start: Any, end: Any, encoding: str, told: Any) -> Iterator[str]:
    """Texts for what is wrong with the actions that are told for a range: of each the edits must make the script that is due. Where a line looks
    like a slip there is its quick fix alone."""
    first, last = (plainly.line_of(text, place, encoding) for place in (start, end))
    if slips := oracle.slips(oracle.checked(PROGRAM, text, ["--color", "never"])[1]):
        if (got := [(it["title"], it["kind"], it["edit"]["changes"][URI]) for it in told]) != (fixes := fixes_due(slips, text, first, last, encoding)):
            yield f"{got}, and due is {fixes}"
        return
    if told and told[0]["title"].startswith("Replace with "):
        yield from corrected(text, encoding, told[0], first, last)
        told = told[1:]
    wanted = [("Accept the actual output", "quickfix", plainly.accepting(text, first, last)), ("Accept all actual outputs", "source", plainly.accepting(text))]
    due = [(title, kind, made) for title, kind, made in wanted if made and made[1]]
    if [(it["title"], it["kind"]) for it in told] != [(title, kind) for title, kind, _ in due]:
        yield f"{told}, and due is {[(title, made[1]) for title, _, made in due]}"
        return
    for action, (title, _, (script, count)) in zip(told, due):
        edits = action["edit"]["changes"][URI]
        made = plainly.read(plainly.applied(text, edits, encoding))
        if len(edits) != count or made is None or made[0] != script:
            yield f"{title}: {edits} makes {made}"


def answer_of(client: Client, number: int, method: str, **params: Any) -> Any:
    """The answer to what is asked of the document."""
    client.send(request(number, f"textDocument/{method}", textDocument={"uri": URI}, **params))
    answer = client.receive()
    return answer["result"] if answer["id"] == number else answer


def without_reasons(hover: Any) -> Any:
    """What is shown of a position, without the lines of reasons, which the plain bench doesn't have."""
    if not hover:
        return hover
    lines = hover["contents"]["value"].split("\n")
    return hover | {"contents": hover["contents"] | {"value": "\n".join(it for it in lines if not it.startswith("^ "))}}


def hover_shows_reasons(_edits: int) -> Iterator[str]:
    """The reasons that are shown of a directive are those that `check --why` shows of it, where its output is expected."""
    dice, seen = random.Random(53), 0
    for path in dice.sample(scripts(), min(len(scripts()), 40)):
        text = path.read_bytes().decode()
        if not text.isascii():
            continue
        report = oracle.checked(PROGRAM, text, ["--color", "never", "--why", "--verbose"])[1]
        parts = re.split(r"(?m)^script:(\d+): ", report)[1:]
        with Client(PROGRAM) as client:
            client.begin()
            client.send(opened(URI, text))
            client.receive()
            for number, (head, said) in enumerate(zip(parts[::2], parts[1::2]), 1):
                if re.search(r"(?m)^[-+] ", said):
                    continue
                due = [it for it in said.split("\n") if it.startswith("^ ")]
                told = answer_of(client, number, "hover", position={"line": int(head) - 1, "character": 0})["contents"]["value"]
                seen += len(due)
                if (got := [it for it in told.split("\n") if it.startswith("^ ")]) != due:
                    yield f"{path.name}:{head}: {got}, and due is {due}"
    if seen < 5:
        yield f"reasons: {seen}"


def questions(edits: int) -> Iterator[str]:
    """What is shown of a position, and what an action makes of a text, are what the plain bench says; of texts that were edited too."""
    dice = random.Random(41)
    for number, path in enumerate(dice.sample(scripts(), min(len(scripts()), 25))):
        text = path.read_bytes().decode()
        encoding, offered = ("utf-8", ["utf-8"]) if number % 2 else ("utf-16-le", [])
        with Client(PROGRAM) as client:
            client.begin(*offered)
            for version in range(1, edits + 1):
                client.send(opened(URI, text, version))
                client.receive()
                first, last = sorted(dice.randrange(len(text) + 1) for _ in range(2))
                start, end = position(text, first, encoding), position(text, dice.choice([first, last]), encoding)
                told = answer_of(client, version, "codeAction", range={"start": start, "end": end}, context={"diagnostics": []})
                yield from (f"{path.name}, version {version}, {start}: {it}" for it in other_actions(served(text), start, end, encoding, told))
                if (told := without_reasons(answer_of(client, -version, "hover", position=start))) != (due := plainly.hover(served(text), start, encoding)):
                    yield f"{path.name}, version {version}, {start}: {told}, and due is {due}"
                text, *_ = edited(dice, text)


def questions_between_changes(_edits: int) -> Iterator[str]:
    """After each change what is shown of a position and the actions are of the text as it then stands: also where it is no script in between."""
    tour = (TOP / "examples" / "tour" / "01-election.txt").read_bytes().decode()
    top = "add-nodes 1 voters=(1) index=10 log-level=none\n----\nno\n\n"
    texts = [tour, "(", tour.replace("INFO", "WARN", 3), top + tour, tour, "", tour.replace("\n\n", "\n", 1), tour + "\ncampaign 1\n----\nno\n"]
    with Client(PROGRAM) as client:
        client.begin()
        for version, text in enumerate(texts, 1):
            client.send(changed(URI, version, {"text": text}) if version > 1 else opened(URI, text))
            client.receive()
            for part in 1, 3:
                place = position(text, len(text) * part // 4, "utf-16-le")
                told = answer_of(client, version, "codeAction", range={"start": place, "end": place}, context={"diagnostics": []})
                yield from (f"text {version}, {place}: {it}" for it in other_actions(served(text), place, place, "utf-16-le", told))
                if (told := without_reasons(answer_of(client, -version, "hover", position=place))) != (due := plainly.hover(served(text), place, "utf-16-le")):
                    yield f"text {version}, {place}: {told}, and due is {due}"


def accepted_by_check(_edits: int) -> Iterator[str]:
    """What the action makes of a text is what `check --accept` does, but for how new lines end."""
    texts = ["log-level debug\n----\nno", "log-level debug\n----", "log-level debug\r\n----\r\n", "# a\n\nlog-level \\\ndebug\n ---- \n----\n\nno\n----\n----\n\nlog-level x\n----\nok\n\n# expects an error\nlog-level x\n----\nok\n# \U0001d11e"]
    for text in texts:
        with Client(PROGRAM) as client, tempfile.TemporaryDirectory() as room:
            client.begin()
            client.send(opened(URI, text))
            client.receive()
            place = {"line": 0, "character": 0}
            edits = answer_of(client, 1, "codeAction", range={"start": place, "end": place}, context={"diagnostics": []})[-1]["edit"]["changes"][URI]
            script = pathlib.Path(room, "script")
            script.write_bytes(text.encode())
            subprocess.run([PROGRAM, "check", "--accept", "--force", "script"], cwd=room, capture_output=True, timeout=MOST_SECONDS)
            made, due = plainly.applied(text, edits, "utf-16-le"), script.read_bytes().decode()
            if made.replace("\r\n", "\n").rstrip("\n") != due.replace("\r\n", "\n").rstrip("\n"):
                yield f"{text!r}: {made!r}, and due is {due!r}"


def below_a_new_error(_edits: int) -> Iterator[str]:
    """Below a new error lines are accepted where they are asked for, beside the error's correction too; where all are, none is."""
    text = "log-lvel info\n----\nok\n\nlog-level info\n----\nno\n"
    asked = [(0, 0, ["Replace with log-level"]), (0, 5, ["Replace with log-level", "Accept the actual output"]), (4, 5, ["Accept the actual output"])]
    with Client(PROGRAM) as client:
        client.begin()
        client.send(opened(URI, text))
        client.receive()
        for number, (first, last, titles) in enumerate(asked):
            start, end = ({"line": line, "character": 0} for line in (first, last))
            told = answer_of(client, number, "codeAction", range={"start": start, "end": end}, context={"diagnostics": []})
            if (got := [it["title"] for it in told]) != titles:
                yield f"{first} to {last}: {got}, and due is {titles}"
            yield from other_actions(text, start, end, "utf-16-le", told)


def slips_are_mended(_edits: int) -> Iterator[str]:
    """A directive inside an expectation or input, and input that nobody reads: each is warned of, nothing is accepted, and the quick fixes, one
    after another, make the script that was meant."""
    meant = "add-nodes 1 voters=(1) index=10 log-level=none\n----\nok\n\ncampaign 1 log-level=none\n----\nok\n"
    texts = [meant.replace("ok\n\ncampaign", "ok\ncampaign"), meant.replace("----\nok\n\ncampaign", "campaign"), meant.replace("----\nok\n\n", "ok\n\n", 1)]
    for text in texts:
        with Client(PROGRAM) as client:
            client.begin()
            client.send(opened(URI, text))
            told = client.receive()["params"]["diagnostics"]
            warned = [it for it in told if (it["severity"], it["code"], it["source"]) == (2, "slip", "raftbench")]
            if not warned:
                yield f"{text!r}: {told}"
                continue
            whole = {"start": {"line": 0, "character": 0}, "end": {"line": 99, "character": 0}}
            actions = answer_of(client, 1, "codeAction", range=whole, context={"diagnostics": []})
            if len(actions) != 1 or "Expect" in actions[0]["title"]:
                yield f"{text!r}: {actions}"
                continue
            fixed = plainly.applied(text, actions[0]["edit"]["changes"][URI], "utf-16-le")
            client.send(changed(URI, 2, {"text": fixed}))
            left = [it for it in client.receive()["params"]["diagnostics"] if it["range"] == warned[0]["range"] and it["code"] == "slip"]
            if left:
                yield f"{text!r}: {fixed!r} has {left}"


def later_mismatches(_edits: int) -> Iterator[str]:
    """The first mismatch is an error, and those after it are information; where the client's settings say so they are errors."""
    text = "add-nodes 1 voters=(1) index=10 log-level=none\n----\nno\n\nlog-level debug\n----\nno\n\nlog-level debug\n----\nno\n"
    settings: list[tuple[Any, list[int]]] = [(None, [1, 3, 3]), ({"softenLaterMismatches": True}, [1, 3, 3]), ({"softenLaterMismatches": False}, [1, 1, 1]), ({"softenLaterMismatches": 0}, [1, 3, 3])]
    for options, due in settings:
        with Client(PROGRAM) as client:
            client.begin(options=options)
            client.send(opened(URI, text))
            if (told := [it["severity"] for it in client.receive()["params"]["diagnostics"]]) != due:
                yield f"{options}: {told}, and due is {due}"


def offered_texts(dice: random.Random, edits: int) -> Iterator[str]:
    """Scripts as they are, with other ends of lines, and edited; texts with each kind of line end; and texts that are no scripts."""
    yield from ["", "\n", "\r", "# \U0001d11e\rlog-level debug\n----\nno\n", "raft-state \U0001d11e\n----\n----\n\n\U0001d11e\n----\n----", "campaign 1\n", "campaign 1", "(\n----\n",
                "status 1\n----\na\n----\n----\n", "  log-level \\\n  info \\\n----\n ---- \nok\nok\n\n\n# end", "log-level d\r\r\n----\r\rok\r\n", "propose 1 " + "\U0001d11e" * 100 + "\n----\n",
                "deliver-msgs type=(MsgApp, \\\n  Msg", "add-nodes prevote=", "campaign 1 type=Msg", "propose-conf-change 1 transition=(im", "campaign log-level=x",
                "add-nodes 3 voters=(1,", "log-level ", "log-level debug ", "deliver-msgs type=(MsgApp,Msg", "deliver-msgs type=(MsgApp MsgVote,", "stabilize drop=(1,", "add-nodes 2\n----\nok\n\nrestart 1 ",
                "add-nodes 2\n----\nok\n\ndeliver-msgs 1 from=", "deliver-msgs skip=1 ", "deliver-msgs count=",
                "add-nodes 3 voters=(1,2) index=10\n----\nok\n\npropose-conf-change 1\nv1 l", "add-nodes 2\n----\nok\n\npropose-conf-change \\\n1\n\nv1\nr1 l2 ", "propose 1\nv", "propose-conf-change 1\nv",
                "add-nodes 2\n----\nok\n\nadd-nodes voters=() 1\n----\n\ntransfer-leadership to=", "add-nodes index=(4) 11\n----\nok\n\n# a\nadd-nodes 22\n----\n----\n\n----\n----\nadd-nodes 2\n----\n\ndeliver-msgs 1 log-level=info 2 drop=(3,1", "add-nodes \\\n 2\n\nin\n----\nok\n\nsend-snapshot \\\n1 "]
    for path in dice.sample(scripts(), min(len(scripts()), 25)):
        text = path.read_bytes().decode()
        yield from (text, text.replace("\n", "\r\n"), text.replace("\n\n", "\n\r\n"), text.replace(" ", "\r", 3))
        for _ in range(edits):
            text = edited(dice, text)[0]
            yield text


def asked_of(provider: str, method: str, due: Callable[[random.Random, str, str], Iterable[tuple[dict[str, Any], Any]]], edits: int, told: Callable[[Any], Any] = lambda result: result) -> Iterator[str]:
    """Each text's result of a request, beside what is due: of the text, and of what columns count in."""
    dice = random.Random(37)
    for encoding, offered in ENCODINGS:
        with Client(PROGRAM) as client:
            client.begin(*offered)
            if provider not in client.capabilities:
                raise NotHere(method)
            for version, text in enumerate(offered_texts(dice, edits)):
                client.send(opened(URI, text, version))
                client.receive()
                for more, wanted in due(dice, text, encoding):
                    got = told(client.ask(version, method, textDocument={"uri": URI}, **more))
                    if got != wanted:
                        yield f"{text!r}, {more}: {got}, and due is {wanted}"


def folds(edits: int) -> Iterator[str]:
    """Each block is a fold, and each expectation of more than one line."""
    yield from asked_of("foldingRangeProvider", "textDocument/foldingRange", lambda _, text, encoding: [({}, offers.folds(text, encoding))], edits)


def outlines(edits: int) -> Iterator[str]:
    """Each directive is a symbol."""
    yield from asked_of("documentSymbolProvider", "textDocument/documentSymbol", lambda _, text, encoding: [({}, offers.symbols(text, encoding))], edits)


def formatted(edits: int) -> Iterator[str]:
    """One edit makes the canonical text."""
    options = {"options": {"tabSize": 4, "insertSpaces": True}}
    yield from asked_of("documentFormattingProvider", "textDocument/formatting", lambda _, text, encoding: [(options, offers.formatting(text, encoding))], edits)


def ranges_due(dice: random.Random, text: str, encoding: str) -> Iterator[tuple[dict[str, Any], Any]]:
    """The edits between some places that aren't between CR and LF."""
    options = {"tabSize": 4, "insertSpaces": True}
    places = [at for at in range(len(text) + 1) if not offers.is_cut(text, at)]
    for _ in range(5):
        start, end = sorted(dice.choices(places, k=2))
        first, last = text.count("\n", 0, start), text.count("\n", 0, end)
        range_ = {"start": position(text, start, encoding), "end": position(text, end, encoding)}
        yield {"range": range_, "options": options}, offers.range_formatting(text, first, last, encoding)


def ranges_formatted(edits: int) -> Iterator[str]:
    """The directives of a range get their canonical text, and the script stays as it is."""
    yield from asked_of("documentRangeFormattingProvider", "textDocument/rangeFormatting", ranges_due, edits)


def message_places(dice: random.Random, text: str, encoding: str) -> list[dict[str, int]]:
    """Some lines of messages, and some other places."""
    places = messages.places(text, encoding)
    return dice.sample(places, min(len(places), 20)) + [position(text, at, encoding) for at in dice.choices(range(len(text) + 1), k=3) if not offers.is_cut(text, at)]


def definitions_due(dice: random.Random, text: str, encoding: str) -> Iterator[tuple[dict[str, Any], Any]]:
    for place in message_places(dice, text, encoding):
        yield {"position": place}, messages.definition(text, URI, place, encoding)


def references_due(dice: random.Random, text: str, encoding: str) -> Iterator[tuple[dict[str, Any], Any]]:
    for place in message_places(dice, text, encoding):
        includes = dice.random() < 0.5
        yield {"position": place, "context": {"includeDeclaration": includes}}, messages.references(text, URI, place, encoding, includes)


def highlights_due(dice: random.Random, text: str, encoding: str) -> Iterator[tuple[dict[str, Any], Any]]:
    for place in message_places(dice, text, encoding):
        yield {"position": place}, messages.highlights(text, place, encoding)


def messages_found(edits: int) -> Iterator[str]:
    """A message is found where it is sent, and where it arrives or is lost."""
    yield from asked_of("definitionProvider", "textDocument/definition", definitions_due, edits)
    yield from asked_of("referencesProvider", "textDocument/references", references_due, edits)
    yield from asked_of("documentHighlightProvider", "textDocument/documentHighlight", highlights_due, edits)


def completions_due(dice: random.Random, text: str, encoding: str) -> Iterator[tuple[dict[str, Any], Any]]:
    """Those at the end, and at some other places that aren't between CR and LF."""
    places = [at for at in range(len(text) + 1) if not offers.is_cut(text, at)]
    for at in {len(text), *dice.sample(places, min(len(places), 40))}:
        yield {"position": position(text, at, encoding)}, offers.completion(text, at, encoding)


def completed(edits: int) -> Iterator[str]:
    """In a head the words of the document's tables are offered that begin so, and nothing elsewhere."""
    yield from asked_of("completionProvider", "textDocument/completion", completions_due, edits, told=offers.as_told)


def hints_due(dice: random.Random, text: str, encoding: str) -> Iterator[tuple[dict[str, Any], Any]]:
    """Those of the whole text, and of some of its lines."""
    for start, end in (0, len(text)), sorted(dice.choices(range(len(text) + 1), k=2)):
        if not offers.is_cut(text, start) and not offers.is_cut(text, end):
            range_ = {"start": position(text, start, encoding), "end": position(text, end, encoding)}
            yield {"range": range_}, beside.hints(text, text.count("\n", 0, start), text.count("\n", 0, end), encoding)


def hinted(edits: int) -> Iterator[str]:
    """At a directive's line `----` it is told who leads then, unless the client's settings say no."""
    yield from asked_of("inlayHintProvider", "textDocument/inlayHint", hints_due, edits)
    text = "add-nodes 1 voters=(1) index=10\n----\n"
    whole = {"start": {"line": 0, "character": 0}, "end": {"line": 9, "character": 0}}
    for options, count in (None, 1), ({"inlayHints": True}, 1), ({"inlayHints": False}, 0):
        with Client(PROGRAM) as client:
            client.begin(options=options)
            client.send(opened(URI, text))
            client.receive()
            if len(told := client.ask(1, "textDocument/inlayHint", textDocument={"uri": URI}, range=whole)) != count:
                yield f"{options}: {told}"


def lensed(edits: int) -> Iterator[str]:
    """A directive whose output differs has lenses, for the commands that the client says it runs."""
    dice = random.Random(59)
    lists: tuple[list[str] | None, ...] = None, [], [beside.ACCEPT], ["another", beside.PAGE], [beside.PAGE, beside.ACCEPT]
    for (encoding, offered), runs in itertools.product(ENCODINGS, lists):
        with Client(PROGRAM) as client:
            client.begin(*offered, runs=runs)
            for version, text in enumerate(offered_texts(dice, edits if runs else 0)):
                client.send(opened(URI, text, version))
                client.receive()
                told = client.ask(version, "textDocument/codeLens", textDocument={"uri": URI})
                has_slips = beside.ACCEPT in (runs or []) and bool(oracle.slips(oracle.checked(PROGRAM, served(text), ["--color", "never"])[1]))
                yield from (f"{text!r}: {it}" for it in beside.wrong_lenses(text, URI, runs or [], has_slips, told, encoding))


def selections_due(dice: random.Random, text: str, encoding: str) -> Iterator[tuple[dict[str, Any], Any]]:
    """Those of some places at once, and of none."""
    places = [at for at in dice.choices(range(len(text) + 1), k=5) if not offers.is_cut(text, at)]
    yield {"positions": [position(text, at, encoding) for at in places]}, [beside.selection(text, at, encoding) for at in places]
    yield {"positions": []}, []


def selected(edits: int) -> Iterator[str]:
    """Around a place the word can be selected, the argument, the line, the part of the block, the block, and the whole text."""
    yield from asked_of("selectionRangeProvider", "textDocument/selectionRange", selections_due, edits)


def reported(_edits: int) -> Iterator[str]:
    """A client that asks for diagnostics gets those of the text as it stands, with the text's digest (FIPS 180-4) as their id, and not again where it has
    them. None are published, but for a document that is closed."""
    dice = random.Random(61)
    for encoding, offered in ENCODINGS:
        with Client(PROGRAM) as client:
            client.begin(*offered, pulls=True)
            if client.capabilities["diagnosticProvider"] != {"identifier": "raftbench", "interFileDependencies": False, "workspaceDiagnostics": False}:
                yield f"{client.capabilities}"
            for version, text in enumerate(offered_texts(dice, 1)):
                client.send(opened(URI, text, version))
                digest = hashlib.sha256(text.encode()).hexdigest()
                full = {"kind": "full", "resultId": digest, "items": diagnostics(PROGRAM, text, encoding)}
                for known, due in (None, full), ("0" * 64, full), (digest, {"kind": "unchanged", "resultId": digest}):
                    told = {} if known is None else {"previousResultId": known}
                    if (got := client.ask(version, "textDocument/diagnostic", textDocument={"uri": URI}, identifier="raftbench", **told)) != due:
                        yield f"{text!r}, {known}: {got}, and due is {due}"
            client.send(notification("textDocument/didClose", textDocument={"uri": URI}))
            if (got := client.receive()["params"]) != {"uri": URI, "diagnostics": []}:
                yield f"closed: {got}"
    with Client(PROGRAM) as client:
        client.begin()
        if "diagnosticProvider" in client.capabilities:
            yield "reports are offered where nobody asks for them"


def in_neovim(_edits: int, program: pathlib.Path = PROGRAM) -> Iterator[str]:
    """Neovim shows what a server tells it, as an editor's user sees it."""
    if not shutil.which("nvim"):
        raise NotHere("nvim")
    yield from neovim.look(program)


def in_vscode(_edits: int, program: pathlib.Path = PROGRAM) -> Iterator[str]:
    """The extension shows the same, in an editor that only pretends."""
    if not shutil.which("node"):
        raise NotHere("node")
    done = subprocess.run(["node", HERE / "vscode.js", program], capture_output=True, timeout=MOST_SECONDS, text=True)
    if done.returncode:
        yield done.stderr


def in_monaco(_edits: int) -> Iterator[str]:
    """Monaco, the editor part of Visual Studio Code, shows what the extension takes from a server, in a browser."""
    folder = os.environ.get("MONACO", "/usr/share/nodejs/monaco-editor/min")
    if missing := [name for name in ("node", "chromium") if not shutil.which(name)] or [folder] * (not pathlib.Path(folder, "vs").exists()):
        raise NotHere(missing[0])
    done = subprocess.run(["node", HERE / "monaco.js", PROGRAM, folder], capture_output=True, timeout=MOST_SECONDS, text=True)
    if done.returncode:
        yield done.stderr


def conversation() -> Any:
    """What is said where texts are opened, one in the place of another, and asked about at some places."""
    dice, options = random.Random(43), {"options": {"tabSize": 4, "insertSpaces": True}}
    with Client(PROGRAM, keeps=True) as client:
        client.begin(related=True, runs=[beside.ACCEPT, beside.PAGE])
        number = itertools.count(1)
        for version, text in enumerate(offered_texts(dice, 1)):
            client.send(opened(URI, text, version))
            client.receive()
            for method in ("foldingRange", "documentSymbol", "codeLens", "diagnostic", "formatting"):
                more: dict[str, Any] = options if method == "formatting" else {}
                client.ask(next(number), f"textDocument/{method}", textDocument={"uri": URI}, **more)
            for at in dice.choices(range(len(text) + 1), k=4):
                place = position(text, at, "utf-16-le")
                acted = {"range": {"start": place, "end": place}, "context": {"diagnostics": []}}
                asked: list[tuple[str, dict[str, Any]]] = [("hover", {"position": place}), ("completion", {"position": place}), ("codeAction", acted)]
                asked += [("rangeFormatting", {"range": acted["range"], **options}), ("references", {"position": place, "context": {"includeDeclaration": True}})]
                asked += [("inlayHint", {"range": acted["range"]}), ("selectionRange", {"positions": [place]})]
                asked += [(method, {"position": place}) for method in ("definition", "documentHighlight")]
                for method, more in asked:
                    client.ask(next(number), f"textDocument/{method}", textDocument={"uri": URI}, **more)
    return client.talk


def editors_conversations() -> Iterator[tuple[str, Any]]:
    """What is said between the server and each editor's client that is here."""
    for name, look in (("nvim", in_neovim), ("node", in_vscode)):
        with tempfile.TemporaryDirectory() as room:
            if shutil.which(name):
                for _ in look(0, recorder(PROGRAM, pathlib.Path(room))):
                    pass
                yield name, recorded(pathlib.Path(room))


def by_the_meta_model(_edits: int) -> Iterator[str]:
    """What the server tells is of the protocol, and what the editors' clients send, by the specification's own model of it."""
    if not (named := os.environ.get("LSP_METAMODEL")):
        raise NotHere("the specification's metaModel.json (LSP_METAMODEL)")
    model = metamodel.read(pathlib.Path(named))
    yield from metamodel.unseen(model)
    for path in CASES:
        talk = [pair for it in json.loads(path.read_text())["talk"] for pair in [(True, it.get("send")), *((False, due) for due in it["due"])]]
        yield from (f"{path.stem}: {it}" for it in metamodel.faults(model, talk, has_good_client=False))
    for name, talk in [*editors_conversations(), ("a client", conversation())]:
        yield from (f"{name}: {it}" for it in metamodel.faults(model, talk) if not OWN_CAPABILITY.match(it))


FUNCTIONS: list[Callable[[int], Iterator[str]]] = [in_neovim, in_vscode, in_monaco, by_the_meta_model, one_byte_at_a_time, cut_off, no_message, reader_that_goes, many_documents, too_many_documents, bounds.bounded_runs, bounds.bounded_comparisons, bounds.bounded_diffs, bounds.cancelled_requests, bounds.versions_that_go_back, other_texts, ends_of_lines, sizes, want_of_memory, refused_allocations, random_edits, editing_lists, what_came, folds, outlines, formatted, ranges_formatted, messages_found, completed, hinted, lensed, selected, reported, questions, hover_shows_reasons, wrong_words, missing_index, questions_between_changes, accepted_by_check, below_a_new_error, slips_are_mended, later_mismatches]


def results(word: str) -> Iterator[Result]:
    """Each conversation, and each function."""
    edits = int(os.environ.get("EDITS", "20"))
    for path in CASES:
        if word in path.stem:
            case = json.loads(path.read_text())
            yield result_of(path.stem, functools.partial(look_at_case, case))
    for look in FUNCTIONS:
        name = look.__name__.replace("_", "-")
        if word in name:
            yield result_of(name, functools.partial(look, edits))
