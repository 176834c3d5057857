"""Whoever shows a script runs each directive once. valgrind counts the calls of what finds whether a cluster can do what a directive asks for, which
each execution does first."""
import json
import pathlib
import re
import shutil
import subprocess
from collections.abc import Sequence

from plain.script import read_with_lines
from tests.harness import PROGRAM, TOP, NotHere

# What each execution of a directive calls once, as the program's symbols have it.
CALLED = "rb_cluster::cluster::Cluster::fault"
SCRIPT = TOP / "examples" / "tour" / "01-election.txt"
MOST_SECONDS = 300
# The views of a cluster of three nodes that `look` and a hover show.
VIEWS = 1 + 3 * 3
# How many directives are between the checkpoints of an editor's documents.
CHECKPOINT_INTERVAL = 16
CALLEE = re.compile(r"(c?)fn=\((\d+)\)(?: (.*))?")


def calls_in(profile: str) -> int:
    """How many calls of it a profile of valgrind has."""
    names: dict[str, str] = {}
    callee, count = "", 0
    for line in profile.splitlines():
        if found := CALLEE.match(line):
            is_callee, number, name = found.groups()
            if name:
                names[number] = name
            callee = names[number] if is_callee else callee
        elif line.startswith("calls=") and re.split("'|::<", callee)[0] == CALLED:
            count += int(line.removeprefix("calls=").split()[0])
    return count


def executions(room: pathlib.Path, words: Sequence[str | pathlib.Path], given: bytes = b"") -> int:
    """How many directives the program executes for these words."""
    profile = room / "profile"
    tool = ["valgrind", "--tool=callgrind", f"--callgrind-out-file={profile}"]
    done = subprocess.run([*tool, PROGRAM, *words], input=given, capture_output=True, timeout=MOST_SECONDS)
    assert done.returncode in (0, 1), (words, done.returncode, done.stderr[-300:])
    return calls_in(profile.read_text(errors="replace"))


def need_tools() -> None:
    if not shutil.which("valgrind") or not shutil.which("nm"):
        raise NotHere("valgrind and nm")
    if CALLED not in subprocess.run(["nm", PROGRAM], capture_output=True, text=True).stdout:
        raise NotHere("a program whose symbols name what is counted")
    if "not proved" in subprocess.run([PROGRAM, "--version"], capture_output=True, text=True).stdout:
        raise NotHere("a proved program, which valgrind can run")


def messages(*all: dict[str, object]) -> bytes:
    """What an editor sends."""
    texts = [json.dumps({"jsonrpc": "2.0", **one}).encode() for one in all]
    return b"".join(b"Content-Length: %d\r\n\r\n%b" % (len(text), text) for text in texts)


def test_each_view_executes_each_directive_once(room: pathlib.Path) -> None:
    need_tools()
    heads = read_with_lines(SCRIPT.read_bytes())[1]
    for words in (["run"], ["rewrite"], ["rewrite", "--warn"], ["check"], ["check", "--verbose"], ["check", "--why", "--verbose"], ["page"], ["chart"], ["trace"]):
        assert executions(room, [*words, SCRIPT]) == len(heads), words


def test_look_executes_what_is_before_it_once(room: pathlib.Path) -> None:
    """And then as many views of the cluster, wherever it looks: `raft-state`, and some of each node."""
    need_tools()
    heads = read_with_lines(SCRIPT.read_bytes())[1]
    views = {executions(room, ["look", f"{SCRIPT}:{heads[place - 1]}"]) - place for place in (1, len(heads) // 2, len(heads))}
    assert len(views) == 1 and max(views) <= VIEWS, views


def test_an_editor_executes_each_directive_once(room: pathlib.Path) -> None:
    """When a document is opened. A hover goes on from the last checkpoint, and shows views."""
    need_tools()
    text = SCRIPT.read_text()
    heads = read_with_lines(text.encode())[1]
    document = {"uri": "file:///x.txt", "languageId": "raftbench", "version": 1, "text": text}
    begin: list[dict[str, object]] = [
        {"id": 1, "method": "initialize", "params": {"capabilities": {}}},
        {"method": "textDocument/didOpen", "params": {"textDocument": document}},
    ]
    hover: dict[str, object] = {
        "id": 2, "method": "textDocument/hover",
        "params": {"textDocument": {"uri": document["uri"]}, "position": {"line": heads[-1] - 1, "character": 0}},
    }
    end: list[dict[str, object]] = [{"id": 3, "method": "shutdown"}, {"method": "exit"}]
    opened = executions(room, ["lsp"], messages(*begin, *end))
    assert opened == len(heads), opened
    hovered = executions(room, ["lsp"], messages(*begin, hover, *end))
    assert len(heads) > CHECKPOINT_INTERVAL
    assert hovered - opened < CHECKPOINT_INTERVAL + VIEWS, hovered
