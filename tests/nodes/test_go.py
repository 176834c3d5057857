"""The Go package of nodes/go: its own tests; the adapters that stand on it; and `raftbench.Check` in the example's `go test`. A Raft without a bug
passes. A planted bug is a failed subtest with its script and page; `go test -run` runs it again, and passes when the bug is gone.

Go's tools use no network. A machine without Go skips these tests.
"""
from __future__ import annotations

import os
import pathlib
import re
import shutil
import subprocess
from collections.abc import Iterator

from tests.harness import PROGRAM, TOP, NotHere, matched

# What the example's Raft does right, what it does with a bug, and the subtest that shows that.
VOTES = ("(r.vote == 0 || r.vote == m.From)", "(r.vote == 0 || r.vote != m.From)", "promise-broken-one-vote-per-term")
BUGS = {
    "votes twice": VOTES,
    "forgets its vote": ("= r.saved, r.saved.term, r.saved.vote", "= r.saved, r.saved.term, 0", "promise-broken-a-restart-keeps-term-and-vote"),
}
SECONDS = 1200


def go(folder: pathlib.Path, *words: str, **more: str) -> subprocess.CompletedProcess[str]:
    """Runs Go in a module, with the clone's raftbench-nodes in the path."""
    if not shutil.which("go"):
        raise NotHere("go")
    around = {
        **os.environ, "GOPROXY": "off", "GOFLAGS": "", "GO111MODULE": "on", "GOWORK": "off", "GOCACHE": str(TOP / "nodes/etcd/out/cache"),
        "RAFTBENCH": str(PROGRAM), "PATH": f"{TOP}:{os.environ['PATH']}", **more,
    }
    return subprocess.run(["go", *words], cwd=folder, env=around, capture_output=True, text=True, errors="replace", timeout=SECONDS)


def example_in(room: pathlib.Path) -> pathlib.Path:
    """A copy of the example, where it finds the package."""
    for name in ("nodes/go", "examples/go"):
        shutil.copytree(TOP / name, room / name, ignore=shutil.ignore_patterns("out", "testdata"))
    return room / "examples/go"


def test_go_package(room: pathlib.Path) -> Iterator[str]:
    """Its tests pass, and what Go's own tools say of the Go files here is nothing."""
    for words in (("test", "./..."), ("vet", "./...")):
        done = go(TOP / "nodes/go", *words)
        if done.returncode or done.stderr:
            yield f"{words}: {done.stdout}{done.stderr}"
    files = [path for folder in ("nodes", "examples") for path in (TOP / folder).rglob("*.go") if "out" not in path.parts]
    assert len(files) > 15, files
    done = subprocess.run(["gofmt", "-l", *files], capture_output=True, text=True)
    if done.returncode or done.stdout or done.stderr:
        yield f"gofmt: {done.stdout}{done.stderr}"


def test_example_passes(room: pathlib.Path) -> Iterator[str]:
    """Its adapter has at most 40 lines with something in them, and nothing is found; each of the tool's words is taken."""
    example = example_in(room)
    lines = [line for line in (example / "raft_test.go").read_text().splitlines() if line]
    if len(lines) > 40:
        yield f"the adapter has {len(lines)} lines"
    done = go(example, "vet", "./...")
    if done.returncode:
        yield done.stderr
    done = go(example, "test", "-count=1", "-short", "-v", "-timeout", "60m", XDG_CACHE_HOME=str(room))
    if done.returncode or not re.search(r"--- PASS: TestRaft/promises ", done.stdout) or "30 scripts, 30 without a finding" not in done.stdout:
        yield f"{done.stdout[-3000:]}{done.stderr}"


def test_planted_bugs(room: pathlib.Path) -> Iterator[str]:
    """A bug is a failed subtest with script and page. Its script is taken again alone, also before others are looked for, and once it is mended."""
    example = example_in(room)
    right = (example / "raft.go").read_text()
    for name, (good, bad, kind) in BUGS.items():
        assert right.count(good) == 1, name
        (example / "raft.go").write_text(right.replace(good, bad))
        done = go(example, "test", "-count=1", "-short", "-timeout", "60m", XDG_CACHE_HOME=str(room / name))
        file = example / "testdata/raftbench/TestRaft" / f"{kind}.txt"
        if done.returncode != 1 or f"--- FAIL: TestRaft/{kind} " not in done.stdout or not file.exists():
            yield f"{name}: {done.stdout[-3000:]}{done.stderr}"
            continue
        yield from shown(name, kind, file, done.stdout)
        yield from documented(kind, done.stdout)
        again = go(example, "test", "-count=1", "-v", "-run", matched(rf"again: go test -run '(\^TestRaft\$/\^{kind}\$)'", done.stdout)[1])
        ran = re.findall(r"^=== RUN +(\S+)$", again.stdout, re.M)
        if again.returncode != 1 or ran != ["TestRaft", f"TestRaft/{kind}"] or file.read_text() not in unindented(again.stdout):
            yield f"{name}, again: {again.stdout}{again.stderr}"
        first = go(example, "test", "-count=1", "-v")
        if first.returncode != 1 or "TestRaft/promises" in first.stdout:
            yield f"{name}, what was found is first: {first.stdout}{first.stderr}"
        (example / "raft.go").write_text(right)
        mended = go(example, "test", "-count=1", "-v", "-run", f"TestRaft/{kind}")
        if mended.returncode or f"--- PASS: TestRaft/{kind} " not in mended.stdout:
            yield f"{name}, mended: {mended.stdout}{mended.stderr}"
        shutil.rmtree(example / "testdata")


def unindented(output: str) -> str:
    """What Go has indented by eight blanks."""
    return re.sub("^ {8}", "", output, flags=re.M)


def documented(kind: str, output: str) -> Iterator[str]:
    """docs/OWN-NODES.md shows lines of a failed subtest as they are."""
    lines = [line[4:] for line in (TOP / "docs/OWN-NODES.md").read_text().splitlines() if line.startswith("    ")]
    first = lines.index(f"--- FAIL: TestRaft/{VOTES[2]} (0.00s)")
    plain = re.sub(r"\(\d+\.\d+s\)$", "(0.00s)", re.sub("^    (    |---)", r"\1", output, flags=re.M), flags=re.M)
    if kind == VOTES[2]:
        yield from (f"{line!r} isn't in {output}" for line in lines[first:first + 7] if f"{line}\n" not in plain)


def shown(name: str, kind: str, file: pathlib.Path, output: str) -> Iterator[str]:
    """The subtest has the directives of the script, which is a file with a page next to it."""
    part = unindented(output[output.index(f"--- FAIL: TestRaft/{kind} "):])
    heads = [line for line in file.read_text().splitlines() if line.startswith(("add-nodes ", "campaign "))]
    wanted = [*(f"    {head}\n" for head in heads), f"{kind}.txt", f"page: testdata/raftbench/TestRaft/{kind}.html"]
    if not heads or any(text not in part for text in wanted):
        yield f"{name}: {part}"
    page = file.with_suffix(".html")
    if PROGRAM.exists() and (not page.exists() or kind.removeprefix("promise-broken-").replace("-", " ") not in page.read_text()):
        yield f"{name}: no page, or one that doesn't name what was found"


def test_scripts_and_switches(room: pathlib.Path) -> Iterator[str]:
    """Scripts of a folder are a subtest each, next to the reference; with words that the tool refuses, the test fails and says so."""
    example, test = example_in(room), TOP / "examples/tour"
    source = (example / "raft_test.go").read_text()
    call = matched(r"raftbench\.Check\(t, start, (.*)\)", source)
    for words, status, wanted in (
        (f'"run", "--like", "mine.txt", "{test / "01-election.txt"}", "{test / "02-replication.txt"}"', 1, "--- FAIL: TestRaft/01-election "),
        ('"promises", "--no-such-option"', 1, "unrecognized arguments: --no-such-option"),
        ('"promises", "nowhere"', 1, "nowhere: no such file or directory"),
    ):
        (example / "mine.txt").write_text("own-answers-at-once   we count our own vote when we give it\n")
        (example / "raft_test.go").write_text(source.replace(call[0], f"raftbench.Check(t, start, {call[1]}, {words})"))
        done = go(example, "test", "-count=1", "-v", XDG_CACHE_HOME=str(room))
        if done.returncode != status or wanted not in done.stdout:
            yield f"{words}: {done.returncode}: {done.stdout[-2000:]}{done.stderr}"
