"""Pages of what your nodes did, the command raftbench-nodes, and its completions.

The reference's rows are those of tests/page/plain_steps.py. Findings are marked at their directives, on the nodes' side alone. Each message that is
delivered was sent or queued before, whatever the runner's steps do to messages. No text of nodes can end an element.
"""
from __future__ import annotations

import html
import json
import pathlib
import re
import shutil
import subprocess
from collections.abc import Iterator, Sequence
from typing import Any

from plain.script import read_script
from raftbench_nodes.compare import judge
from raftbench_nodes.compare.comparison import Comparison
from raftbench_nodes.compare.script import Step, blocks_of
from raftbench_nodes.cli import COMMANDS
from raftbench_nodes.compare.runner_steps import step_of
from raftbench_nodes.page.page import Mark, PageWriter, Recording, RecordedHosts, RecordedReference, page_rows, recorded
from raftbench_nodes.page.rows import json_text
from raftbench_nodes.process.process import Process
from tests.harness import TOP
from tests.page.plain_steps import rows_of

PROGRAM = TOP / "raftbench-nodes"
PLAIN = f"{TOP / 'nodes/plain'}"
VOTES = ["add-nodes 2 voters=(1,2) index=2", "campaign 1", "campaign 2", "stabilize"]
SECONDS = 300.0


def called(*words: object, **environment: str) -> subprocess.CompletedProcess[str]:
    return subprocess.run([PROGRAM, *map(str, words)], capture_output=True, text=True, errors="replace", timeout=600, env=None if not environment else environment)


def test_rows_are_those_of_a_page() -> Iterator[str]:
    """Of each script of the tour and of each rule, without the runner's steps."""
    files = [*(TOP / "examples/tour").glob("*.txt"), *(TOP / "tests/cases/rules").glob("*.txt")]
    assert len(files) > 90, len(files)
    process = Process("true")
    for file in files:
        data = file.read_bytes()
        run = recorded(RecordedReference(), list(enumerate(read_script(data).blocks, 1)), process, Comparison(has_steps=False))
        mine, theirs = json.loads(json_text(page_rows("name", data, run, []))), json.loads(json_text(list(rows_of(data, "name"))))
        if mine != theirs:
            yield f"{file.name}: {next((pair for pair in zip(mine, theirs) if pair[0] != pair[1]), 'another length')}"


def frames_of(page: str) -> list[list[list[Any]]]:
    """The rows of each frame."""
    documents = [html.unescape(text) for text in re.findall(r'<iframe [^>]*srcdoc="([^"]*)"', page)]
    return [json.loads(re.findall(r'id="steps">(.*?)</script>', text, re.S)[0]) for text in documents]


def test_page_marks_findings(room: pathlib.Path) -> None:
    """A node that votes twice: the promise and the first difference are marked where they are, and on the reference's side nothing is."""
    script = room / "votes.txt"
    script.write_text("".join(f"{head}\n----\nok\n\n" for head in VOTES))
    done = called("run", "--with", f"{PLAIN} --bug votes-twice", "--seconds", SECONDS, "--page", room / "pages", script)
    assert done.returncode == 1 and f"{script}: page {room}/pages/votes.html" in done.stdout, done
    page = (room / "pages/votes.html").read_text()
    assert 'data-place="4">directive 4</a>: promise broken: one vote per term: 1 voted for 1 and 2 in term 1' in page, page[:3000]
    mine, theirs = frames_of(page)
    marked = [row for row in mine if row[0] == "warning"]
    assert {row[1] for row in marked} == {[row[1] for row in mine if row[0] == "step"][3]} and any("one vote per term" in row[2] for row in marked), marked
    assert any("first difference" in row[2] for row in marked), marked
    assert ["became", 2, "leader", 1] in mine and ["became", 2, "leader", 1] not in theirs
    assert [row[0] for row in theirs if row[0] in ("warning", "mismatch")] == [], theirs


def met_without_mail(rows: Sequence[list[Any]]) -> list[list[Any]]:
    """Messages that are delivered or dropped, though none of their type to their node is pending, or another is the earliest."""
    pending: list[list[Any]] = []
    wrong = []
    for verb, *cells in rows:
        if verb in ("send", "queue"):
            pending.append(cells)
        elif verb in ("deliver", "drop"):
            earliest = next((it for it in pending if it[1:3] == cells[1:3]), None)
            if earliest != cells:
                wrong.append([verb, *cells])
            if earliest:
                pending.remove(earliest)
    return wrong


def test_messages_are_sent_before_they_arrive() -> None:
    """Reversed, doubled, late, repeated, cut and held messages, and crashes at each point."""
    steps = [Step(head) for head in ("add-nodes 3 voters=(1,2,3) index=10", "campaign 1", "stabilize", "propose 1 a", "process-ready 1", "propose 1 b", "process-ready 1")]
    for text in ("network: reverse 2", "network: double 3", "network: late 2", "network: again 2 1", "network: cut 3 1", "network: hold 1 2", "network: release 1 2"):
        before = step_of(f"# {text}")
        assert before
        steps += [Step("deliver-msgs 2 3", (), (before,)), Step("propose 1 c"), Step("process-ready 1")]
    for text in ("restart 2", "crash 3 before save", "crash 2 in save", "crash 3 after save", "crash 1 before advance"):
        before = step_of(f"# node: {text}")
        assert before
        steps += [Step("deliver-msgs", (), (before,)), Step("stabilize")]
    process = Process(PLAIN, SECONDS)
    try:
        process.reset()
        run = recorded(RecordedHosts(process), list(enumerate(blocks_of(steps), 1)), process, Comparison())
    finally:
        process.close()
    rows = [row for _, _, events in run.steps for row in events]
    assert run.failure is None and len(run.steps) == len(steps), run.failure
    assert met_without_mail(rows) == [], met_without_mail(rows)
    assert ["reason", "crashed before advance, and restarted"] in rows, "a crash isn't told"


def test_no_text_ends_an_element() -> None:
    """Of a name, a finding, or what nodes print."""
    hostile = '</script></iframe>"><img src=x onerror=alert(1)>&'
    process = Process(PLAIN, SECONDS)
    try:
        page = PageWriter(process, judge.Judge(), Comparison()).page(hostile, blocks_of([Step("add-nodes 1")]), [Mark(1, hostile)])
    finally:
        process.close()
    assert "<img" not in page and page.count("<iframe") == page.count("</iframe>") == 2, page[:2000]
    rows = json_text(page_rows(hostile, b"add-nodes 1\n----\n", Recording([(1, [hostile], [])]), [Mark(1, hostile)]))
    assert not set('<>&') & set(rows) and json.loads(rows)[0][2] == hostile, rows


def test_joined_clusters_do_not_count() -> None:
    """The first command of the tutorial: all promises are kept, and the status says so."""
    done = called("promises", "--with", TOP / "nodes/first", "--seconds", SECONDS, TOP / "examples/tour/12-broken.txt")
    assert done.returncode == 0 and "1 script, 1 in which all are kept, 1 broken in joined clusters and not counted" in done.stdout, done
    assert "12-broken.txt:31: not counted, since the script joins clusters by hand: one leader per term" in done.stdout, done


def test_unproved_program_serves(room: pathlib.Path) -> None:
    """With a word; the proved one is taken if it is there."""
    folder = room / "crates/raftbench/out"
    (folder / "unproved").mkdir(parents=True)
    (folder / "unproved/0abc").write_text("")
    before, judge.TOP = judge.TOP, room
    try:
        assert judge.found_program({}) == folder / "unproved/0abc"
        (folder / "raftbench").write_text("")
        assert judge.found_program({}) == folder / "raftbench"
        assert judge.found_program({"RAFTBENCH": "/x"}) == pathlib.Path("/x")
    finally:
        judge.TOP = before


def test_commands_take_paths_alike(room: pathlib.Path) -> None:
    """`switches PATH` finds what `run PATH` needs."""
    tour = TOP / "examples/tour/01-election.txt"
    done = called("switches", "--with", TOP / "nodes/first", "--jobs", 1, "--seconds", SECONDS, tour)
    assert done.returncode == 0 and done.stdout.startswith("refused-candidate-stays ") and "# Of 1 scripts 0 agree without these switches, and 1 with them." in done.stdout, done
    refused: list[tuple[list[object], int, str]] = [(["switches", "--with", "true", room], 4, "no script was found"), (["nothing"], 2, "there is no command nothing"), ([], 2, "a command is missing")]
    for words, status, wanted in refused:
        done = called(*words)
        assert done.returncode == status and wanted in done.stderr and "Traceback" not in done.stderr, done


def test_closed_pipes_are_no_crash() -> None:
    done = subprocess.run(["bash", "-c", f"'{PROGRAM}' promises --list | true; echo ${{PIPESTATUS[0]}}"], capture_output=True, text=True, timeout=100)
    assert done.stderr == "" and done.stdout in ("0\n", "4\n"), done


def options_of(command: str) -> set[str]:
    return set(re.findall(r"--[a-z][a-z0-9-]*", called(command, "--help").stdout.split("\n\n", 1)[0]))


def test_completions_have_each_option() -> Iterator[str]:
    """Of each command, as its help lists them."""
    fish = (TOP / "share/fish/vendor_completions.d/raftbench-nodes.fish").read_text()
    zsh = (TOP / "share/zsh/site-functions/_raftbench-nodes").read_text()
    for command in COMMANDS:
        wanted = options_of(command) - {"--help"}
        asked = f"source '{TOP}/share/bash-completion/completions/raftbench-nodes'; COMP_WORDS=(raftbench-nodes {command} --); COMP_CWORD=2; _raftbench_nodes; echo \"${{COMPREPLY[@]}}\""
        in_bash = set(subprocess.run(["bash", "-c", asked], capture_output=True, text=True, timeout=60).stdout.split()) - {"--help"}
        in_fish = {f"--{name}" for words, name in re.findall(r"-n '__fish_seen_subcommand_from ([a-z ]+)' -l ([a-z0-9-]+)", fish) if command in words.split()}
        in_zsh = set(re.findall(r"'(--[a-z0-9-]+)", zsh.split(f"        {command})\n")[1].split(";;")[0]))
        for shell, found in (("bash", in_bash), ("fish", in_fish), ("zsh", in_zsh)):
            if found != wanted:
                yield f"{command}, {shell}: {found ^ wanted}"
    program = shutil.which("zsh")
    if program and subprocess.run([program, "-n", TOP / "share/zsh/site-functions/_raftbench-nodes"]).returncode:
        yield "zsh can't read its completion"
