"""What becomes of a script: edits, undo, branches, accepting and saving, by requests to the server."""
from __future__ import annotations

import os
import pathlib
import shutil
import subprocess
from collections.abc import Callable, Iterator
from typing import Any

from live.blocks import cut, joined, new_block
from live.program import Program
from live.scriptfile import ScriptFile, Theirs
from plain.script import Fault, read_with_lines
from tests.harness import PROGRAM, TOP
from tests.live.running import CAMPAIGN, START, Running, checked, put

TOUR = sorted((TOP / "examples" / "tour").glob("*.txt"))
READY = b"process-ready 1\n----\n1 ready\n  hard term=1 vote=1 commit=10\n  send 1->2 MsgVote term=1 last=1/10\n  send 1->3 MsgVote term=1 last=1/10\nINFO 1 has MsgVoteResp granted from 1: pending\n\n"


# Blocks


def test_blocks_are_those_of_the_plain_reader() -> Iterator[str]:
    """plain/script.py is written from the documents: heads, inputs and expectations are those that it reads, and all bytes stay."""
    scripts = [path.read_bytes() for path in sorted((TOP / "examples").rglob("*.txt"))]
    scripts += [data.replace(b"\n", b"\r\n") for data in scripts[:20]] + [data.rstrip(b"\n") for data in scripts[:20]]
    scripts.append(b"a \\\n b\n----\n----\n\n----\nx\n----\n----\n# tail\n")
    count = 0
    for data in scripts:
        try:
            read, lines = read_with_lines(data)
        except Fault:
            continue
        count += 1
        blocks, tail = cut(data, lines)
        if joined(blocks, tail) != data:
            yield f"bytes are lost of {data[:60]!r}"
        for block, wanted in zip(blocks, read.blocks, strict=True):
            if block.expected() != tuple(wanted.expected) or block.given()[block.head:] != (*wanted.head, *wanted.input):
                yield f"{block} is {wanted}"
    if count < 100:
        yield f"only {count} scripts were read"


def test_new_blocks_read_as_they_are_written() -> Iterator[str]:
    """Outputs with blank lines and rules have the double form, and a text that has a separator counts up to it: there is no second one."""
    cases: list[tuple[list[bytes], list[bytes]]] = [([b"a"], [b"x", b"y"]), ([b"a"], [b"", b"----", b"x"]), ([b"# c", b"a", b"in"], []), ([b"a", b"----", b"old"], [b"ok"])]
    for given, output in cases:
        text = joined([new_block(given, output, b"\n")], ())
        script, _ = read_with_lines(text)
        if len(script.blocks) != 1 or list(script.blocks[0].expected) != output:
            yield f"{given} {output}: {text!r}"
        if [line.strip() for line in text.split(b"\n")].count(b"----") != (5 if b"----" in output else 1):
            yield f"{text!r}"


# Edits


def test_what_is_done_becomes_the_script(room: pathlib.Path) -> None:
    path = room / "new.txt"
    with Running(path).enter() as server:
        for place, text in enumerate(["add-nodes 3 voters=(1,2,3) index=10", "campaign 1", "process-ready 1"]):
            assert server.do("insert", place=place, text=text)[0] == 200
        assert server.text() == START.partition(b"\n")[2] + CAMPAIGN + READY
        assert not path.exists() and server.state["chosen"] == 3
        assert server.do("save")[0] == 200 and server.state["isSaved"]
    assert path.read_bytes() == START.partition(b"\n")[2] + CAMPAIGN + READY
    assert checked(path) == "1 script, 3 directives, 0 mismatches, 0 refused"


def test_edits_undo_and_redo(room: pathlib.Path) -> Iterator[str]:
    """Each edit leaves all other bytes alone; undone to the beginning and done again, the same scripts come."""
    path = room / "script.txt"
    path.write_bytes((START + CAMPAIGN + READY).replace(b"\n", b"\r\n").rstrip(b"\r\n"))
    with Running(path).enter() as server:
        seen = [server.text()]
        edits: list[tuple[str, dict[str, Any]]] = [("duplicate", {"place": 2}), ("move", {"place": 3, "by": 1}), ("remove", {"place": 1}), ("insert", {"place": 0, "text": "# new\nlog-level debug"}),
                           ("replace", {"place": 2, "text": "campaign 2"}), ("accept", {"all": True, "isSure": True})]
        for kind, more in edits:
            status, told = server.do(kind, **more)
            if status != 200:
                yield f"{kind}: {told}"
            seen.append(server.text())
        if len(set(seen)) != len(seen):
            yield "an edit changes nothing"
        for wanted in reversed(seen[:-1]):
            server.do("undo")
            if server.text() != wanted:
                yield f"undone: {server.text()!r} and not {wanted!r}"
        for wanted in seen[1:]:
            server.do("redo")
            if server.text() != wanted:
                yield f"redone: {server.text()!r} and not {wanted!r}"
        if server.do("redo")[0] != 409 or b"\r\ncampaign 2\r\n----\r\n" not in server.text():
            yield f"{server.text()!r}"


def test_undo_comes_back_to_where_one_was(room: pathlib.Path) -> None:
    path = room / "script.txt"
    path.write_bytes(START + CAMPAIGN + READY)
    with Running(path).enter() as server:
        assert server.state["chosen"] == 3
        assert server.do("insert", place=1, at=1, text="raft-state")[0] == 200 and server.state["chosen"] == 2
        assert server.do("undo", at=4)[0] == 200 and server.state["chosen"] == 1
        assert server.do("redo", at=3)[0] == 200 and server.state["chosen"] == 2


def test_a_line_can_t_swallow_its_neighbour(room: pathlib.Path) -> Iterator[str]:
    path = room / "script.txt"
    path.write_bytes(START + CAMPAIGN)
    with Running(path).enter() as server:
        for kind, text in [("insert", "# a comment alone"), ("insert", "campaign 1 \\"), ("insert", ""), ("insert", "a=("), ("replace", "campaign 1\n----\nok"), ("replace", "# only"), ("replace", "campaign (1")]:
            status, told = server.do(kind, place=1, text=text)
            if status != 409 or not told["fault"]:
                yield f"{kind} {text!r}: {status} {told.get('rows', told)}"
            if server.look()["of"] != 2 or server.text() != START + CAMPAIGN:
                yield f"{kind} {text!r} changed the script: {server.text()!r}"


def test_an_edit_runs_what_a_session_runs(room: pathlib.Path) -> None:
    """The conversation of docs/USING.md: a raft-state in between runs fewer than 32 of many directives."""
    path = room / "many.txt"
    path.write_bytes(b"log-level info\n----\nok\n\n" * 1000)
    with Running(path).enter() as server:
        assert server.do("insert", place=500, text="log-level info")[0] == 200
        assert (0 < server.state["ran"] < 32, server.state["of"]) == (True, 1001), server.state["ran"]
        assert server.do("undo")[0] == 200 and server.state["ran"] < 32


def test_later_mismatches_are_accepted_with_care(room: pathlib.Path) -> None:
    """As `check --accept`: what is below a new error is left, and said; the file isn't written."""
    path = room / "script.txt"
    path.write_bytes(START + CAMPAIGN + READY)
    with Running(path).enter() as server:
        assert server.do("replace", place=2, text="campaing 1")[0] == 200
        assert server.do("accept", all=True)[0] == 200
        assert any("was not accepted" in it for it in server.state["notes"]), server.state["notes"]
        assert b"campaing 1\n----\nINFO 1 became" in server.text()
        assert server.do("accept", all=True, isSure=True)[0] == 200
        assert b'campaing 1\n----\nerror: unknown directive "campaing"\n\n' in server.text()
        assert server.do("replace", place=2, text="campaign 2")[0] == 200
        assert server.do("accept", place=2)[0] == 200
        assert b"campaign 2\n----\nINFO 2 became candidate at term 1\n\n" in server.text()
    assert path.read_bytes() == START + CAMPAIGN + READY


def test_accepting_all_writes_what_check_writes(room: pathlib.Path) -> Iterator[str]:
    for number, path in enumerate(TOUR):
        data = path.read_bytes().replace(b"became candidate", b"became nothing").replace(b"\n", b"\r\n" if number % 2 else b"\n")
        ours, theirs = room / path.name, room / f"check-{path.name}"
        ours.write_bytes(data)
        theirs.write_bytes(data)
        subprocess.run([PROGRAM, "check", "--accept", "--quiet", theirs], check=False, capture_output=True)
        with Running(ours).enter() as server:
            if server.do("accept", all=True)[0] == 200:
                server.do("save")
        if ours.read_bytes() != theirs.read_bytes():
            yield f"{path.name} differs"


# Branches


def test_branches_go_on_beside_each_other(room: pathlib.Path) -> None:
    path = room / "script.txt"
    path.write_bytes(START + CAMPAIGN + READY)
    with Running(path).enter() as server:
        assert server.do("fork", place=1)[0] == 200
        assert (server.state["branch"], server.state["of"], [it["directives"] for it in server.state["branches"]]) == (2, 1, [3, 1])
        assert server.do("insert", place=1, text="campaign 3")[0] == 200
        assert server.text().endswith(b"INFO 3 became candidate at term 1\n\n")
        assert server.look(branch=1)["of"] == 3 and server.look(branch=2)["of"] == 2
        assert server.do("close")[1]["fault"] == "this branch isn't saved"
        assert server.do("save")[0] == 200
        assert path.read_bytes() == server.text()
        server.look(branch=1)
        assert server.do("close", isSure=True)[0] == 200 and server.state["branch"] == 2


# The file


def test_saving_keeps_mode_and_link(room: pathlib.Path) -> None:
    path, link = room / "script.txt", room / "link.txt"
    path.write_bytes(START)
    path.chmod(0o640)
    if os.geteuid() == 0:
        os.chown(path, 1234, 2345)
    link.symlink_to("script.txt")
    before = path.stat()
    with Running(link).enter() as server:
        server.do("insert", place=1, text="campaign 1")
        assert server.do("save")[0] == 200
    after = path.stat()
    assert link.is_symlink() and path.read_bytes() == START + CAMPAIGN
    assert (after.st_mode, after.st_uid, after.st_gid) == (before.st_mode, before.st_uid, before.st_gid)
    assert after.st_ino != before.st_ino and sorted(it.name for it in room.iterdir()) == ["link.txt", "script.txt"]


def test_never_writes_over_others(room: pathlib.Path) -> None:
    path = room / "script.txt"
    path.write_bytes(START)
    with Running(path).enter() as server:
        server.do("insert", place=1, text="campaign 1")
        put(path, START + b"# theirs\n")
        server.comes("isTheirs", True)
        status, told = server.do("save")
        assert status == 409 and "somebody else" in told["fault"] and path.read_bytes() == START + b"# theirs\n"
        server.look()
        assert server.do("load")[0] == 200 and server.text() == START + b"# theirs\n"
        assert server.do("undo")[0] == 200 and server.text() == START + CAMPAIGN
        assert server.do("save")[0] == 200 and path.read_bytes() == START + CAMPAIGN


def test_a_change_on_disk_shows_at_once(room: pathlib.Path) -> None:
    """Also one that is written into the file itself."""
    path = room / "script.txt"
    path.write_bytes(START)
    with Running(path).enter() as server:
        path.write_bytes(START + CAMPAIGN)
        server.comes("of", 2)
        assert server.state["isSaved"]
        path.write_bytes(START + b"campaign 1\n")
        server.comes("fault", "NoSeparator")
        assert server.state["of"] == 2
        path.write_bytes(START)
        server.comes("of", 1)
        assert server.state["fault"] == ""


def test_a_file_that_vanishes_is_made_again(room: pathlib.Path) -> None:
    path = room / "script.txt"
    path.write_bytes(START)
    with Running(path).enter() as server:
        path.unlink()
        server.comes("fault", "gone")
        assert server.text() == START and not path.exists()
        assert not server.state["isSaved"]
        assert server.do("save")[0] == 200 and path.read_bytes() == START and server.state["isSaved"]
        path.unlink()
        server.comes("fault", "gone")
        put(path, START)
        server.comes("fault", "")
        assert server.state["isSaved"] and not server.state["isTheirs"]


class Watched(ScriptFile):
    """A file to which somebody does something just when it has been read to be saved."""

    def __init__(self, path: pathlib.Path, does: Callable[[], object]) -> None:
        super().__init__(path)
        self.does = does

    def _old(self, is_new: bool) -> os.stat_result | None:
        self.does()
        return super()._old(is_new)


def test_what_can_t_be_written_stays(room: pathlib.Path) -> Iterator[str]:
    """A folder that takes no file, as a user without rights: the script stays, and the reason is said."""
    path = room / "script.txt"
    path.write_bytes(START)
    file = ScriptFile(path)
    path.write_bytes(CAMPAIGN)
    try:
        file.save(START + CAMPAIGN)
        yield "it wrote over another's"
    except Theirs as theirs:
        if str(theirs) != "the file was changed by somebody else" or path.read_bytes() != CAMPAIGN:
            yield f"{theirs}"
    meanwhile: list[tuple[Callable[[], object], str]] = [(lambda: path.write_bytes(START), "the file was changed by somebody else"), (path.unlink, "the file is gone")]
    for does, said in meanwhile:
        file = Watched(path, does)
        try:
            file.save(START + CAMPAIGN)
            yield "it wrote over what came once it had looked"
        except Theirs as theirs:
            if str(theirs) != said or path.exists() and path.read_bytes() != START:
                yield f"{theirs}"
    gone = ScriptFile(room / "new.txt")
    (room / "new.txt").write_bytes(b"x")
    try:
        gone.save(START)
        yield "it wrote over a new one"
    except Theirs:
        pass
    if (room / "new.txt").read_bytes() != b"x" or [it for it in room.iterdir() if it.name.endswith(".new")]:
        yield "something is left"


def test_an_unproved_program_of_a_clone_saves_only_if_allowed(room: pathlib.Path) -> None:
    from live.live import UNPROVED, Live
    path = room / "script.txt"
    path.write_bytes(START)
    live = Live(path, Program(PROGRAM, may_save=False))
    try:
        live.do({"do": "insert", "version": 0, "place": 1, "text": "campaign 1"})
        try:
            live.do({"do": "save", "version": 1})
            raise AssertionError("it saved")
        except Exception as refused:
            assert str(refused) == UNPROVED
        assert path.read_bytes() == START
    finally:
        live.close()


# What may be done, completion, own nodes, books


def test_what_a_node_may_do_is_in_the_words_of_the_program(room: pathlib.Path) -> None:
    """docs/SCRIPTS.md, `campaign`: `leader` if it leads, `not a voter`; `propose`: dropped without a leader; `compact`: already compacted."""
    path = room / "script.txt"
    path.write_bytes(b"add-nodes 3 voters=(1,2) learners=(3) index=10 log-level=none\n----\nok\n\nlog-level none\n----\nok\n\ncampaign 1\n----\nok\n\nstabilize\n----\nok\n\n")
    with Running(path).enter() as server:
        status, told = server.post("/may", {"branch": 1, "place": 4})
        assert status == 200, told
        one, two, three = (told["nodes"][it] for it in "123")
        assert (one["campaign"], two["campaign"], three["campaign"]) == ("leader", "", "not a voter")
        assert (one["process-ready"], one["propose"], one["tick-heartbeat"], one["compact"]) == ("has nothing ready", "", "", "")
        assert (one["transfer-leadership"], two["transfer-leadership"]) == ("it leads already", "")
        assert (one["forget-leader"], two["forget-leader"]) == ("it is no follower, but leader", "")
        before = server.post("/may", {"branch": 1, "place": 1})[1]["nodes"]["1"]
        assert (before["propose"], before["transfer-leadership"], before["compact"], before["forget-leader"]) == ("dropped a proposal", "there is no leader", "already compacted", "it has no leader")


def test_what_a_restart_loses_is_in_the_words_of_the_program(room: pathlib.Path) -> None:
    """docs/USING.md, "Reasons": of each node that would lose something, what that is; also where the script hides what nodes tell."""
    heads = ["add-nodes 3 voters=(1,2,3) index=10", "campaign 1", "stabilize", "propose 1 a", "propose 1 b", "process-ready 1", "deliver-msgs 2", "campaign 2"]
    wanted = [
        {}, {"1": "term 1 and the vote for 1"}, {}, {"1": "entry 12"}, {"1": "entries 12..13"}, {}, {"2": "entries 12..13"},
        {"2": "entries 12..13, term 2 and the vote for 2"},
    ]
    path = room / "script.txt"
    path.write_bytes("".join(f"{head} log-level=none\n----\nok\n\n" for head in heads).rstrip("\n").encode())
    with Running(path).enter() as server:
        told = [server.post("/losses", {"branch": 1, "place": place}) for place in range(len(heads) + 2)]
        assert [status for status, _ in told] == [409, *[200] * len(heads), 409], told
        assert [it["nodes"] for _, it in told[1:-1]] == wanted, told


def test_words_are_completed(room: pathlib.Path) -> None:
    path = room / "script.txt"
    path.write_bytes(START)
    with Running(path).enter() as server:
        status, told = server.post("/ask", {"branch": 1, "place": 1, "text": "camp", "line": 0, "character": 4, "isNew": True})
        assert status == 200 and [(it["label"], it["text"], it["from"]) for it in told["items"]] == [("campaign", "campaign", 0)], told
        told = server.post("/ask", {"branch": 1, "place": 1, "text": "# c\ncampaign ", "line": 1, "character": 9, "isNew": True})[1]
        assert {"1", "2", "3"} < {it["label"] for it in told["items"]}, told
        told = server.post("/ask", {"branch": 1, "place": 1, "text": "campain 1", "line": 0, "character": 9, "isNew": True})[1]
        assert any('did you mean "campaign"' in it for it in told["hints"]), told


def test_own_nodes_run_beside(room: pathlib.Path) -> None:
    """nodes/plain is a reference of its own; with a planted bug it differs, and breaks a promise or prints something else."""
    path = room / "script.txt"
    shutil.copy(TOUR[0], path)
    for command, is_same in [(f"{TOP}/nodes/plain", True), (f"{TOP}/nodes/plain --bug votes-twice", False)]:
        with Running(path, "--with", command).enter() as server:
            status, told = server.post("/theirs", {"branch": 1})
            assert status == 200 and told["faults"] == [], told
            wanted = [row[1] for row in server.state["rows"] if row[0] == "output"]
            assert told["outputs"]["1"] == wanted[:3], told
            assert (not told["differences"] and not told["broken"]) == is_same, told


def test_a_script_with_steps_of_the_network_runs_on_own_nodes(room: pathlib.Path) -> None:
    """As `raftbench-nodes explore` writes what it finds: its cuts are comments, which the nodes carry out and the reference can't."""
    path = room / "script.txt"
    shutil.copy(TOP / "examples" / "classics" / "entry-of-an-earlier-term.txt", path)
    with Running(path, "--with", f"{TOP}/nodes/plain").enter() as server:
        status, told = server.post("/theirs", {"branch": 1})
        assert status == 200 and told["faults"] == [] and not told["differences"] and not told["broken"], told
        assert len(told["outputs"]) == server.state["of"] > 20, told


def test_a_book_has_all_scripts_of_a_folder(room: pathlib.Path) -> Iterator[str]:
    """The program writes it; what a book has, tests/page/test_book.py tells."""
    from tests.live.running import COMMAND, around
    folder, site = room / "scripts", room / "site"
    folder.mkdir()
    for path in TOUR[:2]:
        shutil.copy(path, folder)
    for again in range(2):
        done = subprocess.run([COMMAND, "--book", folder, "--out", site], env=around(), capture_output=True, text=True, check=False)
        if done.returncode or done.stderr or not all((site / f"{path.stem}.html").is_file() for path in TOUR[:2]):
            yield f"{again}: {done}"
    (site / "mine").write_text("x")
    before = sorted(site.iterdir())
    done = subprocess.run([COMMAND, "--book", folder, "--out", site], env=around(), capture_output=True, text=True, check=False)
    if done.returncode != 4 or "has something else in it" not in done.stderr or sorted(site.iterdir()) != before:
        yield f"{done}"


def test_a_book_may_have_only_what_differs(room: pathlib.Path) -> Iterator[str]:
    """A book of the scripts that differ, as a CI job keeps it: scripts in subfolders are in it, and an older book is replaced."""
    from tests.live.running import COMMAND, around
    folder, site = room / "scripts", room / "site"
    (folder / "more").mkdir(parents=True)
    (folder / "right.txt").write_bytes(START)
    wrong = folder / "more" / "wrong.txt"
    for data, status, files in [(START.replace(b"INFO 2", b"INFO 3"), 1, {"index.html", "more", "page.css", "page.js"}), (START, 0, {"index.html", "page.css", "page.js"})]:
        wrong.write_bytes(data)
        done = subprocess.run([COMMAND, "--book", folder, "--out", site, "--differing"], env=around(), capture_output=True, text=True, check=False)
        contents = (site / "index.html").read_text()
        if (done.returncode, done.stderr) != (status, "") or {it.name for it in site.iterdir()} != files:
            yield f"{done} {sorted(site.iterdir())}"
        if ("more/wrong, differs" in contents, "right" in contents, "No script differs." in contents) != (status == 1, False, status == 0):
            yield contents
