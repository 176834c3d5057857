"""What editors/ does for those who write scripts: Vim's and Neovim's list of problems, folds and completion; what Visual Studio Code
takes for a script, its snippets and its list of problems, those of Emacs and Kakoune; the directive that git names above a hunk; and scripts from etcd.

Directives, options and values are compared with those of docs/SCRIPTS.md. An editor that isn't here is not tried.
"""
import functools
import json
import os
import pathlib
import re
import shutil
import subprocess
import sys
import tempfile
from collections.abc import Callable, Iterator, Sequence
from typing import Any

from tests.harness import PROGRAM, TOP, NotHere, Result, matched, result_of

VIM = TOP / "editors/vim"
VSCODE = TOP / "editors/vscode"
WRONG = """# One directive agrees.
add-nodes 1 voters=(1) index=10
----
no:7: x

raft-state
----
----
1 follower term=0 vote=0 lead=0 commit=10 applied=10 content=0:""
----
----

log-level \\
  info
----
yes
"""


def table() -> Any:
    """The directives of docs/SCRIPTS.md with their options."""
    text = (TOP / "docs/SCRIPTS.md").read_text()
    rows = re.findall(r"^\| `([a-z-]+)` \|[^|]*\|([^|]*)\|[^|]*\|$", text, re.M)
    return {name: re.findall(r"`([a-z0-9-]+)`", options) for name, options in rows}


def message_types() -> list[str]:
    text = (TOP / "docs/SCRIPTS.md").read_text().split("| Message | Ends in |")[1].split("\n\n")[0]
    return sorted(set(re.findall(r"Msg\w+", text)) | {"MsgUnreachable"})


def by(editor: str, text: str, commands: Sequence[str]) -> Any:
    """What the editor writes down by these commands, each an expression, in a buffer with this script; s:F is the file."""
    if not shutil.which(editor):
        raise NotHere
    with tempfile.TemporaryDirectory() as folder:
        room = pathlib.Path(folder)
        (room / "a script.txt").write_text(text)
        lines = ["set nocompatible", "filetype plugin on", f"let g:raftbench_program = '{PROGRAM}'", "execute 'edit ' . fnameescape($SCRIPT)"]
        (room / "asked.vim").write_text("\n".join([*lines, "let s:out = []", *commands, "call writefile(s:out, $SHOWN)", "qall!", ""]))
        around = {**os.environ, "HOME": str(room), "SCRIPT": str(room / "a script.txt"), "SHOWN": str(room / "shown")}
        words: list[str | pathlib.Path] = [editor, "-es", "-u", "NONE", "-i", "NONE", "--cmd", f"set runtimepath^={VIM}", "-S", room / "asked.vim"]
        subprocess.run(words, env=around, timeout=60, capture_output=True, stdin=subprocess.DEVNULL, cwd=room)
        return (room / "shown").read_text().splitlines()


def lists_problems(editor: str) -> None:
    show = "for s:it in getqflist() | if s:it.valid | call add(s:out, fnamemodify(bufname(s:it.bufnr), ':t') . ':' . s:it.lnum . ':' . s:it.text) | endif | endfor"
    came = by(editor, WRONG, ["silent make", show])
    assert [line.split(":")[:2] for line in came] == [["a script.txt", "2"], ["a script.txt", "13"]], came
    assert "add-nodes" in came[0] and "log-level" in came[1], came
    refused = by(editor, "add-nodes 1\n----\nok\n----\n----\n\n", ["silent make", show])
    assert len(refused) == 1 and refused[0].startswith("a script.txt:2:the output below"), refused


def folds(editor: str) -> None:
    ask = "call extend(s:out, map(range(1, line('$')), 'foldlevel(v:val)'))"
    close = "set foldlevel=0 | for s:n in range(1, line('$')) | call add(s:out, foldclosed(s:n)) | endfor | 12 | call add(s:out, foldtextresult(12))"
    came = by(editor, WRONG, [ask, close])
    count = len(WRONG.splitlines())
    assert came[:count] == ["1"] * count, came
    # Three blocks, whose first lines are 1, 6 and 13.
    assert came[count:-1] == ["1"] * 5 + ["6"] * 7 + ["13"] * 4, came
    assert came[-1].endswith('raft-state  (1 line)'), came


def completes(editor: str) -> None:
    # The cursor stands behind the line, as where one writes.
    asked = ["set virtualedit=onemore", "call append(line('$'), ['', ''])"]
    for line in ["", "add-n", "add-nodes 1 ", "add-nodes 1 in", "add-nodes 1 prevote=", "deliver-msgs 1 type=(MsgApp,Msg", "log-level ",
                 "stabilize log-level=n", "propose-conf-change 1 transition=e", "add-nodes 1 index=3 in"]:
        asked += [f"call setline('$', '{line}')", "call cursor(line('$'), 1)", "call cursor('.', col('$'))",
                  "let s:from = raftbench#Complete(1, '')", f"call add(s:out, join(raftbench#Complete(0, strpart('{line}', s:from))))"]
    # Within an expectation nothing is completed, and in a continued head what its first line asks for.
    asked += ["call cursor(4, 3)", "call add(s:out, raftbench#Complete(1, ''))"]
    asked += ["call setline(14, '  ')", "call cursor(14, 3)", "call raftbench#Complete(1, '')", "call add(s:out, join(raftbench#Complete(0, '')))"]
    came = by(editor, WRONG, asked)
    options = table()
    assert len(options) > 10
    every = [f"{key}=" for key in options["add-nodes"] + ["log-level"]]
    levels = "debug info warn error fatal none"
    assert came == [
        " ".join(sorted(options)), "add-nodes", " ".join(every), "index= inflight=", "true false", " ".join(message_types()),
        f"{levels} log-level=", "none", "explicit", "inflight=", "-3", f"{levels} log-level=",
    ], came


def knows_each_option() -> None:
    text = (VIM / "autoload/raftbench.vim").read_text().split("let s:directives = {")[1].split("}")[0]
    found = {name: re.findall(r"'([^']+)'", options) for name, options in re.findall(r"'([a-z-]+)': \[([^\]]*)\]", text)}
    wanted = {name: options for name, options in table().items()}
    assert {name: sorted(options) for name, options in found.items()} == {name: sorted(options) for name, options in wanted.items()}, found


# Texts, and whether an editor takes them for a script. A mistake in the first directive's name is one letter, or there are more directives.
TEXTS = [
    ("# a comment\n\nadd-nodes 1\n----\n", True), ("  log-level \\\nnone\n ---- \n", True), ("campaign 1\n\n----\n", True),
    ("add-node 1\n----\n", True), ("tcik-election 1\n----\n", True), ("propse 1 a\n----\n", True), ("raft-states\n----\n", True), ("stabilise\n----\n", True),
    ("nodes 3\n----\nerror\n\n# a comment\ncampaign 1\n----\n", True), ("nodes 3\n\nnone\n----\n\npropose-conf-change 1\nl4\n----\n", True),
    ("# a comment\n", False), ("", False), ("status quo\n", False), ("only text\n----\n", False), ("add-nods 1\n", False), ("ad-node 1\n----\n", False),
    ("Status\n----\n", False), ("status\n-----\n", False), ("----\n", False), ("text\n----\n\nstatus quo\n\nmore\n----\n", False), ("text\ncampaign\n----\n", False),
    ("text\n" * 500 + "campaign 1\n----\n", False),
]


def is_a_script_to_vscode() -> None:
    if not shutil.which("node"):
        raise NotHere
    texts = [*TEXTS, ("campaign 1\r\n----\r\n", True)]
    texts += [(path.read_text(), True) for path in sorted(TOP.glob("examples/tour/*.txt"))]
    texts += [(f"{name} 1\n----\n", True) for name in table()]
    asked = f"const {{ isScript }} = require({json.dumps(str(VSCODE / 'detect.js'))}); console.log(JSON.stringify(JSON.parse(require('fs').readFileSync(0)).map(isScript)))"
    done = subprocess.run(["node", "-e", asked], input=json.dumps([text for text, _ in texts]), capture_output=True, text=True, check=True)
    assert json.loads(done.stdout) == [wanted for _, wanted in texts], done.stdout


# One new file is typed, another one pasted, and a third is filled without a sign of it and saved.
NEW_FILES = r"""
for s:it in json_decode(readfile($TEXTS)[0])
  edit typed.txt
  execute 'normal! i' . s:it . "\<Esc>"
  call add(s:out, &filetype)
  bwipeout!
  edit pasted.txt
  call setline(1, split(s:it, "\n"))
  doautocmd TextChanged
  call add(s:out, &filetype)
  bwipeout!
  edit saved.txt
  call setline(1, split(s:it, "\n"))
  let s:before = &filetype
  silent write
  call add(s:out, s:before . ' ' . &filetype)
  set filetype=other
  silent write
  call add(s:out, &filetype)
  bwipeout
  call delete('saved.txt')
endfor
"""


def takes_new_files(editor: str) -> None:
    """A new file is a script once it looks like one: after typing, a paste or saving. A filetype that somebody chose stays."""
    with tempfile.TemporaryDirectory() as room:
        texts = pathlib.Path(room, "texts.json")
        texts.write_text(json.dumps([text for text, _ in TEXTS]))
        came = by(editor, "", ["set hidden", f"let $TEXTS = '{texts}'", *NEW_FILES.splitlines()])
    wanted = [line for _, is_script in TEXTS for line in (*(("raftbench", "raftbench", "text raftbench") if is_script else ("text", "text", "text text")), "other")]
    assert came == wanted, came


def snippets() -> Any:
    return json.loads((VSCODE / "snippets/raftbench.json").read_text())


def expanded(body: Any) -> str:
    text = re.sub(r"\$\{\d+:([^}]*)\}", r"\1", "\n".join(body))
    return re.sub(r"\$\{\d+\|([^,|]*)[^}]*\}", r"\1", text).replace("$0", "")


def has_snippets() -> None:
    """One for each directive; below a cluster with a leader each does something, and is no error."""
    found = snippets()
    assert sorted(it["prefix"] for it in found.values()) == sorted([*table(), "elected"]), found
    before = expanded(found["an elected leader"]["body"])
    done = subprocess.run([PROGRAM, "run", "-"], input=before, capture_output=True, text=True)
    assert done.stdout.endswith("\n3 directives, 1 mismatches\n"), done
    for name, it in found.items():
        text = before + "propose 1 a\n----\nok\n\nstabilize log-level=none\n----\nok\n\n" + expanded(it["body"])
        done = subprocess.run([PROGRAM, "rewrite", "-"], input=text, capture_output=True, text=True)
        assert done.returncode == 0 and "\nerror: " not in done.stdout, (name, done)
        assert done.stdout.count("\n----\n") >= 5, (name, done.stdout)


def task() -> Any:
    """The task of editors/README.md."""
    text = (TOP / "editors/README.md").read_text()
    return json.loads(matched(r"(?s)^    (\{ \"version\".*?\}\] \})$", text)[1])["tasks"][0]


def lists_problems_in_vscode() -> None:
    """What the task of editors/README.md shows, by the matcher that it names; by JavaScript's expressions, where node is here."""
    matcher = json.loads((VSCODE / "package.json").read_text())["contributes"]["problemMatchers"][0]
    pattern, asked = matcher["pattern"], task()
    assert asked["problemMatcher"] == f"${matcher['name']}" and asked["command"] == "raftbench", asked
    with tempfile.TemporaryDirectory() as room:
        path = pathlib.Path(room) / "a script.txt"
        path.write_text(WRONG)
        done = subprocess.run([PROGRAM, *(word.replace("${file}", str(path)) for word in asked["args"])], cwd=room, capture_output=True, text=True)
    lines = done.stdout.splitlines()
    if shutil.which("node"):
        words = f"const to = new RegExp({json.dumps(pattern['regexp'])}); console.log(JSON.stringify(JSON.parse(require('fs').readFileSync(0)).map(it => to.exec(it))))"
        told = subprocess.run(["node", "-e", words], input=json.dumps(lines), capture_output=True, text=True, check=True).stdout
        found = [match for match in json.loads(told) if match]
    else:
        found = [match for match in map(re.compile(pattern["regexp"]).match, lines) if match]
    assert [(it[pattern["file"]], it[pattern["line"]]) for it in found] == [(str(path), "2"), (str(path), "13")], found
    assert found[0][pattern["message"]].startswith("add-nodes")


EMACS = """
(require 'compile)
(find-file "a script.txt")
(let ((buffer (compilation-start (concat (shell-quote-argument (getenv "PROGRAM")) " check --color never 'a script.txt'"))))
  (while (get-buffer-process buffer) (accept-process-output nil 0.05))
  (setq next-error-last-buffer buffer)
  (ignore-errors
    (while t
      (next-error)
      (with-current-buffer (window-buffer) (princ (format "%s %d\\n" (buffer-name) (line-number-at-pos)))))))
"""


def lists_problems_in_emacs() -> None:
    """By what it knows itself; a line of an output that looks like a place in a file is one more to it."""
    if not shutil.which("emacs"):
        raise NotHere
    with tempfile.TemporaryDirectory() as room:
        (pathlib.Path(room) / "a script.txt").write_text(WRONG.replace("no:7: x", "no"))
        (pathlib.Path(room) / "asked.el").write_text(EMACS)
        around = {**os.environ, "HOME": room, "PROGRAM": str(PROGRAM)}
        done = subprocess.run(["emacs", "--batch", "-Q", "-l", "asked.el"], cwd=room, capture_output=True, text=True, env=around, timeout=60)
    assert done.returncode == 0 and done.stdout.splitlines() == ["a script.txt 2", "a script.txt 13"], done


# Goes to each mismatch once the check has ended, from the first line of its output on.
KAKOUNE = """
source "%val{runtime}/rc/tools/make.kak"
source settings.kak
hook global BufCloseFifo .* %{
  try %{ evaluate-commands -client client0 %{ make-next-error; nop %sh{ echo "$kak_bufname:$kak_cursor_line" >>shown } } }
  try %{ evaluate-commands -client client0 %{ make-next-error; nop %sh{ echo "$kak_bufname:$kak_cursor_line" >>shown } } }
  kill!
}
make scripts
"""


def lists_problems_in_kakoune() -> None:
    """By the two settings of editors/README.md."""
    if not shutil.which("kak"):
        raise NotHere
    settings = re.findall(r"^    (set-option global make.*)$", (TOP / "editors/README.md").read_text(), re.M)
    assert len(settings) == 2 and "'raftbench check" in settings[0], settings
    with tempfile.TemporaryDirectory() as folder:
        room = pathlib.Path(folder)
        (room / "scripts").mkdir()
        (room / "scripts/a.txt").write_text(WRONG.replace("no:7: x", "no"))
        (room / "settings.kak").write_text("\n".join(settings).replace("'raftbench", f"'{PROGRAM}"))
        (room / "asked.kak").write_text(KAKOUNE)
        around = {**os.environ, "HOME": folder, "XDG_RUNTIME_DIR": folder}
        subprocess.run(["kak", "-n", "-ui", "dummy", "-e", "source asked.kak"], cwd=room, stdin=subprocess.DEVNULL, capture_output=True, env=around, timeout=60)
        assert sorted((room / "shown").read_text().split()) == ["scripts/a.txt:13", "scripts/a.txt:2"], (room / "shown").read_text()


def is_named_by_git() -> None:
    """By the two lines of editors/README.md."""
    text = (TOP / "editors/README.md").read_text()
    attributes = matched(r"^    echo '(\S+) (diff=raftbench)' >> \.gitattributes$", text)
    pattern = matched(r"^    git config diff\.raftbench\.xfuncname '(.*)'$", text)[1]
    named = matched(r"\(((?:[a-z-]+\|)+[a-z-]+)\)", pattern)[1].split("|")
    assert sorted(named) == sorted(table()), named
    with tempfile.TemporaryDirectory() as room:
        scripts = pathlib.Path(room, "scripts")
        scripts.mkdir()
        path = scripts / "one.txt"
        lines = "".join(f"INFO line {n}\n" for n in range(9))
        path.write_text(f"stabilize 1 2\n----\n{lines}campaign\n")
        pathlib.Path(room, ".gitattributes").write_text(f"{attributes[1]} {attributes[2]}\n")
        git = ["git", "-C", room, "-c", "user.name=x", "-c", "user.email=x@x", "-c", f"diff.raftbench.xfuncname={pattern}"]
        for words in (["init", "-q"], ["add", "."], ["commit", "-q", "-m", "one"]):
            subprocess.run([*git, *words], check=True, capture_output=True)
        path.write_text(path.read_text().replace("line 8", "line eight"))
        diff = subprocess.run([*git, "diff"], capture_output=True, text=True, check=True).stdout
    assert re.search(r"^@@ .* @@ stabilize 1 2$", diff, re.M), diff


# In etcd's form: a lone voter, which there leads at once, and commits as it saves. Twice the campaign is hidden; where all is
# stabilized behind it, nothing is wanted.
FROM_ETCD = """# A comment.
add-nodes 1 voters=(1) index=2
----
INFO 1 switched to configuration voters=(1)
INFO 1 became follower at term 0
INFO newRaft 1 [peers: [1], term: 0, commit: 2, applied: 2, lastindex: 2, lastterm: 1]

campaign 1
----
INFO 1 is starting a new election at term 0
INFO 1 became candidate at term 1
INFO 1 received MsgVoteResp from 1 at term 1
INFO 1 became leader at term 1

propose 1 a
----
ok

process-ready 1
----
Ready MustSync=true:
Lead:1 State:StateLeader
HardState Term:1 Vote:1 Commit:4
Entries:
1/3 EntryNormal ""
1/4 EntryNormal "a"
CommittedEntries:
1/3 EntryNormal ""
1/4 EntryNormal "a"
"""
PUT_IN = ["8: added `process-ready 1` after `campaign 1`: ", "19: added `process-ready 1` after `process-ready 1`: "]


# In the form of 3.6, where a node's own vote counts once it is saved, as here: its scripts have the `process-ready` already.
LATER_FROM_ETCD = """add-nodes 1 voters=(1) index=2
----
INFO 1 switched to configuration voters=(1)
INFO 1 became follower at term 0
INFO newRaft 1 [peers: [1], term: 0, commit: 2, applied: 2, lastindex: 2, lastterm: 1]

campaign 1
----
INFO 1 is starting a new election at term 0
INFO 1 became candidate at term 1

process-ready 1
----
Ready MustSync=true:
State:StateCandidate
HardState Term:1 Vote:1 Commit:2
INFO 1 received MsgVoteResp from 1 at term 1
INFO 1 has received 1 MsgVoteResp votes and 0 vote rejections
INFO 1 became leader at term 1

add-nodes 2 voters=(1) index=2 prevote=true checkquorum=true
----
INFO 2 switched to configuration voters=(1)

propose-conf-change 1 v1=true
v2
----
ok

stabilize
----
> 1 handling Ready

forget-leader 2
----
INFO 2 forgetting leader 1 at term 1

set-randomized-election-timeout 2 timeout=5
----
ok

report-unreachable 1 2
----
ok

send-snapshot 1 3
----
1->3 MsgSnap Term:1 Log:0/0

deliver-msgs type=MsgSnap drop=(3)
----
dropped: 1->3 MsgSnap Term:1 Log:0/0

transfer-leadership from=1 to=2
----
INFO 1 [term 1] starts to transfer leadership to 2
"""


def from_etcd(*words: str | pathlib.Path) -> tuple[int, str, str]:
    done = subprocess.run([sys.executable, TOP / "editors/from-etcd", *words], capture_output=True, text=True)
    return done.returncode, done.stdout, done.stderr


def heads_of(text: str) -> list[str]:
    return [line for before, line in zip(["", *text.splitlines()], text.splitlines()) if before == "" or before.startswith("#") if line[:1] not in ("", "#")]


def takes_scripts_of_etcd() -> None:
    with tempfile.TemporaryDirectory() as folder:
        room = pathlib.Path(folder)
        path = room / "theirs.txt"
        path.write_text(FROM_ETCD)
        status, text, told = from_etcd(path)
        lines = told.splitlines()
        assert status == 0 and len(lines) == 2 and all(it.startswith(f"{path}:{put}") for it, put in zip(lines, PUT_IN)), (status, told)
        assert path.read_text() == FROM_ETCD
        assert heads_of(text) == ["add-nodes 1 voters=(1) index=2", "campaign 1", "process-ready 1", "propose 1 a", "process-ready 1", "process-ready 1"], text
        assert "INFO 1 became leader at term 1" in text and text.count('  apply 1/4 "a"') == 1 and "dropped" not in text, text
        (room / "ours.txt").write_text(text)
        done = subprocess.run([PROGRAM, "run", room / "ours.txt"], capture_output=True, text=True)
        assert done.stdout == "6 directives, 0 mismatches\n", done
        # Taken once more, nothing is put in.
        assert from_etcd(room / "ours.txt") == (0, text, ""), from_etcd(room / "ours.txt")
        # A hidden campaign of the only voter; none where all is stabilized, nor for one of three.
        quiet = "add-nodes 1 voters=(1) index=2\n----\nok (quiet)\n\ncampaign 1\n----\nok (quiet)\n\n"
        for text, count in ((quiet + "propose 1 a\n----\nok\n", 1), (quiet + "stabilize\n----\nok (quiet)\n", 0), (quiet.replace("(1)", "(1,2)"), 0)):
            path.write_text(text)
            status, _, told = from_etcd(path)
            assert (status, told.count("added `process-ready 1`")) == (0, count), (text, told)


def takes_later_scripts_of_etcd() -> None:
    """Nothing is put in, and each directive is known."""
    with tempfile.TemporaryDirectory() as room:
        path = pathlib.Path(room, "theirs.txt")
        path.write_text(LATER_FROM_ETCD)
        status, text, told = from_etcd(path)
    assert (status, told) == (0, ""), (status, told)
    assert heads_of(text) == heads_of(LATER_FROM_ETCD) and "error: " not in text and "INFO 1 became leader at term 1" in text, text


def says_what_it_leaves() -> None:
    with tempfile.TemporaryDirectory() as folder:
        room = pathlib.Path(folder)
        path = room / "theirs.txt"
        path.write_text("add-nodes 3 voters=(1,2,3) index=10 async-storage-writes=true\n----\nok\n\nprocess-append-thread 1\n----\nok\n")
        status, _, told = from_etcd(path)
        assert status == 1 and [line.split("`")[0] for line in told.splitlines()] == [f"{path}:1: ", f"{path}:5: "], told
        assert 'unsupported option "async-storage-writes"' in told and 'unknown directive "process-append-thread"' in told, told
        (room / "no.txt").write_text("campaign 1\n")
        assert from_etcd(room / "no.txt")[0] == 3 and "not a script" in from_etcd(room / "no.txt")[2]
        assert from_etcd(path, path)[0] == 2
        (room / "to").mkdir()
        assert from_etcd(path, "--to", room / "to")[0] == 1 and (room / "to/theirs.txt").exists()
        # Nothing is written over.
        assert from_etcd(path, "--to", room / "to") == (4, "", f"{room}/to/theirs.txt: already exists\n")
        assert from_etcd(room / "nothing")[0] == 4


# What etcd's own scripts need here: what is followed by a `process-ready 1` that is put in, as docs/ETCD.md says; the others need nothing.
NEED = {
    **dict.fromkeys(("confchange_v1_add_single", "confchange_v2_add_single_auto", "confchange_v2_add_single_explicit", "confchange_v2_add_double_implicit"), ["campaign 1"]),
    "confchange_v2_add_double_auto": ["campaign 1", "process-ready 1"],
}


def takes_the_scripts_of_etcd_that_are_here() -> None:
    """Those of Debian's golang-etcd-server-dev: nothing is left, no proposal is dropped that etcd takes, who leads there in a term leads in it here too,
    and what is put in is what they need."""
    found = sorted(pathlib.Path(os.environ.get("ETCD_TESTDATA", "/usr/share/gocode/src/go.etcd.io/etcd/raft/testdata")).glob("*.txt"))
    if not found:
        raise NotHere
    for path in found:
        status, text, told = from_etcd(path)
        assert status == 0 and " is dropped here" not in told, (path, status, told)
        theirs = re.findall(r"INFO (\d+) became leader at term (\d+)", path.read_text())
        assert set(theirs) <= set(re.findall(r"INFO (\d+) became leader at term (\d+)", text)), (path, theirs)
        put = re.findall(r":\d+: added `process-ready 1` after `(.*?)`", told)
        assert put == NEED.get(path.stem, []), (path, told)


CHECKS: list[tuple[str, Callable[[], object]]] = [
    *((f"{check.__name__} in {editor}", functools.partial(check, editor)) for check in (lists_problems, folds, completes, takes_new_files) for editor in ("vim", "nvim")),
    *((check.__name__, check) for check in (knows_each_option, is_a_script_to_vscode, has_snippets, lists_problems_in_vscode, lists_problems_in_emacs, lists_problems_in_kakoune, is_named_by_git, takes_scripts_of_etcd, takes_later_scripts_of_etcd, says_what_it_leaves, takes_the_scripts_of_etcd_that_are_here)),
]


def results(word: str) -> Iterator[Result]:
    """Each check, of each editor that it is of."""
    for name, check in CHECKS:
        if word in name:
            yield result_of(name, check)
