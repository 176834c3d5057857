"""Looks at what editors/ knows of scripts: it names the directives that there are, and tells apart the parts of a script. Vim and
Neovim show them where they are here. The grammar of Visual Studio Code is read by a small reader of such grammars below, which
is not that editor's own.
"""
import json
import os
import pathlib
import re
import shutil
import subprocess
import tempfile
from collections.abc import Callable, Iterator
from typing import Any

from tests.harness import TOP, NotHere, Result, matched, results_of

VIM = TOP / "editors/vim"
VSCODE = TOP / "editors/vscode"
NAME = re.compile(r'(?:Name|NodeCommand|NodeCommandWithArg)::\w+ => b"([a-z-]+)"')

# Lines of a script, each with what is in it: those that Vim shows, in order, and then those of the grammar.
SHOWN = [
    ("# a comment", "Comment", "comment"),
    ("add-nodes 3 voters=(1,2) \\", "Name Number Option Number Number Continued", "keyword numeric parameter numeric numeric escape"),
    ("  content=ab12 index=10", "Option Option Number", "parameter parameter numeric"),
    ("----", "Separator", "separator"),
    ("INFO 1 started at 1/10 with voters=(1,2)", "Level Field", "type parameter"),
    ("# a line of the output", "", ""),
    ("WARN 1 can't campaign: not a voter", "Alarm", "bold"),
    ("", "", ""),
    ("unknown-thing 1", "Unknown Number", "illegal numeric"),
    ("----", "Separator", "separator"),
    ('error: unknown directive "unknown-thing"', "Error String", "illegal"),
    ("", "", ""),
    ("  propose-conf-change 1 v1=true", "Name Number Option", "keyword numeric parameter"),
    ("l4", "Input", "unquoted"),
    ("", "", ""),
    ("v5", "Input", "unquoted"),
    (" ----", "Separator", "separator"),
    ("----", "Separator", "separator"),
    ("ok", "Line", "other"),
    ("", "", ""),
    ('1 follower term=0 content=0:"a"', "Role Field Field String", "language parameter parameter double"),
    ("----", "", ""),
    ("1 ready", "Line", "other"),
    ("----", "Separator", ""),
    ("----", "Separator", "separator"),
    ("raft-state", "Name", "keyword"),
    ("----", "Separator", "separator"),
    ("", "", ""),
    ("status 1", "Name Number", "keyword numeric"),
    ("----", "Separator", "separator"),
    ("  send 1->2 MsgApp term=1", "Line Message Field", "other function parameter"),
]
SCRIPT = "".join(f"{line}\n" for line, _, _ in SHOWN)

# Writes down the filetype, and of each line the names of what is shown in it.
DUMP = """
set nocompatible
filetype plugin on
syntax on
execute 'edit ' . fnameescape($SCRIPT)
let s:out = [&filetype]
for s:n in range(1, line('$'))
  let s:names = ['']
  for s:c in range(1, len(getline(s:n)))
    let s:name = synIDattr(synID(s:n, s:c, 1), 'name')
    if s:names[-1] !=# s:name
      call add(s:names, s:name)
    endif
  endfor
  call add(s:out, join(map(s:names, {_, x -> substitute(x, '^raftbench', '', '')}), ' '))
endfor
call writefile(s:out, $SHOWN)
qall!
"""
# What holds the others.
AROUND = {"", "Plain", "Double", "Arguments"}


def directives() -> list[str]:
    return sorted(name for file in ("node_command", "node_command_with_arg", "name") for name in NAME.findall((TOP / f"crates/rb_directive/src/{file}.rt").read_text()))


def words_in(text: str, known: set[str]) -> list[str]:
    return sorted(set(re.findall(r"[a-z]+(?:-[a-z]+)*", text)) & known)


def names_each_directive() -> None:
    wanted = directives()
    assert len(wanted) > 10, wanted
    syntax = (VIM / "syntax/raftbench.vim").read_text()
    named = "|".join(re.findall(r'raftbenchName "\^\\s\*\\%\((.*?)\\\)\\ze', syntax)).replace("\\", "")
    assert sorted(re.split(r"\|", named)) == wanted, named
    detected = matched(r"(?s)let s:names = (\[.*?\])", (VIM / "ftdetect/raftbench.vim").read_text())[1]
    assert sorted(re.findall(r"'([a-z-]+)'", detected)) == wanted, detected
    grammar = json.loads((VSCODE / "syntaxes/raftbench.tmLanguage.json").read_text())
    head = grammar["repository"]["head"]["begin"]
    first = json.loads((VSCODE / "package.json").read_text())["contributes"]["languages"][0]["firstLine"]
    for pattern in (head, first):
        listed = matched(r"[(:]((?:[a-z-]+\|)+[a-z-]+)\)", pattern)[1]
        assert sorted(listed.split("|")) == wanted, listed
    for name in wanted:
        assert matched(head, name)[1] == name and re.match(first, f"{name} 1"), name
        assert matched(head, f"{name}s")[1] is None and not re.match(first, f"{name}s"), name


def shown_by(editor: list[str], text: str, name: str = "a script.txt") -> tuple[str, list[str]]:
    """The filetype, and what is shown in each line."""
    if not shutil.which(editor[0]):
        raise NotHere
    with tempfile.TemporaryDirectory() as folder:
        room = pathlib.Path(folder)
        (room / name).write_text(text)
        (room / "dump.vim").write_text(DUMP)
        around = {**os.environ, "HOME": str(room), "SCRIPT": str(room / name), "SHOWN": str(room / "shown")}
        words = [*editor, "-u", "NONE", "-i", "NONE", "--cmd", f"set runtimepath^={VIM}", "-S", str(room / "dump.vim")]
        subprocess.run(words, env=around, timeout=60, capture_output=True, stdin=subprocess.DEVNULL)
        kind, *lines = (room / "shown").read_text().splitlines()
    return kind, [" ".join(name for name in line.split() if name not in AROUND) for line in lines]


def is_shown_by(editor: list[str]) -> None:
    kind, lines = shown_by(editor, SCRIPT)
    assert kind == "raftbench", kind
    for (line, wanted, _), came in zip(SHOWN, lines, strict=True):
        assert came == wanted, (line, came, wanted)
    for path in sorted(TOP.glob("examples/tour/*.txt")):
        text = path.read_text()
        kind, lines = shown_by(editor, text)
        heads = sum(line.startswith("Name") for line in lines)
        separators = sum(line == "----" for line in text.splitlines())
        assert kind == "raftbench" and heads == separators and "Unknown" not in "".join(lines), (path.name, kind, heads)
    for text in ("only text\n----\n", "status quo\n", "# a comment\n"):
        assert shown_by(editor, text)[0] == "text", text
    assert shown_by(editor, SCRIPT, "a script.md")[0] == "markdown"


def is_shown_by_vim() -> None:
    is_shown_by(["vim", "-es"])


def is_shown_by_neovim() -> None:
    is_shown_by(["nvim", "-es"])


# A rule of a grammar, as its JSON has it.
Rule = dict[str, Any]


class Grammar:
    """Reads a text by the rules of a grammar: at each place the first rule that matches from there on, where the end of the rule
    that it is in comes before the rules in it.
    """

    def __init__(self, path: pathlib.Path) -> None:
        self.rules = json.loads(path.read_text())

    def within(self, rule: Rule) -> Iterator[Rule]:
        """The rules in a rule, with those that are included."""
        for inner in rule.get("patterns", []):
            inner = self.rules["repository"][inner["include"][1:]] if "include" in inner else inner
            if "match" in inner or "begin" in inner:
                yield inner
            else:
                yield from self.within(inner)

    def next_in(self, rule: Rule, line: str, at: int, start: int | None) -> tuple[int, int, re.Match[str], Rule | None] | None:
        """The first match from a place on, with its rule; none where the rule that it is in ends."""
        found: list[tuple[int, int, re.Match[str], Rule | None]] = []
        for i, inner in enumerate(([rule] if "end" in rule else []) + list(self.within(rule))):
            ends = i == 0 and "end" in rule
            pattern = rule["end"] if ends else inner.get("match") or inner["begin"]
            if pattern.startswith("\\G"):
                match = re.compile(pattern[2:]).match(line, at) if at == start else None
            else:
                match = re.compile(pattern).search(line, at)
            if match:
                found.append((match.start(), i, match, None if ends else inner))
        found.sort(key=lambda it: it[:2])
        return found[0] if found else None

    def names(self, text: str) -> list[str]:
        """Of each line, the names that its parts have."""
        inside, named = [self.rules], []
        start: int | None = None
        is_joined = False
        for line in text.splitlines(keepends=True):
            at, tries = 0, 0
            shown: list[str] = []
            start = 0 if is_joined else None
            is_joined = False
            while (found := self.next_in(inside[-1], line, at, start)) and tries < 100:
                tries += 1
                _, _, match, rule = found
                captures = (rule or inside[-1]).get("beginCaptures" if rule else "endCaptures", {})
                shown += [rule["name"]] if rule and "match" in rule and "name" in rule else []
                shown += [captures[key]["name"] for key in sorted(captures) if match.group(int(key))]
                if rule is None:
                    inside.pop()
                elif "begin" in rule:
                    inside.append(rule)
                    start = match.end()
                elif match.end() == at:
                    break
                at = match.end()
                if at == len(line) and rule and "begin" in rule:
                    is_joined = True
                    break
            named.append(" ".join(name.split(".")[-2] for name in shown))
        assert len(inside) <= 3, inside
        return named


SHORT = {"number-sign": "comment", "control": "keyword"}


def is_told_apart_by_the_grammar() -> None:
    grammar = Grammar(VSCODE / "syntaxes/raftbench.tmLanguage.json")
    for (line, _, wanted), came in zip(SHOWN, grammar.names(SCRIPT), strict=True):
        came = " ".join(SHORT.get(name, name) for name in came.split())
        assert came == wanted, (line, came, wanted)
    for path in sorted(TOP.glob("examples/tour/*.txt")):
        text = path.read_text()
        heads = sum(line.startswith("control") for line in grammar.names(text))
        assert heads == sum(line == "----" for line in text.splitlines()), (path.name, heads)


CHECKS: list[Callable[[], None]] = [names_each_directive, is_shown_by_vim, is_shown_by_neovim, is_told_apart_by_the_grammar]


def results(word: str) -> Iterator[Result]:
    """Each check."""
    yield from results_of(CHECKS, word)
