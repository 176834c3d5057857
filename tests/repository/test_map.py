"""Compares the documents with the tree, and looks for what nothing cites.

What stands at the top is named in docs/ARCHITECTURE.md's table of it, and what that table names is there; its other table names each
crate. Each definition module, each source file and each file of lemmas says in its first line what it is. What a crate's part of
docs/ARCHITECTURE.md names of sources is in the tree. Each function of the walks at the end of
docs/ARCHITECTURE.md stands in the file named, and a function before it calls it, by name: nothing tells whether it is the one that is meant, so
a call through a trait is seen as any other. The numbers of a walk are those of its list. Each definition and each lemma is cited
somewhere beside its own equations. Each public function of a library has a clause. Each file has at most 800 lines.
"""
import collections
import itertools
import pathlib
import re
import subprocess
import typing
from collections import Counter
from collections.abc import Iterator

from tests.harness import TOP, matched
from tests.repository.crate_map import CRATES, files_of, first_line, is_test

MOST_LINES = 800
TOKEN = re.compile(r"[A-Za-z_][\w'-]*|◌[^\s◌]+◌|[^\s\w()\[\]{},;.:]+")
DECLARED = re.compile(r"( *)(?:abbrev |unfoldable )?(?:pub )?(?:record |data )?([A-Za-z_][\w'-]*)(?: [^=]*)? : ")
IMPORT = re.compile(r"\s*(?:ghost |pub )?use ")
FIELD = re.compile(r" +pub ")


def parts_of(document: str) -> dict[str, list[str]]:
    """The lines of a document's part on each crate."""
    parts: dict[str, list[str]] = {}
    crate = None
    for line in (TOP / "docs" / document).read_text().splitlines():
        if line.startswith("## "):
            crate = line[3:].strip()
        elif crate:
            parts.setdefault(crate, []).append(line)
    return parts


def at_the_top() -> set[str]:
    """What stands at the top; in a clone, what is kept of it."""
    if (TOP / ".git").exists():
        kept = subprocess.run(["git", "-c", "safe.directory=*", "ls-files", "-z"], cwd=TOP, capture_output=True, check=True).stdout.decode()
        return {path.split("/")[0] for path in kept.split("\0") if path}
    return {path.name for path in TOP.iterdir()}


def test_top_is_named() -> Iterator[str]:
    rows = (TOP / "docs" / "ARCHITECTURE.md").read_text().split("| At the top | Is |\n|---|---|\n")[1].split("\n\n")[0]
    named = {name.strip().split("/")[0] for row in rows.splitlines() for name in row.split("|")[1].split(",")}
    there = at_the_top() - {".gitignore"}
    for name in sorted(there - named):
        yield f"the map doesn't name {name}, which stands at the top"
    for name in sorted(named - there):
        yield f"the map names {name}, which doesn't stand at the top"


def test_files_say_what_they_are() -> Iterator[str]:
    for crate in sorted(CRATES.iterdir()):
        for path in itertools.chain(*files_of(crate)):
            if not first_line(path):
                yield f"{path.relative_to(TOP)} doesn't say in its first line what it is"


def test_crates_are_named() -> Iterator[str]:
    """The table of docs/ARCHITECTURE.md names each crate, and no other."""
    rows = (TOP / "docs" / "ARCHITECTURE.md").read_text().split("| Crate | Does |\n|---|---|\n")[1].split("\n\n")[0].splitlines()
    named = {name.strip() for row in rows for name in row.split("|")[1].split(",")}
    there = {path.name for path in CRATES.iterdir()}
    for name in sorted(there ^ named):
        yield f"the table of crates and the tree differ in {name}"


def test_named_files_are_there() -> Iterator[str]:
    """The source files that a crate's part of ARCHITECTURE.md names are there."""
    for crates, lines in parts_of("ARCHITECTURE.md").items():
        folders = [CRATES / name for name in re.findall(r"\brb_\w+|\braftbench\b", crates)]
        sources = {path.name for folder in folders for path in folder.glob("src/**/*.rt")}
        for name in sorted(set(re.findall(r"\b[a-z_]+\.rt\b", "\n".join(lines))) - sources):
            if folders:
                yield f"{crates}: docs/ARCHITECTURE.md names {name}, which isn't there"


class Step(typing.NamedTuple):
    """A function of a walk: its file, its name, and the functions through which the one before it comes to it, with the crates that are named with them."""
    path: pathlib.Path
    name: str
    through: list[str]
    crates: list[str]


def steps_of(rows: list[str]) -> Iterator[Step]:
    """The steps of a walk, of rows such as: 1. `rb_a/src/b.rt`: `one` (through rb_c's `two`) does this; `three` does that."""
    for row in rows:
        path, rest = matched(r"`([^`]+)`: (.*)", row).groups()
        for name, through in re.findall(r"`(\w+)`(?: \(through ([^)]*)\))?", rest):
            yield Step(CRATES / path, name, re.findall(r"`(\w+)`", through), re.findall(r"(\w+)'s", through))


def walks() -> Iterator[tuple[str, str, list[Step]]]:
    """The walks at the end of docs/ARCHITECTURE.md: their titles, what each says of its numbers, and its steps."""
    part = re.sub(r"\n  +", " ", "\n".join(parts_of("ARCHITECTURE.md").get("Three walks", [])))
    for walk in part.split("\n### ")[1:]:
        title, text = walk.split("\n", 1)
        said = " ".join(text.split("\n1. ")[0].split())
        yield title, said, list(steps_of(re.findall(r"^\d+\. (.*)$", text, re.MULTILINE)))


def counted(steps: list[Step]) -> str:
    """How many functions, files and crates a walk has, and how often the file changes."""
    files = [step.path for step in steps]
    crates = {crate_of(path) for path in files}
    changes = sum(1 for one, next_one in zip(files, files[1:]) if one != next_one)
    return f"{len(steps)} functions in {len(set(files))} files of {len(crates)} crates, with {changes} changes of file"


def body_from(lines: list[str]) -> str:
    """The code of the function whose head begins at the first line; nothing, where it is only declared."""
    indent = lines[0][: len(lines[0]) - len(lines[0].lstrip(" "))]
    body, is_open = [], False
    for line in lines:
        if is_open:
            if line == indent + "}":
                break
            body.append(line.split("//")[0])
        elif line.endswith((";", "{}")):
            break
        is_open = is_open or line == indent + "{" or line.endswith(" {")
    return "\n".join(body)


def code_of(path: pathlib.Path, name: str) -> str | None:
    """The code of the functions of that name in a file, or None where there is none."""
    lines = path.read_text().splitlines() if path.is_file() else []
    heads = [i for i, line in enumerate(lines) if re.match(rf" *(?:pub(?:\(crate\))? )?fn {name}\b", line)]
    return "\n".join(body_from(lines[i:]) for i in heads) if heads else None


def crate_of(path: pathlib.Path) -> str:
    return path.relative_to(CRATES).parts[0]


def code_in_crates(crates: set[str], name: str) -> str:
    """The code of the functions of that name in some crates."""
    found = [code_of(path, name) for crate in sorted(crates) for path in files_of(CRATES / crate)[1]]
    return "\n".join(code for code in found if code is not None)


def calls(code: str, name: str) -> bool:
    return re.search(rf"\b{name}(?:::<[^>]*>)?\(", code) is not None


def find_lost(steps: list[Step]) -> Iterator[str]:
    """The functions of a walk that aren't in their files, or that nothing before them calls. The first is called by no other."""
    seen = ""
    for last, step in zip([None, *steps], steps):
        crates = {crate_of(step.path), *step.crates, *([crate_of(last.path)] if last else [])}
        for name in step.through:
            if seen and not calls(seen, name):
                yield f"nothing before {step.name} calls {name}"
            seen += code_in_crates(crates, name)
        code = code_of(step.path, step.name)
        if code is None:
            yield f"{step.name} isn't in {step.path.relative_to(CRATES)}"
        elif seen and not calls(seen, step.name):
            yield f"nothing before calls {step.name} of {step.path.relative_to(CRATES)}"
        seen += code or ""


def test_walks_are_as_the_sources() -> Iterator[str]:
    """The functions of the walks are there, each is called from one before it, and their numbers are those that are said."""
    found = list(walks())
    if len(found) != 3:
        yield f"docs/ARCHITECTURE.md has {len(found)} walks"
    for title, said, steps in found:
        if not re.search(rf"\b{counted(steps)}\b", said):
            yield f"docs/ARCHITECTURE.md, {title}: the list has {counted(steps)}"
        for fault in find_lost(steps):
            yield f"docs/ARCHITECTURE.md, {title}: {fault}"


def citations() -> Counter[str]:
    """How often each word stands in the sources and proofs; imports, comments and tests are left out."""
    count: collections.Counter[str] = collections.Counter()
    for path in [*CRATES.glob("*/src/**/*.rt"), *CRATES.glob("*/specs/**/*.antt"), *CRATES.glob("*/proofs/**/*.antt")]:
        if is_test(path.relative_to(CRATES)):
            continue
        comment = "//" if path.suffix == ".rt" else "--"
        for line in path.read_text().splitlines():
            if not IMPORT.match(line):
                count.update(TOKEN.findall(line.split(comment)[0]))
    return count


def own_uses(lines: list[str], indent: str, name: str) -> int:
    """How often a name stands in its declaration and at the head of its equations."""
    head = re.compile(rf"{indent}(?:abbrev |unfoldable )?(?:pub )?(?:record |data )?{re.escape(name)}(?=[ :])")
    return sum(1 for line in lines if head.match(line))


def test_each_definition_is_cited() -> Iterator[str]:
    count = citations()
    for path in sorted([*CRATES.glob("*/specs/*.antt"), *CRATES.glob("*/proofs/*.antt")]):
        lines = path.read_text().splitlines()
        for line in lines:
            found = DECLARED.match(line)
            if not found or FIELD.match(line) and "record" not in line and path.parent.name == "specs":
                continue
            indent, name = found.groups()
            if count[name] <= own_uses(lines, indent, name):
                yield f"{path.relative_to(TOP)}: nothing cites {name}"


def head_of(lines: list[str]) -> str:
    """A function's head: from its first line up to the one that opens its body."""
    head = []
    for line in lines:
        head.append(line)
        if line.strip() == "{" or re.search(r"\) (?:-> [^{]* )?\{(?:\})?$", line):
            break
    return "\n".join(head)


def test_public_functions_have_clauses() -> Iterator[str]:
    for library in sorted(CRATES.glob("*/src/lib.rt")):
        for path in sorted(library.parent.glob("**/*.rt")):
            if is_test(path.relative_to(library.parent)):
                continue
            lines = path.read_text().splitlines()
            for i, line in enumerate(lines):
                if re.match(r"\s*pub fn ", line) and "ensures" not in head_of(lines[i:]):
                    yield f"{path.relative_to(TOP)}:{i + 1}: a public function without a clause"


def test_files_are_short() -> Iterator[str]:
    """Files that are written; those of a page's frame are made of assets."""
    written = [path for path in CRATES.glob("*/src/**/*.rt") if path.parts[-2] != "frame"]
    for path in sorted([*written, *CRATES.glob("rb_view/assets/*.js"), *CRATES.glob("*/specs/**/*.antt"), *CRATES.glob("*/proofs/**/*.antt")]):
        lines = len(path.read_text().splitlines())
        if lines > MOST_LINES:
            yield f"{path.relative_to(TOP)} has {lines} lines"
