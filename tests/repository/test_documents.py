"""Compares the documents with the tree. docs/PROOFS.md names each law, and only functions and clauses that are there; each of its promises names some.
What docs/READING.md shows of a file stands in it. Links lead to files. The version's toolchain is README.md's. Documents keep to their numbers of words, and no old name of a document is left.
"""
import collections
import pathlib
import re
import subprocess
from collections.abc import Iterator

from tests.harness import TOP
from tests.repository.promises import bodies_of, functions_of, laws_of

NAME = r"[a-z0-9]+(?:_[a-z0-9]+)+"
# A function, and in brackets after it some of its clauses.
CLAUSES = re.compile(r"`([\w:]+)` \(((?:`\w+`(?:, )?)+)\)")
# What names contracts; elsewhere a name before brackets is a command or a field.
OF_CONTRACTS = ("README.md", "docs/ARCHITECTURE.md", "docs/DECISIONS.md", "docs/MEASURES.md", "docs/READING.md")
DOCUMENTS = [TOP / "README.md", *sorted((TOP / "docs").glob("*.md"))]


def parts() -> Iterator[tuple[list[str], str]]:
    """The parts of docs/PROOFS.md that are about crates: which crates, and the text."""
    for part in (TOP / "docs" / "PROOFS.md").read_text().split("\n## ")[1:]:
        title, text = part.split("\n", 1)
        if title.startswith("rb_"):
            yield title.split(", "), text


def promises(text: str) -> Iterator[tuple[str, str]]:
    """The promises of a part, each an item: its first line, and the lines at its end that name functions."""
    for item in re.findall(r"^- .*(?:\n  .*)*", text, re.M):
        functions = re.search(r"(?:\n  `.*)+$", item)
        yield item.split("\n")[0], functions[0] if functions else ""


def named_functions(text: str) -> set[str]:
    """What the promises of a part name, as `function` or `Type::function`."""
    named = [CLAUSES.sub(r"`\1`", functions) for _, functions in promises(text)]
    return set(re.findall(r"`([\w:]+)`", " ".join(named)))


def test_each_promise_names_functions() -> Iterator[str]:
    """Each promise of docs/PROOFS.md ends with functions that hold it."""
    for crates, text in parts():
        found = list(promises(text))
        if not found:
            yield f"docs/PROOFS.md, {', '.join(crates)}: no promise"
        yield from (f"docs/PROOFS.md, {', '.join(crates)}: {line} names no function" for line, functions in found if not functions)


def test_named_functions_are_there() -> Iterator[str]:
    """What docs/PROOFS.md names is a function of one of the part's crates, and has a clause."""
    for crates, text in parts():
        there = {name for crate in crates for it in functions_of(crate) if it.clauses for name in (it.name, it.name.split("::")[-1])}
        for name in sorted(named_functions(text) - there):
            yield f"{', '.join(crates)}: {name} isn't there, or has no clause"


def clauses_by_function(crates: list[str]) -> dict[str, set[str]]:
    """The clauses of the functions of crates, by a function's name and by that with its type before it."""
    found: dict[str, set[str]] = collections.defaultdict(set)
    for crate in crates:
        for it in functions_of(crate):
            for name in {it.name, it.name.split("::")[-1]}:
                found[name] |= set(it.clauses)
    return found


def strange_clauses(text: str, there: dict[str, set[str]]) -> Iterator[str]:
    """The clauses that a text names and that their function hasn't."""
    for name, listed in CLAUSES.findall(text):
        for clause in re.findall(r"\w+", listed):
            if clause not in there.get(name, ()):
                yield f"{name} has no clause {clause}"


def test_named_clauses_are_there() -> Iterator[str]:
    """The clauses in brackets behind a function are its clauses: in a part of docs/PROOFS.md in that part's crates, elsewhere in any crate."""
    count = 0
    for crates, text in parts():
        there = clauses_by_function(crates)
        count += len(CLAUSES.findall(text))
        yield from (f"docs/PROOFS.md, {', '.join(crates)}: {it}" for it in strange_clauses(text, there))
        # A clause of another name is seen.
        for name, listed in CLAUSES.findall(text):
            wrong = re.sub(r"\w+", r"\g<0>_too", listed)
            if len(list(strange_clauses(f"`{name}` ({wrong})", there))) != len(listed.split(", ")):
                yield f"docs/PROOFS.md: a wrong clause of {name} isn't seen"
    if count < 20:
        yield f"docs/PROOFS.md names the clauses of {count} functions, and named those of 20 or more"
    everywhere = clauses_by_function([path.name for path in sorted((TOP / "crates").iterdir())])
    for name in OF_CONTRACTS:
        yield from (f"{name}: {it}" for it in strange_clauses((TOP / name).read_text(), everywhere))


def test_excerpts_are_of_their_files() -> Iterator[str]:
    """Each line that docs/READING.md shows stands in the file that is named before it, in this order; `..` stands for what is left out."""
    shown = re.findall(r"(crates/[\w/.]+)[^`\n]*:\n\n```\n(.*?)```", (TOP / "docs" / "READING.md").read_text(), re.S)
    if len(shown) < 5:
        yield f"docs/READING.md has {len(shown)} excerpts, and had 5"
    for path, text in shown:
        left = iter((TOP / path).read_text().splitlines())
        for line in text.splitlines():
            if line.strip() not in ("", "..") and not any(line.strip() == it.strip() for it in left):
                yield f"docs/READING.md: {path} hasn't the line {line.strip()}"


def test_each_law_is_named() -> Iterator[str]:
    """Each law is named in a part of docs/PROOFS.md on its crate, but for `limits_are`."""
    named: dict[str, set[str]] = {}
    for crates, text in parts():
        for crate in crates:
            named.setdefault(crate, set()).update(named_functions(text))
    for folder in sorted((TOP / "crates").iterdir()):
        for law in laws_of(folder.name):
            if law.name != "limits_are" and law.name not in named.get(folder.name, set()):
                yield f"{folder.name}: docs/PROOFS.md doesn't name {law.name}"


def test_telling_bodies_are_tried() -> Iterator[str]:
    """The wrong bodies of the bugs that would matter most, named as `rb_crate's name, name`, are tried by the gate."""
    part = (TOP / "docs" / "PROOFS.md").read_text().split("## The bugs that would matter most\n")[1].split("\n## ")[0]
    telling = [(crate, name) for crate, names in re.findall(rf"\b(rb_\w+|raftbench)'s\s({NAME}\b(?:,\s{NAME}\b(?!'s))*)", part) for name in re.findall(NAME, names)]
    if len(telling) < 20:
        yield f"docs/PROOFS.md names {len(telling)} wrong bodies, and should name 20"
    for crate, name in telling:
        if not bodies_of(crate).get(name):
            yield f"docs/PROOFS.md names {crate}'s {name}, which the gate doesn't try"


def test_links_lead_to_files() -> Iterator[str]:
    """Each path of the repository that a document names is there."""
    for document in DOCUMENTS:
        for path in re.findall(r"\b(?:docs|examples|bench|tests|editors)/[A-Za-z0-9_./-]+", document.read_text()):
            place = TOP / path.rstrip("./")
            # A case is named without its ending.
            if not place.exists() and not place.with_name(f"{place.name}.case").exists():
                yield f"{document.name}: {path} isn't there"


# The most words of each document and of each README, by `wc -w`, and of all together. A document's limit is what its readers need, not what others leave.
MOST_WORDS = {
    "README.md": 1700,
    "docs/ARCHITECTURE.md": 2400,
    "docs/CHANGES.md": 500,
    "docs/DECISIONS.md": 1900,
    "docs/ETCD.md": 2000,
    "docs/FORMATS.md": 1700,
    "docs/FOUND.md": 1200,
    "docs/MEASURES.md": 700,
    "docs/NODE.md": 2950,
    "docs/OWN-NODES.md": 3000,
    "docs/PROOFS.md": 4600,
    "docs/READING.md": 1100,
    "docs/SCRIPTS.md": 5400,
    "docs/TRACES.md": 700,
    "docs/USING.md": 5400,
    "editors/README.md": 800,
    "editors/vscode/README.md": 250,
    "examples/classics/README.md": 150,
    "examples/how-do-i/README.md": 150,
    "nodes/hashicorp/README.md": 1150,
    "nodes/libraft/README.md": 1400,
    "nodes/like/README.md": 1100,
    "nodes/openvswitch/README.md": 300,
    "tests/README.md": 600,
}
MOST_WORDS_IN_ALL = 36000


def documents_and_readmes() -> list[pathlib.Path]:
    """The documents, and each README that git keeps."""
    readmes = subprocess.run(["git", "-c", "safe.directory=*", "ls-files", "*README.md"], cwd=TOP, capture_output=True, text=True, check=True).stdout.split()
    return sorted({*DOCUMENTS, *(TOP / name for name in readmes)})


def test_documents_are_short() -> Iterator[str]:
    """No document or README has more words than its limit, nor have all together more than theirs."""
    counts = {str(path.relative_to(TOP)): len(path.read_text().split()) for path in documents_and_readmes()}
    for name, count in counts.items():
        if count > MOST_WORDS.get(name, 0):
            yield f"{name} has {count} words, and {MOST_WORDS.get(name, 0)} are allowed"
    if sum(counts.values()) > MOST_WORDS_IN_ALL:
        yield f"the documents have {sum(counts.values())} words, and {MOST_WORDS_IN_ALL} are allowed"
    yield from (f"there is no {name}" for name in MOST_WORDS.keys() - counts.keys())


# Documents that were joined with others.
GONE = re.compile(r"\b(?:DIRECTIVES|SCRIPT-FORMAT|CHECK|CI|SESSION|EDITORS|PAGE|CHART|FROM-ETCD|[A-Z]+-FOUND)\.md\b")


def test_no_old_name_is_left() -> Iterator[str]:
    """No file that git keeps names a document that is gone, but for this one."""
    kept = subprocess.run(["git", "-c", "safe.directory=*", "grep", "-lE", r"(DIRECTIVES|SCRIPT-FORMAT|CHECK|CI|SESSION|EDITORS|PAGE|CHART|FROM-ETCD|-FOUND)\.md"], cwd=TOP, capture_output=True, text=True).stdout
    for name in kept.splitlines():
        if TOP / name != pathlib.Path(__file__) and (found := GONE.search((TOP / name).read_text())):
            yield f"{name} names {found[0]}"


def first_group(pattern: str, path: pathlib.Path) -> str:
    """What a pattern's group finds in a file. Raises LookupError if nothing is found."""
    found = re.search(pattern, path.read_text())
    if not found:
        raise LookupError(f"{path} has no {pattern}")
    return found[1]


def test_toolchain_is_the_version_s() -> Iterator[str]:
    """`--version` names the toolchain that README.md names."""
    kit = first_group(r"toolchain \(kit `([^`]+)`\)", TOP / "README.md")
    version = first_group(r'const VERSION: &str = "([^"]+)"', TOP / "crates" / "rb_args" / "src" / "commands.rt")
    if not version.endswith(f", proved with {kit}"):
        yield f"README.md names the kit {kit}, and the version is {version}"
