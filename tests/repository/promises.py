#!/usr/bin/env python3
"""Lists what is proved: the laws of crates with their sentences, the public functions with the names of their clauses, and the wrong bodies.

    tests/repository/promises.py [CRATE..]     all crates if none is named

`*` marks wrong bodies that ./test tries.
"""
import dataclasses
import pathlib
import re
import sys
from collections.abc import Iterator

sys.dont_write_bytecode = True
sys.path[:1] = [str(pathlib.Path(__file__).resolve().parents[2])]

from tests.bodies.edits import Edit, read_edits  # noqa: E402
from tests.harness import TESTS, TOP  # noqa: E402
from tests.repository.crate_map import CRATES, files_of  # noqa: E402

# Files of laws, but for each laws.rt and all of rb_laws.
LAWS = (("rb_cluster", "directives.rt"),)
HEAD = re.compile(r"^( *)(pub |pub\(crate\) )?fn (\w+)")
OWNER = re.compile(r"^(?:unsafe )?(?:impl|pub trait)(?:<[^{]*?>)? (?:[\w:]+(?:<[^{]*?>)? for )?(\w+)")
CLAUSE = re.compile(r"^ *ensures(?: (\w+))? \{")


@dataclasses.dataclass(frozen=True)
class Function:
    """A function: where it is, what it is called, what its comment says, and the names of its clauses."""

    file: str
    name: str
    sentence: str
    clauses: tuple[str, ...]
    is_public: bool


def functions_in(path: pathlib.Path) -> Iterator[Function]:
    """The functions of a file, each with its type before its name, if it has one."""
    lines, owner, is_trait, comment = path.read_text().splitlines(), "", False, list[str]()
    for at, line in enumerate(lines):
        if found := OWNER.match(line):
            owner, is_trait = found[1], " for " in line or "trait " in line
        elif line == "}":
            owner = ""
        if line.lstrip().startswith("///"):
            comment.append(line.lstrip()[3:].strip())
        elif head := HEAD.match(line):
            clauses = []
            for below in lines[at + 1:]:
                if HEAD.match(below) or below == head[1] + "{" or below == head[1] + "{}":
                    break
                if clause := CLAUSE.match(below):
                    clauses.append(clause[1] or "ensures")
            name = f"{owner}::{head[3]}" if owner and head[1] else head[3]
            yield Function(path.name, name, " ".join(comment), tuple(clauses), head[2] == "pub " or owner != "" and is_trait)
            comment = []
        elif not line.lstrip().startswith("#["):
            comment = []


def functions_of(crate: str) -> list[Function]:
    return [function for path in files_of(CRATES / crate)[1] for function in functions_in(path)]


def laws_of(crate: str) -> list[Function]:
    """A crate's laws: theorems over its definitions."""
    return [it for it in functions_of(crate) if it.is_public and (crate == "rb_laws" or it.file == "laws.rt" or (crate, it.file) in LAWS)]


def bodies_of(crate: str) -> dict[str, bool]:
    """A crate's wrong bodies, and whether ./test tries them."""
    path = TESTS / "bodies" / f"{crate}.edits"
    edits = read_edits(path, crate) if path.exists() else {}
    found = {name: bool(it.tried) for name, it in edits.items() if isinstance(it, Edit)}
    return found | {it.stem: True for it in TOP.glob(f"crates/{crate}/must-fail/*.edit")}


def show(crate: str) -> None:
    laws = laws_of(crate)
    print(f"{crate}\n")
    for law in laws:
        print(f"  {law.name}: {law.sentence}")
    for function in functions_of(crate):
        if function.is_public and function.clauses and function not in laws:
            print(f"  {function.file}, {function.name}: {', '.join(function.clauses)}")
    for name, is_tried in sorted(bodies_of(crate).items()):
        print(f"  {'*' if is_tried else '-'} {name}")
    print()


if __name__ == "__main__":
    for name in sys.argv[1:] or sorted(path.name for path in CRATES.iterdir()):
        show(name)
