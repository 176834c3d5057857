#!/usr/bin/env python3
"""Prints the map of a crate: what each of its files is, by its first line, and what imports each definition.

    tests/repository/crate_map.py [CRATE..]     all crates if none is named
"""
import pathlib
import re
import sys

sys.dont_write_bytecode = True
sys.path[:1] = [str(pathlib.Path(__file__).resolve().parents[2])]

from tests.harness import TOP  # noqa: E402

CRATES = TOP / "crates"


def is_test(path: pathlib.Path) -> bool:
    return path.stem == "tests" or "tests" in path.parts


def files_of(crate: pathlib.Path) -> tuple[list[pathlib.Path], list[pathlib.Path], list[pathlib.Path]]:
    """What the map of a crate shows: its definitions, its code and its lemmas."""
    sources = [path for path in sorted((crate / "src").glob("**/*.rt")) if not is_test(path.relative_to(crate))]
    return [path for path in sorted((crate / "specs").glob("*.antt")) if path.stem != "Lib"], sources, [
        path for path in sorted((crate / "proofs").glob("*.antt")) if path.stem != "Lib"
    ]


def first_line(path: pathlib.Path) -> str:
    """What a file says of itself: its first line, where that is a comment with words, and else nothing."""
    found = re.match(r"(?://!|//|--) (.*[a-z].*)", path.read_text())
    return found.group(1) if found else ""


def show(name: str) -> None:
    """Prints what each file of a crate is, and what stands on each definition."""
    specs, sources, proofs = files_of(CRATES / name)
    print(f"{name}\n")
    for path in specs:
        uses = re.compile(rf"\buse Rattle\.{name}\.specs\.{path.stem}\b")
        users = [it.name if it.suffix == ".rt" else it.stem for it in [*sources, *proofs] if uses.search(it.read_text())]
        print(f"  specs/{path.stem}: {first_line(path)}\n    on it stand: {', '.join(users) or 'definitions alone'}")
    for path in [*sources, *proofs]:
        print(f"  {path.relative_to(CRATES / name)}: {first_line(path)}")


if __name__ == "__main__":
    for crate in sys.argv[1:] or sorted(path.name for path in CRATES.iterdir()):
        show(crate)
