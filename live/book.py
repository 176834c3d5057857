"""Lets the program write a book, a page for each script of a folder. A book that is in its place is removed first."""
from __future__ import annotations

import pathlib
from collections.abc import Iterator

from .program import Program, Refused, asked

GENERATOR = '<meta name="generator" content="raftbench">'


def files_of_book(site: pathlib.Path) -> Iterator[pathlib.Path]:
    """The files in a folder that are a book's: pages, each with its picture, and the style and the code."""
    for page in site.rglob("*.html"):
        if GENERATOR in page.read_text(encoding="utf-8", errors="replace"):
            yield from (page, page.with_suffix(".svg"))
            if page == site / "index.html":
                yield from (site / "page.css", site / "page.js")


def clear(site: pathlib.Path) -> None:
    """Removes the book that is in a folder, and the folder. Nothing else may be in it."""
    if not site.exists():
        return
    book = set(files_of_book(site))
    if not site.is_dir() or any(it not in book and not it.is_dir() for it in site.rglob("*")):
        raise Refused(f"{site}: that folder has something else in it")
    for file in book:
        file.unlink(missing_ok=True)
    for folder in [*sorted((it for it in site.rglob("*") if it.is_dir()), reverse=True), site]:
        folder.rmdir()


def write_book(folder: pathlib.Path, site: pathlib.Path, program: Program, only_differing: bool = False) -> int:
    """Writes the book of a folder, or of those of its scripts that differ. Gives the program's status: 1 if one differs."""
    clear(site)
    site.parent.mkdir(parents=True, exist_ok=True)
    words: list[str | pathlib.Path] = ["check", "--quiet", "--pages", site, "--", folder] if only_differing else ["page", "--out", site, "--", folder]
    status, _, said = asked([program.path, *words])
    if status not in (0, 1):
        raise Refused(f"{folder}: {said or status}")
    return status
