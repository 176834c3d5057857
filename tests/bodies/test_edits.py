"""Looks at each wrong body that is kept, tried or not: its texts are in the sources, once, and its function is there.

Those of crates/CRATE/must-fail too: `rt ci` passes over one that can't be made.
"""
import pathlib
import re
from collections.abc import Iterator

from tests.bodies.crates import Crate, crates_of
from tests.bodies.edits import HEAD, BadEdit, Edit, read_edits, texts_with
from tests.harness import TESTS, TOP, Result

BODIES = TESTS / "bodies"
MANY = 1_000


def owners_in(text: str) -> set[str]:
    """What a check calls the types that a file declares, and its impls of traits: the type's name, and behind it the trait's."""
    impls = re.findall(r"(?m)^impl(?:<[^{]*?>)? (\w+)(?:<(\w+)[^{]*?>)? for &?(\w)(\w*)", text)
    return {*re.findall(r"\b(?:struct|enum|trait) (\w+)", text)} | {f"{first.upper()}{rest}{it}" for trait, of, first, rest in impls for it in (trait, trait + of)}


def has_function(crate: Crate, path: str) -> bool:
    """Whether a crate has the function of a path as a check prints it: one of a type is named by the module that declares the type."""
    *modules, name = path.split("::")
    owner = modules.pop() if modules and modules[-1][0].isupper() else ""
    file = crate.folder / "src" / ("/".join(modules or ["lib"]) + ".rt")
    if not file.exists() or owner and owner not in owners_in(file.read_text()):
        return False
    # A type's functions may stand in other files.
    files = (crate.folder / "src").rglob("*.rt") if owner else [file]
    return any(found[2] == name for it in files for found in HEAD.finditer(it.read_text()))


def problems_of(edit: Edit | BadEdit, crate: Crate) -> Iterator[str]:
    """Why an edit can't be made, if it can't."""
    if isinstance(edit, BadEdit):
        yield str(edit)
        return
    if not has_function(crate, edit.function):
        yield f"no function {edit.function}"
    try:
        texts_with([edit], crate.folder)
    except BadEdit as error:
        yield str(error)


def lost_texts(path: pathlib.Path) -> Iterator[str]:
    """The old texts of an edit in a crate's must-fail/ that aren't in their file, or more than once."""
    text, count = "", 0
    for line in path.read_text().splitlines():
        key, _, value = line.partition(": ")
        if key == "file":
            text = (path.parents[1] / value.strip()).read_text()
        elif key == "old":
            count += 1
            if text.count(value) != 1:
                yield f"an old text stands {text.count(value)} times in its file: {value.strip()}"
    if not count:
        yield "it changes nothing"


def results(word: str) -> Iterator[Result]:
    """Each edit of each crate, and that there are as many as ever."""
    crates = crates_of()
    count = 0
    for path in sorted(TOP.glob("crates/*/must-fail/*.edit")):
        name = f"{path.parents[1].name}/must-fail/{path.stem}"
        if word in name:
            yield Result(name, tuple(lost_texts(path)))
    for path in sorted(BODIES.glob("*.edits")):
        if path.stem == "trials":
            continue
        if path.stem not in crates:
            yield Result(path.stem, ("no crate has this name",))
            continue
        edits = read_edits(path, path.stem)
        count += len(edits)
        names = [name for name in edits if name != "".join(re.findall(r"\w", name))]
        yield Result(path.stem, tuple(f"no name: {name}" for name in names))
        for name, edit in edits.items():
            if word in f"{path.stem}/{name}":
                yield Result(f"{path.stem}/{name}", tuple(problems_of(edit, crates[path.stem])))
    yield Result("they are all there", () if count >= MANY else (f"{count} are kept, and {MANY} or more were",))
