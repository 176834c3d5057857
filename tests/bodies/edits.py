"""Wrong bodies as they are kept: a file for each crate, with edits that say what to change and which function must refuse it.

An edit in CRATE.edits begins with a line `name: NAME`. `tried: yes` says that `./test` tries it. `function: PATH` is the function's path below its
crate as a check prints it. Below `file: FILE`, a file of src/ or specs/, are pairs of lines `old: TEXT` and `new: TEXT`. Each old text is in its
file once, or in the function once. A crate of laws has definitions from crates below: `file: ../CRATE/specs/FILE` is one of those.
"""
import dataclasses
import pathlib
import re

PARTS = ("src", "specs", "proofs")
# A proof file that is changed says nothing of a contract, nor does a body of a crate below.
EDITED = re.compile(r"(src|specs|\.\./\w+/specs)/(?!.*\.\.)")
HEAD = re.compile(r"(?m)^( *)(?:pub(?:\([a-z ]+\))? )?(?:const )?fn (\w+)")


class BadEdit(Exception):
    """An edit that can't be read or made; the text says why."""


@dataclasses.dataclass(frozen=True)
class Change:
    """One text of a file, and what stands in its place."""

    file: str
    old: str
    new: str


@dataclasses.dataclass(frozen=True)
class Edit:
    """What is changed in a crate, and the function that must refuse it."""

    crate: str
    name: str
    function: str
    changes: tuple[Change, ...]
    tried: bool = False
    # What must come of it, of an edit that tries the judge.
    verdict: str = ""

    def __str__(self) -> str:
        return f"{self.crate}/{self.name}"


def read_edit(lines: list[str], crate: str) -> Edit:
    """Reads the lines of one edit. Raises BadEdit if it names no function or file, or changes nothing."""
    told = {"name": "", "tried": "", "function": "", "file": "", "verdict": ""}
    changes, old = [], ""
    for line in lines:
        key, _, text = line.partition(":")
        text = text.removeprefix(" ")
        if key in told:
            told[key] = text.strip()
        elif key == "old":
            old = text
        elif key == "new":
            if not old or not EDITED.match(told["file"]):
                raise BadEdit("a new text without an old one, or outside src/ and specs/")
            changes.append(Change(told["file"], old, text))
            old = ""
        else:
            raise BadEdit(f"no line of an edit: {line}")
    if not told["function"]:
        raise BadEdit("no line names the function that must refuse it")
    if not changes or all(change.old == change.new for change in changes):
        raise BadEdit("it changes nothing")
    return Edit(crate, told["name"], told["function"], tuple(changes), told["tried"] == "yes", told["verdict"])


def read_edits(path: pathlib.Path, crate: str) -> dict[str, Edit | BadEdit]:
    """Reads a file of edits, each by its name, with what is wrong with those that can't be read. Raises BadEdit if two have one name."""
    found: dict[str, Edit | BadEdit] = {}
    for block in re.split(r"(?m)^(?=name: )", path.read_text()):
        lines = [line for line in block.splitlines() if line.strip() and not line.startswith("#")]
        if not lines:
            continue
        name = lines[0].removeprefix("name: ").strip()
        if name in found:
            raise BadEdit(f"{path.name} has {name} twice")
        try:
            found[name] = read_edit(lines, crate)
        except BadEdit as error:
            found[name] = error
    return found


def function_at(text: str, at: int) -> str:
    """The name of the function that a place of a file stands in, or none."""
    heads = list(HEAD.finditer(text, 0, at))
    is_behind = not heads or re.search(rf"(?m)^{heads[-1][1]}}}$", text[heads[-1].end() : at])
    return "" if is_behind else heads[-1][2]


def place_of(change: Change, text: str, function: str) -> int:
    """Where the old text stands in its file: once, or once in the function. Raises BadEdit where it doesn't."""
    found = [it.start() for it in re.finditer(re.escape(change.old), text)]
    within = [at for at in found if function_at(text, at) == function.rpartition("::")[2]]
    only = found if len(found) == 1 else within
    if len(only) != 1:
        raise BadEdit(f"an old text stands {len(found)} times in {change.file}: {change.old.strip()}")
    return only[0]


def texts_with(edits: list[Edit], folder: pathlib.Path) -> dict[str, str]:
    """The texts, by file, of a crate's files as the edits leave them. Raises BadEdit where an old text isn't there once."""
    texts: dict[str, str] = {}
    for edit in edits:
        for change in edit.changes:
            if change.file not in texts:
                try:
                    texts[change.file] = (folder / change.file).read_text()
                except OSError as error:
                    raise BadEdit(f"{change.file}: {error.strerror}") from error
            text = texts[change.file]
            at = place_of(change, text, edit.function)
            texts[change.file] = text[:at] + change.new + text[at + len(change.old) :]
    return texts


def is_within_its_function(edit: Edit, folder: pathlib.Path) -> bool:
    """Whether all that is changed stands in the function that must refuse it, so that no other function can see the edit."""
    texts: dict[str, str] = {}
    for change in edit.changes:
        text = texts.get(change.file) or (folder / change.file).read_text()
        at = place_of(change, text, edit.function)
        if not change.file.startswith("src/") or function_at(text, at) != edit.function.rpartition("::")[2]:
            return False
        texts[change.file] = text[:at] + change.new + text[at + len(change.old) :]
    return True
