"""Tries the edits of a crate in batches, each edit of a batch in another function, and says what became of each."""
import pathlib
import shutil
import tempfile
from collections.abc import Callable

from tests.bodies.crates import Crate, check, make_ready
from tests.bodies.edits import BadEdit, Edit, is_within_its_function, texts_with
from tests.bodies.verdicts import Kind, Verdict, has_ended, unread, verdict_on, why_not_compiled


def batch_of(edits: list[Edit], folder: pathlib.Path) -> list[Edit]:
    """The first edits that one check can tell apart: one alone that changes more than its function, or one a function.

    Of one of these functions that calls another the goals are the same whatever the other does: they name its contract alone.
    """
    batch: list[Edit] = []
    for edit in edits:
        if not is_within_its_function(edit, folder):
            if not batch:
                return [edit]
            continue
        if any(edit.function == other.function for other in batch):
            continue
        try:
            texts_with([*batch, edit], folder)
        except BadEdit:
            continue
        batch.append(edit)
    return batch


def tried(crate: Crate, batch: list[Edit], kept: pathlib.Path) -> dict[Edit, Verdict | None]:
    """What one check says of a batch: of an edit nothing where it has to be tried again with fewer others."""
    texts = texts_with(batch, crate.folder)
    said = check(crate, texts, [edit.function for edit in batch], kept)
    is_alone = len(batch) == 1
    bad = unread(said, set(texts)) or ("" if has_ended(said) else why_not_compiled(said))
    if bad:
        return {edit: Verdict(Kind.NOT_COMPILED, bad) if is_alone else None for edit in batch}
    found: dict[Edit, Verdict | None] = {}
    for edit in batch:
        verdict = verdict_on(said, crate.name, edit.function)
        found[edit] = verdict if is_alone or verdict.kind in (Kind.PROVED, Kind.REFUSED) else None
    return found


def judged(crate: Crate, edits: list[Edit], told: Callable[[Edit, Verdict], None]) -> None:
    """Calls `told` with what becomes of each edit of a crate, as soon as it is known. Raises NotReady where the crate isn't proved as it stands."""
    left = []
    for edit in edits:
        try:
            texts_with([edit], crate.folder)
            left.append(edit)
        except BadEdit as error:
            told(edit, Verdict(Kind.NOT_MADE, str(error)))
    make_ready(crate)
    with tempfile.TemporaryDirectory(prefix="bodies-") as room:
        kept = pathlib.Path(room, "kept")
        if (crate.folder / "out" / "incremental").is_dir():
            shutil.copytree(crate.folder / "out" / "incremental", kept)
        groups = [left]
        while groups:
            left = groups.pop(0)
            batch = batch_of(left, crate.folder)
            if not batch:
                continue
            again = []
            for edit, verdict in tried(crate, batch, kept).items():
                if verdict:
                    told(edit, verdict)
                else:
                    again.append(edit)
            others = [edit for edit in left if edit not in batch]
            if len(again) == len(batch):
                # Nothing was told: each half by itself.
                groups += [again[: len(again) // 2], again[len(again) // 2 :]]
                again = []
            groups.append([*others, *again])
