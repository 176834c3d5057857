"""The kinds that an author has accepted: a file; each line has a script, a kind and a reason, with tabs between them. The script `*` means any.

deliver-late.txt<tab>commit behind after MsgAppResp at a leader<tab>we commit when the answer is read, and not when it is saved
"""
from __future__ import annotations

import pathlib
from typing import Sequence

from ..promises.checker import PROMISES
from ..rules.switches import Unknown


class AcceptedKinds:
    """Which kinds are accepted of which scripts; Unknown where the file can't be read."""

    def __init__(self, path: pathlib.Path | None = None) -> None:
        self.reasons: dict[tuple[str, str], str] = {}
        if path is None:
            return
        try:
            lines = path.read_text(encoding="utf-8").splitlines()
        except (OSError, UnicodeDecodeError) as fault:
            raise Unknown(f"--accepted {path}: {fault}") from None
        for number, line in enumerate(lines, 1):
            if not line.strip() or line.startswith("#"):
                continue
            parts = line.split("\t")
            if len(parts) != 3 or not all(map(str.strip, parts)):
                raise Unknown(f"--accepted {path}:{number}: a script, a kind and a reason are wanted, with tabs between them")
            self.reasons[parts[0], parts[1]] = parts[2]

    def reason(self, file: pathlib.Path, kind: str) -> str | None:
        """The reason, or None; a script goes by its path, or by the end of it."""
        known = (reason for (name, each), reason in self.reasons.items() if each == kind and (name == "*" or f"/{file}".endswith(f"/{name}")))
        return next(known, None)

    def reason_of(self, kind: str) -> str | None:
        """The reason for a kind that is accepted in any script."""
        return self.reasons.get(("*", kind))

    def has_failures(self) -> bool:
        """Whether calls that fail are accepted."""
        return any(kind.startswith("failed ") for _, kind in self.reasons)


def accept(path: pathlib.Path, kinds: Sequence[str], reason: str) -> None:
    """Adds kinds to a list, in any script, that it hasn't yet."""
    known = AcceptedKinds(path if path.exists() else None)
    new = [kind for kind in dict.fromkeys(kinds) if known.reason_of(kind) is None]
    with path.open("a", encoding="utf-8") as file:
        file.writelines(f"*\t{kind}\t{' '.join(reason.split())}\n" for kind in new)


def exceptions_of(texts: list[str]) -> frozenset[str]:
    """The promises that `--except 'NAME: REASON'` names; Unknown where a name or a reason is missing."""
    names = set()
    for text in texts:
        name, _, reason = text.partition(":")
        if name.strip() not in PROMISES:
            raise Unknown(f"--except: there is no promise {name.strip()!r}; they are {', '.join(PROMISES)}")
        if not reason.strip():
            raise Unknown(f"--except {name.strip()!r}: a reason is wanted: --except '{name.strip()}: REASON'")
        names.add(name.strip())
    return frozenset(names)
