"""How long processes waited for a processor. On a busy machine a late answer isn't the nodes' fault, so this time doesn't count."""
from __future__ import annotations

import contextlib
import os
import pathlib
from typing import Iterator


def waited(group: int, mark: str = "") -> float:
    """The seconds for which this process, those of a group, and those in other sessions with a mark could run and had no processor, as far as Linux tells."""
    return sum(map(waited_of, {os.getpid(), *processes_of(group), *(marked_with(mark) if mark else ())}))


def waited_of(process: int) -> float:
    """The longest wait of a process's threads: they wait side by side."""
    waits = []
    for path in pathlib.Path(f"/proc/{process}/task").glob("*/schedstat"):
        try:
            waits.append(int(path.read_text().split()[1]) / 1e9)
        except (OSError, ValueError, IndexError):
            continue
    return max(waits, default=0.0)


def processes_of(group: int) -> Iterator[int]:
    for path in pathlib.Path("/proc").glob("[0-9]*/stat"):
        try:
            parts = path.read_text(errors="replace").rpartition(")")[2].split()
        except OSError:
            continue
        if len(parts) > 2 and parts[2] == str(group):
            yield int(path.parent.name)


def marked_with(mark: str) -> Iterator[int]:
    """The processes that have this in their environment, as far as Linux shows them."""
    for path in pathlib.Path("/proc").glob("[0-9]*/environ"):
        with contextlib.suppress(OSError):
            if mark.encode() in path.read_bytes().split(b"\0"):
                yield int(path.parent.name)
