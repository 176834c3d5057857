"""Folders of very many scripts: all are counted, in bounded memory."""
from __future__ import annotations

import pathlib
import re
import resource
import subprocess
import tempfile
from collections.abc import Iterator

from bench.faults.verdict import Tried
from tests.harness import PROGRAM

SCRIPT = b"log-level info\n----\nok\n"
MOST_KIB = 150 * 1024
FOLDER = 1000


def filled(place: pathlib.Path, count: int, is_deep: bool) -> None:
    """Writes so many scripts, in one folder or in folders of a thousand."""
    for at in range(count):
        folder = place / f"{at // FOLDER}" if is_deep else place
        if at % FOLDER == 0:
            folder.mkdir(exist_ok=True)
        (folder / f"{at}.txt").write_bytes(SCRIPT)


def tried(count: int) -> Iterator[Tried]:
    """So many scripts in one folder, and in folders of a thousand."""
    for is_deep in (False, True):
        with tempfile.TemporaryDirectory(prefix="raftbench-faults-") as folder:
            filled(pathlib.Path(folder), count, is_deep)
            done = subprocess.run([str(PROGRAM), "check", "--brief", "--color", "never", folder], capture_output=True, text=True, check=False)
        counted = re.match(rf"{count:,}|{count}", done.stdout)
        most = resource.getrusage(resource.RUSAGE_CHILDREN).ru_maxrss
        problem = f"status {done.returncode}, {done.stdout[-200:]!r}, {done.stderr[-200:]!r}" if done.returncode or not counted else None
        yield Tried(f"check: {count} scripts in {'folders of a thousand' if is_deep else 'one folder'}", problem or (f"{most} KiB" if most > MOST_KIB else None))
