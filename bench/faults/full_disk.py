"""A file system with little room: what writes into it says so, and leaves what was there."""
from __future__ import annotations

import os
import pathlib
import shutil
import subprocess
import tempfile
from collections.abc import Iterator

from bench.faults.commands import BY_NAME, MOST_SECONDS, NAME, SPENT, Came, files_in, plain_of
from bench.faults.verdict import Tried, problem_of
from tests.faults.test_broken_streams import SCRIPT
from tests.harness import PROGRAM

BLOCK = 4096
# In a space of mounts of its own: a small file system with the script, a call, and what is there after it is copied out.
INSIDE = 'mount -t tmpfs -o size="$1" none "$2" && cp "$3" "$2/script.txt" && cd "$2" && shift 3 && { "$@"; echo $? >"$LEFT/status"; cp -a . "$LEFT/files"; }'


def is_here() -> bool:
    """Whether a file system can be mounted: as root, or where a user may have a space of mounts of their own."""
    return shutil.which("unshare") is not None and subprocess.run(["unshare", "-rm", "true"], capture_output=True, check=False).returncode == 0


def called(words: tuple[str, ...], size: int) -> Came:
    """What comes of a call on a file system of this size."""
    with tempfile.TemporaryDirectory(prefix="raftbench-faults-") as folder:
        room = pathlib.Path(folder)
        for name in ("mounted", "left"):
            (room / name).mkdir()
        (room / "given").write_bytes(SCRIPT)
        inside = ["sh", "-c", INSIDE, "sh", str(size), str(room / "mounted"), str(room / "given"), str(PROGRAM), *words]
        done = subprocess.run(["unshare", "-rm", *inside], env={**os.environ, "LEFT": str(room / "left")}, capture_output=True, timeout=MOST_SECONDS, check=False)
        status = int((room / "left" / "status").read_text())
        return Came(SPENT.sub(b"", done.stdout), done.stderr, status, files_in(room / "left" / "files"))


def tried(count: int) -> Iterator[Tried]:
    """A script is accepted where there is room for it, and for none, one, two .. blocks more."""
    command = BY_NAME["accept"]
    plain = plain_of(command)
    least = -(-len(SCRIPT) // BLOCK) + 1
    for more in range(min(count, least + 2)):
        came = called(command.words, (least + more) * BLOCK)
        yield Tried(f"accept: {more} blocks of {BLOCK} bytes more than {NAME} needs", problem_of(command, plain, came))
