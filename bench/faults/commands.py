"""The commands that are tried, and what a call of one gives."""
from __future__ import annotations

import dataclasses
import os
import pathlib
import re
import subprocess
import tempfile
from collections.abc import Iterator, Mapping, Sequence
from contextlib import contextmanager

from tests.faults.test_broken_streams import SCRIPT, TALK, conversation_of_an_editor
from tests.harness import PROGRAM

NAME = "script.txt"
MOST_SECONDS = 120
# What the report of a check ends with, which is another one each time.
SPENT = re.compile(rb"\d+\.\d{3} s\n$|time=\"[0-9.]*\"|\"seconds\":[0-9.]*")


@dataclasses.dataclass(frozen=True)
class Command:
    """A command that is tried: its words, what stands on its standard input, and whether it writes into the script."""

    name: str
    words: tuple[str, ...]
    given: bytes = b""
    accepts: bool = False
    # Whether its output tells of a failure where others break off.
    reports: bool = False


COMMANDS = (
    Command("run", ("run", NAME)),
    Command("rewrite", ("rewrite", NAME)),
    Command("session", ("session", NAME), TALK),
    Command("check", ("check", "--color", "never", NAME), reports=True),
    Command("check-json", ("check", "--format", "json", NAME), reports=True),
    Command("check-github", ("check", "--format", "github", NAME), reports=True),
    Command("check-junit", ("check", "--format", "junit", NAME), reports=True),
    Command("accept", ("check", "--accept", "--accept-errors", "--force", "--color", "never", NAME), accepts=True, reports=True),
    Command("look", ("look", "--color", "never", f"{NAME}:1")),
    Command("page", ("page", NAME)),
    Command("site", ("page", "--out", "site", NAME)),
    Command("pages", ("check", "--pages", "site", "--color", "never", NAME), reports=True),
    Command("chart", ("chart", NAME)),
    Command("trace", ("trace", NAME)),
    Command("directives", ("directives", "--color", "never")),
    Command("lsp", ("lsp",), b"".join(conversation_of_an_editor()[0])),
)
BY_NAME = {command.name: command for command in COMMANDS}


@dataclasses.dataclass(frozen=True)
class Came:
    """What a call gave: its output without times, its errors, its status, and the files that are there after it."""

    output: bytes
    errors: bytes
    status: int
    files: dict[str, bytes]


@contextmanager
def room_with(script: bytes = SCRIPT) -> Iterator[pathlib.Path]:
    """A folder that holds the script alone, for the time of a call."""
    with tempfile.TemporaryDirectory(prefix="raftbench-faults-") as folder:
        place = pathlib.Path(folder)
        (place / NAME).write_bytes(script)
        yield place


def files_in(place: pathlib.Path) -> dict[str, bytes]:
    """The files of a folder and of those below, by their paths in it."""
    return {str(path.relative_to(place)): path.read_bytes() for path in sorted(place.rglob("*")) if path.is_file()}


def call(command: Command, place: pathlib.Path, below: Sequence[str] = (), around: Mapping[str, str] | None = None) -> Came:
    """Calls a command in a folder, below another program (``strace`` and its words) if one is given."""
    done = subprocess.run(
        [*below, str(PROGRAM), *command.words], cwd=place, env={**os.environ, **(around or {})}, input=command.given, capture_output=True, timeout=MOST_SECONDS, check=False,
    )
    return Came(SPENT.sub(b"", done.stdout), done.stderr, done.returncode, files_in(place))


def plain_of(command: Command) -> Came:
    """What a command gives where nothing fails."""
    with room_with() as place:
        return call(command, place)
