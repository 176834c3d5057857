"""Scripts that change, vanish or grow while they are read: each call answers for one text that was there, or says that it couldn't be read."""
from __future__ import annotations

import os
import pathlib
import shutil
import subprocess
import threading
from collections.abc import Callable, Iterator

from bench.faults.commands import COMMANDS, MOST_SECONDS, NAME, SPENT, Came, Command, call, files_in, room_with
from bench.faults.verdict import BROKEN, Tried, end_of
from tests.harness import PROGRAM

OLD = b"log-level info\n----\nok\n"
NEW = OLD + b"\nlog-level debug\n----\nok\n"
# How long the program is held, once it has opened the script and before it reads; what is done to the script comes meanwhile.
HELD_MICROSECONDS = 300_000
CHANGED_AFTER_SECONDS = 0.15


def appended(path: pathlib.Path) -> None:
    with path.open("ab") as file:
        file.write(NEW[len(OLD):])


def replaced(path: pathlib.Path) -> None:
    new = path.with_name("other")
    new.write_bytes(NEW)
    new.rename(path)


def emptied(path: pathlib.Path) -> None:
    os.truncate(path, 0)


def removed(path: pathlib.Path) -> None:
    path.unlink()


CHANGES: dict[str, tuple[Callable[[pathlib.Path], None], bytes]] = {"grows": (appended, NEW), "is replaced": (replaced, NEW), "is emptied": (emptied, b""), "vanishes": (removed, b"")}


def is_here() -> bool:
    """Whether strace is there to hold the program while the script changes."""
    return shutil.which("strace") is not None


def called(command: Command, place: pathlib.Path, change: Callable[[pathlib.Path], None]) -> Came:
    """What comes of a call whose script changes while it is read first."""
    below = ["strace", "-f", "-qq", "-o", "/dev/null", "-P", str((place / NAME).resolve()), "-e", "trace=read,statx,fstat", "-e", f"inject=read,statx,fstat:delay_enter={HELD_MICROSECONDS}:when=1..2"]
    with subprocess.Popen([*below, str(PROGRAM), *command.words], cwd=place, stdin=subprocess.PIPE, stdout=subprocess.PIPE, stderr=subprocess.PIPE) as child:
        timer = threading.Timer(CHANGED_AFTER_SECONDS, change, (place / NAME,))
        timer.start()
        output, errors = child.communicate(command.given, MOST_SECONDS)
        timer.join()
    return Came(SPENT.sub(b"", output), errors, child.returncode, files_in(place))


def answers(command: Command) -> list[tuple[bytes, int]]:
    """What a command gives for each text that was there."""
    found = []
    for text in (OLD, NEW, b""):
        with room_with(text) as place:
            came = call(command, place)
        found.append((came.output, came.status))
    return found


def tried(count: int) -> Iterator[Tried]:
    """Each command that reads a script, with each change."""
    for command in [it for it in COMMANDS if NAME in it.words and not it.accepts][:count]:
        due = answers(command)
        for name, (change, text) in CHANGES.items():
            with room_with(OLD) as place:
                came = called(command, place, change)
            # An empty text is due only where the script was emptied.
            ours = due if name == "is emptied" else due[:2]
            is_refused = came.status in (3, 4) and bool(came.errors or command.reports)
            problem = None if (came.output, came.status) in ours or is_refused and not BROKEN.search(came.errors) else f"status {came.status}, {end_of(came.output)}, {end_of(came.errors)}"
            yield Tried(f"{command.name}: the script {name}", problem)
