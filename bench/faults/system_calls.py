"""System calls that fail, one after another, or at which the program is killed: strace makes them do so."""
from __future__ import annotations

import dataclasses
import re
import shutil
from collections import Counter
from collections.abc import Iterator

from bench.faults.commands import BY_NAME, NAME, Command, call, plain_of, room_with
from bench.faults.verdict import Tried, problem_of

# The errors that the system answers each call with; what isn't here answers EIO.
ERRORS = {
    "openat": ("EACCES", "EMFILE"),
    "statx": ("EACCES", "EIO"),
    "write": ("ENOSPC", "EPIPE"),
    "rename": ("EACCES", "ENOSPC"),
    "renameat2": ("EACCES", "ENOSPC"),
    "mmap": ("ENOMEM",),
    "munmap": ("ENOMEM",),
    "mremap": ("ENOMEM",),
    "fchmod": ("EPERM",),
    "fchown": ("EPERM",),
}
# The calls that no system fails where the program may see it, and those that say no more than an error would.
NEVER = {"brk", "exit_group", "exit", "execve", "futex", "rt_sigaction", "rt_sigprocmask", "sigaltstack", "rt_sigreturn", "munmap", "madvise", "close"}
LINE = re.compile(r"(?:\d+ +)?(\w+)\((.*)")


@dataclasses.dataclass(frozen=True)
class Place:
    """A system call of a run: its name, and which one of this name it is, counted from 1."""

    name: str
    number: int


def is_here() -> bool:
    """Whether strace is there to make calls fail."""
    return shutil.which("strace") is not None


def places_of(command: Command) -> list[Place]:
    """The system calls of a run, from the first that touches the script or a stream of the caller's; before it the loader works."""
    with room_with() as place:
        log = place / "log"
        call(command, place, ("strace", "-f", "-o", str(log)))
        lines = log.read_text(errors="replace").splitlines()
    counts: Counter[str] = Counter()
    found, begun = [], False
    for line in lines:
        met = LINE.match(line)
        if not met:
            continue
        name, words = met.groups()
        counts[name] += 1
        begun = begun or NAME in words and name != "execve" or name == "read" and words.startswith("0,") or name == "write" and words.startswith(("1,", "2,"))
        if begun and name not in NEVER:
            found.append(Place(name, counts[name]))
    return found


def spread(count: int, places: list[Place]) -> list[Place]:
    """At most so many of them, evenly spread."""
    taken = min(count, len(places))
    return [places[at * len(places) // taken] for at in range(taken)]


def injecting(place: Place, what: str) -> list[str]:
    """The words that make strace do something at a place of a run."""
    return ["strace", "-f", "-qq", "-o", "/dev/null", "-e", f"trace={place.name}", "-e", f"inject={place.name}:{what}:when={place.number}"]


def failing(command: Command, count: int) -> Iterator[Tried]:
    """Each system call of a run fails, alone."""
    plain = plain_of(command)
    for place in spread(count, places_of(command)):
        for error in ERRORS.get(place.name, ("EIO",)):
            with room_with() as folder:
                came = call(command, folder, injecting(place, f"error={error}"))
            yield Tried(f"{command.name}: {place.name} {place.number} fails with {error}", problem_of(command, plain, came))


def killed(command: Command, count: int) -> Iterator[Tried]:
    """The program is killed at each system call of a run; then it is called again, and does what it does where nothing was killed."""
    plain = plain_of(command)
    for place in spread(count, places_of(command)):
        with room_with() as folder:
            came = call(command, folder, injecting(place, "signal=KILL"))
            again = call(command, folder)
        problem = problem_of(command, plain, came, is_killed=True)
        after = again.files.get(NAME) == plain.files[NAME]
        yield Tried(f"{command.name}: killed at {place.name} {place.number}", problem or (None if after else f"a later call answers {again.status}, {again.errors[-200:]!r}"))


def all_failing(count: int) -> Iterator[Tried]:
    """Of each command."""
    for command in BY_NAME.values():
        yield from failing(command, count)


def all_killed(count: int) -> Iterator[Tried]:
    """Of the command that writes into scripts."""
    yield from killed(BY_NAME["accept"], count)
